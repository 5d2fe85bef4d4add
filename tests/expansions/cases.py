"""The form of a text for the comparison, and texts with every word as the value of a macro in every place."""

from typing import NamedTuple

import rulesets.cases
import rulesets.words
from expansions.hosts import interface_of

# for the same texts on every run
SEED = 1961
# the interface of a run is mostly one that the texts name
RUNS = (("em0", "192.0.2.1/24"), ("em0", "192.0.2.129/25"), ("em0", "10.0.0.1/32"), ("em1", "10.1.2.3/8"),
        ("igb1", "172.16.254.1/12"), ("lo0", "127.0.0.1/0"), ("a_name_of_15_by", "203.0.113.7/31"))
EM0 = interface_of(*RUNS[0])
# Places for the use of one macro, at the `@`, and values of several words that are put there beside single words.
PLACES = """
    pass on @; pass on !@; pass on { em1, @ }; pass proto @; pass proto { tcp @ }; pass from @; pass from !@;
    pass from { 10.0.0.1, !@ }; pass from (@); pass from (@:0); pass from !(@:network); pass from @:0; pass from @/8;
    pass from @:network; pass to port @; pass to port { 1, @ }; pass to port @:90; pass icmp-type @;
    pass icmp-type { 3 code 1, @ }; table <u> { @ }; table <u> { !@ }; table <u> { 10.0.0.0/8 @/8 }; set skip on @;
    set skip on { lo0 @:0 }; set debug @; y = @; y = @/8 "em0"; anchor on @ {}; anchor to @ {@@}; nat from @ -> self;
    nat -> @; nat -> @/32; nat -> @:0; nat -> (@); nat -> @:network; nat -> em0 port @; no nat from @; rdr -> @ port 5;
    rdr to port @ -> self port 65535:*; rdr to port { 80 @ } -> self port 1:*; rdr to port @ -> @ port 64000:*;
    binat from @ -> self; binat from @:0 to @ -> @; binat from (@) -> 10.0.0.1; binat from em0 port @ -> em0;
    no binat from @
    """.split(";")
VALUES = """
    1 2;10.0.0.1 - 10.0.0.9;10.0.0.9 - 10.0.0.1;10.0.0.1 - em0;10.0.0.1 - 10.0.0.9/8;10.0.0.1/8 - 10.0.0.9;! 10.0.0.1;
    !!10.0.0.1;! any;! self;!em0;! lo0;!<t>;! <nosuch>;! ( em0 );( em0 );(em0:0);(em9);(self);( em0;em0 );() 1;> 80;
    >= http;!= 65536;= 80 90;80 >< 90;90 >< 80;90 <> 80;80 : 90;80:90 100;3 code 1;3 code 256;3 code;code 3;
    echoreq code 0;{ };{};{ 1 };{1,2};{1 2};{ 1, };{ , 1 };{ 1,, 2 };{ 1 } 2;{ 1 } { 2 };{ { 1 } };{ em0 em1 };
    { !em0, lo0 };{ tcp, udp, 6 };{ 10.0.0.1, self };{ !10.0.0.1, 10.0.0.2/8 };{ 10.0.0.1 !10.0.0.1 };
    { <t> !<t> any };{ 10.0.0.1 - 10.0.0.9, em0 };{ 80:90, > 100, http };{ 3, 8 code 0, echorep };{ 10.0 10.0.0.300 };
    { nosuch 10.0 };{ 10.0 nosuch };{ 10.0.0.300 65536 };{ tag log };{ 65536, 90:80 };{ 256 300 };{ 1;1 };{;};tag 1;
    em0 log; ;self em0;a_name_of_16_byt lo0;{ lo0 a_name_of_16_byt };<nosuch>;<tag>;<t> 1;<t> tag;{ <nosuch> };
    { <t> };! { 10.0.0.1 };! 10.0.0.0/8;! em0:network;(em0:network);! nosuch;! 10.0;! 10.0.0.300;! 10.0.0.1/33;
    10.0.0.0/8 tag;! 10.0.0.1 - 10.0.0.9;10.0.0.1/32 - 10.0.0.9;10.0.0.1 - tag;{ 10.0.0.1 - 10.0.0.9 };{ ! 10.0.0.1 };
    { any };{ 10.0.0.0/8 };{ em0 };80:100;{ 80:100, 1 };{ 80:100, > 5 };1:65535;65535
    """.strip().split(";")


class Text(NamedTuple):
    """A ruleset with the interfaces that it is meant for. Without an answer, which is one line or the lines of a dump,
    the model is asked for it."""
    name: str
    text: bytes
    interfaces: tuple = (EM0,)
    answer: str | list | None = None


def each_value():
    """Every word of the language, and some others, as the value of a macro in every place."""
    known = rulesets.words.TAKEN_NAMES | rulesets.words.TIMEOUTS | rulesets.words.ADAPTIVE
    values = [value.strip(" \n") for value in VALUES]
    for value in (*values, *sorted(known), *rulesets.cases.OTHER_WORDS):
        if '"' in value:
            continue
        for place in PLACES:
            place = place.strip()
            statement = place.replace("{}", "{\n}").replace("{@@}", "{\nblock proto @\n}").replace("@", "$x")
            text = f'table <t> {{ 10.9.8.7 }}\nx = "{value}"\n{statement}\n'
            yield Text(f"{value} in {place}", text.encode("latin-1"))
