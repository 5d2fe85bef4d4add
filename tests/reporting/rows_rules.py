"""Rows of the lines of rulesets: which packets count for them, and which did nothing."""

from adapt.surroundings import NOTHING
from reporting.row import (BLOCK, BLOCKED, KNOCK, NONE_IN, NONE_OUT, Row, blocked_once, capture_of, of_captures,
                           question_of, text_of, timed)
from reporting.rows_summary import RETURNED, SKIP_ON
from showing.rows_text import SHORT, SKIPPED
from steps.translation_words import ANSWERED, ASKED

FULL, NOTHING_YET, EMPTY = ("1", "40", "100.0 %"), ("0", "0", "0.0 %"), ("", "", "")


def lines(rules, *told):
    """The rows of the lines of a text, each by its class and its cells; None stands for a line without rules."""
    texts = rules.split("\n")
    return tuple(("", str(number), *EMPTY, text) if each is None else (each[0], str(number), *each[1:], text)
                 for number, (each, text) in enumerate(zip(told, texts, strict=True), 1))


def used(packets="1", octets="40", share="100.0 %", kind="block"):
    """The class and the cells of a line for which packets count. Most have rules that block."""
    return kind, packets, octets, share


UNUSED, PASSES, TRANSLATES = ("unused", *NOTHING_YET), used(kind="pass"), used(kind="used")


def ruled(name, rules, packets, told, unused, **parts):
    """A row of packets, each a frame and what its line says, all at the clock 0."""
    return timed(name, rules, *((0, *each) for each in packets), rules_=lines(rules, *told), unused=unused, **parts)


# Where rules stand

def of_statements():
    yield blocked_once("a rule on a line", BLOCK, rules_=lines(BLOCK, used(), UNUSED),
                       unused=(("2", "1", NONE_OUT, "pass out"),))
    yield blocked_once("a ruleset of one line", "block in", rules_=lines("block in", used()), unused=())
    for end, count in (("\n", 1), ("\n\n", 2), ("\n\n\n", 3), ("\n ", 2), ("\n#", 2)):
        text = f"block in{end}"
        told = lines(text.removesuffix("\n"), *[used(), None, None][:count])
        yield blocked_once(f"a ruleset that ends with {end!r}", text, rules_=told, unused=())
    listed = "block in proto { tcp,\n udp }\npass"
    yield blocked_once("a list over lines", listed, rules_=lines(listed, used(), None, UNUSED),
                       unused=(("3", "1", "", "pass"),))
    second = [(KNOCK, BLOCKED), (KNOCK, "in block rule r=1 t=- s=-")]
    yield ruled("two rules of a list", listed, second, (used("2", "80"), None, UNUSED), (("3", "1", "", "pass"),))
    continued = "pass out\n block \\\n  in"
    yield ruled("a statement that is continued", continued, [(KNOCK, "in block rule r=1 t=- s=-")],
                (UNUSED, used(), None), (("1", "1", NONE_OUT, "pass out"),))
    macro = 'x = "{ tcp, udp }"\n\nset skip on lo0\ntable <t> { 10.0.0.1 }\nblock proto $x to port { 1 2 3 }\nblock'
    yield ruled("lines without rules, and a line of six", macro, [(KNOCK, "in block rule r=6 t=- s=-")],
                (None, None, None, None, UNUSED, used()),
                (("5", "6", "shadowed by 6", "block proto $x to port { 1 2 3 }"),))
    anchors = 'anchor "a" in {\nblock\n anchor on { em0 em1 } {\n  pass\n }\n}\nblock out'
    yield ruled("rules in anchors", anchors, [(KNOCK, "in block rule r=0 t=- s=-")],
                (None, used(), None, UNUSED, None, None, UNUSED),
                (("4", "2", "", "  pass"), ("7", "1", NONE_OUT, "block out")))


def of_packets():
    """Which packets count for a line."""
    rules = "pass in\nblock out"
    out = "block in\npass out"
    first, second, unasked = (("1", "1", "", "pass in"), ("2", "1", NONE_OUT, "block out"),
                              ("1", "1", NONE_IN, "pass in"))
    for name, said, told, unused in (
            ("that is refused", RETURNED, (PASSES, UNUSED), (second,)),
            ("without a rule", "in pass default r=- t=- s=-", (UNUSED, UNUSED), (first, second)),
            ("with options, of a rule", "in block ip-option r=1 t=- s=-", (UNUSED, used()), (first,)),
            ("with options, of none", "in block ip-option r=- t=- s=-", (UNUSED, UNUSED), (first, second)),
            ("for which the rule has no room", "in block state-limit r=0 t=- s=-", (PASSES, UNUSED), (second,)),
            ("whose key is taken", "in block state-insert r=0 t=- s=-", (PASSES, UNUSED), (second,)),
            ("where nothing is filtered", SKIP_ON, (UNUSED, UNUSED), (unasked, second))):
        yield ruled(f"a packet {name}", rules, [(KNOCK, said)], told, unused)
    met = [(ASKED, "out pass rule r=1 t=- s=1"), (ANSWERED, "in pass state r=1 t=- s=1"),
           (KNOCK, "in block state-mismatch r=1 t=- s=1"), (KNOCK, BLOCKED)]
    yield ruled("packets of a state", out, met, (used("1", "40", "25.0 %"), used("3", "96", "75.0 %", "pass")), ())
    yield ruled("a packet that is too short, and what isn't IPv4", out, [(KNOCK[:30], SHORT), (b"", SKIPPED)],
                (UNUSED, UNUSED), (("1", "1", NONE_IN, "block in"), ("2", "1", NONE_OUT, "pass out")))
    short = [(KNOCK, BLOCKED), *[(KNOCK, SKIP_ON)] * 2]
    yield ruled("a share of all packets", "block in", short, (used("1", "40", "33.3 %"),), ())


# Translation

NO_CONNECTION = "not asked: no connection goes out of em0"
NAT = "nat on em0 from 10.0.0.0/8 to any -> em0"
RDR = "rdr on em0 from any to em0 -> 10.0.0.1"


def of_translation():
    both = f"{NAT}\npass out\nblock in"
    yield ruled("a packet of two lines", both,
                [(ASKED, "out pass rule r=0 t=0 s=1"), (KNOCK, "in block rule r=1 t=- s=-")],
                (used("1", "28", "50.0 %", "used"), used("1", "28", "50.0 %", "pass"), used("1", "40", "50.0 %")), ())
    passing = f"{NAT}\nrdr pass on em0 all -> 10.0.0.1\nbinat on em0 from 10.0.0.9 to any -> 192.0.2.9\npass"
    yield ruled("a line of translation alone", passing, [(KNOCK, "in pass nat-pass r=- t=1 s=1")],
                (UNUSED, TRANSLATES, UNUSED, UNUSED),
                (("1", "1", NO_CONNECTION, NAT), ("3", "1", "", "binat on em0 from 10.0.0.9 to any -> 192.0.2.9"),
                 ("4", "1", "not asked: each packet on em0 has a state or isn't filtered", "pass")))
    yield ruled("no port is free", both, [(ASKED, "out block nat-exhausted r=- t=0 s=-")],
                (used("1", "28", kind="used"), UNUSED, UNUSED),
                (("2", "1", "not asked: each packet that goes out of em0 has a state or isn't filtered", "pass out"),
                 ("3", "1", NONE_IN, "block in")),
                blocked=(("1", "28", "udp 10.0.0.5:1000 > 198.51.100.7:53", "em0", "", "nat-exhausted", "1"),))
    yield ruled("no filter rule decides on a packet that is translated", f"{RDR}\nblock out",
                [(KNOCK, "in pass default r=- t=0 s=1")], (TRANSLATES, UNUSED), (("2", "1", NONE_OUT, "block out"),))
    listed = 'rdr on em0 from any to em0 port { 80, 81 } -> 10.0.0.1\nblock in'
    yield ruled("two rules of translation on a line", listed, [(KNOCK, "in block rule r=0 t=1 s=-")],
                (TRANSLATES, used()), ())
    yield ruled("two rules of translation that do nothing", listed, [(KNOCK, BLOCKED)], (UNUSED, used()),
                (("1", "2", "", listed.split("\n", maxsplit=1)[0]),))


def of_no_rules():
    """Lines whose rules begin with `no` do nothing, and aren't told among those."""
    rules = (f"no nat on em0 from 10.0.0.1 to any\n{NAT}\nno rdr on em0 from {{ 10.0.0.1 10.0.0.2 }} to any\n"
             f"no binat all\n{BLOCK}")
    yield ruled("rules that translate nothing", rules, [(KNOCK, BLOCKED)],
                (UNUSED, UNUSED, UNUSED, UNUSED, used(), UNUSED),
                (("2", "1", NO_CONNECTION, NAT), ("6", "1", NONE_OUT, "pass out")))
    yield ruled("rules that translate nothing alone", "no nat all\nno rdr all\nblock in", [(KNOCK, BLOCKED)],
                (UNUSED, UNUSED, used()), ())


# Rules that are shadowed

def of_shadows():
    passing = (KNOCK, "in pass rule r=0 t=- s=1")
    for name, rules, told in (
            ("by the line before", "pass in quick flags any\nblock in", (("2", "1", "shadowed by 1", "block in"),)),
            ("by a line far before", "pass in quick flags any\n\n\nblock in",
             (("4", "1", "shadowed by 1", "block in"),)),
            ("two rules by one", "pass in quick flags any\nblock in proto { tcp udp }",
             (("2", "2", "shadowed by 1", "block in proto { tcp udp }"),)),
            ("one of two rules", "pass in quick proto tcp flags any\nblock in proto { tcp udp }",
             (("2", "2", "", "block in proto { tcp udp }"),)),
            ("the other one of two rules", "pass in quick proto tcp flags any\nblock in proto { udp tcp }",
             (("2", "2", "", "block in proto { udp tcp }"),)),
            ("two rules by two lines", "pass in quick proto tcp flags any\npass in quick proto udp no state\n"
             "block in proto { udp tcp }", (("2", "1", "", "pass in quick proto udp no state"),
                                            ("3", "2", "shadowed by 2", "block in proto { udp tcp }"))),
            ("by the first of two lines", "pass in quick flags any\nblock in quick\nblock in",
             (("2", "1", "shadowed by 1", "block in quick"), ("3", "1", "shadowed by 1", "block in"))),
            ("not by a rule with flags", "pass in quick\nblock in", (("2", "1", "", "block in"),)),
            ("not by a rule with a limit", "pass in quick flags any keep state (max 5)\nblock in",
             (("2", "1", "", "block in"),)),
            ("in an anchor", "pass in quick flags any\nanchor out {\nblock in\n}",
             (("3", "1", "shadowed by 1", "block in"),))):
        text_lines = rules.split("\n")
        numbers = {int(number) for number, *_ in told}
        rows = [PASSES if number == 1 else UNUSED if number in numbers else None
                for number in range(1, len(text_lines) + 1)]
        yield ruled(f"shadowed {name}", rules, [passing], rows, told)
    behind = "pass in no state\nblock in"
    yield ruled("shadowed by the line behind", behind, [(KNOCK, "in block rule r=1 t=- s=-")], (UNUSED, used()),
                (("1", "1", "shadowed by 2", "pass in no state"),))
    yield ruled("a line that is shadowed, and told of a packet", behind, [(KNOCK, "in pass rule r=0 t=- s=-")],
                (PASSES, UNUSED), (("2", "1", "", "block in"),))
    yield ruled("shadowed by a rule that does nothing either", behind, [(KNOCK[:9], SHORT)],
                (UNUSED, UNUSED), (("1", "1", "shadowed by 2", "pass in no state"), ("2", "1", NONE_IN, "block in")))
    translated = f"{NAT}\nblock in quick\nblock in"
    yield ruled("a line of translation beside one that is shadowed", translated, [(KNOCK, "in block rule r=0 t=- s=-")],
                (UNUSED, used(), UNUSED), (("1", "1", NO_CONNECTION, NAT), ("3", "1", "shadowed by 2", "block in")))


# Several interfaces, and rulesets that are adapted

def of_interfaces():
    rules = "block in from self\npass out on { em0 em1 }"
    captures = [capture_of((1, KNOCK)), capture_of((2, ASKED))]
    told = text_of("1 1 in block rule r=0 t=- s=- i=em0", "2 2 out pass rule r=2 t=- s=2 i=em1")
    yield of_captures("rules of two interfaces", rules, captures, told, parts={
        "rules": lines(rules, used("1", "40", "50.0 %"), used("1", "28", "50.0 %", "pass")), "unused": ()})


def of_adapted():
    """The text is that of the file, and so are the lines. A statement that is left out has no rule."""
    scrubbing = "scrub in all\nblock in\npass out"
    question = question_of(scrubbing, capture_of(KNOCK), text_of(f"1 0 {BLOCKED}"), surroundings=NOTHING)
    yield Row("an adapted ruleset", question, {"rules": lines(scrubbing, None, used(), UNUSED),
                                               "unused": (("3", "1", NONE_OUT, "pass out"),)},
              remarks=("{rules}:1:1: warning: scrub",))
    spoofed = "antispoof quick for em0\npass in"
    question = question_of(spoofed, capture_of(KNOCK), text_of("1 0 in pass rule r=2 t=- s=1"), surroundings=NOTHING)
    yield Row("a statement that becomes rules on a line each", question, {
        "rules": lines(spoofed, UNUSED, PASSES), "unused": (("1", "2", "", "antispoof quick for em0"),)},
        remarks=("{rules}:1:1: note: antispoof",))
    written = "pass in from 10/8 # <&>\nblock in"
    question = question_of(written, capture_of(KNOCK), text_of("1 0 in block rule r=1 t=- s=-"), surroundings=NOTHING)
    yield Row("a word that is rewritten", question, {
        "rules": lines(written, UNUSED, used()), "unused": (("1", "1", "shadowed by 2", "pass in from 10/8 # <&>"),)},
        remarks=("{rules}:1:14: note: 10/8",))


def rows():
    for make in (of_statements, of_packets, of_translation, of_no_rules, of_shadows, of_interfaces, of_adapted):
        yield from make()
