"""Rows that are refused. What is printed before stands, and the packet is told."""

from captures.packets import ETHER_ARP, ETHER_IPV4, LINKTYPE_ETHERNET, capture_header, ethernet, record
from changes.rows_refused import FAULTS, HEADERS
from runs.interface_rows import Taken
from showing.model import COUNT, FORMS, JSON, PFLOG, TEXT
from showing.row import (BLOCK, BLOCKED, KNOCK, KNOCK_WORDS, Row, capture_of, fault, line_of, question_of, several,
                         text_of, verdicts_of)
from showing.rows_json import OBJECT
from showing.rows_pflog import HEADER, IN_BLOCKED, fields, octets
from showing.rows_text import SHORT, SKIPPED

NO_LINE, CAPTURE, RULESET = "no line of verdicts", "not of this capture", "not of this ruleset"
FIRST = line_of(f"rule 0 L1 (rule): block in on em0: {KNOCK_WORDS}")
# a line of verdicts, of the second packet of two at the seconds 7 and 5
GOOD = "2 7 in block rule r=0 t=- s=-"
TWO_PACKETS = capture_of((7, KNOCK), (5, KNOCK))
ONE_LINE = text_of("1 7 in block rule r=0 t=- s=-")
TOO_LONG = record(9, 0, b"", captured=262145)


def printed_in(form):
    """What stands there of the first packet."""
    return {TEXT: text_of(FIRST.replace("00:00:00.", "00:00:07.")),
            JSON: text_of(OBJECT.replace('"seconds":0', '"seconds":7')), COUNT: b"",
            PFLOG: octets(HEADER, fields(7, 0, 104, 104), IN_BLOCKED, KNOCK)}[form]


def second(name, line, said, form=TEXT, **asked):
    """A row of two packets with another second line, or other bytes behind the first one."""
    more = line if isinstance(line, bytes) else text_of(line)
    return Row(f"{name}: {line!r}"[:120], question_of(BLOCK, TWO_PACKETS, ONE_LINE + more, form, **asked),
               printed_in(form) if not asked else b"", f"packet 2: {said}")


# Lines that no run writes

def cut_lines():
    """The line ends early at each byte. Without its newline it is no line."""
    for length in range(len(GOOD) + 1):
        yield second("a line that is cut", GOOD[:length].encode(), NO_LINE)
    for length in range(len(GOOD)):
        yield second("a line that ends early", GOOD[:length], NO_LINE)


# what stands in the place of a piece of the line, so that it is none
WRONG = {"2 7": ("02 7", "+2 7", "-2 7", "0x2 7", " 2 7", "2  7", "2 07", "2 -7", "2\t7", "2 seven", "27", "2 7.0",
                 "two 7"),
         " in ": (" In ", " i ", " inout ", "  ", " -- ", " 1 "),
         "block rule": ("Block rule", "blocked rule", "drop rule", "block", "block  rule", "skip rule", "block default",
                        "pass short", "pass not-ip", "block state", "pass state-mismatch", "return default",
                        "pass ip-option", "return state-limit", "block match", "block rule-", "block RULE",
                        "block skip-on", "block nat-pass", "pass nat-exhausted", "skip skip-on", "block state-error",
                        "pass state-insert"),
         "r=0": ("r=", "r=00", "R=0", "r=-0", "r=+0", "r=any", "0", "rule=0", "r=0 r=0", "r= 0"),
         "t=-": ("t=", "t=--", "-", "t=01", "T=-", "t=0-", "r=-"),
         "s=-": ("s=", "s=--", "s=02", "s=2-", "-", "S=-", "s=- ", "s=-\r", "s=-\t", "s=-\0", "s=- em0", "s=- s=-",
                 "s=-.", "s=- I=em0", "s=- t=-")}
OTHER_LINES = ("", " ", "1 28 0 0", "filter 0 1 1 28", "total 2 2 0 0 0", "x" * 5000, "9" * 5000, "\0", "\x7fELF",
               FIRST, OBJECT, "2 7 in block rule r=0 t=- s=-" * 2,
               "43 6 in 1.2.3.4:5,6.7.8.9:1 1.2.3.4:5,6.7.8.9:1 r=6 t=- 2/9/9/1/- 0/0/1/1/- 17 17 1 40 0 0")


def no_lines():
    for piece, others in WRONG.items():
        before, behind = GOOD.split(piece)
        for other in others:
            yield second("no line", f"{before}{other}{behind}", NO_LINE)
    for line in OTHER_LINES:
        yield second("another line", line, NO_LINE)
    for more in (b"\xff\n", b"\xd4\xc3\xb2\xa1\2\0\4\0", b"\n\n", GOOD.encode() + b"\0\n", b"\xef\xbb\xbf2 7\n"):
        yield second("other bytes", more, NO_LINE)
    yield fault("no line at all", question_of(BLOCK, capture_of(KNOCK), b""), f"packet 1: {NO_LINE}")
    yield fault("no line, though no packet is asked for", question_of(BLOCK, capture_of(KNOCK), b"", rule=9),
                f"packet 1: {NO_LINE}")
    yield fault("one line of two", question_of(BLOCK, TWO_PACKETS, ONE_LINE), f"packet 2: {NO_LINE}",
                printed_in(TEXT).decode()[:-1])


# Lines that don't say what is so

OF_CAPTURE = {"2 7": ("1 7", "3 7", "0 7", "20 7", "1099511627776 7", "2 5", "2 6", "2 8", "2 0", "2 70",
                      "2 4294967295"),
              "in block rule r=0": ("- skip not-ip r=-", "- block short r=-")}


def not_of_capture():
    for piece, others in OF_CAPTURE.items():
        before, behind = GOOD.split(piece)
        for other in others:
            yield second("not of the packet", f"{before}{other}{behind}", CAPTURE)
    for name, frame in (("ARP", ethernet(ETHER_ARP, bytes(28))), ("two tags", ethernet(ETHER_IPV4, KNOCK, [1, 2]))):
        for verdict in (BLOCKED, SHORT, "- pass skip-on r=- t=- s=-", "in pass default r=- t=- s=-"):
            yield fault(f"{name}, told as {verdict}", question_of(BLOCK, capture_of(frame, link=LINKTYPE_ETHERNET),
                                                                  verdicts_of(verdict)), f"packet 1: {CAPTURE}")
    yield fault("too short, told as no IPv4", question_of(BLOCK, capture_of(KNOCK[:9]), verdicts_of(SKIPPED)),
                f"packet 1: {CAPTURE}")
    lines = verdicts_of(BLOCKED, BLOCKED)
    yield fault("lines by turns", question_of(BLOCK, capture_of(KNOCK, KNOCK), b"".join(
        reversed(lines.splitlines(keepends=True)))), f"packet 1: {CAPTURE}")
    yield fault("the clock of a packet, not its own time", question_of(BLOCK, TWO_PACKETS, text_of(
        "1 7 in block rule r=0 t=- s=-", "2 5 in block rule r=0 t=- s=-")), f"packet 2: {CAPTURE}",
        printed_in(TEXT).decode()[:-1])


def too_many():
    """A line behind that of the last packet."""
    two = verdicts_of(BLOCKED, BLOCKED)
    yield fault("a line too many", question_of(BLOCK, capture_of(KNOCK), two), f"packet 2: {CAPTURE}", FIRST)
    yield fault("ten lines too many", question_of(BLOCK, capture_of(KNOCK), verdicts_of(*[BLOCKED] * 11)),
                f"packet 2: {CAPTURE}", FIRST)
    yield fault("a line for no packet", question_of(BLOCK, capture_of(), verdicts_of(BLOCKED)), f"packet 1: {CAPTURE}")
    yield fault("a line too many, and none is asked for", question_of(BLOCK, capture_of(KNOCK), two, rule=1),
                f"packet 2: {CAPTURE}")
    yield fault("a line too many, and a count", question_of(BLOCK, capture_of(KNOCK), two, COUNT),
                f"packet 2: {CAPTURE}")
    yield fault("a line of a packet that is cut", question_of(BLOCK, capture_of(KNOCK, KNOCK)[:-1], two),
                f"packet 2: {CAPTURE}", FIRST)


# Rules that aren't there

NAT = "nat on em0 from any to any -> em0\nblock"


def not_of_ruleset():
    for piece, other in (("r=0", "r=2"), ("r=0", "r=3"), ("r=0", "r=99"), ("r=0", "r=65536"), ("r=0", "r=4294967295"),
                         ("t=-", "t=0"), ("t=-", "t=1"), ("t=-", "t=65536")):
        yield second("no such rule", GOOD.replace(piece, other), RULESET)
    for verdict, number in (("in block rule r=1 t=- s=-", 1), ("in block rule r=0 t=1 s=-", 1)):
        yield fault(f"one rule fewer, {verdict}", question_of(NAT, capture_of(KNOCK), verdicts_of(verdict)),
                    f"packet {number}: {RULESET}")
    fewer = "block from { 10.0.0.5 }\n"
    more = verdicts_of("in block rule r=0 t=- s=-", "in block rule r=1 t=- s=-")
    yield fault("a ruleset whose list has one element fewer", question_of(fewer, capture_of(KNOCK, KNOCK), more),
                f"packet 2: {RULESET}", FIRST)
    yield fault("a ruleset without rules", question_of("", capture_of(KNOCK), verdicts_of(BLOCKED)),
                f"packet 1: {RULESET}")
    yield fault("a translation of a ruleset without any", question_of("block", capture_of(KNOCK), verdicts_of(
        "in pass nat-pass r=- t=0 s=1")), f"packet 1: {RULESET}")


def in_each_form():
    """What is printed before stands in each form. A number of packets comes behind all of them."""
    for form in FORMS:
        yield second(f"no line, {form}", "", NO_LINE, form)
        yield second(f"not of the packet, {form}", GOOD.replace("2 7", "3 7"), CAPTURE, form)
        yield second(f"no such rule, {form}", GOOD.replace("r=0", "r=7"), RULESET, form)
        header = octets(HEADER) if form == PFLOG else b""
        yield Row(f"no line of the first packet, {form}", question_of(BLOCK, TWO_PACKETS, b"", form), header,
                  f"packet 1: {NO_LINE}")
    yield second("not asked for", GOOD.replace("2 7", "3 7"), CAPTURE, only=("pass",))


# Several interfaces

def on_interfaces():
    captures = [Taken(((1, 0, KNOCK),)).bytes(), Taken(((2, 0, KNOCK),)).bytes()]
    first, second_line = "1 1 in block rule r=0 t=- s=- i=em0", "2 2 in block rule r=0 t=- s=- i=em1"
    printed = line_of(f"rule 0 L1 (rule): block in on em0: {KNOCK_WORDS}", time="1970-01-01 00:00:01.000000")
    for name in ("em0", "em2", "em11", "em", "EM1", "e", "em1.", "'em1'", "-", "a_name_of_15_by", "i=em1"):
        yield fault(f"the second packet, told of {name}",
                    several(BLOCK, captures, text_of(first, second_line.replace("em1", name))), f"packet 2: {CAPTURE}",
                    printed)
    yield fault("the first packet, told of em1",
                several(BLOCK, captures, text_of(first.replace("em0", "em1"), second_line)), f"packet 1: {CAPTURE}")
    yield fault("the packets of two interfaces by turns", several(BLOCK, captures[::-1], text_of(first, second_line)),
                f"packet 1: {CAPTURE}")
    yield fault("a line too many of two interfaces", several(BLOCK, captures, text_of(first, second_line, second_line)),
                f"packet 3: {CAPTURE}", printed, line_of(f"rule 0 L1 (rule): block in on em1: {KNOCK_WORDS}", 2,
                                                         "1970-01-01 00:00:02.000000"))


# Rulesets and captures

def rulesets():
    for text, kind in FAULTS:
        yield fault(f"a ruleset, {kind}, {text[:30]!r}", question_of(text, capture_of(KNOCK), verdicts_of(BLOCKED)),
                    f"rules {kind}")
    yield fault("a ruleset that is refused, no header and no line", question_of("scrub in all", b"", b""),
                "rules line 1: left out: scrub")


def headers():
    whole = capture_of(KNOCK)
    for capture, said in HEADERS:
        for form in FORMS:
            yield fault(f"{said}, {len(capture)} bytes, {form}",
                        question_of(BLOCK, capture, verdicts_of(BLOCKED), form), f"capture: {said}")
        for place, captures in enumerate(([capture, whole], [whole, capture])):
            yield fault(f"{said} of em{place}, {len(capture)} bytes", several(BLOCK, captures, b""),
                        f"capture em{place}: {said}")


def long_records():
    """A record that is too long ends the joining like that of a run: the packets before are printed."""
    long = "capture: record too long 262145, committed {}"
    one = capture_of(KNOCK, behind=TOO_LONG), verdicts_of(BLOCKED)
    yield fault("a record that is too long", question_of(BLOCK, *one), long.format(1), FIRST)
    yield fault("a record that is too long at first", question_of(BLOCK, capture_of(behind=TOO_LONG), b""),
                long.format(0))
    yield fault("a record that is too long, and a count", question_of(BLOCK, *one, COUNT), long.format(1))
    yield fault("no line before a record that is too long",
                question_of(BLOCK, capture_of(KNOCK, KNOCK, behind=TOO_LONG), verdicts_of(BLOCKED)),
                f"packet 2: {NO_LINE}", FIRST)
    yield Row("a record that is too long, in pflog", question_of(BLOCK, capture_of(behind=TOO_LONG), b"", PFLOG),
              octets(HEADER), long.format(0))
    behind = record(9, 0, b"", captured=2**32 - 1)
    captures = [Taken(((1, 0, KNOCK),)).bytes(), capture_header() + behind]
    yield fault("a record that is too long in the second capture", several(BLOCK, captures, b""),
                "capture em1: record too long 4294967295, committed 0")


def rows():
    for make in (cut_lines, no_lines, not_of_capture, too_many, not_of_ruleset, in_each_form, on_interfaces, rulesets,
                 headers, long_records):
        yield from make()
