"""Rows of warnings: what may not fit, on the page and on standard error."""

from adapt.surroundings import NOTHING
from captures.packets import (ACK, ETHER_ARP, ETHER_IPV6, LINKTYPE_ETHERNET, SYN, UDP, capture_header, ethernet,
                              fragments, ipv4, record, tcp, udp)
from reporting.model import Question
from reporting.row import BLOCK, BLOCKED, KNOCK, Row, capture_of, of_captures, question_of, text_of, timed
from reporting.rows_summary import PASSED, SKIP_ON
from runs.case import INSIDE, Case
from showing.model import Question as Shown
from showing.row import also_of
from showing.rows_text import SHORT, SKIPPED
from steps.translation_words import ASKED, E, H, P

# a packet that comes in and one that goes out, so that nothing is said of the interface
BOTH = ((KNOCK, BLOCKED), (ASKED, PASSED.format(2)))
# segments of connections that began before them
LATER, ANSWER = tcp(P, 4000, H, 22, ACK, 2, 2), tcp(P, 4000, H, 22, SYN | ACK, 2, 2)
NONE_OUT, NONE_IN = "em0: no packet goes out", "em0: no packet comes in"


def warned(row, *texts, page=None):
    """A row with its warnings as they are said on standard error, and as the page has them."""
    return row._replace(parts={**row.parts, "warnings": texts if page is None else page}, warnings=texts)


def of_packets(name, rules, told, *texts):
    return warned(timed(name, rules, *((0, *each) for each in told)), *texts)


# Interfaces

def of_interfaces():
    yield of_packets("no warning", BLOCK, BOTH)
    yield of_packets("packets that come in alone", BLOCK, BOTH[:1], NONE_OUT)
    yield of_packets("packets that go out alone", BLOCK, [(ASKED, PASSED.format(1))], NONE_IN)
    yield of_packets("no packets", BLOCK, [], NONE_OUT, NONE_IN)
    yield of_packets("no packets, and nothing is filtered", f"set skip on em0\n{BLOCK}", [])
    yield of_packets("packets that the lines say aren't filtered", BLOCK, [(KNOCK, SKIP_ON)], NONE_OUT, NONE_IN)
    yield of_packets("no ruleset", "", [(KNOCK, "in pass default r=- t=- s=-")], NONE_OUT)
    elsewhere = ("nat on em2 from any to any -> 192.0.2.1\nblock in\npass out\n"
                 "anchor on ! em3 {\npass in on { em4 em1 }\n}")
    yield of_packets("rules for other interfaces", elsewhere, BOTH, "no rule names em0",
                     *(f"no capture is of {name}, which rules name" for name in ("em4", "em1", "em3", "em2")))
    yield of_packets("rules for all interfaces but this one", f"{BLOCK}\nblock in on ! em0 proto gre", BOTH)


def of_translation():
    """What goes out may be shown behind its translation, of which nothing is said."""
    sent = (udp(E, 50001, P, 53), "out pass default r=- t=- s=-")
    yield of_packets("nat behind its translation", "nat on em0 from 10.0.0.0/24 to any -> em0\nblock in",
                     [BOTH[0], sent])


# Packets

def of_frames():
    frames = (ethernet(ETHER_ARP, bytes(28)), ethernet(ETHER_IPV6, bytes(40)), ethernet(0x8864, bytes(20)),
              ethernet(0x0800, KNOCK, (1, 2)), bytes(13), ethernet(ETHER_IPV6, bytes(40), (7,)))
    lines = text_of(*(f"{number} 0 {SKIPPED}" for number in range(1, 7)))
    capture = capture_of(*frames, link=LINKTYPE_ETHERNET)
    yield warned(Row("frames of each kind", question_of(BLOCK, capture, lines)), NONE_OUT, NONE_IN,
                 "packets skipped: 6 of 6: 1 ARP, 2 IPv6, 1 PPPoE, 1 with two VLAN tags, 1 other")
    yield of_packets("a frame among others", BLOCK, [*BOTH, (b"\x60", SKIPPED)],
                     "packets skipped: 1 of 3: 0 ARP, 1 IPv6, 0 PPPoE, 0 with two VLAN tags, 0 other")


def of_lengths():
    """A packet may be too short by itself. What is captured of another one may be enough."""
    for name, length, original, said, texts in (
            ("not all was captured", 30, 40, SHORT, ("packets cut by the snapshot length: 1",)),
            ("all was captured", 30, 30, SHORT, ()),
            ("enough was captured", 40, 60, BLOCKED, ()),
            ("not all was captured, and nothing is filtered", 30, 40, SKIP_ON, ())):
        capture = (capture_header() + record(0, 0, KNOCK[:length], original=original)
                   + b"".join(record(0, 0, frame) for frame, _ in BOTH))
        lines = text_of(f"1 0 {said}", f"2 0 {BLOCKED}", f"3 0 {PASSED.format(3)}")
        yield warned(Row(f"a packet of which {name}", question_of(BLOCK, capture, lines)), *texts)


def of_parts():
    first, last = fragments(udp(P, 9, H, 9, bytes(24)), 16)
    yield of_packets("parts of a packet", BLOCK, [*BOTH, (first, BLOCKED), (last, BLOCKED)], "parts of packets: 2")
    yield of_packets("a part alone", BLOCK, [*BOTH, (ipv4(P, H, UDP, bytes(3), fragment=1), BLOCKED)],
                     "parts of packets: 1")
    yield of_packets("parts where nothing is filtered", f"set skip on em0\n{BLOCK}",
                     [(first, SKIP_ON), (last, SKIP_ON)])


def of_connections():
    midway = "packets midway in a TCP connection: {}"
    none = f"{midway}, and no connection begins"
    rules = "pass in\npass out"
    out = (ASKED, PASSED.format(1))
    yield of_packets("packets midway beside one that begins", BLOCK, [*BOTH, (LATER, BLOCKED), (ANSWER, BLOCKED)],
                     midway.format(2))
    yield of_packets("packets midway", BLOCK, [out, (LATER, BLOCKED), (ANSWER, BLOCKED)], none.format(2))
    for said, texts in (("in pass rule r=0 t=- s=2", (none.format(1),)), ("in pass rule r=0 t=- s=-", ()),
                        ("in return rule r=0 t=- s=-", (none.format(1),)),
                        ("in block state-insert r=0 t=- s=-", (none.format(1),)), ("in pass default r=- t=- s=-", ()),
                        ("in block state-mismatch r=0 t=- s=1", ()), ("in block ip-option r=- t=- s=-", ()),
                        ("in block state-limit r=0 t=- s=-", (none.format(1), "states refused by a limit: 1"))):
        yield of_packets(f"a later segment, {said}", rules, [out, (LATER, said)], *texts)
    yield of_packets("states that a limit refuses", rules, [
        out, *[(KNOCK, "in block state-limit r=0 t=- s=-")] * 3], "states refused by a limit: 3")


# All of them

def of_several():
    """The interfaces come first, one by one, then those that aren't there, and then packets of all of them."""
    rules = "block in on em0\npass out on em9"
    frames = [KNOCK[:30], LATER, b"\x50", ipv4(P, H, UDP, bytes(3), fragment=1), KNOCK]
    captures = [capture_header() + b"".join(record(0, 0, frame, original=60) for frame in frames), capture_of()]
    lines = text_of(*(f"{number} 0 {said} i=em0" for number, said in enumerate((
        SHORT, BLOCKED, SKIPPED, BLOCKED, "in block state-limit r=0 t=- s=-"), 1)))
    yield warned(of_captures("warnings of all kinds", rules, captures, lines), NONE_OUT, "em1: no packet goes out",
                 "em1: no packet comes in", "no rule names em1", "no capture is of em9, which rules name",
                 "packets skipped: 1 of 5: 0 ARP, 0 IPv6, 0 PPPoE, 0 with two VLAN tags, 1 other",
                 "packets cut by the snapshot length: 1", "parts of packets: 1",
                 "packets midway in a TCP connection: 1", "states refused by a limit: 1")
    cut = question_of(BLOCK, capture_of(KNOCK)[:-1], b"")
    yield warned(Row("warnings of a capture that is cut", cut), NONE_OUT, NONE_IN)


def of_adapted():
    """What was rewritten is said before."""
    question = question_of("scrub in all\nblock in on em1", capture_of(KNOCK), text_of(
        "1 0 in pass default r=- t=- s=-"), surroundings=NOTHING)
    yield warned(Row("warnings of an adapted ruleset", question, remarks=(
        "{rules}:1:1: warning: scrub", "{rules}:2:13: warning: em1")), NONE_OUT,
                 "no rule names em0", "no capture is of em1, which rules name")


def of_names():
    """Names are escaped on the page, but not on standard error."""
    for name, shown in (("<b>&amp;</b>", None), ('"', None), ("it's", None), ("\u00e9\u20ac", None), ("a\tb", None),
                        ("a b", None), ("a\x01b", "a\ufffdb"), ("a\x7f\u0085", "a\ufffd\ufffd"),
                        ("\ufeffa\ufffe", "\ufffda\ufffd")):
        case = Case("", b"block in on em1", INSIDE, capture_of(KNOCK), name)
        question = Question(Shown(case, text_of("1 0 in pass default r=- t=- s=-")))
        texts = [(f"{each}: no packet goes out", f"no rule names {each}", "no capture is of em1, which rules name")
                 for each in (name, shown or name)]
        yield warned(Row(f"warnings of the interface {name!r}", question), *texts[0], page=texts[1])
    case = Case("", b"block", INSIDE, capture_of(KNOCK), "a\nb")
    yield Row("warnings of an interface with a newline", Question(Shown(case, text_of(f"1 0 {BLOCKED}"))),
              {"warnings": ("a\ufffdb: no packet goes out",)})
    case = Case("", b"block", INSIDE, capture_of(), "<a>", also=(also_of("&b;", capture_of()),))
    yield warned(Row("warnings of two interfaces with marks", Question(Shown(case, b""))), *(
        f"{name}: no packet {goes}" for name in ("<a>", "&b;") for goes in ("goes out", "comes in")))


def rows():
    for make in (of_interfaces, of_translation, of_frames, of_lengths, of_parts, of_connections, of_several,
                 of_adapted, of_names):
        yield from make()
