"""Rows of what was replayed: files, times, and packets by their verdicts."""

from captures.packets import ETHER_ARP, LINKTYPE_ETHERNET, UDP, ethernet, ipv4, udp
from reporting.model import Question
from reporting.page import NONE
from reporting.row import (BLOCK, BLOCKED, KNOCK, NONE_IN, NONE_OUT, Row, capture_of, of_captures, one, question_of,
                           text_of, timed)
from runs.case import INSIDE, Case
from showing.model import Question as Shown
from showing.row import also_of
from showing.rows_text import SHORT, SKIPPED
from steps.run import THREE
from steps.translation_words import ASKED, H, P

SKIP_ON = "- pass skip-on r=- t=- s=-"
PASSED, RETURNED = "out pass rule r=1 t=- s={}", "in return rule r=0 t=- s=-"
FILES = (("Ruleset", "rules"), ("Capture on em0", "capture"))
NOTHING = ("0", "0", "0.0 %")
# a second with its time
TIMES = ((0, "1970-01-01 00:00:00"), (59, "1970-01-01 00:00:59"), (951827696, "2000-02-29 12:34:56"),
         (1767261634, "2026-01-01 10:00:34"), (2147483648, "2038-01-19 03:14:08"),
         (4294967295, "2106-02-07 06:28:15"))


def verdicts(passed=NOTHING, blocked=NOTHING, returned=NOTHING, skipped=NOTHING):
    return (("pass", *passed), ("block", *blocked), ("return", *returned), ("skip", *skipped))


def summary(packets, first, last=None, files=FILES):
    return (*files, ("Packets", packets), ("From", first), ("To", last or first))


def of_verdicts():
    """A packet of each verdict. KNOCK has 40 bytes, and ASKED 28."""
    at = "1970-01-01 00:00:00"
    yield one("a packet that passes", BLOCK, ASKED, PASSED.format(1), summary=summary("1", at),
              verdicts=verdicts(passed=("1", "28", "100.0 %")))
    yield one("a packet that is blocked", BLOCK, KNOCK, BLOCKED, verdicts=verdicts(blocked=("1", "40", "100.0 %")))
    yield one("a packet that is refused", "block return in", KNOCK, RETURNED,
              verdicts=verdicts(returned=("1", "40", "100.0 %")))
    yield one("a packet that isn't IPv4", BLOCK, b"\x60", SKIPPED, verdicts=verdicts(skipped=("1", "0", "100.0 %")))
    yield one("a packet that is too short", BLOCK, KNOCK[:30], SHORT, verdicts=verdicts(blocked=("1", "0", "100.0 %")))
    yield one("one that is too short passes where nothing is filtered", BLOCK, KNOCK[:30], SKIP_ON,
              verdicts=verdicts(passed=("1", "0", "100.0 %")))
    yield timed("a packet of each verdict", BLOCK, (0, ASKED, PASSED.format(1)), (0, KNOCK, BLOCKED),
                (0, KNOCK, RETURNED), (0, b"", SKIPPED), summary=summary("4", at),
                verdicts=verdicts(*((("1", each, "25.0 %")) for each in ("28", "40", "40", "0"))))


def of_bytes():
    """Bytes are those of the total length, whatever was captured, and whether a part or with options."""
    for name, frame, octets in (("bytes behind the packet", KNOCK + bytes(9), "40"),
                                ("IP options", udp(P, 9, H, 9, ip_options=bytes([1] * 4)), "32"),
                                ("a part", ipv4(P, H, UDP, bytes(3), fragment=1), "23"),
                                ("a part of which not all was captured", ipv4(P, H, UDP, bytes(30), fragment=1)[:25],
                                 "50")):
        yield one(f"bytes of a packet with {name}", BLOCK, frame, BLOCKED,
                  verdicts=verdicts(blocked=("1", octets, "100.0 %")))
    capture = capture_of(ethernet(0x0800, KNOCK, [9]), ethernet(ETHER_ARP, bytes(28)), link=LINKTYPE_ETHERNET)
    lines = text_of(f"1 0 {BLOCKED}", f"2 0 {SKIPPED}")
    yield Row("bytes without those of the link", question_of(BLOCK, capture, lines),
              {"verdicts": verdicts(blocked=("1", "40", "50.0 %"), skipped=("1", "0", "50.0 %"))})


def of_shares():
    """Shares are rounded down. Each row has so many packets that pass, and so many that are blocked."""
    for passed, blocked, shares in ((1, 2, ("33.3 %", "66.6 %")), (1, 5, ("16.6 %", "83.3 %")),
                                    (1, 7, ("12.5 %", "87.5 %")), (1, 999, ("0.1 %", "99.9 %")),
                                    (1, 1000, ("0.0 %", "99.9 %")), (2, 1, ("66.6 %", "33.3 %")),
                                    (29, 71, ("29.0 %", "71.0 %")), (0, 3, ("0.0 %", "100.0 %"))):
        told = [(0, ASKED, SKIP_ON)] * passed + [(0, KNOCK, BLOCKED)] * blocked
        yield timed(f"shares of {passed} and {blocked} packets", BLOCK, *told, verdicts=verdicts(
            passed=(str(passed), str(28 * passed), shares[0]), blocked=(str(blocked), str(40 * blocked), shares[1])))


def of_times():
    """The clock at the first packet and at the last one, which doesn't go back."""
    for second, time in TIMES:
        yield timed(f"the time {second}", BLOCK, (second, KNOCK, BLOCKED), summary=summary("1", time))
    back = capture_of((9, 999999, KNOCK), (7, KNOCK), (8, KNOCK))
    lines = text_of(*(f"{number} 9 {BLOCKED}" for number in (1, 2, 3)))
    yield Row("times that go back", question_of(BLOCK, back, lines),
              {"summary": summary("3", "1970-01-01 00:00:09"), "bar": "Each bar is 1 second.",
               "spans": (("1970-01-01 00:00:09: 0 pass, 3 block, 0 return, 0 skip", ("block",)),)})
    carried = capture_of((9, 5000000, KNOCK))
    yield Row("a fraction of seconds, which the clock doesn't count",
              question_of(BLOCK, carried, text_of(f"1 9 {BLOCKED}")), {"summary": summary("1", "1970-01-01 00:00:09")})


def of_no_packets():
    empty = {"verdicts": verdicts(), "bar": NONE, "spans": (), "blocked": (), "more": "",
             "rules": (("unused", "1", "0", "0", "0.0 %", "block in"), ("unused", "2", "0", "0", "0.0 %", "pass out")),
             "unused": (("1", "1", NONE_IN, "block in"), ("2", "1", NONE_OUT, "pass out"))}
    yield Row("no packet", question_of(BLOCK, capture_of(), b""), {"summary": (*FILES, ("Packets", "0")), **empty})
    yield Row("no packet, cut", question_of(BLOCK, capture_of(KNOCK)[:-1], b""),
              {"summary": (*FILES, ("Packets", "0, cut")), **empty})
    yield Row("no packet and no ruleset", question_of("", capture_of(), b""),
              {"summary": (*FILES, ("Packets", "0")), "rules": (), "unused": (), "blocked": (), "bar": NONE})


def of_cut():
    for length in (1, 15, 16, 55):
        cut = capture_of(KNOCK, behind=capture_of(KNOCK)[24:24 + length])
        yield Row(f"a capture that is cut behind {length} bytes", question_of(BLOCK, cut, text_of(f"1 0 {BLOCKED}")),
                  {"summary": summary("1, cut", "1970-01-01 00:00:00")})


# Several interfaces

def of_interfaces():
    files = (*FILES, ("Capture on em1", "capture1"))
    whole, cut = capture_of((1, KNOCK), (3, KNOCK)), capture_of((2, KNOCK), behind=b"x")
    lines = text_of(*(f"{number} {number} {BLOCKED} i=em{place}" for number, place in ((1, 0), (2, 1), (3, 0))))
    parts = {"summary": summary("3, cut", "1970-01-01 00:00:01", "1970-01-01 00:00:03", files),
             "verdicts": verdicts(blocked=("3", "120", "100.0 %"))}
    yield of_captures("two interfaces, of which the second one's capture is cut", BLOCK, [whole, cut], lines,
                      parts=parts)
    yield of_captures("two interfaces, of which the first one's capture is cut", BLOCK, [cut, whole],
                      lines.replace(b"em0", b"x").replace(b"em1", b"em0").replace(b"=x", b"=em1"), parts=parts)
    yield of_captures("two interfaces without packets", BLOCK, [capture_of()] * 2, b"",
                      parts={"summary": (*files, ("Packets", "0"))})
    yield of_captures("three interfaces", BLOCK, [capture_of()] * 3, b"", interfaces=THREE, parts={
        "summary": (*files, ("Capture on em2", "capture2"), ("Packets", "0"))})


def of_names():
    for first, second in (("a", "b"), ("<b>", "&amp;"), ('"', "'"), ("é", "</th>"), ("i=em0", "-")):
        other = also_of(second, capture_of((2, KNOCK)))
        case = Case("", b"block", INSIDE, capture_of((1, KNOCK)), first, also=(other,))
        lines = f"1 1 {BLOCKED} i={first}\n2 2 {BLOCKED} i={second}\n".encode()
        flow = "tcp 198.51.100.7:4000 > 10.0.0.5:22"
        yield Row(f"interfaces called {first!r} and {second!r}", Question(Shown(case, lines)), {
            "summary": (("Ruleset", "rules"), (f"Capture on {first}", "capture"), (f"Capture on {second}", "capture1"),
                        ("Packets", "2"), ("From", "1970-01-01 00:00:01"), ("To", "1970-01-01 00:00:02")),
            "blocked": (("1", "40", flow, first, "1", "rule", "1"), ("1", "40", flow, second, "1", "rule", "2"))})


def rows():
    for make in (of_verdicts, of_bytes, of_shares, of_times, of_no_packets, of_cut, of_interfaces, of_names):
        yield from make()
