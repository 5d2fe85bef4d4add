"""What has to become of the packets of the captures.

Each conversation has a state on each interface that it comes to. Its first packet there makes it by a rule of the
filter, and all others pass by it. What the gateway refuses is blocked by a rule where it comes in.
"""

from collections import Counter
from typing import NamedTuple

from captures.model import read_header, records_of
from gateway.network import INNER, OUTER

NONE = "-"
REFUSING = ("block", "return")


class Line(NamedTuple):
    """A line of verdicts without its clock, its rule of the filter and its interface."""
    number: str
    direction: str
    verdict: str
    reason: str
    translation: str
    state: str


def lines_of(verdicts, alone):
    """The lines of a run by interfaces; if none is named there, it is that one alone."""
    found = {}
    for text in verdicts.decode().splitlines():
        number, _, direction, verdict, reason, _, translation, state, *interface = text.split()
        named = interface[0].removeprefix("i=") if interface else alone
        found.setdefault(named, []).append(
            Line(number, direction, verdict, reason, translation.removeprefix("t="), state.removeprefix("s=")))
    return found


def expected_line(seen, number, makers):
    """The line of a packet with a number. The numbers of those that made states stand by conversations."""
    if seen.packet is None:
        return Line(number, NONE, "skip", "not-ip", NONE, NONE)
    conversation = seen.conversation
    if conversation.is_blocked():
        return Line(number, "in", "block", "rule", NONE, NONE)
    is_redirected = seen.interface == OUTER and conversation.rdr is not None
    reason = "state-error" if seen.is_error else "state" if conversation in makers else "rule"
    return Line(number, "out" if seen.goes_out() else "in", "pass", reason,
                str(conversation.rdr) if is_redirected else NONE, makers.setdefault(conversation, number))


def compare_lines(comparison, name, seen, verdicts):
    """Compares the lines of a run on some interfaces with what has to stand there."""
    found = lines_of(verdicts, next(iter(seen)))
    for interface, packets in seen.items():
        lines, makers = found.get(interface, []), {}
        comparison.expect(f"{name}: lines of {interface}", len(packets), len(lines))
        for packet, line in zip(packets, lines):
            comparison.expect(f"{name}, {interface}, {packet.conversation and packet.conversation.name()}",
                              expected_line(packet, line.number, makers), line)


def refused(verdicts):
    """How many packets are blocked."""
    return sum(text.split()[3] in REFUSING for text in verdicts.decode().splitlines())


# The packets that are written

def is_rewritten(seen):
    """Whether a run writes into a packet: into those alone that come in by `rdr`."""
    return (seen.interface == OUTER and seen.packet is not None and not seen.goes_out()
            and seen.conversation.rdr is not None)


def carried(datagram):
    """A datagram but for what a router changes: the time to live and the checksum of the header."""
    return datagram[:8] + b"\0" + datagram[9:10] + b"\0\0" + datagram[12:]


def passing(packets):
    """Those of some packets that aren't blocked."""
    return [each for each in packets if each.packet is None or not each.conversation.is_blocked()]


def compare_packets(comparison, name, interface, seen, capture):
    """Compares the packets that a run has written for an interface with those that came to it. What came in by `rdr` is
    written as the gateway itself has sent it into the house."""
    header = read_header(capture)
    written = [each.frame for each in records_of(capture, header.order)[0]]
    expected = passing(seen[interface])
    comparison.expect(f"{name}: packets of {interface}", len(expected), len(written))
    pairs = list(zip(expected, written))
    comparison.expect(f"{name}: packets of {interface} that are as they came", [], [
        each.frame for each, frame in pairs if not is_rewritten(each) and each.frame != frame])
    if interface == OUTER:
        sent = Counter(carried(each.datagram) for each in seen[INNER]
                       if each.packet and each.goes_out() and each.conversation.rdr is not None)
        redirected = Counter(carried(frame[14:][:len(each.datagram)]) for each, frame in pairs if is_rewritten(each))
        comparison.expect(f"{name}: packets of `rdr`", sent, redirected)
