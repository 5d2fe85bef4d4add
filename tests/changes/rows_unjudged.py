"""Rows of packets that aren't judged, or not as the firewall would judge them."""

from captures.packets import (ACK, ETHER_ARP, ETHER_IPV4, ETHER_IPV6, LINKTYPE_ETHERNET, LINKTYPE_LOOPBACK,
                              MORE_FRAGMENTS, SYN, UDP, ethernet, ipv4, loopback, record, tcp, udp)
from changes.row import CAME, FLOW_CAME, Row, capture_of, none, one_line, question_of, unjudged
from changes.rows_runs import several
from steps.translation_words import ASKED, H, P

PASS, BLOCK, SKIPPED = "pass", "block", "set skip on em0\n"
ETHER_PPPOE = 0x8864
ONE_CUT, TWO_CUT = "1 packet cut by the snapshot length", "2 packets cut by the snapshot length"
NONE = "0 of 1 packet change"


def snapped(packet, length, order="<"):
    """A record of the first bytes of a packet."""
    return record(1, 0, packet[:length], original=len(packet), order=order)


def of_records(name, old, new, records, *lines, order="<", magic=None, is_unjudged=True, **how):
    """A row of records that are written out."""
    header = {"order": order} if magic is None else {"order": order, "magic": magic}
    capture = capture_of([], **header) + b"".join(records)
    return Row(name, question_of(old, new, capture, **how), lines, is_unjudged=is_unjudged)


# Packets that are cut

def cut():
    for order in "<>":
        yield of_records(f"a packet that the snapshot length cut, {order}", PASS, PASS, [snapped(CAME, 24, order)],
                         f"not judged: {ONE_CUT}", NONE, order=order)
    segment = tcp(P, 4000, H, 22, SYN, 1)
    yield of_records("packets that the snapshot length cut", PASS, "pass in", [snapped(segment, 34), snapped(CAME, 3)],
                     f"not judged: {TWO_CUT}", "0 of 2 packets change")
    yield of_records("a packet of which what counts was captured", PASS, PASS, [snapped(CAME + bytes(40), 28)], NONE,
                     is_unjudged=False)
    yield of_records("a segment of which what counts was captured", PASS, PASS,
                     [snapped(tcp(P, 4000, H, 22, SYN, 1, payload=bytes(40)), 40)], NONE, is_unjudged=False)
    yield none("a packet that is too short by itself", PASS, BLOCK, [CAME[:27]])
    yield of_records("a packet that is too short by itself, and longer than it says", PASS, BLOCK,
                     [record(1, 0, CAME[:27], original=20)], NONE, is_unjudged=False)
    yield of_records("a cut packet beside one that changes", "pass in", "block in",
                     [record(1, 0, CAME), snapped(CAME, 20)], f"{FLOW_CAME}  pass L1 -> block L1  1 packet, first 1",
                     "pass L1 -> block L1: 1 packet in 1 flow", f"not judged: {ONE_CUT}",
                     "1 of 2 packets change: 1 cause")
    yield of_records("a cut packet of an interface that isn't filtered", f"{SKIPPED}pass", f"{SKIPPED}block",
                     [snapped(CAME, 24)], NONE, is_unjudged=False)
    yield of_records("a cut packet of an interface that isn't filtered any more", PASS, f"{SKIPPED}pass",
                     [snapped(CAME, 24)], "short  block short -> pass skip-on  1 packet, first 1",
                     "block short -> pass skip-on: 1 packet in 1 flow", f"not judged: {ONE_CUT}",
                     "1 of 1 packet change: 1 cause")
    yield of_records("a cut packet, by the verdict", PASS, BLOCK, [snapped(CAME, 24)], f"not judged: {ONE_CUT}", NONE,
                     by_verdict=True)
    yield of_records("what may be no IPv4 packet was cut", PASS, BLOCK, [snapped(bytes([0x60]) + bytes(39), 1)],
                     "not judged: 1 IPv6", NONE)
    whole = record(1, 0, CAME)
    yield of_records("a cut capture of a cut packet", PASS, PASS, [snapped(CAME, 24), whole[:-1]],
                     f"not judged: {ONE_CUT}", "0 of 1 packet change, cut")
    captures = [capture_of([ASKED]), capture_of([], order=">") + snapped(CAME, 24, ">")]
    yield several("a cut packet of the second interface", PASS, PASS, captures, f"not judged: {ONE_CUT}",
                  "0 of 2 packets change")._replace(is_unjudged=True)


# Frames that are no IPv4 packets

def frames():
    capture = capture_of([ethernet(ETHER_ARP, bytes(28)), ethernet(ETHER_IPV6, bytes(40)),
                          ethernet(ETHER_IPV6, bytes(40), (7,)), ethernet(ETHER_PPPOE, bytes(20)),
                          ethernet(ETHER_IPV4, CAME, (3, 7)), ethernet(0x88CC, bytes(9)), bytes(13)],
                         network=LINKTYPE_ETHERNET)
    told = "not judged: 2 IPv6, 1 ARP, 1 PPPoE, 1 with two VLAN tags, 2 other frames"
    yield Row("frames of each kind", question_of(PASS, BLOCK, capture), (told, "0 of 7 packets change"),
              is_unjudged=True)
    mixed = capture + record(9, 0, ethernet(ETHER_IPV4, CAME))
    yield Row("frames of each kind, and a packet", question_of(PASS, PASS, mixed), (told, "0 of 8 packets change"))
    families = capture_of([loopback(b"", 24), loopback(b"", 28, ">"), loopback(ASKED, 7)], network=LINKTYPE_LOOPBACK)
    yield Row("frames of BSD loopback", question_of(PASS, BLOCK, families),
              ("not judged: 2 IPv6, 1 other frame", "0 of 3 packets change"), is_unjudged=True)
    yield unjudged("IPv6 alone", BLOCK, f"{SKIPPED}pass", [bytes([0x60]) + bytes(39)] * 2, "2 IPv6")


# Packets that a firewall may judge otherwise

def doubtful():
    segment, answer = tcp(P, 4000, H, 22, ACK, 1, 1), tcp(H, 22, P, 4000, SYN | ACK, 1, 1)
    for count in (1, 2):
        yield unjudged(f"packets midway, {count}", "block in\npass out", "pass out\nblock in",
                       [segment] * count + [ASKED], f"{count} midway", is_unjudged=False)
    yield unjudged("an answer whose request is missing", "pass flags any", "pass flags any", [answer], "1 midway",
                   is_unjudged=False)
    yield none("a packet without a state, as the rule keeps none", "pass no state", "pass no state", [segment])
    yield none("a packet of a connection that begins here", "pass", "pass", [tcp(P, 4000, H, 22, SYN, 1), segment])
    yield one_line("a packet that is midway by the new ruleset alone", "pass no state", "block", [segment],
                   "tcp 198.51.100.7:4000 > 10.0.0.5:22", "pass L1 -> block L1")._replace(
                       lines=("tcp 198.51.100.7:4000 > 10.0.0.5:22  pass L1 -> block L1  1 packet, first 1",
                              "pass L1 -> block L1: 1 packet in 1 flow", "not judged: 1 midway",
                              "1 of 1 packet change: 1 cause"))
    first, last = ipv4(P, H, UDP, udp(P, 9, H, 9)[20:], fragment=MORE_FRAGMENTS), ipv4(P, H, UDP, bytes(8), fragment=3)
    yield unjudged("the first part of a packet", PASS, PASS, [first], "1 part of a packet", is_unjudged=False)
    yield unjudged("parts of a packet", PASS, PASS, [first, last], "2 parts of packets", is_unjudged=False)
    yield none("parts of an interface that isn't filtered", f"{SKIPPED}pass", f"{SKIPPED}block", [first, last])
    yield unjudged("parts of packets, midway and IPv6", BLOCK, BLOCK, [bytes([0x60]) + bytes(39), segment, last, last],
                   "1 IPv6, 1 midway, 2 parts of packets", is_unjudged=False)


def rows():
    for make in (cut, frames, doubtful):
        yield from make()
