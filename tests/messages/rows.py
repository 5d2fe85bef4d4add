"""Runs whose messages are written out: their sizes, and bytes of them.

Unless it is said otherwise the packets are UDP datagrams of 28 bytes that go out at second 0, from H port 1000 and on
to P port 53, or answers to them.
"""

from typing import NamedTuple

from captures.packets import ACK, RST, SYN, tcp, udp
from steps.rows import FIRST_SYN, OTHER, H, P, h_to_p
from steps.run import Run

HERE = "192.0.2.1"


class Row(NamedTuple):
    """A run and what is written out of it: the sizes of its messages with their IP headers. Where they are written,
    also the numbers in the records of each kind of the last messages, bytes by the place of the message and the offset
    in it, the sizes of what is out behind some packets while the run goes on, verdict lines by the number of the
    packet, and the numbers of the states that are left."""
    run: Run
    sizes: list
    last: tuple = ()
    bytes: tuple = ()
    online: dict = {}
    lines: dict = {}
    states: list | None = None


def flow(place):
    return udp(H, 1000 + place, P, 53)


def reply(place):
    return udp(P, 53, H, 1000 + place)


def flows(count, first=0):
    return [flow(place) for place in range(first, first + count)]


def replies(count):
    return [reply(place) for place in range(count)]


def at(second, packets):
    return [(second, packet) for packet in packets]


def row(name, rules, records, sizes, **expected):
    """A row whose records are packets at second 0, or pairs of a second and a packet."""
    timed = [each if isinstance(each, tuple) else (0, each) for each in records]
    return Row(Run(name, rules, timed), sizes, **expected)


NOT_IPV4 = bytes([0x60]) + bytes(39)
# P's answer to the first SYN
REJECTION = tcp(P, 80, H, 1000, RST | ACK, 5000, 1001)
SYN_HEADER = "4510012200004000fff0d6e9c0000201e00000f0"
# one flow and its reply at 1: the records of both messages, where the text has a newline
TEXT_SUM = "6d740d4d05e102855e6b05c1aaced9ad"
SILENT_PEER = "00" * 32
SINGLE_PEER = "00" * 24 + "01" + "00" * 7
MULTIPLE_PEER = "00" * 24 + "02" + "00" * 7
FLOW_KEY = "c6336407" + "00" * 12 + "0a000005" + "00" * 12 + "003503e8"
FLOW_INSERT = ("0000000000000001" + "656d30" + "00" * 13 + FLOW_KEY * 2 + SINGLE_PEER + SILENT_PEER + "00" * 16
               + "00000000 ffffffff ffffffff 00000000 0000003c 0000000000000001 0000000000000000"
               + "000000000000001c 0000000000000000 00000001 02 11 02 00000000 06 0000")
FLOW_UPDATE = "0000000000000001" + MULTIPLE_PEER + SINGLE_PEER + "00000001 0000001e 07 000000"
FLOW_MESSAGES = (
    (0, 20, f"0500010e {TEXT_SUM} 01000001 {FLOW_INSERT} 0c000001"),
    (1, 0, f"45100084 00004000 fff0d787 c0000201 e00000f0 05000070 {TEXT_SUM} 04000001 {FLOW_UPDATE} 0c000001"))
# a SYN, at the bytes of its record from the maker's peer on
SYN_PEERS = ("00" * 8 + "000003e8 000003ea 00000000 03e8 0000 02 00" + "00" * 6
             + "00" * 8 + "00000000 00000001 00000000 0001 0000 00 00" + "00" * 6)


def syn_rows():
    yield row("no packet", "pass out", [], [])
    yield row("one SYN", "pass out", [FIRST_SYN], [290], bytes=(
        (0, 0, SYN_HEADER), (0, 140, SYN_PEERS), (0, 232, "00000000 00000078"),
        (0, 272, "00000001 02 06 02 00000000 00")))
    yield row("one SYN and a host id", "set hostid 0x0a0b0c0d\npass out", [FIRST_SYN], [290],
              bytes=((0, 0, SYN_HEADER), (0, 272, "0a0b0c0d")))
    yield row("one SYN and no-sync", "pass out keep state (no-sync)", [FIRST_SYN], [], states=[1])
    # remaining 30 and timeout code 1
    yield row("a SYN sent twice", "pass out", [FIRST_SYN] * 2, [290], last=({"INS": [1]},),
              bytes=((0, 236, "0000001e"), (0, 283, "01")))
    rejected = [FIRST_SYN, REJECTION, FIRST_SYN]
    mismatch = {3: "3 0 out block state-mismatch r=0 t=- s=1"}
    yield row("a SYN that removes its state at once", "pass out", rejected, [], lines=mismatch, states=[])
    yield row("a SYN that removes its state with the update", "pass out", [rejected[0], *at(1, rejected[1:])],
              [290, 60], last=({"INS": [1]}, {"DEL_C": [1]}),
              lines={3: "3 1 out block state-mismatch r=0 t=- s=1"}, states=[])
    yield row("a SYN that removes its state later", "pass out", list(enumerate(rejected)), [290, 132, 60],
              last=({"INS": [1]}, {"UPD_C": [1]}, {"DEL_C": [1]}), states=[])


def time_rows():
    yield row("a reply in time", "block in\npass out", [flow(0), (59, reply(0))], [290, 132],
              lines={2: "2 59 in pass state r=1 t=- s=1"})
    yield row("a reply too late", "block in\npass out", [flow(0), (60, reply(0))], [290, 60],
              last=({"INS": [1]}, {"DEL_C": [1]}), lines={2: "2 60 in block rule r=0 t=- s=-"}, states=[])
    yield row("room for one state", "set limit states 1\npass out", [flow(0), (30, flow(1)), (60, flow(2))], [290, 306],
              last=({"INS": [1]}, {"INS": [3], "DEL_C": [1]}))
    yield row("a state for no time", "set timeout udp.first 0\npass out\nblock in",
              [flow(0), udp(OTHER, 9, HERE, 9)], [],
              lines={2: "2 0 in block rule r=1 t=- s=-"}, states=[])
    yield row("a state for no time, and no IPv4 packet", "set timeout udp.first 0\npass out", [flow(0), NOT_IPV4], [],
              states=[])
    yield row("a state for no time, made by the last packet", "set timeout udp.first 0\npass out", [flow(0)], [290],
              bytes=((0, 232, "00000000 00000000"),), states=[1])
    yield row("one flow, while the run goes on", "pass out", [flow(0), (1, NOT_IPV4)], [290],
              online={0: [], 1: [], 2: [290]})
    # what is sent at once stands under one clock, and seconds that go back move none
    yield row("seconds that go back", "pass out", [(10, flow(0)), (5, flow(1)), (11, flow(2))], [532, 290],
              last=({"INS": [1, 2]}, {"INS": [3]}))
    # state 130 has the earlier deadline by its own second packet, and goes first
    touched = [*flows(130), (1, flow(129)), (60, NOT_IPV4)]
    yield row("removals by deadline", "pass out", touched, [1500] * 21 + [1016, 132, 1500, 156],
              last=({"UPD_C": [130]}, {"DEL_C": [*range(1, 121), 130]}, {"DEL_C": list(range(121, 130))}))


def size_rows():
    yield row("six flows", "pass out", flows(6), [1500])
    yield row("seven flows", "pass out", flows(7), [1500, 290], last=({"INS": [1, 2, 3, 4, 5, 6]}, {"INS": [7]}),
              online={6: [], 7: [1500]})
    yield row("18 flows and a reply to each", "pass out", flows(18) + at(1, replies(18)), [1500, 1500, 1500, 1476, 132],
              last=({"UPD_C": list(range(1, 18))}, {"UPD_C": [18]}))
    yield row("130 flows that go", "pass out", [*flows(130), (60, NOT_IPV4)], [1500] * 21 + [1016, 1500, 156],
              last=({"DEL_C": list(range(1, 122))}, {"DEL_C": list(range(122, 131))}), states=[])
    yield row("130 flows that go before another one", "pass out", [*flows(130), (60, flow(130))],
              [1500] * 21 + [1016, 1500, 402],
              last=({"DEL_C": list(range(1, 122))}, {"INS": [131], "DEL_C": list(range(122, 131))}))
    yield row("flows, more of them and replies", "pass out", flows(3) + at(1, flows(5, 3)) + at(1, replies(3)),
              [774, 1430, 132], last=({"INS": [4, 5, 6, 7, 8], "UPD_C": [1, 2]}, {"UPD_C": [3]}))


# the run that the document of the formats follows: each packet with the size of the message that is open behind it
DAY = (((0, FIRST_SYN), 290), ((0, flow(0)), 532), ((1, REJECTION), 132), ((1, FIRST_SYN), 60), ((1, flow(1)), 306),
       ((1, reply(0)), 394), ((2, NOT_IPV4), None), ((61, FIRST_SYN), 318), ((61, REJECTION), 318),
       ((61, FIRST_SYN), 72))


def day_row():
    yield row("a day of the open message", "pass out", [record for record, _ in DAY], [532, 394, 72],
              last=({"INS": [1, 2]}, {"INS": [5], "UPD_C": [2], "DEL_C": [1]}, {"DEL_C": [2, 5]}),
              online={2: [], 3: [532], 6: [532], 7: [532, 394], 10: [532, 394]}, states=[],
              lines={4: "4 1 out block state-mismatch r=0 t=- s=1", 8: "8 61 out pass rule r=0 t=- s=8",
                     10: "10 61 out block state-mismatch r=0 t=- s=8"})


def rule_rows():
    both = [flow(0), FIRST_SYN]
    udp_rule = "pass out proto udp keep state (no-sync)"
    yield row("no-sync by the last rule", f"pass out\n{udp_rule}", both, [290], last=({"INS": [2]},), states=[1, 2])
    yield row("no-sync by a rule before the last", f"{udp_rule}\npass out", both, [532], last=({"INS": [1, 2]},))
    yield row("a flow and its reply", "pass out\n", [flow(0), (1, reply(0))], [290, 132], bytes=FLOW_MESSAGES)
    yield row("no-sync through a life", udp_rule, [flow(0), (1, reply(0)), (100, flow(1)), (200, NOT_IPV4)], [],
              states=[])
    yield row("a rule for one state", "block out\npass out keep state (max 1)", [flow(0), (1, flow(1)), (60, flow(2))],
              [290, 306], last=({"INS": [1]}, {"INS": [3], "DEL_C": [1]}), lines={2: "2 1 out block rule r=0 t=- s=-"},
              states=[3])
    # translation rule 0 and none of the filter, age 0, 60 seconds left, and one packet the maker's way
    yield row("a translation without a rule of the filter", "nat on em0 from any to any -> em0 port 7", [flow(0)],
              [290], bytes=((0, 68, "c6336407" + "00" * 12 + "c0000201" + "00" * 12 + "00350007" + FLOW_KEY),
                     (0, 220, "ffffffff ffffffff 00000000 00000000 0000003c 0000000000000001")))
    yield row("a translation and a rule without state", "nat on em0 from any to any -> em0 port 7\npass out no state",
              [flow(0)], [290], bytes=((0, 220, "00000000 ffffffff 00000000"),))
    yield row("a translation and no-sync", "nat on em0 from any to any -> em0 port 7\npass out keep state (no-sync)",
              [flow(0)], [], states=[1])
    offered = h_to_p(SYN, 1000, options=bytes([3, 3, 2, 0]))
    # a window of 1000 by the shift 2 is 250
    yield row("a SYN that offers a shift", "pass out", [offered], [290],
              bytes=((0, 140, "00" * 8 + "000003e8 000003ea 00000000 00fa 0000 02 82" + "00" * 6),))


def rows():
    for make in (syn_rows, time_rows, size_rows, day_row, rule_rows):
        yield from make()
