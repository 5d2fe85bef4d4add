"""The cases on captures, their ends and the packets in them, the same ones on every run."""

import struct

from captures.packets import capture_header, ipv4, record
from runs.case import (EMPTIED, FIRST_RULES, FORMS, INSIDE, PACKETS, Case, Written, capture_of, refused, wholly)


def rows():
    """Cases of which something is written out."""
    first = capture_of(PACKETS)
    opening = capture_header()
    one, two, three = (record(0, 0, packet) for packet in PACKETS)
    by_default = b"1 0 in pass default r=- t=- s=-\n2 0 in pass default r=- t=- s=-\n"
    yield wholly(Case("three packets", FIRST_RULES, INSIDE, first),
                 b"1 0 in pass rule r=1 t=- s=-\n2 0 in block rule r=0 t=- s=-\n3 0 out pass default r=- t=- s=-\n",
                 opening + one + three, 3)
    yield wholly(Case("a pass rule that keeps state", b"block in all\npass in all\n", INSIDE, first),
                 b"1 0 in pass rule r=1 t=- s=1\n2 0 in pass rule r=1 t=- s=2\n3 0 out pass default r=- t=- s=-\n",
                 first, 3)
    yield wholly(Case("no packet", b"", INSIDE, capture_header()), b"", opening, 0)
    yield refused(Case("a header of 23 bytes", b"", INSIDE, capture_header()[:23]), b"capture: header cut", **EMPTIED)
    yield refused(Case("the magic number of pcapng", b"", INSIDE, bytes.fromhex("0a0d0d0a") + bytes(200)),
                  b"capture: bad magic", **EMPTIED)
    yield refused(Case("another magic number", b"", INSIDE, capture_header(magic=0xA1B2C3D5) + one), b"capture: bad magic",
                  **EMPTIED)
    for order in "<>":
        yield refused(Case("the major version 3", b"", INSIDE, capture_header(order, major=3, network=12)),
                      b"capture: bad version", **EMPTIED)
        for link in (12, 100, 276, 65535):
            yield refused(Case(f"link type {link}", b"", INSIDE, capture_header(order, network=0xFC000000 | link)),
                          b"capture: link type %d" % link, **EMPTIED)
    seconds = [record(second, 0, PACKETS[0]) for second in (10, 5, 11)]
    yield wholly(Case("a clock that is set back", b"", INSIDE, opening + b"".join(seconds)),
                 b"1 10 in pass default r=- t=- s=-\n2 10 in pass default r=- t=- s=-\n3 11 in pass default r=- t=- s=-\n",
                 opening + b"".join(seconds), 3)
    yield Written(Case("the third record cut", b"", INSIDE, first[:-1]),
                  {"verdicts": by_default, "packets": opening + one + two, "counters": b"total 2 2 0 0 0\n", "states": b"",
                   "out": b"committed 2, cut\n", "err": b"", "status": 2})
    too_long = record(0, 0, b"", captured=262145)
    yield refused(Case("the first record too long", b"", INSIDE, opening + too_long),
                  b"capture: record too long 262145, committed 0", **{**EMPTIED, "packets": opening})
    yield refused(Case("the third record too long", b"", INSIDE, opening + one + two + too_long + three),
                  b"capture: record too long 262145, committed 2",
                  **{**EMPTIED, "verdicts": by_default, "packets": opening + one + two})
    yield refused(Case("a record too long behind all others", b"", INSIDE, first + too_long),
                  b"capture: record too long 262145, committed 3",
                  **{**EMPTIED, "verdicts": by_default + b"3 0 out pass default r=- t=- s=-\n", "packets": first})


def cut_captures():
    for order, magic in FORMS:
        whole = capture_of(PACKETS, order, magic=magic)
        for length in range(len(whole) + 1):
            yield Case(f"{order}{magic:x} cut at {length}", FIRST_RULES, INSIDE, whole[:length])


def headers():
    for order, magic in FORMS:
        for fields in ({"major": 1}, {"major": 3}, {"major": 0x0200}, {"minor": 65535},
                       {"network": 0}, {"network": 1}, {"network": 65535}, {"network": 12},
                       {"network": 2}, {"network": 100}, {"network": 102}, {"network": 228},
                       {"network": 0xFC000065}, {"network": 0x00650000}, {"network": 0x6500},
                       {"network": 0xFC000000}, {"network": 0x10001}, {"network": 0x0100}, {"network": 0x01000000},
                       {"major": 1, "network": 1}, {"major": 1, "network": 12}):
            yield Case(f"{order}{magic:x} {fields}", FIRST_RULES, INSIDE,
                       capture_of(PACKETS, order, magic=magic, **fields))
        # the order of the magic holds for all other numbers
        other = "<" if order == ">" else ">"
        yield Case(f"{order}{magic:x} mixed orders", FIRST_RULES, INSIDE,
                   capture_header(order, magic)[:4] + capture_header(other, magic)[4:])
    for magic in (0, 0x0A0D0D0A, 0xA1B2C3D5, 0xA1B2CD34, 0xB2A1D4C3, 0xA1B24D3C, 0xFFFFFFFF):
        yield Case(f"magic {magic:x}", FIRST_RULES, INSIDE,
                   capture_of(PACKETS, magic=magic, major=1, network=12))
    yield Case("bad rules go before a bad capture", b"bad\n", INSIDE, b"")


def lengths():
    for order, magic in FORMS:
        opening = capture_of(PACKETS[:2], order, magic=magic)
        for length in (262145, 300000, 0x01000000, 0x80000000, 0xFFFFFFFF):
            for rest in (b"", bytes(20), PACKETS[0]):
                yield Case(f"{order}{magic:x} length {length} before {len(rest)} bytes", FIRST_RULES,
                           INSIDE, opening + record(0, 0, rest, captured=length, order=order))
        most = ipv4("10.0.0.5", "198.51.100.7", 17, bytes(1000)).ljust(262144, b"\0")
        yield Case(f"{order}{magic:x} the longest record", FIRST_RULES, INSIDE,
                   capture_of([most, PACKETS[0], b"", most], order, magic=magic))
        yield Case(f"{order}{magic:x} the longest record cut", FIRST_RULES, INSIDE,
                   capture_of([PACKETS[0], most], order, magic=magic)[:-1])
    # the original length says nothing about the bytes that are there
    yield Case("original lengths", FIRST_RULES, INSIDE, capture_header() + b"".join(
        record(0, 0, PACKETS[0], original=length) for length in (0, 1, 28, 29, 262145, 0xFFFFFFFF)))
    yield Case("seconds", b"", INSIDE, capture_header() + b"".join(
        record(second, 0xFFFFFFFF, PACKETS[0]) for second in (0, 1, 0x7FFFFFFF, 0x80000000, 5, 0xFFFFFFFF, 0)))


def views():
    whole = ipv4("203.0.113.9", "192.0.2.1", 17, bytes(60))
    yield Case("cut packets", b"", INSIDE, capture_of(whole[:length] for length in range(81)))
    yield Case("first bytes", b"", INSIDE, capture_of(bytes([first]) + whole[1:] for first in range(256)))
    yield Case("first bytes alone", b"", INSIDE, capture_of(bytes([first]) for first in range(256)))
    for words in range(16):
        head = bytes([0x40 + words]) + whole[1:]
        yield Case(f"{words} header words, cut", b"", INSIDE, capture_of(head[:length] for length in range(65)))
        yield Case(f"{words} header words, total lengths", b"", INSIDE, capture_of(
            head[:2] + struct.pack(">H", total) + head[4:] for total in [*range(65), 255, 256, 0x1400, 65535]))


def all_cases():
    for make in (cut_captures, headers, lengths, views):
        yield from make()
