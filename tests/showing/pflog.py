"""What the command `show` prints as a capture of pflog(4): a second implementation, written from docs/FORMATS.md,
section "Packets one by one".

The formats leave open what becomes of a fraction of a second or more, and of an original length above the captured one
where bytes are left out. Ways has the answers that are right.
"""

import os
import struct
from itertools import product
from typing import NamedTuple

HEADER_LENGTH, UNPADDED = 64, 61
IPV4_FAMILY = 2
NAME_LENGTH = 16
LINK_TYPE, MOST_CAPTURED = 117, 262208
MICROSECONDS, NANOSECONDS = 0xA1B2C3D4, 0xA1B23C4D
ACTIONS = {"pass": 0, "block": 1, "return": 1}
REASONS = {"short": 3, "ip-option": 8, "state-mismatch": 10, "state-insert": 11, "state-limit": 12, "nat-exhausted": 15}
DIRECTIONS = {"in": 1, "out": 2, "-": 0}
NONE, NO_PROCESS = 2**32 - 1, 100000
FIELD = 2**32


class Ways(NamedTuple):
    """Whether a fraction of a second or more is carried, and whether the original length ends with the packet, or lacks
    just as many bytes as the captured one."""
    carries: bool
    ends_with_packet: bool


WAYS = tuple(Ways(*each) for each in product((False, True), repeat=2))


def header_of(has_nanoseconds):
    """The header of the capture."""
    magic = NANOSECONDS if has_nanoseconds else MICROSECONDS
    return struct.pack("<IHHIIII", magic, 2, 4, 0, 0, MOST_CAPTURED, LINK_TYPE)


def time_of(packet, has_nanoseconds, carries):
    """The second and the fraction, which is counted as the header says."""
    fraction, *_ = packet.fields()
    if has_nanoseconds and not packet.has_nanoseconds():
        fraction *= 1000
    if not carries:
        return packet.record.seconds, fraction % FIELD
    more, rest = divmod(fraction, 10**9 if has_nanoseconds else 10**6)
    return (packet.record.seconds + more) % FIELD, rest


def lengths_of(packet, ends_with_packet):
    """How many bytes of the packet are there, and how many there were."""
    _, captured, original = packet.fields()
    there, before = captured - packet.link_length(), original - packet.link_length()
    rest = 0 if packet.is_short() else max(0, there - packet.total())
    were = packet.total() if rest and ends_with_packet else before - rest
    return there - rest, were


def header_before(said, name):
    """The 64 bytes before a packet."""
    octets = struct.pack("BBBB", UNPADDED, IPV4_FAMILY, ACTIONS[said.verdict], REASONS.get(said.reason, 0))
    octets += os.fsencode(name).ljust(NAME_LENGTH, b"\0") + bytes(NAME_LENGTH)
    octets += struct.pack(">III", NONE if said.rule is None else said.rule, NONE, NONE) + struct.pack("<I", NO_PROCESS)
    return octets + bytes(8) + struct.pack("Bxxx", DIRECTIONS[said.direction])


def record_of(packet, said, name, has_nanoseconds, ways):
    """The record of a packet; nothing of one that isn't IPv4."""
    if packet.is_not_ip():
        return b""
    there, were = lengths_of(packet, ways.ends_with_packet)
    times = time_of(packet, has_nanoseconds, ways.carries)
    lengths = there + HEADER_LENGTH, (were + HEADER_LENGTH) % FIELD
    return struct.pack("<IIII", *times, *lengths) + header_before(said, name) + packet.octets()[:there]
