"""A model of how a capture is read: its header, its records, and how it ends."""

import struct
from typing import NamedTuple

from captures.frames import ETHERNET, LOOPBACK, RAW

HEADER, RECORD_HEADER = 24, 16
MOST_CAPTURED = 262144
MAJOR_VERSION = 2
MICROSECONDS, NANOSECONDS = "microseconds", "nanoseconds"
# the byte order of all headers, as struct's sign, and what the fractions of times are, by the magic number's bytes
FORMS = {b"\xd4\xc3\xb2\xa1": ("<", MICROSECONDS), b"\x4d\x3c\xb2\xa1": ("<", NANOSECONDS),
         b"\xa1\xb2\xc3\xd4": (">", MICROSECONDS), b"\xa1\xb2\x3c\x4d": (">", NANOSECONDS)}


class Refused(Exception):
    """The ruleset or the capture is refused with this text."""


class Header(NamedTuple):
    """What the capture's header tells: the byte order, the link type, and what the fractions of its times are."""
    order: str
    link: int
    fraction: str


class Record(NamedTuple):
    """A record of a capture: its header as read, the seconds, and the captured bytes."""
    header: bytes
    seconds: int
    frame: bytes


def header_of_any_link(capture):
    """The capture's header, where it is accepted but for the link type."""
    if len(capture) < HEADER:
        raise Refused("header cut")
    if capture[:4] not in FORMS:
        raise Refused("bad magic")
    order, fraction = FORMS[capture[:4]]
    if struct.unpack_from(order + "H", capture, 4)[0] != MAJOR_VERSION:
        raise Refused("bad version")
    return Header(order, struct.unpack_from(order + "I", capture, 20)[0] & 0xFFFF, fraction)


def read_header(capture):
    """The capture's header, where it is accepted."""
    header = header_of_any_link(capture)
    if header.link not in (LOOPBACK, ETHERNET, RAW):
        raise Refused(f"link type {header.link}")
    return header


def records_of(capture, order):
    """The records of a capture whose header was accepted, and how it ends: `clean`, `cut`, or by a record that is too
    long."""
    records, place = [], HEADER
    while place + RECORD_HEADER <= len(capture):
        header = capture[place:place + RECORD_HEADER]
        seconds, _, captured, _ = struct.unpack(order + "IIII", header)
        if captured > MOST_CAPTURED:
            return records, f"record too long {captured}"
        frame = capture[place + RECORD_HEADER:place + RECORD_HEADER + captured]
        if len(frame) < captured:
            return records, "cut"
        records.append(Record(header, seconds, frame))
        place += RECORD_HEADER + captured
    return records, "clean" if place == len(capture) else "cut"
