"""The packets of captures as the command `show` joins them with lines of verdicts: a second implementation, written
from docs/FORMATS.md, sections "Captures" and "Packets one by one".

- All records are numbered together, in the order of captures.merging. The clock is the greatest second so far.
- The time of a packet is that of its record. Its capture says whether fractions are microseconds or nanoseconds.
- A packet without its link's header are the bytes that are taken for IPv4. It is `skip` if there are none, `short` if
  it is too short, and else what its headers tell.
"""

import struct
from functools import lru_cache
from typing import NamedTuple

from captures import merging
from captures.frames import datagram_of, view
from captures.model import NANOSECONDS, Header, Record, Refused, read_header

# what captures.frames says of a record without two ends
NOT_IP, SHORT = "skip", "short"


@lru_cache(maxsize=1 << 14)
def seen_of(link, frame):
    """What the bytes of a record show, which is asked many times."""
    return view(link, frame)


class Packet(NamedTuple):
    """A packet with its number, the clock, the place of its interface, and the header of its capture."""
    number: int
    clock: int
    place: int
    header: Header
    record: Record

    def link_length(self):
        """How many bytes stand before those that are taken for IPv4."""
        return len(self.record.frame) - len(self.octets())

    def octets(self):
        """The bytes that are taken for IPv4; None if there are none."""
        return datagram_of(self.header.link, self.record.frame)

    def seen(self):
        """What the headers tell: NOT_IP, SHORT or a captures.frames.Packet."""
        return seen_of(self.header.link, self.record.frame)

    def is_not_ip(self):
        return self.seen() == NOT_IP

    def is_short(self):
        return self.seen() == SHORT

    def total(self):
        """The total length in the IPv4 header, of a packet that isn't too short."""
        return int.from_bytes(self.octets()[2:4])

    def fields(self):
        """The record's fraction of a second, its captured and its original length, as they were read."""
        return struct.unpack_from(f"{self.header.order}III", self.record.header, 4)

    def has_nanoseconds(self):
        return self.header.fraction == NANOSECONDS


class Joined(NamedTuple):
    """All packets of some captures; how the captures end, as captures.merging says, and which of them is refused."""
    packets: list
    tail: str
    refused: int | None

    def is_cut(self):
        return self.tail == "cut"


def word_for(names, place):
    """What the capture of an interface is called in what is said of it."""
    return f"capture {names[place]}" if len(names) > 1 else "capture"


def headers_of(captures, names):
    """The headers of captures; the first that isn't accepted is refused."""
    headers = []
    for place, capture in enumerate(captures):
        try:
            headers.append(read_header(capture))
        except Refused as why:
            raise Refused(f"{word_for(names, place)}: {why}") from None
    return headers


def joined(captures, headers):
    """The packets of captures with these headers."""
    merged, clock, packets = merging.merged(list(map(merging.source_of, captures))), 0, []
    for number, (place, record) in enumerate(merged.records, 1):
        clock = max(clock, record.seconds)
        packets.append(Packet(number, clock, place, headers[place], record))
    return Joined(packets, merged.tail, merged.refused)
