"""A model of the order in which the records of several captures are taken, one for each interface, and of where the list
of all of them ends.

The time of a record is its seconds and its nanoseconds. A microsecond counts 1000 of them, and none are carried into the
seconds. The records of one capture stay in their order, so each is due at the greatest time that its capture has come
to. Of records that are due at one time those of an earlier capture come first.

A capture that is cut has no more records. One that is refused, or can't be read on, ends the list right behind its last
whole record. If several are refused at the beginning, the first of them counts.
"""

import struct
from itertools import accumulate
from typing import NamedTuple

from captures.model import NANOSECONDS, Record, read_header, records_of

# how a capture ends that has just no more records
ENDED = ("clean", "cut")


class Source(NamedTuple):
    """The records of a capture with their times, and how it ends: `clean`, `cut`, or by what it is refused for."""
    records: list
    tail: str


class Merged(NamedTuple):
    """The records of all captures, each with the place of its capture; how the list ends, and the place of the capture
    that is refused, None if none is."""
    records: list
    tail: str
    refused: int | None


class Placed(NamedTuple):
    """A record, and the place of its capture."""
    place: int
    record: Record


def time_of(header, record):
    seconds, fraction = struct.unpack_from(f"{header.order}II", record.header)
    return seconds, fraction * (1 if header.fraction == NANOSECONDS else 1000)


def source_of(capture):
    """The source of a capture whose header is accepted."""
    header = read_header(capture)
    records, tail = records_of(capture, header.order)
    return Source([(time_of(header, each), each) for each in records], tail)


def dues(sources):
    """The records of all sources, each with the time at which it is due and its place, in the order of both."""
    found = []
    for place, source in enumerate(sources):
        times = accumulate((time for time, _ in source.records), max)
        found += [(due, Placed(place, record)) for due, (_, record) in zip(times, source.records)]
    # the records of a capture stay in their order, as sorting moves none that are equal
    return [placed for _, placed in sorted(found, key=lambda each: (each[0], each[1].place))]


def merged(sources):
    """The list of all records of some sources."""
    records = dues(sources)
    ends = {place: max((number for number, each in enumerate(records, 1) if each.place == place), default=0)
            for place, source in enumerate(sources) if source.tail not in ENDED}
    if ends:
        refused = min(ends, key=lambda place: (ends[place], place))
        return Merged(records[:ends[refused]], sources[refused].tail, refused)
    return Merged(records, "cut" if any(source.tail == "cut" for source in sources) else "clean", None)


def by_heads(sources):
    """The same list, taken record by record: of the next records of all captures the one of the least time."""
    nexts, records = [0] * len(sources), []
    while True:
        heads = []
        for place, (source, number) in enumerate(zip(sources, nexts)):
            if number < len(source.records):
                heads.append((source.records[number][0], place))
            elif source.tail not in ENDED:
                return Merged(records, source.tail, place)
        if not heads:
            return Merged(records, "cut" if any(source.tail == "cut" for source in sources) else "clean", None)
        _, place = min(heads)
        records.append(Placed(place, sources[place].records[nexts[place]][1]))
        nexts[place] += 1
