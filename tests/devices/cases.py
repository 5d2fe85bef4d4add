"""Runs over devices in memory that are written out by hand: each write of a connection of four packets fails."""

from typing import NamedTuple

from captures.packets import capture_header, record
from devices.scene import Limits, Scene
from messages.rows import flows
from steps.rows import FIRST_SYN, OPENING, data

BATCH = 2
# with these numbers of workers devices fail at each byte
THOROUGH = (0, 2)
HEADER, RECORD = 24, 16
MESSAGE = 290
TWO_PORTS = b"nat on em0 proto udp from 10.0.0.0/8 to any -> 192.0.2.1 port 50001:50002\npass out"


def capture_of(packets):
    """A capture of packets, all of second 0."""
    return capture_header() + b"".join(record(0, 0, packet) for packet in packets)


CONNECTION = [*OPENING, data(100)]
ONE_SYN = capture_of([FIRST_SYN])


class Sizes(NamedTuple):
    """What stands in the outputs: lines of verdicts, bytes of packets, lines of counters and of states, and bytes of
    messages."""
    verdicts: int = 0
    packets: int = 0
    counters: int = 0
    states: int = 0
    messages: int = 0


def sizes_of(left):
    return Sizes(left.verdicts.count(b"\n"), len(left.packets), left.counters.count(b"\n"), left.states.count(b"\n"),
                 len(left.messages))


def connection(name, workers, **devices):
    return Scene(name, b"pass out", capture_of(CONNECTION), BATCH, workers, **devices)


def five(name, workers, batch, **devices):
    """A run of five datagrams of one connection."""
    return Scene(name, b"pass out", capture_of(flows(1) * 5), batch, workers, **devices)


def write_rows():
    """Of each output the write that fails, by its number among the writes of that output, how the run ends, and the
    sizes of what is left."""
    two, four = HEADER + 2 * (RECORD + 40), HEADER + 4 * (RECORD + 40) + 100
    yield "packets", 1, "write failed: packets, committed 0", Sizes()
    yield "verdicts", 1, "write failed: verdicts, committed 0", Sizes(0, HEADER)
    yield "packets", 2, "write failed: packets, committed 0", Sizes(2, HEADER)
    yield "verdicts", 2, "write failed: verdicts, committed 2", Sizes(2, two)
    yield "packets", 3, "write failed: packets, committed 2", Sizes(4, two)
    yield "messages", 1, "write failed: messages, committed 4", Sizes(4, four)
    yield "counters", 1, "write failed: counters, committed 4", Sizes(4, four, messages=MESSAGE)
    yield "states", 1, "write failed: states, committed 4", Sizes(4, four, 2, messages=MESSAGE)


def rows(workers):
    """Scenes, each with how it ends and the sizes of what is left."""
    for output, number, end, sizes in write_rows():
        sink = Limits(None, number - 1)
        yield connection(f"{output} {number} fails", workers, output=output, sink=sink), end, sizes
    yield (five("the second lines of five packets fail", workers, BATCH, output="verdicts", sink=Limits(None, 1)),
           "write failed: verdicts, committed 2", Sizes(2, HEADER + 2 * (RECORD + 28)))
    yield (five("the second line fails", workers, 1, output="verdicts", sink=Limits(None, 1)),
           "write failed: verdicts, committed 1", Sizes(1, HEADER + RECORD + 28))
    yield (five("a read fails behind two of five packets", workers, 256, source=Limits(28, 4)),
           "read failed: capture 0, committed 2", Sizes(2, HEADER + 2 * (RECORD + 28)))


# Scenes whose outcome the model tells

def byte_scenes(whole, workers):
    """Each output takes one byte a call, and fails at each of its bytes, or not at all."""
    for output, octets in whole.items():
        for calls in range(len(octets) + 1):
            yield connection(f"{output} fail at byte {calls}", workers, output=output, sink=Limits(1, calls))


def full_scenes(whole, workers):
    """An output takes no byte at all."""
    for output in whole:
        yield connection(f"{output} take no byte", workers, output=output, sink=Limits(0))


def cut_scenes(workers):
    """The capture of one SYN is cut at each length."""
    for length in range(len(ONE_SYN) + 1):
        yield Scene(f"a SYN cut at {length}", b"pass out", ONE_SYN[:length], BATCH, workers)


def read_scenes(workers):
    """The capture of one SYN gives one byte a read, and fails at each of its bytes, and where its end is looked for."""
    for calls in range(len(ONE_SYN) + 2):
        yield Scene(f"a read fails at byte {calls}", b"pass out", ONE_SYN, BATCH, workers, Limits(1, calls))


def length_scenes(workers):
    """Behind a SYN stands the header of a record of one byte more than may be, or of one that isn't there."""
    for length in (262145, 262144):
        capture = ONE_SYN + record(0, 0, b"", captured=length)
        yield Scene(f"a record of {length} bytes", b"pass out", capture, BATCH, workers)


def write_scenes(whole, workers):
    """Five packets, one or two at a time: each output fails at each of its writes, and the lines if a read fails."""
    for batch in (1, 2):
        for output in whole:
            for writes in range(7):
                yield five(f"write {writes} to {output}", workers, batch, source=Limits(28), output=output,
                           sink=Limits(None, writes))
        for reads in range(11):
            for writes in range(7):
                yield five(f"read {reads} and line {writes}", workers, batch, source=Limits(28, reads),
                           sink=Limits(None, writes))


def piece_scenes(workers):
    """A capture of two pieces fails at each of its reads, while batches wait."""
    capture = capture_of(flows(1) * 1600)
    for reads in range(3):
        yield Scene(f"read {reads} of 1600 packets", b"pass out", capture, 300, workers, Limits(None, reads))


def scenes(whole, workers):
    yield from write_scenes(whole, workers)
    yield from piece_scenes(workers)
    if workers not in THOROUGH:
        return
    yield from byte_scenes(whole, workers)
    yield from full_scenes(whole, workers)
    yield from cut_scenes(workers)
    yield from read_scenes(workers)
    yield from length_scenes(workers)


# Runs to which each allocation is refused

def refused_scenes():
    yield connection("a connection", 0)
    yield connection("a connection", 2)
    yield Scene("two ports for three flows", TWO_PORTS, capture_of(flows(3)), 3, 2)
    yield Scene("seven flows", b"pass out", capture_of(flows(7)), 4, 0)
