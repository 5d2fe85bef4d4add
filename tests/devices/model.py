"""A model of runs over devices that fail.

One thread reads the capture, and writes its header, then for each batch the messages that it closes, its lines and its
packets, and at the end the message that is open, the counters and the states. A call that fails ends the run there.
What was written before is there, and committed is what the whole batches before it have. Workers change nothing.
"""

from functools import lru_cache
from typing import NamedTuple

from captures.merging import source_of
from captures.model import Refused
from devices.scene import OUTPUTS, Left
from runs import model

HEADER = 24
# the bytes that are read at once at most
PIECE = 1 << 16


class Write(NamedTuple):
    """Bytes that are written to an output, with how many packets are committed if that fails."""
    output: str
    octets: bytes
    committed: int


@lru_cache(maxsize=256)
def online(case, count):
    """What stands in the files after some packets, while the run goes on."""
    return model.online(case, count)


@lru_cache(maxsize=16)
def outcome_of(case):
    return model.run(case)


def texts_of(files):
    """The bytes of files by the names of their outputs."""
    return {name: getattr(files, name) for name in OUTPUTS}


def behind(name, files, before, committed):
    """The write of what an output has behind what it had before, if that is something."""
    octets = texts_of(files)[name][len(texts_of(before)[name]):]
    return [Write(name, octets, committed)] if octets else []


def writes_of(case, batch, count):
    """The writes of some packets in their order, behind that of the header."""
    writes = [Write("packets", case.capture[:HEADER], 0)]
    for first in range(0, count, batch):
        before, files = online(case, first), online(case, min(first + batch, count))
        for name in ("messages", "verdicts", "packets"):
            writes += behind(name, files, before, first)
    return writes


def all_writes(case, batch, whole):
    """All writes of a run that goes to its end."""
    count = len(model.done_of(case).replay.steps)
    writes, before = writes_of(case, batch, count), online(case, count)
    for name in ("messages", "counters", "states"):
        writes += behind(name, whole, before, count)
    return writes


def said_of(outcome):
    """How the program says that a run ended, in the words of the library, which name the place of the capture."""
    said = (outcome.out or outcome.err.removeprefix(b"pfreplay: ")).decode().rstrip("\n")
    if not said.startswith("capture: "):
        return said
    return f"capture 0: {said.removeprefix('capture: ')}" + ("" if ", committed " in said else ", committed 0")


def left_at(case, committed, end):
    """What is left of a run that ends behind some packets."""
    return Left(end, *texts_of(online(case, committed)).values())


def read_before(scene):
    """The bytes of a capture that are read before a read fails, and None if none does. The last read finds the end."""
    most = min(scene.source.most or PIECE, PIECE)
    if scene.source.calls is None or scene.source.calls > -(-len(scene.capture) // most):
        return None
    return scene.capture[:scene.source.calls * most]


def read_failed(scene, read):
    """What is left if a read fails behind these bytes. The packets among them are written first."""
    if len(read) < HEADER:
        return Left("read failed: capture 0, committed 0")
    case, committed = scene.case(), len(source_of(read).records)
    end = f"read failed: capture 0, committed {committed}"
    return write_failed(scene, writes_of(case, scene.batch, committed)) or left_at(case, committed, end)


def moved_by(octets, limits, calls):
    """How many bytes a write moves if one fails behind `calls` calls, None for none. And how many calls it takes, None
    if it fails."""
    if limits.most == 0:
        return 0, None
    most = limits.most or len(octets)
    needed = -(-len(octets) // most)
    if calls is not None and calls < needed:
        return calls * most, None
    return len(octets), needed


def write_failed(scene, writes):
    """What is left if a write fails, and None if none does."""
    texts, calls = dict.fromkeys(OUTPUTS, b""), scene.sink.calls
    for output, octets, committed in writes:
        moved, needed = len(octets), 0
        if output == scene.output:
            moved, needed = moved_by(octets, scene.sink, calls)
        texts[output] += octets[:moved]
        if needed is None:
            return Left(f"write failed: {output}, committed {committed}", *texts.values())
        calls = None if calls is None else calls - needed
    return None


def expected(scene):
    """What a run leaves."""
    case = scene.case()
    outcome = outcome_of(case)
    whole = Left(said_of(outcome), *(getattr(outcome.files, name) or b"" for name in OUTPUTS))
    try:
        model.done_of(case)
    except Refused:
        return whole
    read = read_before(scene)
    if read is not None:
        return read_failed(scene, read)
    return write_failed(scene, all_writes(case, scene.batch, outcome.files)) or whole
