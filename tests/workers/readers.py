"""Runs with workers one of whose outputs is a pipe, of which a reader takes some bytes and goes away.

What it took is a beginning of the whole output. A write that comes later fails, so a run is whole only where the pipe
had room for all that was left. Nothing can be written to a standard stream whose reader went away before the run.
"""

import contextlib
import fcntl
import re
from typing import NamedTuple

from captures.packets import record
from faults import replay
from runs.devices import with_file
from workers.choices import Choice, run_of
from workers.cuts import TOO_LONG
from workers.lawful import WORKERS
from workers.pipes import beside, without_reader

# a pipe with little room, so that the program isn't far ahead of its reader
FEW_BYTES = 4096
RECORD = record(0, 0, b"", captured=TOO_LONG)


class Taken(NamedTuple):
    """What a reader took, and for how many bytes the pipe has room."""
    text: bytes
    room: int


def take(pipe, most):
    """Takes `most` bytes of a pipe, or all if there are fewer, and goes away."""
    with open(pipe, "rb", buffering=0) as file:
        # one with more bytes in it already stays as it is
        with contextlib.suppress(OSError):
            fcntl.fcntl(file, fcntl.F_SETPIPE_SZ, FEW_BYTES)
        room = fcntl.fcntl(file, fcntl.F_GETPIPE_SZ)
        text = b""
        while len(text) < most and (piece := file.read(most - len(text))):
            text += piece
    return Taken(text, room)


def written(known, name, outcome, taken):
    """What was written into the pipe of an output: what its reader took, and at least what the message says."""
    whole = replay.whole_of(known)
    said = re.fullmatch(rb"pfreplay: write failed: %s, committed ([0-9]+)\n" % name.encode(), outcome.err)
    if not said or int(said[1]) not in (0, *whole.boundaries()):
        return taken.text
    before = whole.failing(name, int(said[1]), replay.texts_of(outcome.files))
    return max(taken.text, getattr(before, name), key=len)


def taken_from(comparison, kind, choice, name, most):
    """The outcome of a run, and what a reader of one of its outputs takes, which takes `most` bytes at most."""
    pipe, file = comparison.folder / "pipe", getattr(comparison.files, name)
    comparison.prepare(kind.case)
    words = [*with_file(comparison.command(kind.case, kind.form), file, pipe), *choice.words()]
    return beside(pipe, lambda pipe: take(pipe, most), lambda: comparison.execute(words))


def judge(comparison, known, name, title, outcome, taken):
    """Judges a run whose reader of an output went away. What was written into the pipe stands in for the file."""
    if outcome is None:
        comparison.judge(title, known, replay.WRITES[name], None)
        return
    text = getattr(replay.texts_of(known.clean.files), name)
    # what the pipe has room for is written, though nobody reads it
    is_whole = outcome.status == known.clean.status and len(text) <= len(taken.text) + taken.room
    left = text if is_whole else written(known, name, outcome, taken)
    comparison.judge(title, known, None if is_whole else replay.WRITES[name],
                     outcome._replace(files=outcome.files._replace(**{name: left})))


def readers(comparison, kind, batch):
    """Runs with a reader of each output who goes away."""
    known = comparison.known(kind, batch)
    for name in replay.outputs_of(known.command):
        readers_of(comparison, kind, known, name)


def readers_of(comparison, kind, known, name):
    """Runs with readers of an output that take nothing, a byte, a half, or all."""
    text, batch = getattr(replay.texts_of(known.clean.files), name), replay.batch_of(known.command)
    for most in (0, 1, len(text) // 2, len(text)):
        for choice in (Choice(workers, batch) for workers in WORKERS):
            title = f"{kind.case.name}, {choice}, a reader of the {name} who goes away behind {most} bytes"
            outcome, taken = taken_from(comparison, kind, choice, name, most)
            comparison.expect(f"{title}: what that reader gets", text[:most], taken.text)
            judge(comparison, known, name, title, outcome, taken)


def streams(comparison, kind, batch):
    """Runs whose standard output has no reader, and runs with a fault whose standard error has none."""
    with without_reader() as gone:
        comparison.judge_all(f"{kind.case.name}, no reader of the answer", comparison.known(kind, batch), replay.ANSWER,
                             lambda choice: run_of(comparison, kind.case, choice, kind.form, out=gone))
        case = kind.case._replace(capture=kind.case.capture + RECORD)
        alone = run_of(comparison, case, Choice(0, batch), kind.form)
        for workers in WORKERS:
            comparison.expect(f"{case.name}, {Choice(workers, batch)}, no reader of the message",
                              alone._replace(err=b"") if alone else "an end",
                              run_of(comparison, case, Choice(workers, batch), kind.form, err=gone))
