"""Runs with workers on captures that come through a pipe and pause for a while. Of several captures the last one does.

What has come is written meanwhile: each batch that is whole, whether workers rest, are given up or evaluate ahead. Once
the capture has come to its end the run is as any other.
"""

import contextlib
from typing import NamedTuple

from captures.model import HEADER, RECORD_HEADER, records_of
from faults.replay import Whole, packets_in, records_before, texts_of
from runs.devices import with_file
from workers import kinds
from workers.choices import Choice, run_of
from workers.lawful import WORKERS
from workers.pipes import beside, wait_until

# packets before the pause, 40 batches of 256 and a part of one, and those in all
BEFORE, ALL = 40 * 256 + 100, 43 * 256
KINDS = (kinds.resting, kinds.given_up, kinds.ahead, kinds.uneven, kinds.resting_on_two, kinds.ahead_on_two)
# seconds for which a source pauses at most; other comparisons may run at the same time
PATIENCE = 20


class Source(NamedTuple):
    """A capture that pauses at a byte until files have these lengths, or patience is over."""
    capture: bytes
    place: int
    lengths: dict
    patience: float

    def written(self):
        """The lengths of the files, as far as they are asked."""
        return {file: min(file.stat().st_size, length) if file.exists() else 0 for file, length in self.lengths.items()}

    def feed(self, pipe):
        """Writes the capture into a pipe: the lengths of the files when the pause ended."""
        with contextlib.suppress(BrokenPipeError), open(pipe, "wb") as file:
            file.write(self.capture[:self.place])
            file.flush()
            wait_until(lambda: self.written() == self.lengths, self.patience)
            written = self.written()
            file.write(self.capture[self.place:])
            return written
        return self.written()


def pauses(comparison, make, batch, patience=PATIENCE):
    """Runs of a kind whose source pauses once."""
    kind = make(ALL)
    expected = run_of(comparison, kind.case, Choice(0, batch), kind.form)
    if expected is None:
        raise SystemExit(f"{kind.case.name}: it takes too long without workers")
    captures, names = kind.case.captures(), [name for name, _ in kind.case.interfaces()]
    place = place_of(captures[-1], BEFORE // len(captures))
    come = records_before(captures, len(captures) - 1, captures[-1][:place])
    # of the messages nothing is asked
    texts = texts_of(expected.files.in_order(), len(kind.case.also))
    least = Whole(texts, [0] * (ALL + 1), batch, names).online(come // batch * batch)
    for workers in WORKERS:
        paused(comparison, kind, Choice(workers, batch), place, least, expected, patience)


def place_of(capture, count):
    """Where the first `count` records of a capture end."""
    records, _ = records_of(capture, "<")
    return HEADER + sum(RECORD_HEADER + len(given.frame) for given in records[:count])


def paused(comparison, kind, choice, place, least, expected, patience):
    """A run whose source pauses at a place until at least so much is written."""
    comparison.prepare(kind.case)
    files, pipe = comparison.files, comparison.folder / "pipe"
    paused_file = [comparison.capture, *comparison.other_captures][len(kind.case.also)]
    outputs = [files.verdicts, *packets_in(files)]
    lengths = dict(zip(outputs, map(len, [least.verdicts, *packets_in(least)])))
    source = Source(kind.case.captures()[-1], place, lengths, patience)
    words = [*with_file(comparison.command(kind.case, kind.form), paused_file, pipe), *choice.words()]
    seen, written = beside(pipe, source.feed, lambda: comparison.execute(words))
    name = f"{kind.case.name}, {choice}, a capture that pauses"
    comparison.expect(f"{name}: bytes written meanwhile", lengths, written)
    comparison.expect(name, expected, seen)
