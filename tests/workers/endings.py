"""Runs with workers that a device ends or delays: full disks, readers that go away, captures that are cut or pause.

Each is run with several numbers of workers and sizes of batches. No run may take longer than a minute.
"""

import os
import tempfile
import time
from collections import Counter
from concurrent.futures import ProcessPoolExecutor
from itertools import repeat
from pathlib import Path
from typing import Callable, NamedTuple

from runs.comparison import Comparison
from runs.model import OUTPUTS
from workers import cuts, disks, kinds, pauses, planted, readers
from workers.lawful import BATCHES, Judging

MOST_SHOWN = 10
# the endings that are judged, and how often each one has to come up
ENDINGS = ("whole", *(f"{name} failed" for name in (*OUTPUTS, "answer")))
LEAST = 10


class Part(NamedTuple):
    """A part of the runs: a function that takes a comparison, and what it takes besides."""
    function: Callable
    words: tuple


class Result(NamedTuple):
    """What came of a part: how much was compared, what went wrong, and how often each ending was judged."""
    count: int
    wrong: list
    endings: Counter


def parts(has_disks):
    """All of them."""
    mixed = kinds.mixed_kind(kinds.SOME)
    for batch in BATCHES:
        yield Part(readers.readers, (mixed, batch))
        yield Part(readers.streams, (mixed, batch))
        yield Part(disks.answer_at_limit, (mixed, batch))
        yield from (Part(disks.files_at_limit, (kind, batch)) for kind in kinds.longest_kinds())
        yield from (Part(pauses.pauses, (kind, batch)) for kind in pauses.KINDS)
        if has_disks:
            yield Part(disks.small_disks, (mixed, batch))
    yield from (Part(cuts.cut_records, (count,)) for count in cuts.COUNTS)
    yield Part(cuts.cut_headers, ())
    yield from (Part(planted.find, pair) for pair in planted.pairs())


def result_of(program, part):
    with tempfile.TemporaryDirectory() as folder:
        comparison = Judging(program, Path(folder))
        part.function(comparison, *part.words)
        return Result(comparison.count, comparison.wrong, comparison.endings)


def compare(program):
    """Does all parts: how much is wrong."""
    start, endings = time.monotonic(), Counter()
    with tempfile.TemporaryDirectory() as folder, ProcessPoolExecutor(os.cpu_count()) as pool:
        comparison, has_disks = Comparison(program, Path(folder)), disks.are_mounted(Path(folder))
        for result in pool.map(result_of, repeat(program), parts(has_disks)):
            comparison.add(result.count, result.wrong)
            endings += result.endings
    comparison.expect(f"what ends fewer than {LEAST} runs", [], [name for name in ENDINGS if endings[name] < LEAST])
    comparison.show(MOST_SHOWN)
    print("ends of runs: " + ", ".join(f"{endings[name]} {name}" for name in ENDINGS))
    if not has_disks:
        print("left out: small disks, as none may be mounted here")
    print(f"{comparison.count} comparisons of ends in {time.monotonic() - start:.0f} seconds, {len(comparison.wrong)} "
          "not as expected")
    return len(comparison.wrong)
