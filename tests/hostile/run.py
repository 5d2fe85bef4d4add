#!/usr/bin/env python3
"""Gives the program inputs of an enemy, and prints how it ended.

    run.py N [SEED] [--program FILE] [--beside]

N inputs are drawn by SEED. Of each kind it prints how many there were, how many the program refused, and the longest
time and the greatest peak of memory, each with the number of its input. It exits with 1 if a run ends otherwise than
it may, and shows the first ones. With --only it gives one input alone, whose files it leaves in the folder `kept`.
With --beside other work runs beside: the seconds are then the processor's.
"""

import argparse
import sys
import tempfile
from collections import Counter
from concurrent.futures import ProcessPoolExecutor
from os import cpu_count
from pathlib import Path

sys.dont_write_bytecode = True
# Python looks for modules beside the command, and the packages stand one folder above
sys.path[0] = str(Path(__file__).resolve().parent.parent)

import building
from hostile.cases import drawn
from hostile.trial import REFUSED, SECONDS, Trial, limit_files

# inputs of one process at a time
BLOCK = 200
MOST_SHOWN = 10


class Found:
    """What came of inputs, by their kinds."""

    def __init__(self):
        self.counts, self.refused = Counter(), Counter()
        # the greatest of each kind, with the number of its input
        self.seconds, self.megabytes = {}, {}
        self.wrong = []

    def add(self, number, kind, ended, faults):
        self.counts[kind] += 1
        self.refused[kind] += ended.status == REFUSED
        self.seconds[kind] = max(self.seconds.get(kind, (0, 0)), (ended.seconds, number))
        self.megabytes[kind] = max(self.megabytes.get(kind, (0, 0)), (ended.megabytes, number))
        self.wrong += [(number, kind, fault) for fault in faults]

    def join(self, other):
        self.counts += other.counts
        self.refused += other.refused
        for mine, others in ((self.seconds, other.seconds), (self.megabytes, other.megabytes)):
            for kind, greatest in others.items():
                mine[kind] = max(mine.get(kind, (0, 0)), greatest)
        self.wrong += other.wrong

    def show(self):
        for kind in sorted(self.counts):
            seconds, slowest = self.seconds[kind]
            megabytes, largest = self.megabytes[kind]
            print(f"{kind}: {self.counts[kind]} inputs, {self.refused[kind]} refused, at most {seconds:.2f} s (input "
                  f"{slowest}) and {megabytes:.0f} MB (input {largest})")
        for number, kind, fault in self.wrong[:MOST_SHOWN]:
            print(f"input {number}, {kind}: {fault}")
        print(f"{sum(self.counts.values())} inputs, {len(self.wrong)} not as they may end")


def block(asked):
    """What comes of the inputs of one block."""
    program, seed, first, end, seconds, is_beside = asked
    found = Found()
    limit_files()
    with tempfile.TemporaryDirectory(dir=shared_memory()) as folder:
        trial = Trial(program, folder, seconds, is_beside)
        for number in range(first, end):
            given = drawn(f"{seed} {number}")
            ended = trial.run(given)
            found.add(number, given.kind, ended, trial.faults(given, ended))
    return found


def shared_memory():
    """A folder in memory, if there is one."""
    folder = Path("/dev/shm")
    return folder if folder.is_dir() else None


def one(program, seed, number):
    """Gives one input, and leaves its files."""
    given, folder = drawn(f"{seed} {number}"), Path("kept").resolve()
    folder.mkdir(exist_ok=True)
    trial = Trial(program, folder)
    ended = trial.run(given)
    print(f"{given.kind}: {' '.join(given.words)}\n{ended}\n{list(trial.faults(given, ended))}")


def compare(program, count, seed=0, seconds=SECONDS, is_beside=False):
    """What comes of inputs that are drawn by a seed, each of which may take `seconds`, maybe beside other work."""
    found = Found()
    blocks = [(program, seed, first, min(count, first + BLOCK), seconds, is_beside) for first in range(0, count, BLOCK)]
    with ProcessPoolExecutor(cpu_count()) as pool:
        for part in pool.map(block, blocks):
            found.join(part)
    return found


def main():
    parser = argparse.ArgumentParser(description="Gives the program inputs of an enemy.")
    parser.add_argument("count", type=int, metavar="N", help="how many inputs")
    parser.add_argument("seed", type=int, nargs="?", default=0, metavar="SEED")
    parser.add_argument("--only", type=int, metavar="NUMBER", help="this input alone")
    parser.add_argument("--program", type=Path, metavar="FILE", help="the built program")
    parser.add_argument("--beside", action="store_true", help="other work runs beside")
    words = parser.parse_args()
    program = words.program.resolve() if words.program else building.pfreplay()
    if words.only is not None:
        return one(program, words.seed, words.only)
    found = compare(program, words.count, words.seed, is_beside=words.beside)
    found.show()
    return sys.exit(bool(found.wrong))


if __name__ == "__main__":
    main()
