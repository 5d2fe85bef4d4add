#!/usr/bin/env python3
"""Runs pfreplay on many random cases of several captures, with batches and workers that are drawn too, and compares
each run with the model. With `--settings` they are those of setting_cases.py. It is no part of the tests.

    many.py N [SEED] [--settings] [--program FILE]
"""

import argparse
import random
import sys
import tempfile
from concurrent.futures import ProcessPoolExecutor
from os import cpu_count
from pathlib import Path

sys.path.append(str(Path(__file__).resolve().parent.parent))
sys.dont_write_bytecode = True

import building
from runs import model, setting_cases
from runs.comparison import Comparison
from runs.random_cases import placed_cases

BATCHES, WORKERS = (1, 2, 256), (0, 1, 4, 8)
# cases of one process
BLOCK = 50


def block(asked):
    """How many cases of one block were run, how many of them ended other than well, and what went wrong."""
    program, cases, seed, count = asked
    draw = random.Random(seed)
    with tempfile.TemporaryDirectory() as folder:
        comparison, ended = Comparison(program, Path(folder)), 0
        for case in cases(seed, count):
            batch, workers = draw.choice(BATCHES), draw.choice(WORKERS)
            comparison.prepare(case)
            expected = model.run(case)
            ended += expected.status != 0
            seen = comparison.execute([*comparison.command(case), "--batch", batch, "--workers", workers])
            comparison.expect(f"seed {seed}, {case.name}, batch {batch}, {workers} workers", expected, seen)
        return comparison.count, ended, comparison.wrong


def main():
    parser = argparse.ArgumentParser(description="Compares random runs of several captures with the model.")
    parser.add_argument("cases", type=int, metavar="N")
    parser.add_argument("seed", type=int, nargs="?", default=0)
    parser.add_argument("--settings", action="store_true", help="draw runs with settings, of one to three captures")
    parser.add_argument("--program", type=Path, metavar="FILE", help="the built program")
    words = parser.parse_args()
    program = words.program.resolve() if words.program else building.pfreplay()
    cases = setting_cases.cases if words.settings else placed_cases
    blocks = [(program, cases, words.seed + number, BLOCK) for number in range(-(-words.cases // BLOCK))]
    total, ended = 0, 0
    with tempfile.TemporaryDirectory() as folder, ProcessPoolExecutor(cpu_count()) as pool:
        comparison = Comparison(program, Path(folder))
        for count, others, wrong in pool.map(block, blocks):
            total, ended = total + count, ended + others
            comparison.add(count, wrong)
    comparison.show(3)
    print(f"{total} runs, {ended} of them cut or refused, {len(comparison.wrong)} not as expected")
    sys.exit(bool(comparison.wrong))


if __name__ == "__main__":
    main()
