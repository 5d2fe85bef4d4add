"""Many cases by their numbers, in processes beside one another, what is printed of each part of the comparison, and the
command line of those with random questions."""

import argparse
import os
import sys
import tempfile
from collections import Counter
from concurrent.futures import ProcessPoolExecutor
from functools import partial
from pathlib import Path
from typing import NamedTuple

import building
from answering import place_of_difference
from runs.comparison import Comparison
from runs.model import Outcome

# cases that a process takes at once
CHUNK = 5
MOST_SHOWN = 10


class Compared(NamedTuple):
    """How many cases there were, what went wrong in them, and how often each thing came up."""
    count: int
    wrong: list
    counts: Counter


def chunk_of(compare, program, numbers):
    """The cases of some numbers, each of which a function compares: it answers how often each thing comes up."""
    counts = Counter()
    with tempfile.TemporaryDirectory() as folder:
        comparison = Comparison(program, Path(folder))
        for number in numbers:
            counts += compare(comparison, number)
    return Compared(comparison.count, comparison.wrong, counts)


def in_processes(compare, program, count):
    """The first `count` cases."""
    chunks = [range(count)[first:first + CHUNK] for first in range(0, count, CHUNK)]
    with ProcessPoolExecutor(os.cpu_count()) as pool:
        found = list(pool.map(partial(chunk_of, compare, program), chunks))
    return Compared(sum(each.count for each in found), [fault for each in found for fault in each.wrong],
                    sum((each.counts for each in found), Counter()))


# What is told

def shown(outcome, place):
    """An outcome in a line, with the line at a place of what is printed."""
    if not isinstance(outcome, Outcome):
        return "took too long" if outcome is None else repr(outcome)[:400]
    lines = outcome.out.splitlines()
    line = lines[place].decode(errors="replace") if place is not None and place < len(lines) else "no line"
    return f"status {outcome.status}, {outcome.err!r}, {len(lines)} lines" + ("" if place is None else f", {line}")


def show(wrong):
    """Prints the first of what went wrong, with the first lines that differ."""
    for name, expected, seen in wrong[:MOST_SHOWN]:
        place = None
        if isinstance(expected, Outcome) and isinstance(seen, Outcome) and expected.out != seen.out:
            place = place_of_difference(expected.out.splitlines(), seen.out.splitlines())
        print(f"{name}:\n  expected {shown(expected, place)}\n  seen     {shown(seen, place)}")


def told(title, found, names=(), share=1, once=()):
    """Prints how a part of the comparison went. It answers whether something is wrong: also if there is no case, if one
    of these things comes up less than once in `share` cases, or one of `once` never does."""
    print(f"{title}: {found.count} cases, {len(found.wrong)} not as expected", flush=True)
    show(found.wrong)
    seldom = [name for name in names if found.counts[name] < found.count // share]
    if names:
        print("  " + ", ".join(f"{found.counts[name]} {name}" for name in names))
    if seldom:
        print(f"  too few: {', '.join(seldom)}")
    missing = [name for name in once if not found.counts[name]]
    if once:
        print("  " + ", ".join(f"{found.counts[name]} {name}" for name in once))
    if missing:
        print(f"  never seen: {', '.join(missing)}")
    return bool(found.wrong or seldom or missing or not found.count)


def in_parts(program, parts):
    """Whether something goes wrong with each part of the comparison: by its title, the functions that make it up. Each
    part has a folder of its own, and behind it is told how it went."""
    results = []
    for title, functions in parts.items():
        with tempfile.TemporaryDirectory() as folder:
            comparison = Comparison(program, Path(folder))
            for function in functions:
                function(comparison)
        results.append(told(title, Compared(comparison.count, comparison.wrong, {})))
    return results


# Command lines of comparisons

def main_of(command, compare, model_alone, drawn):
    """Runs the comparison of a command with random questions, as the words of the process say: `drawn` of them if they
    give no other number."""
    parser = argparse.ArgumentParser(description=f"Compares the command {command} with the model.")
    parser.add_argument("--program", type=Path, metavar="FILE", help="the built program")
    parser.add_argument("--drawn", type=int, default=drawn, metavar="N", help="how many random questions")
    parser.add_argument("--model", action="store_true", help="compare the models with the answers written by hand")
    words = parser.parse_args()
    if words.model:
        model_alone()
    program = words.program.resolve() if words.program else building.pfreplay()
    sys.exit(any(compare(program, words.drawn)))
