"""Runs pfreplay on random cases with workers and batches of several sizes, and compares each run with the one without
workers: all outputs, what is printed and the status.

Each choice of workers and a size comes up once among as many cases as there are choices. Each case is run with one
choice, some times on all cores and once on one core. Of the first run that differs the files stay, with its command
line.

Behind them come runs that a device ends or delays (`endings`).
"""

import os
import random
import shlex
import sys
import tempfile
from collections import Counter
from concurrent.futures import ProcessPoolExecutor
from contextlib import contextmanager
from itertools import product
from pathlib import Path
from typing import NamedTuple

import building
from runs.case import Case
from runs.comparison import Comparison, named_texts, shown
from runs.model import Outcome, job_of_case
from steps.replay import replay_all
from workers import endings
from workers.cases import SEED, case_at
from workers.choices import Choice, run_of

# where no other number is told
CASES = 126
WORKERS, BATCHES = (0, 1, 2, 4, 8, 64), (1, 2, 3, 7, 64, 256, 4096)
CHOICES = tuple(Choice(*pair) for pair in product(WORKERS, BATCHES))
# what each run is compared with
REFERENCE = Choice(0, 256)
# how often a choice runs on all cores
RUNS = 3
# the cases in which each thing has to come up once at least
COMING_UP = 20
GONE, NO_ROOM = "states that are gone", "visits to a rule without room"
COUNTED = ("rule", "state", "state-error", "state-mismatch", "state-insert", "state-limit", "nat-exhausted", GONE, NO_ROOM)
# bytes of the longest capture for which the model is asked how many visits these are
MODELLED = 500_000


class Difference(NamedTuple):
    """A run that differs from the one without workers: the core that it had alone, or None."""
    number: int
    case: Case
    choice: Choice
    core: int | None
    expected: Outcome
    seen: Outcome | None


class Compared(NamedTuple):
    """What came of a case: its runs, how many differ, the first of these, and how often each thing comes up."""
    runs: int
    wrong: int
    first: Difference | None
    counts: Counter


# One case

def choice_of(number):
    """The workers and the size of batches with which a case runs: all choices in some order, and again in another."""
    turn, place = divmod(number, len(CHOICES))
    return random.Random(f"{SEED} {turn}").sample(CHOICES, len(CHOICES))[place]


@contextmanager
def running_on(core):
    """Programs that are started meanwhile run on one core, or on all where it is None."""
    every = os.sched_getaffinity(0)
    os.sched_setaffinity(0, every if core is None else {core})
    try:
        yield
    finally:
        os.sched_setaffinity(0, every)


def counts_of(expected):
    """How many packets come to each reason, and how many states that were made are gone at the end."""
    lines = [line.split() for line in (expected.files.verdicts or b"").decode().splitlines()]
    made = sum(f"s={line[0]}" in line for line in lines)
    left = (expected.files.states or b"").count(b"\n")
    # there is no list of those that are left where the capture has a fault
    gone = made - left if expected.status in (0, 2) else 0
    return Counter({**Counter(line[4] for line in lines), GONE: gone})


def visits_without_room(case):
    """How many packets visit rules that would hold and have no room, by the model. Of a long run none is counted."""
    if sum(map(len, case.captures())) > MODELLED:
        return 0
    return sum(step.outcome.lacks_room() for step in replay_all(job_of_case(case), case.captures()).steps)


def compared(program, number):
    """Runs a case as often as it is to be."""
    case, choice = case_at(number), choice_of(number)
    cores = sorted(os.sched_getaffinity(0))
    with tempfile.TemporaryDirectory() as folder:
        comparison = Comparison(program, Path(folder))
        expected = run_of(comparison, case, REFERENCE)
        if expected is None:
            raise SystemExit(f"case {number} takes too long without workers")
        found = []
        for core in (*[None] * RUNS, cores[number % len(cores)]):
            with running_on(core):
                seen = run_of(comparison, case, choice)
            found += [Difference(number, case, choice, core, expected, seen)] if seen != expected else []
    counts = counts_of(expected) + Counter({NO_ROOM: visits_without_room(case)})
    return Compared(RUNS + 1, len(found), found[0] if found else None, counts)


# All cases

def keep(difference, program):
    """Writes a case and both outcomes into a folder that stays; the command lines that run it again."""
    folder = Path(tempfile.mkdtemp(prefix="workers-"))
    for name, outcome in (("expected", difference.expected), ("seen", difference.seen)):
        (folder / name).mkdir()
        for output, text in named_texts(outcome.files) if outcome else ():
            if text is not None:
                (folder / name / output).write_bytes(text)
    comparison = Comparison(program, folder)
    comparison.prepare(difference.case)
    alone = [] if difference.core is None else ["taskset", "-c", difference.core]
    for choice, before in ((REFERENCE, []), (difference.choice, alone)):
        words = [*before, program, *comparison.command(difference.case), *choice.words()]
        yield shlex.join(map(str, words))


def show(difference, program):
    """Shows a run that differs, and how to run it again."""
    choice, expected, seen = difference.choice, difference.expected, difference.seen
    place = "all cores" if difference.core is None else "one core"
    parts = [name for name, text in expected.parts().items() if seen and seen.parts()[name] != text]
    print(f"case {difference.number}, {difference.case.name}: {choice}, on {place}: "
          f"{', '.join(parts)}\n  without workers {shown(expected)}\n  with them       {shown(seen)}")
    print("its files stay, as do both outcomes; the run without workers and the one with them:",
          *keep(difference, program), f"or: tests/workers/run.py 1 --first {difference.number}", sep="\n  ")


def tell(results):
    """Tells how often each thing came up, and which of them too seldom: how many these are."""
    counts = sum((result.counts for result in results), Counter())
    seldom = [name for name in COUNTED if counts[name] < len(results) // COMING_UP]
    print("packets: " + ", ".join(f"{counts[name]} {name}" for name in sorted({*counts, *COUNTED})))
    print(*(f"  too few: {name}" for name in seldom), sep="\n", end="\n" if seldom else "")
    return len(seldom)


def compare(count, first=0):
    """Compares `count` cases from `first` on: how much is wrong."""
    program = building.pfreplay()
    numbers = range(first, first + count)
    with ProcessPoolExecutor(os.cpu_count()) as pool:
        results = list(pool.map(compared, [program] * count, numbers))
    differing = [result.first for result in results if result.first]
    for difference in differing[:1]:
        show(difference, program)
    wrong, seldom = sum(result.wrong for result in results), tell(results)
    print(f"{count} cases, {len(differing)} differ; {sum(result.runs for result in results)} runs with "
          f"{len(set(map(choice_of, numbers)))} of {len(CHOICES)} choices of workers and batches, {wrong} differ")
    return wrong + seldom


def main():
    sys.exit(bool(compare(CASES) + endings.compare(building.pfreplay())))
