"""Compares the program that calls a table of states with its model, and refuses it each allocation in turn.

Compared are the answers to lists that are written by hand, to random lists of calls, to lists of some kinds, and to the
list for which memory is refused. Where it is, a change that isn't taken leaves every answer as it was, and is taken when
it is asked again. The model has to give the answers written by hand too.
"""

import subprocess
import sys
from collections import Counter
from itertools import chain, islice

import building
from answering import least_of
from faults.command import ends_lawfully
from table import reach
from table.kinds import all_kinds
from table.cases import random_lists, refusals
from table.model import Table, answer
from table.rows import rows
from table.sharing import sharing_lists

LISTS = 24
CALLS = 2500
# one in so many of the lists is compared that aren't written by hand, and all of them with `--all`; and of the allocations
# one in so many is refused, which goes through a long list each time
PART, REFUSED_PART = 5, 21
# the calls that are told, with their answers
CALLS_TOLD = (("make", "done"), ("make", "key taken"), ("make", "full"), ("touch", "done"), ("touch", "key taken"),
              ("settle", "done"), ("purge", "done"), ("rule_room", "yes"), ("rule_room", "no"))
# how often at least all lists together come upon what has a name
DEMANDED = {reach.SEVERAL: 6000, reach.LEAST_DUE: 1500, reach.ALL_DUE: 800, reach.GREATER_DUE: 1500, reach.BESIDE: 1200,
            reach.ELSEWHERE: 2500, reach.BOUND_BY_BOUND: 2000, reach.BOUND_BY_FLOATING: 300, reach.FLOATING_BY_BOUND: 500,
            reach.FLOATING_BY_FLOATING: 2000, reach.MADE_BESIDE: 1200, reach.TOUCHED_BESIDE: 1500, reach.MOVED_BESIDE: 120,
            reach.NOT_MOVED: 200, reach.MADE_AGAIN: 60, reach.LEAST_REMOVED: 300, reach.LEAST_PURGED: 250}
# for one list, so that a program without an end is told
TIME_LIMIT = 60
# how many lists that differ are shown
SHOWN = 5


def text_of(lines):
    return "".join(f"{line}\n" for line in lines).encode()


def difference(lines, expected, seen):
    """The first call that is answered otherwise, in words; None where there is none."""
    seen = iter(seen)
    for place, (call, answers) in enumerate(zip(lines[1:], expected), 2):
        for line in answers:
            other = next(seen, "no line")
            if line != other:
                return f"line {place}, {call}\n    expected {line}\n    seen     {other}"
    return next((f"a line too many: {line}" for line in seen), None)


def differing(command, lines, expected):
    """What differs in the answers of the program to a list, in words; None where nothing does."""
    try:
        done = subprocess.run(command, input=text_of(lines), stdout=subprocess.PIPE, timeout=TIME_LIMIT, check=False)
    except subprocess.TimeoutExpired:
        return f"no answer in {TIME_LIMIT} seconds"
    differs = difference(lines, expected, done.stdout.decode().splitlines())
    return f"status {done.returncode}; {differs}" if done.returncode else differs


def named_lists():
    """All lists that the model answers, each with the name of its kind, but for those of refusals."""
    for writer in random_lists(LISTS, CALLS):
        yield "random", writer
    yield from all_kinds()
    yield from sharing_lists()


def answers_of_model(lines):
    """The lines by which the model answers the calls of a list."""
    table = Table(int(lines[0]))
    return [line for call in lines[1:] for line in answer(table, call)]


def compare_rows(who, differ):
    """How many lists that are written by hand are answered otherwise; what differs in each, `differ` says in words."""
    found = [(row, differ(row)) for row in rows()]
    wrong = [f"{row.name}: {differs}" for row, differs in found if differs]
    print(f"{len(found)} lists written by hand: {len(wrong)} differ from the {who}", *wrong[:SHOWN], sep="\n  ")
    return len(wrong)


def compare_model():
    return compare_rows("model", lambda row: difference(row.lines, row.answers, answers_of_model(row.lines)))


def compare_program(command):
    return compare_rows("program", lambda row: differing(command, row.lines, row.answers))


def compare_reach(counts, part):
    """How much comes up less often than demanded, with one in `part` of the lists."""
    print("\n".join(reach.told(counts, names) for names in (reach.OF_LOOK_UPS, reach.OF_CHANGES)))
    seldom = reach.seldom(counts, {name: least_of(part, count) for name, count in DEMANDED.items()})
    print(*(f"too seldom: {words}" for words in seldom), sep="\n", end="\n" if seldom else "")
    return len(seldom)


def compare(command, part):
    """How many of the lists differ, and how much they reach too seldom, with one in `part` of them."""
    count = 0
    kinds, calls, reached = Counter(), Counter(), Counter()
    lists = chain([("of refusals", refusals())], islice(named_lists(), 0, None, part))
    for place, (kind, writer) in enumerate(lists):
        lines, expected = writer.lines, writer.answers
        differs = differing(command, lines, expected)
        kinds[kind] += 1
        calls.update((call.split()[0], answers[0]) for call, answers in zip(lines[1:], expected))
        reached.update(writer.reached)
        if differs:
            count += 1
            if count <= SHOWN:
                print(f"list {place}, {kind}, limit {lines[0]}: {differs}")
    changes = ", ".join(f"{calls[call]} {' '.join(call)}" for call in CALLS_TOLD)
    print(f"{kinds.total()} lists of calls to the table: {count} differ; of {calls.total()} calls {changes}")
    print(", ".join(f"{number} {kind}" for kind, number in kinds.items()))
    return count + compare_reach(reached, part)


def model_alone():
    sys.exit(bool(compare_model()))


def main(part=PART):
    command = building.answers("table")
    wrong = compare_model() + compare_program(command) + compare(command, part)
    step = 1 if part == 1 else REFUSED_PART
    sys.exit(not ends_lawfully("table", command, text_of(refusals().lines), step) or bool(wrong))
