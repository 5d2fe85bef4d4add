"""Compares runs of the program whose calls return in an order that is given with what the model says of that order.

Of small shapes all orders are run that the machine allows. Three batches of two packets have too many with two workers: an
order is run for each choice of tables that the packets may see, and some orders are drawn. Larger shapes have random
orders. What a run hands on and leaves has to be the same in every order. Which packets the committer evaluates itself has
to be what the order allows. That is a choice only where a table is published while a packet is evaluated, or where it
can't be told whether it is.

    python3 -Bc "from schedules import compare; compare.all_with_each_row()"
    python3 -Bc "from schedules import compare; compare.every_order(2, 2, 2, workers=2)"

in the folder `tests` run each order with each row of packets, and all orders of any shape with the rows in turn.
"""

import os
import random
import sys
from collections import Counter
from concurrent.futures import ThreadPoolExecutor
from itertools import chain, cycle, islice

import building
from answering import answers_of, differing, place_of_difference, show_lines
from schedules import cases
from schedules.machine import (Shape, all_orders, count_behind, evenly_drawn_order, orders_by_tables, seen_tables,
                               unevenly_drawn_order)
from schedules.model import Script, expected_of, known_of
from schedules.rows import ROWS, SEED, random_runs

# all orders of these are run with each row
SMALL = (Shape((1, 1, 1), 2), Shape((2, 2), 2))
# and of these with the rows in turn
MIDDLE = (Shape((2, 2, 2), 1), Shape((1, 1, 1, 1), 2))
# one order of these for each choice of tables, with each row, and with the rows in turn
CHOSEN, MANY_CHOSEN = Shape((2, 2, 2), 2), Shape((2, 2, 2, 2), 2)
LARGE = Shape((4,) * 6, 3)
# how many orders are drawn of the one, and of the large shape
DRAWN, RANDOM = 2000, 2000
# how many random orders a random run has, and how many runs of rows come behind it
ORDERS_OF_RUN, ROWS_BETWEEN = 10, 4
# the most orders that a shape may have for all to be counted one by one
COUNTED = 10_000
# one in so many of the scripts is run that aren't written out, and all of them with `--all`. No number of rows has a factor
# in common with it, so each row is run
PART = 25
# a program mostly waits, so several run beside one another; `CHUNK` scripts in all are handed to them at once
PROCESSES, CHUNK = 2 * (os.cpu_count() or 1), 6000


# Scripts

def known_rows(shape):
    return [known_of(row.run(len(shape.packets())), shape) for row in ROWS]


def in_turn(shape, orders):
    """Scripts of some orders, with the rows in turn."""
    return (Script(known, order) for known, order in zip(cycle(known_rows(shape)), orders))


def with_each_row(shape, orders):
    """Scripts of some orders, each with each row."""
    rows = known_rows(shape)
    return (Script(known, order) for order in orders for known in rows)


def drawn_scripts(shape, count):
    """Scripts of drawn orders, each as likely as any other, with the rows in turn."""
    draw = random.Random(SEED)
    return in_turn(shape, (evenly_drawn_order(draw, shape) for _ in range(count)))


def known_runs(shape):
    """Random runs, each some times, and rows between them."""
    rows = cycle(known_rows(shape))
    for run in random_runs(len(shape.packets())):
        yield from [known_of(run, shape)] * ORDERS_OF_RUN
        yield from islice(rows, ROWS_BETWEEN)


def random_scripts(shape, count):
    """Scripts of random orders."""
    draw = random.Random(SEED)
    return (Script(known, unevenly_drawn_order(draw, shape)) for known in islice(known_runs(shape), count))


# Comparisons

def script_bytes(script):
    return "".join(f"{line}\n" for line in script.lines()).encode()


def answers(command, scripts):
    """The program's lines for each script."""
    records = list(map(script_bytes, scripts))
    size = -(-len(records) // PROCESSES) or 1
    parts = [records[start:start + size] for start in range(0, len(records), size)]
    with ThreadPoolExecutor(PROCESSES) as pool:
        return list(chain(*pool.map(lambda part: answers_of(command, part), parts)))


def show(script, expected, seen):
    """Shows the first line that differs, and the order of the calls."""
    known, place = script.known, place_of_difference(expected, seen)
    print(f"{known.run.name}, {known.shape.name()}, line {place + 1}\n{known.run.rules}\n  "
          f"{' '.join(step.words() for step in script.order)}")
    show_lines(place, expected, seen)


def compared(command, scripts):
    """What some scripts may come to, each with the answer that is expected and the one that is seen."""
    for script, seen in zip(scripts, answers(command, scripts)):
        expected = expected_of(script)
        yield expected, expected.lines_beside(seen), seen


def compare(command, title, scripts):
    """How many scripts are answered otherwise than they may be, and whether none is on several interfaces. Behind some that
    differ no more are run."""
    scripts, counts, wrong = iter(scripts), Counter(), 0
    while not wrong and (chunk := list(islice(scripts, CHUNK))):
        found = list(compared(command, chunk))
        for expected, *_ in found:
            counts.update(all=1, exact=expected.is_exact(), tell=expected.tells_older,
                          placed=any(expected.script.known.run.places))
        wrong = differing(((expected.script, lines, seen) for expected, lines, seen in found), show)
    print(f"{title}: {counts['all']} scripts, {counts['placed']} on several interfaces; {counts['exact']} leave no choice, "
          f"and {counts['tell']} tell whether a worker looks at an older table; {wrong} differ")
    return wrong + (counts["placed"] == 0)


def wrong_counts():
    """How many counts of orders and of choices are others than those that are written out."""
    wrong = 0
    for shape, (orders, choices) in cases.COUNTS.items():
        found = (count_behind(shape), len(orders_by_tables(shape)))
        if orders <= COUNTED:
            listed = list(all_orders(shape))
            found = (len(set(listed)), len({seen_tables(shape, order) for order in listed}))
        if found != (orders, choices):
            print(f"{shape.name()}: {found} and not {orders, choices}")
            wrong += 1
    return wrong


def wrong_written():
    """How many scripts that are written out differ from the model."""
    wrong = 0
    for script, verdicts, surely, maybe in cases.rows():
        expected = expected_of(script)
        seen = [line for line in script.known.pieces if line[0].isdecimal()]
        if (seen, expected.surely, expected.maybe) != (verdicts, surely, maybe):
            print(f"{script.known.run.name}: {' '.join(step.words() for step in script.order)}: "
                  f"{set(expected.surely)} and {set(expected.maybe)} and not {surely} and {maybe}", *seen, sep="\n  ")
            wrong += 1
    return wrong


def compare_model():
    """How much that is written out differs from the model."""
    wrong = wrong_counts() + wrong_written()
    print(f"orders of {len(cases.COUNTS)} shapes, and {len(list(cases.rows()))} scripts that are written out: "
          f"{wrong} differ from the model")
    return wrong


def model_alone():
    sys.exit(bool(compare_model()))


def comparisons():
    """What is compared beside what is written out, each with a title."""
    for shape in SMALL:
        yield f"{shape.name()}, all orders with each row", with_each_row(shape, all_orders(shape))
    for shape in MIDDLE:
        yield f"{shape.name()}, all orders", in_turn(shape, all_orders(shape))
    yield f"{CHOSEN.name()}, all choices of tables with each row", with_each_row(CHOSEN, orders_by_tables(CHOSEN))
    yield f"{MANY_CHOSEN.name()}, all choices of tables", in_turn(MANY_CHOSEN, orders_by_tables(MANY_CHOSEN))
    yield f"{CHOSEN.name()}, drawn orders", drawn_scripts(CHOSEN, DRAWN)
    yield f"{LARGE.name()}, random orders", random_scripts(LARGE, RANDOM)


def comparisons_with_each_row():
    for shape in (*SMALL, *MIDDLE):
        yield f"{shape.name()}, all orders with each row", with_each_row(shape, all_orders(shape))
    for shape in (CHOSEN, MANY_CHOSEN):
        yield f"{shape.name()}, all choices of tables with each row", with_each_row(shape, orders_by_tables(shape))


def is_one_wrong(compared, part=1):
    """Whether one of these differs, of whose scripts one in `part` is run; those behind it aren't run."""
    command = building.run_answers("schedules")
    return any(compare(command, title, islice(scripts, 0, None, part)) for title, scripts in compared)


def all_with_each_row():
    """Compares each order of which not only some are drawn with each row."""
    sys.exit(is_one_wrong(comparisons_with_each_row()))


def every_order(*batches, workers):
    """Compares all orders of batches of these numbers of packets, with `workers` workers and the rows in turn."""
    shape = Shape(batches, workers)
    sys.exit(is_one_wrong([(f"{shape.name()}, all orders", in_turn(shape, all_orders(shape)))]))


def main(part=PART):
    written = [("written out", (script for script, *_ in cases.rows()))]
    sys.exit(bool(compare_model()) or is_one_wrong(written) or is_one_wrong(comparisons(), part))
