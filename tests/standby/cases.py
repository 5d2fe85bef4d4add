"""Random runs of the program whose messages a standby takes, in captures of every form. They are the same every time.

Of most runs much is to be told: many states at once, short timeouts, translation, ICMP and other protocols, states of
several interfaces, and rules with `no-sync`. A few captures end inside a record, or with one that is too long.
"""

import random

from runs.random_cases import placed_case, some_capture
from runs.rows import case_of
from workers.cases import full_run, is_fit, moving_run, placed_run, plain_run, telling_run, translated_run

SEED = 20261203
KINDS = (telling_run, translated_run, moving_run, plain_run, placed_run, telling_run, full_run)


def drawn_run(number):
    """The run of a number from 0 on, and the draw behind it."""
    draw = random.Random(f"{SEED} {number}")
    run = KINDS[number % len(KINDS)](draw, number)
    while not is_fit(run):
        run = KINDS[number % len(KINDS)](draw, number)
    return run, draw


def run_at(number):
    return drawn_run(number)[0]


def case_at(number):
    """The case of a number from 0 on."""
    run, draw = drawn_run(number)
    return placed_case(draw, run) if run.places else case_of(run)._replace(capture=some_capture(draw, run))
