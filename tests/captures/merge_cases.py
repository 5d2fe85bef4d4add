"""Captures by the times of their records and their ends, on which both ways of merging have to agree: random ones, whose
times often tie and go back."""

import random

from captures.merging import Source

SEED, COUNT = 20261129, 20000
MOST_SECOND, NANOSECONDS = 4, (0, 1000, 1001, 2000)
COUNTS, LENGTHS = (1, 2, 2, 3, 4, 8), (0, 0, 1, 2, 5, 8)
TAILS = ("clean", "clean", "cut", "record too long 262145", "read failed")


def some_source(draw, place):
    """A source whose records are told apart by its place and their numbers."""
    times = [(draw.randint(0, MOST_SECOND), draw.choice(NANOSECONDS)) for _ in range(draw.choice(LENGTHS))]
    if draw.random() < 0.5:
        times.sort()
    return Source([(time, (place, number)) for number, time in enumerate(times)], draw.choice(TAILS))


def cases():
    draw = random.Random(SEED)
    for _ in range(COUNT):
        yield [some_source(draw, place) for place in range(draw.choice(COUNTS))]
