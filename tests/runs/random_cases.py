"""Random runs of the program: the packets of steps.random_runs in captures of every form and length, those of
steps.translation_runs by seeds of any bytes, and those of steps.place_runs in a capture for each interface.

A few captures end inside a record, or with one that is too long.
"""

import random

import steps.place_runs
import steps.random_runs
import steps.translation_runs
from captures.packets import (ETHER_IPV4, LINKTYPE_ETHERNET, LINKTYPE_LOOPBACK, LINKTYPE_RAW, NANOSECONDS, capture_header,
                              ethernet, loopback, record)
from runs.case import FORMS, Also
from runs.rows import addresses_of, case_of, inside_of

SEED = 20261124
RUNS, TRANSLATED_RUNS = 400, 200
# packets are committed 256 at a time
LENGTHS = (1, 2, 255, 256, 257, 511, 512, 513, 700)
SHORT, LONG = (1, 120), (200, 700)
PLACED_RUNS = 260
# how often a capture of several ends with a fault, as each may; and fractions of a second, so that times tie and some
# are past a second
PLACED_ENDS, FRACTIONS = 0.5, (0, 0, 1, 500, 999, 1000, 999999, 1000000, 2000000)
LINKS = (LINKTYPE_RAW, LINKTYPE_ETHERNET, LINKTYPE_LOOPBACK)


def some_count(draw):
    """How many packets: mostly few, and now and then of several batches."""
    kind = draw.random()
    if kind < 0.1:
        return draw.choice(LENGTHS)
    return draw.randint(*(LONG if kind < 0.2 else SHORT))


def some_capture(draw, run):
    """The capture's bytes in one of the forms, with an end of some kind."""
    order, magic = draw.choice(FORMS)
    parts = [capture_header(order, magic, network=run.link)]
    parts += [record(second, draw.randrange(1000000), frame, order=order) for second, frame in run.records]
    return b"".join(parts) + some_end(draw, order)


def some_end(draw, order):
    """The end of a capture, which mostly is a clean one."""
    kind = draw.random()
    if kind < 0.08:
        return record(0, 0, bytes(draw.randint(0, 30)), captured=draw.choice((262145, 2**32 - 1)), order=order)
    if kind < 0.16:
        return record(0, 0, bytes(100), order=order)[:draw.randint(1, 115)]
    return b""


def cases():
    draw = random.Random(SEED)
    for number in range(RUNS):
        count = some_count(draw)
        run = steps.random_runs.some_run(draw, number, count, (count, count))
        yield case_of(run)._replace(capture=some_capture(draw, run))


def translated_cases():
    """Those with translation."""
    draw = random.Random(SEED)
    for number in range(TRANSLATED_RUNS):
        count, seed = some_count(draw), draw.randbytes(32)
        run = steps.translation_runs.some_run(draw, number, count, seed)
        yield case_of(run)._replace(capture=some_capture(draw, run))


# Several captures

def framed(link, frame):
    """A packet of raw IP as one of an interface of some type."""
    if link == LINKTYPE_ETHERNET:
        return ethernet(ETHER_IPV4, frame)
    return loopback(frame) if link == LINKTYPE_LOOPBACK else frame


def some_fractions(draw, magic):
    """What gives each record its fraction of a second: by its number, so that the order of the run stays as far as its
    seconds are in order, or any."""
    if draw.random() < 0.6:
        fine = 1000 if magic == NANOSECONDS else 1
        return lambda number: number * fine
    return lambda _: draw.choice(FRACTIONS)


def some_captures(draw, run):
    """The packets of a run on several interfaces in a capture for each of these, by their places. What comes behind the
    last interface is left out."""
    may_fail = draw.random() < PLACED_ENDS
    is_mixed = run.link == LINKTYPE_RAW and draw.random() < 0.5
    for place, _ in enumerate(run.interfaces):
        order, magic = draw.choice(FORMS)
        link, fraction = draw.choice(LINKS) if is_mixed else run.link, some_fractions(draw, magic)
        parts = [capture_header(order, magic, network=link)]
        parts += [record(second, fraction(number), framed(link, frame) if is_mixed else frame, order=order)
                  for number, (second, frame, where) in enumerate(run.placed()) if where == place]
        yield b"".join(parts) + (some_end(draw, order) if may_fail else b"")


def placed_case(draw, run):
    """A run on several interfaces as a case of the program."""
    first, *others = some_captures(draw, run)
    also = tuple(Also(each.name, f"{each.address}/{each.bits}", capture)
                 for each, capture in zip(run.interfaces[1:], others, strict=True))
    first_alone = case_of(run._replace(interfaces=run.interfaces[:1]))
    return first_alone._replace(capture=first, also=also, inside=inside_of(run), addresses=addresses_of(run))


def placed_cases(seed=SEED, runs=PLACED_RUNS):
    """Those on several interfaces, of `runs` runs that are drawn by `seed`."""
    draw = random.Random(seed)
    for number in range(runs):
        count = some_count(draw)
        run = steps.place_runs.some_run(draw, number, count, (count, count))
        if run.records:
            yield placed_case(draw, run)
