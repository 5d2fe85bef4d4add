"""Random runs of the program with settings: captures on the wire, excepted networks and link-level addresses, with one
capture to three. Now and then a capture of an interface with an address isn't of Ethernet. The inside is mostly left
out if it may be.
"""

import random
import struct

import steps.place_runs
import steps.random_runs
import steps.translation_runs
from captures.model import header_of_any_link
from captures.packets import LINKTYPE_LOOPBACK, LINKTYPE_RAW
from runs.random_cases import placed_case, some_capture, some_count
from runs.rows import case_of
from steps.run import THREE
from steps.settings import some_settings

SEED, RUNS = 20261202, 220
# how often a capture has another link type than its interface needs, and how often the inside is left out
OTHER_LINK, NO_INSIDE = 0.07, 0.6


def with_link(capture, link):
    """A capture with another link type in its header."""
    return capture[:20] + struct.pack(header_of_any_link(capture).order + "I", link) + capture[24:]


def some_case(draw, number):
    """A run of one kind; None if it has no packets, or more captures."""
    count, settings = some_count(draw), some_settings(draw)
    kind = draw.choice(("any", "translated", "placed", "placed"))
    if kind == "placed":
        run = steps.place_runs.some_run(draw, number, count, (count, count), settings)
        return placed_case(draw, run) if run.records and len(run.interfaces) <= len(THREE) else None
    if kind == "any":
        run = steps.random_runs.some_run(draw, number, count, (count, count), settings=settings)
    else:
        run = steps.translation_runs.some_run(draw, number, count, draw.randbytes(32), settings=settings)
    return case_of(run)._replace(capture=some_capture(draw, run))


def with_other_link(draw, case):
    """A case of which one capture has another link type."""
    link, place = draw.choice((LINKTYPE_RAW, LINKTYPE_LOOPBACK)), draw.randrange(1 + len(case.also))
    if place == 0:
        return case._replace(capture=with_link(case.capture, link))
    other = case.also[place - 1]
    changed = other._replace(capture=with_link(other.capture, link))
    return case._replace(also=(*case.also[:place - 1], changed, *case.also[place:]))


def cases(seed=SEED, runs=RUNS):
    """Those of `runs` runs that are drawn by `seed`."""
    draw = random.Random(seed)
    for number in range(runs):
        case = some_case(draw, number)
        if case is None:
            continue
        if all(word for _, word in case.addressed()) and draw.random() < NO_INSIDE:
            case = case._replace(inside=None)
        yield with_other_link(draw, case) if case.addresses and draw.random() < OTHER_LINK else case
