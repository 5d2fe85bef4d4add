"""Questions to the command `diff` that are made of runs: the examples, and random ones by their numbers.

The examples are run by their rulesets, and by these without each of the rules in turn.

A random question has the packets of a random run with the ruleset by which they were drawn, and with another one. That
is mostly the same text with some edits. The runs are those of steps.random_runs, steps.translation_runs and
steps.place_runs, many of them with settings. They are the same every time.
"""

import random
import struct
from typing import NamedTuple

import steps.place_runs
import steps.random_runs
import steps.translation_runs
from captures.model import FORMS
from captures.packets import record
from changes import edits
from changes.model import Question
from changes.printed import JSON, TEXT
from expansions.hosts import interface_of
from runs.case import EXAMPLE_INSIDES, EXAMPLES, INSIDE, OFFICE_INSIDE, Also, Case
from runs.random_cases import placed_case, some_capture
from runs.rows import case_of
from steps.settings import PLAIN, some_settings

SEED = 20261208
# packets of a run
COUNTS = (15, 70)
# how often the packets of a run are cut by a snapshot length, and by which
SNAPPED, SNAPSHOT_LENGTHS = 0.15, (3, 14, 20, 27, 34, 39, 54, 80)
# how often an inside that isn't needed is left out, verdicts alone count, the rulesets change places, a ruleset has a
# fault, the answer is JSON, and warnings are said
NO_INSIDE, BY_VERDICT, SWAPPED, WITH_FAULT, AS_JSON, LOUD = 0.5, 0.2, 0.4, 0.03, 0.2, 0.35
# how many edits a text has, and how often it has one that leaves all rules as they are, or is another text
EDITS, IDLE, UNRELATED = (1, 1, 1, 2, 4), 0.12, 0.1


# Examples

def example_cases():
    for name in ("first", "gateway", "home", "server", "router"):
        rules, capture = ((EXAMPLES / f"{name}.{kind}").read_bytes() for kind in ("conf", "pcap"))
        yield Case(f"{name}.conf", rules, EXAMPLE_INSIDES.get(name, INSIDE), capture)
    first, second = ((EXAMPLES / f"office_{name}.pcap").read_bytes() for name in ("em0", "em1"))
    yield Case("office.conf", (EXAMPLES / "office.conf").read_bytes(), OFFICE_INSIDE, first,
               also=(Also("em1", "203.0.113.2/24", second),))


def examples():
    """Each example, without each of its rules that can be left out. For every other line warnings are said."""
    for case in example_cases():
        lines, interfaces = case.rules.decode().split("\n"), [interface_of(*each) for each in case.interfaces()]
        for place in edits.places_of(lines, (*edits.FILTER, *edits.TRANSLATION)):
            text = "\n".join(edits.with_line(lines, place))
            if edits.is_read(text, interfaces):
                yield Question(case._replace(name=f"{case.name} without line {place + 1}"), text.encode(),
                               is_quiet=place % 2 == 0)


# Random questions

class Drawn(NamedTuple):
    """A question, and the names of the edits that lie between its rulesets."""
    question: Question
    edits: tuple


# Runs

def any_run(draw, number, settings):
    return steps.random_runs.some_run(draw, number, COUNTS[1], COUNTS, settings=settings)


def translated_run(draw, number, settings):
    return steps.translation_runs.some_run(draw, number, COUNTS[1], draw.randbytes(32), COUNTS, settings=settings)


def placed_run(draw, number, settings):
    return steps.place_runs.some_run(draw, number, COUNTS[1], COUNTS, settings)


RUNS = (any_run, translated_run, placed_run)
# how often one has settings
SETTLED = 0.4


def case_of_run(draw, run):
    """A run as a case of the program."""
    return placed_case(draw, run) if run.places else case_of(run)._replace(capture=some_capture(draw, run))


def snapped(capture, length):
    """A capture whose records are cut by a snapshot length, and what stands behind its last whole record."""
    order, (parts, place) = FORMS[capture[:4]][0], ([capture[:24]], 24)
    while len(capture) - place >= 16:
        second, fraction, captured, original = struct.unpack_from(order + "IIII", capture, place)
        frame = capture[place + 16:place + 16 + captured]
        if len(frame) < captured:
            break
        parts.append(record(second, fraction, frame[:length], original=original, order=order))
        place += 16 + captured
    return b"".join(parts) + capture[place:]


def maybe_snapped(draw, case):
    if draw.random() >= SNAPPED:
        return case
    length = draw.choice(SNAPSHOT_LENGTHS)
    also = tuple(each._replace(capture=snapped(each.capture, length)) for each in case.also)
    return case._replace(capture=snapped(case.capture, length), also=also)


def some_run(draw, number):
    """A run with packets."""
    make = RUNS[number % len(RUNS)]
    while True:
        run = make(draw, number, some_settings(draw) if draw.random() < SETTLED else PLAIN)
        if run.records:
            return run


# Rulesets

def other_text(draw, number, run):
    """Another text for the packets of a run, and the names of the edits that made it."""
    if draw.random() < UNRELATED:
        return some_run(draw, number).rules, ("unrelated",)
    kinds, count = (edits.IDLE, 1) if draw.random() < IDLE else (edits.RULES, draw.choice(EDITS))
    text, names = run.rules, []
    for _ in range(count):
        text, name = edits.edited(draw, text, run.interfaces, kinds)
        names.append(name)
    return text, tuple(names)


def with_fault(draw, text):
    return "\n".join(edits.with_fault(draw, text.split("\n")))


def question_of(draw, case, text):
    """A case with another ruleset, either of which may have a fault. Whether the answer is JSON, and whether warnings
    are said, is drawn last, so that all else is the same either way."""
    rulesets = [case.rules, text.encode()]
    if draw.random() < SWAPPED:
        rulesets.reverse()
    rulesets = [with_fault(draw, each.decode()).encode() if draw.random() < WITH_FAULT else each for each in rulesets]
    old, new = rulesets
    question = Question(case._replace(rules=old), new, draw.random() < BY_VERDICT)
    question = question._replace(form=JSON if draw.random() < AS_JSON else TEXT)
    return question._replace(is_quiet=draw.random() >= LOUD)


def without_inside(draw, case):
    is_needed = not all(word for _, word in case.addressed())
    return case if is_needed or draw.random() >= NO_INSIDE else case._replace(inside=None)


def drawn_at(number):
    """The question of a number from 0 on."""
    draw = random.Random(f"{SEED} {number}")
    run = some_run(draw, number)
    case = maybe_snapped(draw, without_inside(draw, case_of_run(draw, run)))
    text, names = other_text(draw, number, run)
    return Drawn(question_of(draw, case._replace(name=f"{run.name}, {', '.join(names)}"), text), names)
