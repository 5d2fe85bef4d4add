"""Random questions to the command `report`, by their numbers: those to `show`, without what these ask for. They are the
same every time.

Some captures have a few packets alone, and some are cut by a snapshot length. The states are mostly those that the run
left. Some are left out, some have damage, and some are of another clock.
"""

import random

from captures.model import HEADER, read_header, records_of
from changes.cases import maybe_snapped
from listing.cases import KINDS
from reporting.model import Question
from showing import cases as showing_cases
from showing.cases import drawn_at as shown_at
from showing.model import TEXT, Asked

SEED = 20261214
# how often captures have a few packets alone, and how many each
FEW, COUNTS = 0.35, (1, 1, 2, 4)
# how often the states are asked for, have damage, and are older
WITH_STATES, DAMAGED, OLDER = 0.75, 0.08, 0.5
DAMAGES = sorted(KINDS, key=lambda kind: kind.__name__)
# how much later captures are, in seconds
LATER = (1, 59, 60, 599, 600, 3599, 3600, 86399, 86400, 10**6, 10**9)
# where the clock when it was made stands in the line of a state
MADE = 9


def with_first(capture, count):
    """The first records of a capture."""
    records, _ = records_of(capture, read_header(capture).order)
    return capture[:HEADER] + b"".join(each.header + each.frame for each in records[:count])


def maybe_few(draw, case):
    if draw.random() >= FEW:
        return case
    also = tuple(each._replace(capture=with_first(each.capture, draw.choice(COUNTS))) for each in case.also)
    return case._replace(capture=with_first(case.capture, draw.choice(COUNTS)), also=also)


def drawn_at(number):
    """The question of a number from 0 on, without its lines and states."""
    draw, drawn = random.Random(f"{SEED} {number}"), shown_at(number)
    return drawn._replace(case=maybe_few(draw, maybe_snapped(draw, drawn.case)))


def is_quiet_at(number):
    """Whether the question of a number asks for no warnings on standard error."""
    return number // 2 % 2 == 0


def older(draw, octets):
    """States that were made so much earlier, but none before the clock 0."""
    lines = []
    for line in octets.splitlines(keepends=True):
        words = line.split(b" ")
        if len(words) > MADE and words[MADE].isdigit():
            words[MADE] = b"%d" % max(0, int(words[MADE]) - draw.choice(LATER))
        lines.append(b" ".join(words))
    return b"".join(lines)


def some_states(draw, octets):
    """The states of a run, maybe with damage; None if they aren't asked for."""
    if octets is None or draw.random() >= WITH_STATES:
        return None
    if draw.random() < OLDER:
        octets = older(draw, octets)
    return draw.choice(DAMAGES)(draw, octets) if draw.random() < DAMAGED else octets


def question_of(drawn, outcome):
    """The question about what a run left."""
    shown = showing_cases.question_of(drawn, outcome)._replace(asked=Asked(), form=TEXT)
    draw = random.Random(f"{SEED} {drawn.case.name}")
    return Question(shown, some_states(draw, outcome.files.states))
