"""Random questions to the command `show`, by their numbers: the packets of random runs with the lines that the
program's runs write of them. They are the same every time.

The runs are those of the comparison of `diff`, on one interface or several. Some of their rules log, and some move. A
question asks for some of the packets in one of the formats. Each second one has damage.
"""

import random
from typing import NamedTuple

from captures.frames import Packet
from captures.model import Refused
from changes import edits
from changes.cases import case_of_run, some_run, without_inside
from rulesets.tree import Network
from rulesets.words import PROTOCOLS, SERVICES
from runs.case import Case
from showing.damage import KINDS
from showing.model import COUNT, JSON, PFLOG, TEXT, Asked, Question

SEED = 20261211
FORMS = (TEXT, TEXT, TEXT, JSON, JSON, PFLOG, PFLOG, COUNT)
VERDICTS = ("pass", "block", "return", "skip")
# how often a question has each flag
ASKING = 0.22
# how many rules are made to log, and how many edits move rules
LOGS, MOVES = (0, 1, 2, 4), (0, 0, 1, 2)
BITS = (32, 32, 32, 31, 30, 24, 16, 8, 1, 0)
OTHER_NUMBERS = (0, 1, 99, 65535)
OTHER_HOSTS = (0x0A000005, 0xC6336407, 0xC0000201, 0)
OTHER_PORTS, OTHER_PROTOCOLS = (0, 22, 53, 80, 65535), (0, 1, 6, 17, 47, 255)
# what stands before a number of the command line
ZEROS = ("", "", "", "0", "000")


class Drawn(NamedTuple):
    """A run, which packets are asked for, how they are printed, and the name of the damage, if there is some."""
    case: Case
    draw: random.Random
    form: str
    damage: str


def logging(draw, run):
    """A run of whose rules some log, and some stand elsewhere."""
    text = run.rules
    kinds = (edits.with_empty_lines, edits.in_an_anchor, edits.with_comment)
    for some, count in (((edits.with_log,), draw.choice(LOGS)), (kinds, draw.choice(MOVES))):
        for _ in range(count):
            text, _ = edits.edited(draw, text, run.interfaces, some)
    return run._replace(rules=text)


def damage_at(number):
    """The kinds of damage by turns, of which each meets each kind of runs."""
    kinds = sorted(KINDS)
    return kinds[(number + number // len(kinds)) % len(kinds)]


def drawn_at(number):
    """The question of a number from 0 on, without its lines."""
    draw = random.Random(f"{SEED} {number}")
    run = some_run(draw, number)
    case = without_inside(draw, case_of_run(draw, logging(draw, run)))
    damage = damage_at(number // 2) if number % 2 else ""
    form = draw.choice(FORMS)
    name = f"question {number}, {run.name}, {form}" + (f", {damage}" if damage else "")
    return Drawn(case._replace(name=name), draw, form, damage)


# What is asked for

def some_host(draw, packets):
    """An end of a packet, or another address, and some bits."""
    ends = [end for each in packets if isinstance(each.seen(), Packet)
            for end in (each.seen().source, each.seen().destination)]
    return Network(draw.choice(ends or OTHER_HOSTS) if draw.random() < 0.9 else draw.choice(OTHER_HOSTS),
                   draw.choice(BITS))


def some_line(draw, rules):
    lines = [rule.line for rule in (*rules.filter, *rules.translation)]
    return draw.choice(lines) if lines and draw.random() < 0.9 else draw.choice(OTHER_NUMBERS[1:])


def some_rule(draw, rules):
    return draw.randrange(len(rules.filter)) if rules.filter and draw.random() < 0.9 else draw.choice(OTHER_NUMBERS)


def some_word(draw, number, names):
    """A number as a word: by one of its names, if it has any, or in digits."""
    named = [name for name, each in names.items() if each == number]
    return draw.choice(named) if named and draw.random() < 0.5 else f"{draw.choice(ZEROS)}{number}"


def some_port(draw, packets):
    """A port of a packet, or another one; or the name of any service."""
    if draw.random() < 0.2:
        return draw.choice(sorted(SERVICES))
    ports = [port for each in packets if isinstance(each.seen(), Packet) for port in each.seen().ports or ()]
    return some_word(draw, draw.choice(ports if ports and draw.random() < 0.9 else OTHER_PORTS), SERVICES)


def some_protocol(draw, packets):
    """The protocol of a packet, or another one."""
    protocols = [each.seen().protocol for each in packets if isinstance(each.seen(), Packet)]
    return some_word(draw, draw.choice(protocols if protocols and draw.random() < 0.9 else OTHER_PROTOCOLS), PROTOCOLS)


def some_asked(draw, question):
    """Flags that ask for some packets of a question whose ruleset and captures are accepted."""
    packets, rules = question.joined().packets, question.rules()
    makes = {"only": lambda: tuple(draw.sample(VERDICTS, draw.randint(1, 3))), "rule": lambda: some_rule(draw, rules),
             "line": lambda: some_line(draw, rules), "host": lambda: some_host(draw, packets), "logged": lambda: True,
             "port": lambda: some_port(draw, packets), "proto": lambda: some_protocol(draw, packets)}
    return Asked(**{name: make() for name, make in makes.items() if draw.random() < ASKING})


def question_of(drawn, outcome):
    """The question about what a run left."""
    question = Question(drawn.case, outcome.files.verdicts or b"", form=drawn.form)
    try:
        question = question._replace(asked=some_asked(drawn.draw, question))
    except Refused:
        pass
    return KINDS[drawn.damage](drawn.draw, question) if drawn.damage else question
