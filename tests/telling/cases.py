"""Rulesets that are drawn by a seed, by the writers of other comparisons. They are the same every time.

Many are given with the counters of a run, which are drawn too. Some of these have damage, or are those of another
ruleset. One in four is to be printed as JSON.
"""

import random
from functools import lru_cache
from typing import NamedTuple

import expansions.cases
import rulesets.cases
import runs.cases
import steps.filter_texts
import steps.translation_texts
from captures.model import Refused
from expansions import expected
from expansions.random_texts import Writer
from listing import cases
from rulesets.cases import change_lines, change_pieces
from runs.case import EXAMPLES
from runs.filter_cases import MANY_RULES
from steps.replay import ruleset_of
from telling import shadow_texts
from telling.model import JSON, MOST_COUNT, TEXT, Asked
from telling.row import EM0, EM1

SEED = 20261209
# longer texts of the folders aren't taken, nor are those that make more rules
LONGEST, MOST_RULES = 4000, 3000
# how many changes a text of a folder gets
CHANGES = (0, 0, 1, 1, 2)
# a word that is put in the place of another one
VOCABULARY = (b"in", b"out", b"quick", b"on", b"!", b"inet", b"tcp", b"any", b"self", b"em0", b"port", b"80", b"{",
              b"}", b",", b"keep", b"state", b"no", b"max", b"label", b'"a"', b"<t>", b"->", b"10.0.0.0/8", b"pass",
              b"block")
# packets and evaluations
COUNTS = (0, 0, 0, 1, 2, 9, 10, 255, 1000, 123456789, MOST_COUNT)


class Case(NamedTuple):
    """What the command is given, with the kind of its ruleset and what is wrong with its counters."""
    name: str
    asked: Asked
    kind: str
    damage: str = ""


# Rulesets

def written_text(draw):
    """A ruleset of the expansion's writer, without a fault."""
    writer = Writer(draw)
    writer.faults = 0
    return writer.text(), writer.interfaces


def faulty_text(draw):
    """A ruleset of the expansion's writer, which may have faults."""
    writer = Writer(draw)
    return writer.text(), writer.interfaces


@lru_cache
def texts_of_folders():
    """The texts of the folders and the examples that make rules, with their interfaces, but for the longest ones."""
    texts = [(text, case.interfaces) for case, text, _ in expected.written() if not case.name.startswith(MANY_RULES)]
    texts += [(path.read_bytes(), (EM0,)) for folder in (rulesets.cases.TEXTS, EXAMPLES)
              for path in sorted(folder.glob("*.conf"))]
    return [(text, interfaces) for text, interfaces in texts
            if len(text) <= LONGEST and any(counts_of(Asked(text, interfaces)) or ())]


def some_interfaces(draw):
    """The interface of most texts, or two."""
    return (EM0, EM1) if draw.random() < 0.3 else (EM0,)


def changed_text(draw):
    """A text of the folders that is accepted, as it is or with some words or lines changed."""
    text, interfaces = draw.choice(texts_of_folders())
    for _ in range(draw.choice(CHANGES)):
        text = change_pieces(draw, text, VOCABULARY) if draw.randrange(3) else change_lines(draw, text)
    return text, interfaces


@lru_cache
def values():
    return list(expansions.cases.each_value())


def valued_text(draw):
    """A word as the value of a macro in some place."""
    text = draw.choice(values())
    return text.text, text.interfaces


def filter_text(draw):
    """A ruleset of the filter language, as runs have it."""
    return steps.filter_texts.some_ruleset(draw), some_interfaces(draw)


def translation_text(draw):
    """A ruleset with translation, as runs have it."""
    return steps.translation_texts.some_text(draw).encode(), (EM0,)


def shadow_text(draw):
    """A ruleset in which rules are likely to be shadowed."""
    return shadow_texts.some_ruleset(draw), some_interfaces(draw)


def plain_text(draw):
    """Rules of the least words."""
    return runs.cases.some_rules(draw), (EM0,)


KINDS = {"of the writer": written_text, "of the writer, with faults": faulty_text, "of a folder, changed": changed_text,
         "of a macro's value": valued_text, "of filter runs": filter_text, "of translation runs": translation_text,
         "of plain rules": plain_text, "of shadows": shadow_text}
# the kinds by turns
TURNS = (*KINDS, "of the writer", "of the writer", "of filter runs", "of translation runs")


# How they are printed

# how many cases, and runs, there are for each that is printed as JSON
JSON_EACH = 4


def form_at(number):
    """The form in which the rules of a case or of a run are printed, by its number. As the kinds of cases go by turns
    too, the place among as many is another one each time."""
    return JSON if (number + number // JSON_EACH) % JSON_EACH == 0 else TEXT


# Counters

def some_counts(draw):
    """The numbers of a rule: packets that count for it have been evaluated, and have bytes."""
    packets = draw.choice(COUNTS)
    evaluations = min(packets + draw.choice(COUNTS), MOST_COUNT)
    return evaluations, packets, min(packets * draw.randint(20, 1500), MOST_COUNT)


def some_counters(draw, filters, translations):
    """Counters as a run with so many rules writes them."""
    lines = [f"{kind} {number} {' '.join(map(str, some_counts(draw)))}\n"
             for kind, count in (("filter", filters), ("translation", translations)) for number in range(count)]
    verdicts = [draw.choice(COUNTS) for _ in range(4)]
    total = min(sum(verdicts), MOST_COUNT)
    return "".join([*lines, f"total {total} {' '.join(map(str, verdicts))}\n"]).encode()


def of_other_rules(draw, _, filters, translations):
    """The counters of a ruleset with other numbers of rules."""
    change = draw.choice(((1, 0), (0, 1), (-1, 0), (0, -1), (1, -1)))
    others = [max(0, count + more) for count, more in zip((filters, translations), change)]
    return some_counters(draw, *others) if others != [filters, translations] else some_counters(draw, filters + 1, 0)


def too_large(draw, octets, *_):
    """A number that is too large by one, or by much."""
    words = octets.split(b" ")
    place = draw.randrange(1, len(words))
    end = b"\n" + words[place].partition(b"\n")[2] if b"\n" in words[place] else b""
    words[place] = draw.choice((b"18446744073709551616", b"9" * 25)) + end
    return b" ".join(words)


def damage_of(kind):
    """A kind of damage of a file, as one of counters."""
    return lambda draw, octets, *_: kind(draw, octets)


DAMAGES = {"counters of other rules": of_other_rules, "a number too large": too_large,
           **{f"counters with {kind.__name__}": damage_of(kind) for kind in cases.KINDS}}
NO_COUNTERS, RIGHT_COUNTERS = "no counters", "right counters"


def with_counters(draw, asked, counts):
    """A ruleset that is accepted with counters, or without, and what is wrong with them."""
    way = draw.randrange(3)
    if way == 0:
        return asked, NO_COUNTERS
    octets = some_counters(draw, *counts)
    if way == 1:
        return asked._replace(counters=octets), RIGHT_COUNTERS
    damage = draw.choice(list(DAMAGES))
    return asked._replace(counters=DAMAGES[damage](draw, octets, *counts)), damage


def counts_of(asked):
    """How many filter rules and rules of translation a ruleset makes, None if it is refused."""
    try:
        return ruleset_of(asked.text, asked.interfaces).counts()
    except Refused:
        return None


def case_at(number):
    """The case of a number from 0 on."""
    draw, kind = random.Random(f"{SEED} {number}"), TURNS[number % len(TURNS)]
    asked = Asked(*KINDS[kind](draw))
    counts = counts_of(asked)
    while counts and sum(counts) > MOST_RULES:
        asked = Asked(*KINDS[kind](draw))
        counts = counts_of(asked)
    damage = NO_COUNTERS
    if counts is not None:
        asked, damage = with_counters(draw, asked, counts)
    form = form_at(number)
    return Case(f"case {number}, {kind}, {form}, {damage}", asked._replace(form=form), kind, damage)
