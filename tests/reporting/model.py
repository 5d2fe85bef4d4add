"""What the command `report` leaves: a second implementation, written from docs/FORMATS.md, section "A report".

The packets are joined with the lines of verdicts as by `show`, whose model says how that ends. If it ends well there is
a page, of which the values are told here. Where the formats leave open which of two faults is told, each is right.
"""

import os
from functools import lru_cache
from typing import NamedTuple

from captures.frames import Packet
from captures.model import Refused
from changes.flows import flow_of
from listing.model import NoState, states_in
from reporting.characters import shown
from reporting.page import TITLE, VERDICTS, Page, octets_of
from reporting.spans import spans_of, time_words
from reporting.standing import by_line, class_of, lines_of, run_of, why_words
from runs import warnings
from runs.model import Outcome, refused
from showing import model as showing_model
from showing.asking import CAPTURE
from showing.model import COUNT, NAME, Asked, lines_named
from showing.verdicts import verdict_in

MOST_FLOWS = 20
BLOCKED = ("block", "return")
# the ages of states, and the seconds below which they are
AGES = (("under 1 minute", 60), ("1 to 10 minutes", 600), ("10 to 60 minutes", 3600), ("1 to 24 hours", 86400),
        ("1 day and more", None))


class Question(NamedTuple):
    """What the command is given: the captures, interfaces, ruleset and lines of a question to `show`, and the states
    that a run left, None without `--states`."""
    shown: showing_model.Question
    states: bytes | None = None

    @property
    def case(self):
        return self.shown.case

    @property
    def surroundings(self):
        return self.shown.surroundings

    def captures(self):
        """The names of the captures' files, if no others are named."""
        return tuple(f"{CAPTURE}{place or ''}" for place, _ in enumerate(self.case.captures()))


class Told(NamedTuple):
    """A packet with what its line says, the bytes that it counts, its flow, and the lines of its rules."""
    packet: tuple
    said: tuple
    octets: int
    flow: str
    lines: frozenset


class Names(NamedTuple):
    """The names of the files, as they are given."""
    captures: tuple
    rules: str = NAME


# Numbers

def share_of(part, whole):
    """A part in per cent, rounded down to a tenth."""
    tenths = part * 1000 // whole if whole else 0
    return f"{tenths // 10}.{tenths % 10} %"


def counted(told):
    """How many packets there are, and their bytes."""
    return str(len(told)), str(sum(each.octets for each in told))


# Packets

def told_of(packet, said, rules):
    seen = packet.seen()
    return Told(packet, said, packet.total() if isinstance(seen, Packet) else 0, flow_of(seen, "").words,
                frozenset(lines_named(said, rules)))


def all_told(question):
    """The packets of a question that is joined to its end."""
    rules, lines = question.shown.rules(), question.shown.verdicts.splitlines()
    return [told_of(packet, verdict_in(line), rules)
            for packet, line in zip(question.shown.joined().packets, lines, strict=True)]


# Warnings

def warned(ruleset, told):
    """What may not fit. Each byte of a name is a character."""
    packets = [warnings.Packet(packet.place, packet.header, packet.record, said.direction, said.verdict, said.reason,
                               said.state) for packet, said, *_ in told]
    return list(warnings.told(warnings.REPORT, ruleset, packets))


def warnings_of(question):
    """The same of a question that is joined to its end."""
    told = all_told(question)
    return warned(run_of(question.shown, told).ruleset, told)


# The parts of the page

def summary_of(question, told, names):
    yield "Ruleset", shown(os.fsencode(names.rules))
    for interface, capture in zip(question.shown.names(), names.captures, strict=True):
        yield f"Capture on {shown(os.fsencode(interface))}", shown(os.fsencode(capture))
    yield "Packets", str(len(told)) + (", cut" if question.shown.joined().is_cut() else "")
    if told:
        yield "From", time_words(told[0].packet.clock)
        yield "To", time_words(told[-1].packet.clock)


def verdicts_of(told):
    for verdict in VERDICTS:
        found = [each for each in told if each.said.verdict == verdict]
        yield verdict, *counted(found), share_of(len(found), len(told))


def rules_of(told, lines, standing):
    """A row for each line, behind its class."""
    for number, line in enumerate(lines, 1):
        found = [each for each in told if number in each.lines]
        kind, cells = "", ("", "", "")
        if number in standing:
            kind, cells = class_of(standing[number], found), (*counted(found), share_of(len(found), len(told)))
        yield kind, str(number), *cells, shown(line)


def unused_of(told, lines, run):
    used = frozenset().union(*(each.lines for each in told))
    for number, rules in by_line(run.rules).items():
        rules = [rule for rule in rules if not rule.begins_with_no]
        if rules and number not in used:
            why = shown(why_words(run, rules).encode("latin-1"))
            yield str(number), str(len(rules)), why, shown(lines[number - 1])


def flows_of(told):
    """The packets of each flow that are blocked, the flows with the most of them first."""
    found = {}
    for each in told:
        if each.said.verdict in BLOCKED:
            found.setdefault((each.packet.place, each.flow), []).append(each)
    return sorted(found.values(), key=lambda flow: (-len(flow), flow[0].packet.number))


def blocked_of(flows, rules, names):
    for flow in flows[:MOST_FLOWS]:
        first = flow[0]
        rule = "" if first.said.rule is None else str(rules.filter[first.said.rule].line)
        yield (*counted(flow), first.flow, shown(os.fsencode(names[first.packet.place])), rule, first.said.reason,
               str(first.packet.number))


def more_of(flows):
    rest = flows[MOST_FLOWS:]
    return f"{len(rest)} flows more with {sum(map(len, rest))} packets." if rest else ""


def age_of(state, clock):
    """The place of a state's age among all ages."""
    age = max(0, clock - state.made)
    return next(place for place, (_, below) in enumerate(AGES) if below is None or age < below)


def ages_of(states, clock):
    for place, (name, _) in enumerate(AGES):
        found = [state for state in states if age_of(state, clock) == place]
        packets, octets = (sum(counts) for counts in zip((0, 0), *(way for state in found
                                                                   for way in (state.forth, state.back))))
        yield name, str(len(found)), str(packets), str(octets), share_of(len(found), len(states))


def page_of(question, names):
    """What the page of a question says that is joined to its end."""
    told, lines = all_told(question), lines_of(question.case.rules)
    run = run_of(question.shown, told)
    bar, spans = spans_of([(each.packet.clock, each.said.verdict) for each in told])
    flows, states = flows_of(told), None
    if question.states is not None:
        states = tuple(ages_of(states_in(question.states), told[-1].packet.clock if told else 0))
    texts = tuple(shown(each.encode("latin-1")) for each in warned(run.ruleset, told))
    return Page(f"{TITLE}{shown(os.fsencode(names.rules))}", texts, tuple(summary_of(question, told, names)),
                tuple(verdicts_of(told)), bar, spans, tuple(rules_of(told, lines, by_line(run.rules))),
                tuple(unused_of(told, lines, run)),
                tuple(blocked_of(flows, question.shown.rules(), question.shown.names())), more_of(flows), states)


# The command

def refused_states(question):
    """The refusal of the states, if they are refused."""
    try:
        states_in(question.states or b"")
    except NoState as fault:
        return [refused(f"states line {fault}: no state")]
    return []


def rulesets_refusal(question):
    try:
        question.shown.rules()
    except Refused as fault:
        return refused(f"rules {fault}")
    return None


def default_names(question):
    return Names(question.captures())


@lru_cache(maxsize=16)
def answers(question, names=None, is_quiet=True):
    """All outcomes that are right with `--quiet` or without it, the one by the letter first. A page stands there as the
    lines of its values."""
    refusal = rulesets_refusal(question)
    if refusal:
        return [refusal]
    joined = showing_model.answers(question.shown._replace(asked=Asked(), form=COUNT))
    instead = refused_states(question)
    if not instead and any(each.status == 0 for each in joined):
        said = b"" if is_quiet else warnings.said(warnings_of(question))
        instead = [Outcome(octets_of(page_of(question, names or default_names(question))), said, 0)]
    found = [each if each.status else instead[0] for each in joined]
    return list(dict.fromkeys([*found, *refused_states(question)]))


def answer(question, names=None, is_quiet=True):
    """The outcome by the letter of the formats."""
    return answers(question, names, is_quiet)[0]
