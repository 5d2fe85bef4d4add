"""Lines of verdicts as the command `show` reads them: a second implementation, written from docs/FORMATS.md, sections
"Verdict lines" and "Packets one by one".

A line has to be as a run writes one: of its form, and with a verdict and a reason that go together. It has to say what
is so of its packet, and name rules that the ruleset makes.

Of some lines the formats leave open whether they are refused, and how, so that several answers are right. A line may
have the form of one, and say what no run says, as that a packet without a rule was decided by a rule. A packet that is
too short may be told with another reason. A line may say what is wrong of the packet, and name a rule that isn't there.
"""

import os
import re
from typing import NamedTuple

# what a line comes to
FINE, NO_LINE, NOT_OF_CAPTURE, NOT_OF_RULESET = ("fine", "no line of verdicts", "not of this capture",
                                                 "not of this ruleset")
NUMBER = rb"(?:0|[1-9][0-9]*)"
LINE = re.compile(rb"(?P<number>%(n)s) (?P<clock>%(n)s) (?P<direction>in|out|-) (?P<verdict>[a-z]+) "
                  rb"(?P<reason>[a-z-]+) r=(?P<rule>%(n)s|-) t=(?P<translation>%(n)s|-) s=(?P<state>%(n)s|-)"
                  rb"(?: i=(?P<name>.*))?" % {b"n": NUMBER}, re.DOTALL)
VERDICTS = ("pass", "block", "return", "skip")
# the reasons, each with its verdicts
REASONS = {"not-ip": ("skip",), "skip-on": ("pass",), "short": ("block",), "state-error": ("pass",), "state": ("pass",),
           "state-mismatch": ("block",), "rule": ("pass", "block", "return"), "default": ("pass",),
           "nat-pass": ("pass",), "nat-exhausted": ("block",), "ip-option": ("block",), "state-insert": ("block",),
           "state-limit": ("block",)}
# those of packets that aren't looked up, and those of packets that met a state
UNSEEN, MET = ("not-ip", "skip-on", "short"), ("state", "state-error", "state-mismatch")
# those that may come with a filter rule alone, never with one, and always with one; and the same of translation
ALWAYS_RULE, NEVER_RULE = ("rule",), (*UNSEEN, "default", "nat-pass", "nat-exhausted")
ALWAYS_TRANSLATION, NEVER_TRANSLATION = ("nat-pass", "nat-exhausted"), UNSEEN
# those that come with a rule of either kind, as they are about a state
WITH_SOME_RULE = (*MET, "state-insert", "state-limit")
ALWAYS_STATE, NEVER_STATE = (*MET, "nat-pass"), (*UNSEEN, "nat-exhausted", "state-insert", "state-limit")
# those that make their state
MAKING = ("rule", "default", "nat-pass")
MOST_NUMBER, MOST_RULE, MOST_PACKETS, MOST_CLOCK = 2**64, 2**32, 2**40, 2**32
# of an interface's name, and what it can't have in a line
MOST_BYTES, CONTROLS = 15, {*range(33), 127}


class Verdict(NamedTuple):
    """What a line says. Numbers are None for `-`, and so is the name if the line has none."""
    number: int
    clock: int
    direction: str
    verdict: str
    reason: str
    rule: int | None
    translation: int | None
    state: int | None
    name: bytes | None


def number_of(word):
    """None if no number can be of a line that has so many digits."""
    return None if word == b"-" else int(word) if len(word) <= 4000 else MOST_NUMBER


def verdict_in(line):
    """What a line without its newline says; None if it isn't of the form of one."""
    found = LINE.fullmatch(line)
    if not found or found["verdict"].decode() not in REASONS.get(found["reason"].decode(), ()):
        return None
    numbers = (number_of(found[name]) for name in ("number", "clock", "rule", "translation", "state"))
    number, clock, rule, translation, state = numbers
    if state is not None and state >= MOST_NUMBER:
        return None
    words = (found[name].decode() for name in ("direction", "verdict", "reason"))
    return Verdict(number, clock, *words, rule, translation, state, found["name"])


# What no run says

def is_there(number, reason, always, never):
    """Whether a number stands there just if it has to, by the reasons with which it always or never does."""
    return reason not in always if number is None else reason not in never


def has_right_state(said):
    """A state is that of an earlier packet, or is made by the packet, which passes then."""
    if said.state is None:
        return said.translation is None or said.reason not in ("default", "rule") or said.verdict != "pass"
    if said.reason in MAKING:
        return said.verdict == "pass" and said.state == said.number
    return 1 <= said.state < said.number


def is_told_by_runs(said):
    """Whether a run could say this of some packet."""
    reason = said.reason
    return ((said.direction == "-") == (reason in UNSEEN)
            and is_there(said.rule, reason, ALWAYS_RULE, NEVER_RULE)
            and is_there(said.translation, reason, ALWAYS_TRANSLATION, NEVER_TRANSLATION)
            and is_there(said.state, reason, ALWAYS_STATE, NEVER_STATE)
            and (reason not in WITH_SOME_RULE or (said.rule, said.translation) != (None, None))
            and (reason != "default" or said.state is None or said.translation is not None)
            and has_right_state(said))


# What is wrong

def faults_of_name(name, names, place):
    """What may be said of the interface that a line names."""
    if len(names) > 1 and name == os.fsencode(names[place]):
        return set()
    if len(names) > 1 and name and len(name) <= MOST_BYTES and not CONTROLS & {*name}:
        return {NOT_OF_CAPTURE}
    return set() if len(names) == 1 and name is None else {NO_LINE, NOT_OF_CAPTURE}


def faults_of_capture(said, packet):
    """What may be said of what a line tells of its packet."""
    found = set()
    if (said.number, said.clock) != (packet.number, packet.clock):
        found |= {NOT_OF_CAPTURE, *([NO_LINE] if said.number > MOST_PACKETS or said.clock >= MOST_CLOCK else [])}
    if (said.reason == "not-ip") != packet.is_not_ip() or said.reason == "short" and not packet.is_short():
        found.add(NOT_OF_CAPTURE)
    return found


def faults_of_rules(said, rules):
    """What may be said of the rules that a line names."""
    missing = [number for number, made in ((said.rule, rules.filter), (said.translation, rules.translation))
               if number is not None and number >= len(made)]
    return {*([NOT_OF_RULESET] if missing else []), *([NO_LINE] if max(missing, default=0) >= MOST_RULE else [])}


def answers_to(said, packet, rules, names):
    """What the command may say of a line, at least one of all that a line can come to. The names are those of the
    interfaces."""
    if said is None:
        return {NO_LINE}
    faults = (faults_of_name(said.name, names, packet.place) | faults_of_capture(said, packet)
              | faults_of_rules(said, rules))
    allowed = faults or {FINE}
    if not is_told_by_runs(said):
        allowed = allowed | {NO_LINE}
    if packet.is_short() and said.reason not in ("short", "skip-on"):
        allowed = allowed | {NOT_OF_CAPTURE}
    return allowed
