"""What two runs decide on each packet, and which packets change, as the command `diff` tells it: a second
implementation, written from docs/FORMATS.md, section "What another ruleset changes".

- A packet changes if its verdict does, or if another rule is named for it, of the filter or of translation. Rules are
  told apart by what they say. With `--verdicts` it changes if its verdict does, and else not.
- A decision is the verdict, the reason if it is told, and where the rules stand.
"""

from typing import NamedTuple

from changes.flows import Flow, flows_of, names_of
from changes.rules import Known, rules_of
from changes.said import said_by
from expansions.hosts import interface_of

PASS = "pass"
# the reasons that a decision doesn't tell
UNTOLD = ("rule", "state", "state-error", "nat-pass")


class Decision(NamedTuple):
    """What a run says of a packet; a rule is None if none is named, and so is the state that the packet met."""
    verdict: str
    reason: str
    rule: Known | None
    translation: Known | None
    met: int | None

    def told_reason(self):
        """None if it isn't told."""
        return None if self.reason in UNTOLD else self.reason

    def words(self):
        rules = (rule.words() for rule in (self.rule, self.translation) if rule)
        return " ".join([self.verdict, *([self.told_reason()] if self.told_reason() else []), *rules])

    def said(self):
        """The reason, and what the rules say."""
        return [self.told_reason(), *(rule and rule.said for rule in (self.rule, self.translation))]

    def object(self):
        """What its object of JSON has, by its names and in their order."""
        kind, line = (self.translation.kind, self.translation.line) if self.translation else (None, None)
        return {"verdict": self.verdict, "reason": self.told_reason(), "line": self.rule and self.rule.line,
                "translation": kind, "translation_line": line}


class Change(NamedTuple):
    """A packet that changes: its number, its flow and its two decisions."""
    number: int
    flow: Flow
    old: Decision
    new: Decision

    def pair(self):
        return f"{self.old.words()} -> {self.new.words()}"

    def is_let_in(self):
        """Whether the new ruleset alone lets the packet pass."""
        return self.old.verdict != PASS and self.new.verdict == PASS


def rule_at(rules, number):
    return None if number is None else rules[number]


def decisions_in(outcome, read, interfaces):
    """The decisions of a run's verdicts, one for each packet, by what was read of its ruleset."""
    rules = rules_of(read, interfaces)
    return [Decision(said.verdict, said.reason, rule_at(rules.filter, said.rule),
                     rule_at(rules.translation, said.translation), said.met()) for said in said_by(outcome)]


def is_change(old, new, by_verdict):
    return old.verdict != new.verdict or not by_verdict and old.said() != new.said()


def changes_of(question, old, new):
    """The packets that change, by what both runs left."""
    interfaces = tuple(interface_of(*each) for each in question.case.interfaces())
    decisions = [decisions_in(outcome, read, interfaces) for outcome, read in zip((old, new), question.read())]
    flows = flows_of(question.case.captures(), names_of(question.case))
    for number, (flow, one, other) in enumerate(zip(flows, *decisions, strict=True), 1):
        if is_change(one, other, question.by_verdict):
            yield Change(number, flow, one, other)
