"""The rules of a ruleset as the command `diff` tells them apart: what each one says, and where it stands.

Two rules are one if they say the same. What a rule says is all that the model of the expansion has of it, but for its
number, its line, its label and the anchors round it. A table is told by its name, whatever is in it.
"""

from dataclasses import replace
from typing import NamedTuple

from steps.replay import ruleset_of


class Known(NamedTuple):
    """A rule: what it says, the line of its file on which it stands, and the kind of one of translation."""
    said: object
    line: int
    kind: str | None = None

    def words(self):
        return f"L{self.line}" if self.kind is None else f"{self.kind} L{self.line}"


class Rules(NamedTuple):
    """The rules of a ruleset by their numbers."""
    filter: list
    translation: list


def filter_rule(rule, lines):
    return Known(replace(rule, line=0, label=None, anchors=()), lines[rule.line - 1])


def ports_of(kind, rule):
    """The ports of a target; one port of `nat` is a range of that port alone."""
    if kind != "nat" or rule.ports is None:
        return rule.ports
    low, high = rule.ports
    return low, low if high is None else high


def translation_rule(kind, rule, lines):
    said = rule._replace(number=0, line=0, ports=ports_of(kind, rule))
    return Known((kind, said), lines[rule.line - 1], kind)


def rules_of(read, interfaces):
    """The rules of what is read of a file, for some interfaces; a fault refuses it."""
    made = ruleset_of(read.text, interfaces).rules
    numbered = sorted(((rule.number, kind, rule) for kind, rules in made.translation.items() for rule in rules),
                      key=lambda each: each[0])
    return Rules([filter_rule(rule, read.lines) for rule in made.filter],
                 [translation_rule(kind, rule, read.lines) for _, kind, rule in numbered])
