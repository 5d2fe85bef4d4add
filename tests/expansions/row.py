"""The form of a short ruleset with what it means, and words that many of them share."""

from typing import NamedTuple

from expansions.cases import EM0

STATE = " flags 2 18 default state floating"
ALL = "from any to any"


class Row(NamedTuple):
    text: str
    answer: str | list
    interfaces: tuple = (EM0,)


def sources_of(line, *sources):
    """The rules of `block from` on a line, one a source."""
    return [f"filter {number} drop from {source} to any line {line}" for number, source in enumerate(sources)]
