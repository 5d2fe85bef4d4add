"""What the command `rules` answers to a ruleset: a second implementation, written from docs/FORMATS.md, section "Rules
one by one".

    python3 -m telling.model FILE [INTERFACE ADDRESS/BITS ..]

in the folder `tests` prints the rules of a text for some interfaces. Without any it is em0 with 192.0.2.1/24.

The model of the expansion says which flat rules a text makes. Here each of them is written in the words of pf.conf(5),
with its number and its line. Rules of translation come first, by their numbers. As text, anchors stand round filter
rules, and as JSON they stand before all of these. The counters of a run say how often each rule was visited, and which
packets count for it. Of a filter rule that never decides it is said by which one it is shadowed.
"""

import re
import sys
from collections import defaultdict
from pathlib import Path
from typing import NamedTuple

sys.dont_write_bytecode = True

from captures.model import Refused
from expansions.cases import EM0
from expansions.hosts import interface_of
from listing.model import spelled
from runs.model import Outcome, refused
from steps.replay import ruleset_of
from telling.shadows import shadows_of
from telling.words import anchor_words, filter_words, translation_words

# how the rules are printed
FORMS = TEXT, JSON = "text", "json"
# what rules of the filter and anchors are called in JSON
FILTER, ANCHOR = "filter", "anchor"
# of an anchor round a rule
INDENT = "  "
NUMBER = re.compile(rb"0|[1-9][0-9]*")
MOST_COUNT, MOST_DIGITS = 2**64 - 1, 20
# numbers of a rule in the counters, and of all packets
RULE_COUNTS, TOTAL_COUNTS = 3, 5


class Asked(NamedTuple):
    """What the command is given: the bytes of a ruleset, the interfaces, the bytes of the counters of a run, None
    without `--counters`, and how the rules are printed."""
    text: bytes
    interfaces: tuple = (EM0,)
    counters: bytes | None = None
    form: str = TEXT


class NotOfRuleset(Exception):
    """A line of counters that a run with the ruleset doesn't write, by its number."""


# Counters

def counts_in(line, head, count):
    """The numbers of a line that begins with these words; None if it isn't such a line."""
    words = line.split(b" ")
    place = len(head)
    numbers = words[place:]
    if words[:place] != head or len(numbers) != count:
        return None
    if not all(len(word) <= MOST_DIGITS and NUMBER.fullmatch(word) and int(word) <= MOST_COUNT for word in numbers):
        return None
    return tuple(map(int, numbers))


def counted(octets, filters, translations):
    """The numbers of each filter rule and of each rule of translation, by their numbers, in the counters of a run."""
    *lines, rest = octets.split(b"\n")
    heads = [([kind, b"%d" % number], RULE_COUNTS) for kind, count in ((b"filter", filters),
                                                                       (b"translation", translations))
             for number in range(count)]
    heads.append(([b"total"], TOTAL_COUNTS))
    found = []
    for place, (head, count) in enumerate(heads):
        counts = counts_in(lines[place], head, count) if place < len(lines) else None
        if counts is None:
            raise NotOfRuleset(place + 1)
        found.append(counts)
    if len(lines) > len(heads) or rest:
        raise NotOfRuleset(len(heads) + 1)
    return found[:filters], found[filters:-1]


# What stands behind a rule

def remarks_of(counts, may_count, shadow):
    """What is said of a rule in words: no packet counts for it, or another rule decides in its place."""
    if counts is not None and may_count:
        _, packets, _ = counts
        yield from [] if packets else ["counts no packet"]
    yield from [] if shadow is None else [f"shadowed by @{shadow}"]


def note_of(counts=None, may_count=True, shadow=None):
    """What stands behind a rule, which no packet counts for if it translates nothing. There may be no counts."""
    remarks = ", ".join(remarks_of(counts, may_count, shadow))
    numbers = "" if counts is None else "{} evaluations, {} packets, {} bytes".format(*counts)
    words = ": ".join(part for part in (numbers, remarks) if part)
    return f"  # {words}" if words else ""


# Rules

def translations_of(ruleset):
    """The rules of translation by their numbers, each with its kind."""
    found = [(rule.number, kind, rule) for kind, rules in ruleset.rules.translation.items() for rule in rules]
    return [(kind, rule) for _, kind, rule in sorted(found, key=lambda each: each[0])]


class Told(NamedTuple):
    """What is told of a rule: its kind, number, line and words, the numbers of the counters, if there are any, whether
    packets may count for it, by which rule it is shadowed, if it is, and how many anchors stand round it."""
    kind: str
    number: int
    line: int
    words: str
    counts: tuple | None
    may_count: bool = True
    shadow: int | None = None
    depth: int = 0


def told_rules(ruleset, counters):
    """All rules of translation, and all filter rules."""
    rules, translations = ruleset.rules, translations_of(ruleset)
    filter_counts, counts = [None] * len(rules.filter), [None] * len(translations)
    if counters is not None:
        filter_counts, counts = counted(counters, len(filter_counts), len(counts))
    translating = [Told(kind, rule.number, rule.line, translation_words(kind, rule), numbers, rule.target is not None)
                   for (kind, rule), numbers in zip(translations, counts)]
    filtering = [Told(FILTER, number, rule.line, filter_words(rule), numbers, shadow=shadow, depth=len(rule.anchors))
                 for number, (rule, numbers, shadow) in enumerate(zip(rules.filter, filter_counts,
                                                                      shadows_of(ruleset)))]
    return translating, filtering


# Text

def depth_of(anchors, anchor):
    """How many anchors stand round one."""
    return 0 if anchor.parent is None else 1 + depth_of(anchors, anchors[anchor.parent])


def text_line(told):
    note = note_of(told.counts, told.may_count, told.shadow)
    return f"@{told.number} L{told.line} {INDENT * told.depth}{told.words}{note}"


def text_lines(anchors, translating, filtering):
    """Rules of translation, and filter rules with the anchors round them."""
    yield from map(text_line, translating)
    begins, ends = defaultdict(list), defaultdict(list)
    for anchor in anchors:
        indent = INDENT * depth_of(anchors, anchor)
        begins[anchor.first].append(f"{indent}{anchor_words(anchor)} {{")
        # the inner ones end first
        ends[anchor.last].insert(0, indent + "}")
    for told in filtering:
        yield from begins[told.number]
        yield text_line(told)
        yield from ends[told.number]


# JSON

def rule_object(told):
    """What the object of a rule has, by its names and in their order."""
    evaluations, packets, octets = told.counts or (None, None, None)
    return {"kind": told.kind, "number": told.number, "line": told.line, "rule": told.words,
            "evaluations": evaluations, "packets": packets, "bytes": octets, "shadowed_by": told.shadow}


def anchor_object(anchor):
    return {"kind": ANCHOR, "anchor": anchor_words(anchor), "first": anchor.first, "last": anchor.last}


def json_lines(anchors, translating, filtering):
    """Of anchors that begin at the same rule the outer ones begin first, as they are written."""
    begun = sorted(anchors, key=lambda anchor: anchor.first)
    objects = [*map(rule_object, translating), *map(anchor_object, begun), *map(rule_object, filtering)]
    return map(spelled, objects)


def lines_of(ruleset, counters=None, form=TEXT):
    """All that is printed of a ruleset, without the ends of lines."""
    write = {TEXT: text_lines, JSON: json_lines}[form]
    return write(ruleset.rules.anchors, *told_rules(ruleset, counters))


def answer(asked):
    """What the command leaves."""
    try:
        ruleset = ruleset_of(asked.text, asked.interfaces)
    except Refused as fault:
        return refused(f"rules {fault}")
    try:
        lines = list(lines_of(ruleset, asked.counters, asked.form))
    except NotOfRuleset as line:
        return refused(f"counters line {line}: not of this ruleset")
    return Outcome("".join(f"{line}\n" for line in lines).encode("latin-1"), b"", 0)


def main():
    if len(sys.argv) % 2:
        sys.exit(__doc__)
    words = sys.argv[2:] or ["em0", "192.0.2.1/24"]
    interfaces = tuple(map(interface_of, words[::2], words[1::2]))
    outcome = answer(Asked(Path(sys.argv[1]).read_bytes(), interfaces))
    sys.stdout.buffer.write(outcome.out)
    sys.exit(outcome.err.decode() or None)


if __name__ == "__main__":
    main()
