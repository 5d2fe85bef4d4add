"""On which lines of its file the rules of a ruleset stand, and what a report says of them: a second implementation,
written from docs/FORMATS.md, sections "A report" and "Rules one by one".

Whether a packet could have asked a rule is what the model of `diff` says of rules that differ. Here it is said of all
rules of one ruleset.
"""

from typing import NamedTuple

from captures.frames import Packet
from changes import untried
from changes.flows import names_of
from changes.said import Said
from expansions.hosts import interface_of
from expansions.model import Ruleset
from reporting.page import UNUSED_ROW, USED
from steps.model import VERDICTS
from steps.replay import ruleset_of
from telling.shadows import shadows_of


class Standing(NamedTuple):
    """A rule as the model of `diff` has it, its line, whether it begins with `no`, the verdict of a filter rule, and
    the line of the filter rule that shadows it, None for none."""
    rule: untried.Rule
    line: int
    begins_with_no: bool = False
    verdict: str | None = None
    shadow: int | None = None


class Run(NamedTuple):
    """What a page is about: the ruleset, its rules, of which those of the filter come last, the packets as the model of
    `diff` has them, and the names of the interfaces."""
    ruleset: Ruleset
    rules: list
    seen: list
    names: list


def rules_of(ruleset, read):
    found = untried.rules_of(ruleset, read)
    filters, shadows = found[untried.FILTER], shadows_of(ruleset)
    for kind in untried.KINDS[:-1]:
        yield from (Standing(rule, rule.line, not rule.is_named) for rule in found[kind])
    for rule, made, shadow in zip(filters, ruleset.rules.filter, shadows, strict=True):
        yield Standing(rule, rule.line, verdict=VERDICTS[made.action],
                       shadow=None if shadow is None else filters[shadow].line)


def seen_of(told, names, targets):
    """A packet with what its line says, where these are the addresses behind translation on each interface."""
    seen, said = told.packet.seen(), told.said
    is_packet, place = isinstance(seen, Packet), told.packet.place
    way = None if said.direction == "-" else said.direction
    return untried.Seen(names[place], Said(said.number, way, said.verdict, said.reason, said.rule, said.translation,
                                           said.state),
                        is_packet and untried.opens(seen), is_packet and seen.source in targets[place])


def run_of(shown, told):
    """The rules and packets of a question to `show` that is joined to its end."""
    interfaces, read = tuple(interface_of(*each) for each in shown.case.interfaces()), shown.read()
    ruleset, names = ruleset_of(read.text, interfaces), names_of(shown.case)
    targets = [set(untried.targets_of([ruleset], name, each.network().address))
               for name, each in zip(names, interfaces)]
    return Run(ruleset, list(rules_of(ruleset, read)), [seen_of(each, names, targets) for each in told], names)


# Lines

def by_line(rules):
    """The rules of each line on which one stands."""
    found = {}
    for rule in rules:
        found.setdefault(rule.line, []).append(rule)
    return dict(sorted(found.items()))


def class_of(rules, is_used):
    """The class of a line with these rules."""
    if not is_used:
        return UNUSED_ROW
    verdicts = {rule.verdict for rule in rules if rule.verdict is not None}
    return verdicts.pop() if len(verdicts) == 1 else USED


def why_words(run, rules):
    """Why none of the rules of a line decides, if it is known. Each byte of a name is a character."""
    if all(each.shadow is not None for each in rules):
        return f"shadowed by {rules[0].shadow}"
    if any(untried.could_be_asked(each.rule, run.seen) for each in rules):
        return ""
    why = untried.why_not(rules[0].rule, run.seen, run.names, run.ruleset.options.skipped)
    return f"not asked: {why.words}"


def lines_of(text):
    """The lines of a file, without their ends. Nothing behind the last end is no line."""
    *lines, rest = text.split(b"\n")
    return [*lines, rest] if rest else lines
