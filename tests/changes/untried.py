"""What the command `diff` says of differences between two rulesets that no packet tried: a second implementation,
written from docs/FORMATS.md, section "What another ruleset changes".

A rule differs if only one of the rulesets has it, or if it stands elsewhere among the rules that both have. It is the
same rule if it asks and does the same, its tables hold the same, and so do the anchors round it. Its label doesn't
count. A rule that differs could be asked if a packet of the run with its ruleset came to the rules of its kind, on an
interface and in a direction that the rule and its anchors allow. Without such a packet it is told why. Else it is told
if no packet names it.
"""

from collections import Counter
from dataclasses import replace
from typing import NamedTuple

from captures import merging
from captures.frames import view
from captures.model import read_header
from changes.flows import names_of
from changes.printed import Idle, Unasked, Unmet
from changes.rules import ports_of
from changes.said import Said, said_by
from expansions.hosts import interface_of
from showing.rules import logged_lines
from steps.model import WIRE
from steps.replay import ruleset_of

NAT, RDR, BINAT, FILTER = KINDS = ("nat", "rdr", "binat", "filter")
IN, OUT = "in", "out"
# reasons of packets about which the filter was asked, and about which translation rules were
CAME = ("rule", "default", "state-insert", "state-limit")
OPENED = (*CAME, "nat-exhausted", "nat-pass")
OPTIONS = "ip-option"
# which way a rule of translation translates
WAYS = {NAT: (OUT,), RDR: (IN,), BINAT: (IN, OUT)}
# what packets do that go these ways, and the word before an interface
VERBS = {(IN,): ("comes in", "on"), (OUT,): ("goes out", "of"), (IN, OUT): ("begins", "on")}


# Rules as they are compared

class Rule(NamedTuple):
    """A rule of a ruleset: its kind, its number, the line of its file, what is compared of it, the interface and the
    direction that each of it and its anchors asks for, and whether a packet names it for which it decides."""
    kind: str
    number: int
    line: int
    said: object
    asked: tuple
    is_named: bool = True


def contents(tables, host):
    """A host as it is compared: a table by its name and what it holds."""
    return (host, tuple(sorted((entry.network, entry.negated) for entry in tables[host.what]))) \
        if isinstance(host.what, str) and host.what in tables else host


def match_said(tables, match):
    return match._replace(source=contents(tables, match.source), destination=contents(tables, match.destination))


def anchor_said(tables, anchor):
    return anchor.direction, anchor.quick, match_said(tables, anchor.match)


def asked_of(direction, match):
    return match.interface, direction


def filter_rules(ruleset, lines, logged):
    tables = ruleset.hosts.tables
    for number, rule in enumerate(ruleset.rules.filter):
        anchors = [ruleset.rules.anchors[place] for place in rule.anchors]
        said = replace(rule, line=0, label=None, anchors=(), match=match_said(tables, rule.match))
        round_it = tuple(anchor_said(tables, anchor) for anchor in anchors)
        asked = tuple(asked_of(each.direction, each.match) for each in (rule, *anchors))
        yield Rule(FILTER, number, lines[rule.line - 1], (repr(said), repr(round_it), rule.line in logged), asked)


def translation_rules(ruleset, kind, lines):
    tables = ruleset.hosts.tables
    for rule in ruleset.rules.translation[kind]:
        said = rule._replace(number=0, line=0, ports=ports_of(kind, rule), match=match_said(tables, rule.match))
        yield Rule(kind, rule.number, lines[rule.line - 1], repr(said), (asked_of(None, rule.match),),
                   not rule.is_no_rule)


def rules_of(ruleset, read):
    """The rules of what was read of a file, by their kinds."""
    logged = logged_lines(read.text)
    return {kind: list(translation_rules(ruleset, kind, read.lines)) for kind in (NAT, RDR, BINAT)} | {
        FILTER: list(filter_rules(ruleset, read.lines, logged))}


# What differs

def common(rules, others):
    """The rules that are among others too, and those that aren't."""
    left, both, alone = Counter(rule.said for rule in others), [], []
    for rule in rules:
        (both if left[rule.said] > 0 else alone).append(rule)
        left[rule.said] -= 1
    return both, alone


def differing(old, new):
    """The rules of a kind that differ, of both rulesets."""
    before, gone = common(old, new)
    after, come = common(new, old)
    moved = [pair for pair in zip(before, after, strict=True) if pair[0].said != pair[1].said]
    return [*gone, *(rule for rule, _ in moved)], [*come, *(rule for _, rule in moved)]


# What was seen of a run

class Seen(NamedTuple):
    """A packet: its interface, what a run says of it, whether its connection could begin by it, and whether it is shown
    behind its translation."""
    name: str
    said: Said
    opens: bool
    is_translated: bool

    def has_way_to(self, reasons):
        """Rules were asked about it, to which packets come with these reasons."""
        return self.said.reason in reasons or self.said.reason == OPTIONS and self.said.state is None

    def came(self):
        """The filter was asked about it."""
        return self.has_way_to(CAME)

    def opened(self):
        """Translation rules were asked about it, or would have been on the other side of them."""
        return self.opens and self.has_way_to(OPENED)

    def names(self, rule):
        return (self.said.rule if rule.kind == FILTER else self.said.translation) == rule.number


def targets_of(rulesets, name, address):
    """The addresses that packets have on an interface behind their translation, and its own."""
    yield address
    for ruleset in rulesets:
        for kind in (NAT, BINAT):
            for rule in ruleset.rules.translation[kind]:
                if rule.target is not None and allows_interface(rule.match.interface, name):
                    yield rule.target.address


def allows_interface(asked, name):
    return asked is None or (asked.name == name) != asked.negated


def opens(seen):
    """Whether a packet can be the first one of a connection."""
    return not seen.is_fragment and (seen.icmp is None or seen.icmp[0] in (0, 8))


def seen_of(question, outcome, rulesets):
    """The packets of a run."""
    captures, names = question.case.captures(), names_of(question.case)
    interfaces = [interface_of(*each) for each in question.case.interfaces()]
    targets = [set(targets_of(rulesets, name, each.network().address)) for name, each in zip(names, interfaces)]
    links = [read_header(capture).link for capture in captures]
    records = merging.merged(list(map(merging.source_of, captures))).records
    for (place, record), said in zip(records, said_by(outcome), strict=True):
        shown = view(links[place], record.frame)
        is_packet = shown not in ("skip", "short")
        is_translated = is_packet and (question.case.tap == WIRE or shown.source in targets[place])
        yield Seen(names[place], said, is_packet and opens(shown), is_translated)


# What could be asked

def allows(rule, name, way):
    """Whether a rule and the anchors round it allow packets of an interface that go this way."""
    return all(allows_interface(interface, name) and direction in (None, way) for interface, direction in rule.asked)


def ways_of(rule):
    return WAYS.get(rule.kind, (IN, OUT))


def could_be_asked(rule, seen):
    """Whether one of the packets could have asked a rule."""
    if rule.kind == FILTER:
        return any(each.came() and each.said.way and allows(rule, each.name, each.said.way) for each in seen)
    return any(each.names(rule) or each.opened() and each.said.way in ways_of(rule)
               and allows(rule, each.name, each.said.way) and not (each.said.way == OUT and each.is_translated)
               for each in seen)


def is_met(rule, seen):
    """Whether a packet names a rule."""
    return any(each.names(rule) for each in seen)


# Why not

class Why(NamedTuple):
    """Why no packet could have asked a rule: which reason it is, by the order in which they are told, the way and the
    interface that it names, and its words."""
    rank: int
    way: int
    name: str
    words: str


NO_CAPTURE, UNFILTERED, NONE_PASSES, NONE_ASKS, NO_CONNECTION, TRANSLATED = range(6)
ALL_WAYS = ((IN,), (OUT,), (IN, OUT))


def no_capture(rule, names):
    """That the run lacks the interface that one of the anchors round a rule asks for, or else the rule itself."""
    first, *anchors = rule.asked
    for interface, _ in (*anchors, first):
        if interface is not None and not interface.negated and interface.name not in names:
            return Why(NO_CAPTURE, 0, interface.name, f"no capture of {interface.name}")
    return Why(NO_CAPTURE, 0, "", "no capture fits it")


def where(ways, name):
    verb, word = VERBS[ways]
    return f"{verb} {word} {name}" if name else verb


def none_passes(ways, name):
    if ways == (IN, OUT):
        return f"nothing{f' on {name}' if name else ''} is judged"
    return f"no packet {where(ways, name)}"


def none_asks(ways, name):
    if ways == (IN, OUT):
        return f"each packet{f' on {name}' if name else ''} has a state or isn't filtered"
    return f"each packet that {where(ways, name)} has a state or isn't filtered"


def why_not(rule, seen, names, skipped):
    """Why no packet could have asked a rule."""
    allowed = {name: tuple(way for way in ways_of(rule) if allows(rule, name, way)) for name in names}
    allowed = {name: ways for name, ways in allowed.items() if ways}
    if not allowed:
        return no_capture(rule, names)
    only = next(iter(allowed)) if len(allowed) == 1 else None
    ways = tuple(way for way in (IN, OUT) if any(way in each for each in allowed.values()))
    there = [each for each in seen if each.said.way in allowed.get(each.name, ())]
    if only in skipped:
        rank, words = UNFILTERED, f"{only} isn't filtered"
    elif rule.kind == FILTER:
        rank, words = (NONE_ASKS, none_asks(ways, only)) if there else (NONE_PASSES, none_passes(ways, only))
    elif any(each.opened() and each.said.way == OUT and each.is_translated for each in there):
        rank, words = TRANSLATED, f"{only or 'the capture'} shows what goes out behind its translation"
    else:
        rank, words = NO_CONNECTION, f"no connection {where(ways, only)}"
    return Why(rank, 0 if rank == UNFILTERED else ALL_WAYS.index(ways), only or "", words)


# What is told

class Untried(NamedTuple):
    """The lines about what no packet tried, how many differences no packet could have asked, and whether a packet could
    have asked one, or an option differs."""
    lines: list
    count: int
    is_tried: bool


def differ_in_options(old, new):
    return any(getattr(old.options, part) != getattr(new.options, part) for part in ("timeouts", "values", "skipped"))


def idle_options(old, new, before, after, names):
    """Options that differ and say nothing about the packets."""
    for first, second in ((old, new), (new, old)):
        for name in first.options.skipped:
            if name not in second.options.skipped and name not in names:
                yield Idle(f"set skip on {name}", f"no capture of {name}")
    if all(each.said.state is None for each in (*before, *after)):
        if old.options.timeouts != new.options.timeouts:
            yield Idle("set timeout", "no packet has a state")
        if old.options.values["states"] != new.options.values["states"]:
            yield Idle("set limit states", "no packet has a state")


def untried(question, old_outcome, new_outcome):
    """What no packet tried of the differences between both rulesets."""
    interfaces = tuple(interface_of(*each) for each in question.case.interfaces())
    names, reads = names_of(question.case), question.read()
    rulesets = [ruleset_of(read.text, interfaces) for read in reads]
    seen = [list(seen_of(question, outcome, rulesets)) for outcome in (old_outcome, new_outcome)]
    rules = [rules_of(ruleset, read) for ruleset, read in zip(rulesets, reads)]
    groups, unmet, is_tried = {}, set(), differ_in_options(*rulesets)
    for kind in KINDS:
        differing_rules = differing(*(each[kind] for each in rules))
        for which, (differ, packets, ruleset) in enumerate(zip(differing_rules, seen, rulesets)):
            for rule in differ:
                if not could_be_asked(rule, packets):
                    why = why_not(rule, packets, names, ruleset.options.skipped)
                    groups.setdefault((KINDS.index(kind), why), set()).add((which, rule.line))
                    continue
                is_tried = True
                if rule.is_named and not is_met(rule, packets):
                    unmet.add((which, rule.line))
    lines = [Unasked(KINDS[kind], sorted(places), why.words) for (kind, why), places in sorted(groups.items())]
    idle = list(idle_options(*rulesets, *seen, names))
    met = [Unmet(sorted(unmet))] if unmet else []
    return Untried([*lines, *idle, *met], sum(map(len, groups.values())) + len(idle), is_tried)
