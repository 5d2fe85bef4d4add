"""Rules and anchors in a model of the expansion of rulesets.

A statement is first given its meaning: each of its lists becomes the items that it stands for, and the faults met on
the way are gathered in the order of the text. The rules that it makes are counted before any is made.
"""

from dataclasses import dataclass, field
from itertools import product
from math import prod
from typing import NamedTuple

from expansions.hosts import FlatHost
from expansions.values import TOO_MANY, Elements, itself
from rulesets.model import read_icmp_type
from rulesets.parts import MOST_PORT, read_address, read_interface_or_not, read_port, read_protocol
from rulesets.translation import KINDS, read_single_source, read_single_target
from rulesets.tree import ANY, Anchor, Interface, Network, Port, Translation
from rulesets.words import BAD_NUMBER, Fault

# filter rules and rules of translation together
MOST_RULES = 65536
DEFAULT_FLAGS = (0x02, 0x12)
EVERYWHERE = FlatHost(ANY, False)


class Match(NamedTuple):
    """What one flat rule or anchor asks, but for its direction; None where it asks nothing."""
    interface: Interface | None
    protocol: int | None
    icmp: tuple | None
    source: FlatHost
    source_port: Port | None
    destination: FlatHost
    destination_port: Port | None


@dataclass
class FlatAnchor:
    direction: str | None
    quick: bool
    match: Match
    parent: int | None
    first: int
    last: int = 0


@dataclass
class FlatRule:
    # pass, drop or return
    action: str
    direction: str | None
    quick: bool
    match: Match
    flags: tuple | None
    has_default_flags: bool
    # None without a state, else its binding
    binding: str | None
    no_sync: bool
    # how many states of it there may be, None if it keeps none, or any number of them
    most: int | None
    allow_opts: bool
    # of its first word
    line: int
    label: str | None
    # places of the anchors round it, the outermost first
    anchors: tuple


class FlatTranslation(NamedTuple):
    number: int
    # of its first word
    line: int
    is_no_rule: bool
    passes: bool
    match: Match
    # None for a rule that says no
    target: Network | None
    ports: tuple | None
    keeps_port: bool


@dataclass
class Meaning:
    """What a statement stands for: the lists in the order in which they expand, the meanings of a body, the faults
    in the order of the text, and how many rules it makes."""
    statement: object
    lists: list
    faults: list
    count: int
    body: list = field(default_factory=list)
    target: FlatHost | None = None

    def matches(self):
        return (Match(*chosen) for chosen in product(*self.lists))


class Rules:
    """The flat rules made so far."""

    def __init__(self, hosts, options):
        self.hosts = hosts
        self.macros = hosts.macros
        self.options = options
        self.filter = []
        self.anchors = []
        self.translation = {kind: [] for kind in KINDS}
        self.translation_count = 0

    def take(self, statement):
        """Takes a rule or an anchor and answers its faults in order; too many rules go before all others."""
        if isinstance(statement, Translation):
            meaning = self.translation_meaning(statement)
        else:
            meaning = self.filter_meaning(statement)
        if len(self.filter) + self.translation_count + meaning.count > MOST_RULES:
            return [Fault(statement.line, TOO_MANY)]
        if not meaning.faults:
            self.make(meaning)
        return meaning.faults

    def elements(self, written, element, resolve):
        return Elements(self.macros, written, element, resolve)

    def criteria_meaning(self, statement, source_hosts=None):
        """The meaning of criteria. Their lists are read in the order of the text, where the types of ICMP come last,
        and expand in another one."""
        written = statement.criteria
        found = [
            written.interfaces and self.elements(written.interfaces, read_interface_or_not, itself),
            written.protocols and self.elements(written.protocols, read_protocol, itself),
            source_hosts or self.host_elements(written.source),
            self.port_elements(written.source),
            self.host_elements(written.destination),
            self.port_elements(written.destination),
            written.icmp_types and self.elements(written.icmp_types, read_icmp_type, itself),
        ]
        faults = [fault for elements in found if elements for fault in elements.faults]
        count = prod(elements.count() for elements in found if elements)
        interfaces, protocols, *sides, icmp_types = ((elements.items if elements else [None]) for elements in found)
        lists = [interfaces, protocols, icmp_types, *sides]
        return Meaning(statement, lists, faults, count)

    def host_elements(self, part):
        if part.hosts is None:
            return self.elements([EVERYWHERE], read_address, itself)
        return self.elements(part.hosts, read_address, self.hosts.flat)

    def port_elements(self, part):
        return part.ports and self.elements(part.ports, read_port, itself)

    # Filter rules and anchors

    def filter_meaning(self, statement):
        meaning = self.criteria_meaning(statement)
        if isinstance(statement, Anchor):
            meaning.body = [self.filter_meaning(inner) for inner in statement.body]
            meaning.faults += [fault for inner in meaning.body for fault in inner.faults]
            meaning.count *= sum(inner.count for inner in meaning.body)
        return meaning

    def make(self, meaning):
        if isinstance(meaning.statement, Translation):
            self.make_translation(meaning)
        else:
            self.make_filter(meaning, ())

    def make_filter(self, meaning, anchors):
        """Makes the flat rules of a rule, or of an anchor with its body once for each combination of its lists."""
        if not meaning.count:
            return
        if isinstance(meaning.statement, Anchor):
            for match in meaning.matches():
                self.make_anchor(meaning, match, anchors)
        else:
            self.filter += [self.flat_rule(meaning.statement, match, anchors) for match in meaning.matches()]

    def make_anchor(self, meaning, match, anchors):
        statement = meaning.statement
        place = len(self.anchors)
        parent = anchors[-1] if anchors else None
        flat = FlatAnchor(statement.direction, statement.quick, match, parent, len(self.filter))
        self.anchors.append(flat)
        for inner in meaning.body:
            self.make_filter(inner, (*anchors, place))
        flat.last = len(self.filter) - 1

    def flat_rule(self, rule, match, anchors):
        """Only a pass rule keeps state. One that does asks for the default flags, unless flags are written."""
        policies = self.options.values
        action = policies["block-policy"] if rule.action == "block" else rule.action
        is_stateful = action == "pass" and rule.keeps_state is not False
        has_default_flags = is_stateful and rule.flags is None
        flags = DEFAULT_FLAGS if has_default_flags else rule.flags
        binding, no_sync, most = None, False, None
        if is_stateful:
            binding = rule.state_options.binding or policies["state-policy"]
            no_sync, most = rule.state_options.no_sync, rule.state_options.most
        return FlatRule(action, rule.direction, rule.quick, match, None if flags == ANY else flags, has_default_flags,
                        binding, no_sync, most, rule.allow_opts, rule.line, rule.label, anchors)

    # Translation

    def translation_meaning(self, rule):
        source_hosts = None
        if rule.kind == "binat" and not rule.is_no_rule:
            source_hosts = self.single_source(rule)
        meaning = self.criteria_meaning(rule, source_hosts)
        if rule.target:
            try:
                meaning.target = self.hosts.single(rule.target.host, read_single_target, rule.line)
            except Fault as fault:
                meaning.faults.append(fault)
            if rule.target.ports and rule.target.ports[1] == "*" and not self.fits(rule.target.ports[0], meaning):
                meaning.faults.append(Fault(rule.target.ports_line, BAD_NUMBER))
        return meaning

    def single_source(self, rule):
        """The one address that the source of a binat rule is, as a list of one."""
        elements = self.elements([], None, itself)
        try:
            elements.items.append(self.hosts.single(rule.criteria.source.hosts[0], read_single_source, rule.line))
        except Fault as fault:
            elements.faults.append(fault)
        return elements

    def fits(self, first, meaning):
        """Whether each destination port can be moved by its distance: it is one number or a range, and ends within
        the ports. Behind a fault nothing is asked."""
        if meaning.faults:
            return True
        return all(port is not None and port.sign in ("=", ":") and first + port.high - port.low <= MOST_PORT
                   for port in meaning.lists[-1])

    def make_translation(self, meaning):
        rule = meaning.statement
        for match in meaning.matches():
            target = meaning.target and meaning.target.what
            ports = rule.target.ports if rule.target else None
            keeps_port = bool(rule.target) and rule.target.keeps_port
            self.translation[rule.kind].append(FlatTranslation(
                self.translation_count, rule.line, rule.is_no_rule, rule.passes, match, target, ports, keeps_port))
            self.translation_count += 1
