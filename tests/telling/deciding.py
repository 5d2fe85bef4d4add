"""Whether rules that are shadowed decide on no packet, by the model of the run.

Packets are drawn near what the rules of a ruleset ask: at the edges of their networks, ranges, tables and ports. A rule
that is marked may decide on none of them, and where it holds the rule that is named has to hold too.
"""

import random
from collections import Counter

from captures.frames import ICMP, TCP, UDP, Packet
from expansions.hosts import OWN
from rulesets.parts import MOST_BITS, MOST_PORT
from rulesets.tree import ANY, Network, Range
from steps.filter import filtered, holds
from steps.filter_texts import some_ruleset
from steps.replay import ruleset_of
from telling import shadow_texts
from telling.cases import counts_of
from telling.model import Asked
from telling.row import ONE, TWO
from telling.shadows import shadows_of

SEED = 20270103
# rulesets, packets of each, and the most rules of one
RULESETS, PACKETS, MOST_RULES = 100, 150, 40
LAST_ADDRESS = 2**MOST_BITS - 1
# how often a packet has what a rule asks at a criterion, and how often it is a fragment
FITTING, FRAGMENT = 0.8, 0.1
# how often rules with `max` have room
ROOM = 0.5
OTHER_PROTOCOLS = (TCP, UDP, ICMP, 47, 2)
OTHER_FLAGS = (0x02, 0x10, 0x12, 0x01, 0x04, 0x00)
OTHER_TYPES = ((8, 0), (0, 0), (3, 1), (3, 4), (11, 0))
MARKED_HOLDS, OTHER_DECIDES = "packets that a shadowed rule holds for", "packets that another rule decides on"
RULES_MARKED = "shadowed rules"
SEEN = (RULES_MARKED, MARKED_HOLDS, OTHER_DECIDES)


# Packets near the rules

def edges_of(low, high, last):
    """The numbers at both ends of a range, and beside them."""
    return [number for number in {low - 1, low, high, high + 1} if 0 <= number <= last]


def addresses_of(what, tables):
    """Addresses at the edges of a host."""
    if what == ANY:
        return []
    if isinstance(what, Network):
        return edges_of(what.address, what.address | LAST_ADDRESS >> what.bits, LAST_ADDRESS)
    if isinstance(what, Range):
        return edges_of(what.first, what.last, LAST_ADDRESS)
    return [address for entry in tables[what] for address in addresses_of(entry.network, tables)]


def hosts_of(match):
    return match.source, match.destination


class Near:
    """What packets may have near the rules of a ruleset."""

    def __init__(self, ruleset):
        matches = [each.match for each in (*ruleset.rules.filter, *ruleset.rules.anchors)]
        self.tables = ruleset.hosts.tables
        whats = {host.what for match in matches for host in hosts_of(match)} | {OWN}
        self.addresses = sorted({address for what in whats for address in addresses_of(what, self.tables)})
        ports = [port for match in matches for port in (match.source_port, match.destination_port) if port]
        self.ports = sorted({0, 80, *(edge for port in ports for edge in edges_of(port.low, port.high, MOST_PORT))})

    def address(self, draw, host):
        own = addresses_of(host.what, self.tables)
        return draw.choice(own if own and draw.random() < FITTING else self.addresses)

    def port(self, draw, asked):
        own = edges_of(asked.low, asked.high, MOST_PORT) if asked else []
        return draw.choice(own if own and draw.random() < FITTING else self.ports)

    def packet(self, draw, rule):
        """A packet that may have much of what a rule asks."""
        match, protocol = rule.match, some_protocol(draw, rule)
        packet = Packet(self.address(draw, match.source), self.address(draw, match.destination), protocol,
                        draw.random() < FRAGMENT, False)
        if packet.is_fragment:
            return packet
        if protocol == ICMP:
            return packet._replace(icmp=some_type(draw, match.icmp))
        if protocol in (TCP, UDP):
            ports = self.port(draw, match.source_port), self.port(draw, match.destination_port)
            packet = packet._replace(ports=ports)
        return packet._replace(flags=some_flags(draw, rule)) if protocol == TCP else packet


def some_protocol(draw, rule):
    match = rule.match
    if draw.random() < FITTING:
        if match.protocol is not None:
            return match.protocol
        if match.icmp is not None:
            return ICMP
        if match.source_port or match.destination_port or rule.flags:
            return draw.choice((TCP, TCP, UDP))
    return draw.choice(OTHER_PROTOCOLS)


def some_type(draw, asked):
    if asked is None or draw.random() >= FITTING:
        return draw.choice(OTHER_TYPES)
    return asked.number, draw.choice((0, 1)) if asked.code is None else asked.code


def some_flags(draw, rule):
    return rule.flags[0] if rule.flags and draw.random() < FITTING else draw.choice(OTHER_FLAGS)


# Rulesets and packets

def some_small_ruleset(draw, number):
    """A ruleset of few rules, mostly one in which shadows are likely, and its interfaces."""
    write = shadow_texts.some_ruleset if number % 3 else some_ruleset
    while True:
        asked = Asked(write(draw), draw.choice((ONE, TWO)))
        counts = counts_of(asked)
        if counts and 0 < counts[0] <= MOST_RULES:
            return ruleset_of(asked.text, asked.interfaces), asked


def holds_here(ruleset, number, packet, place, direction):
    """Whether a rule and all anchors round it hold of a packet."""
    rules = ruleset.rules
    rule = rules.filter[number]
    return all(holds(ruleset, each, packet, place, direction)
               for each in (*(rules.anchors[anchor] for anchor in rule.anchors), rule))


def faults_of(ruleset, shadows, packet, place, direction, has_room):
    """What is wrong with the marks, by what becomes of one packet, and what was seen of it. `has_room` tells whether
    rules with `max` have room."""
    decides = filtered(ruleset, packet, place, direction, lambda *_: has_room).place
    held = [number for number, shadow in enumerate(shadows)
            if shadow is not None and holds_here(ruleset, number, packet, place, direction)]
    faults = [f"@{number} holds, and @{shadows[number]} doesn't: {direction}, {place}, {packet}" for number in held
              if not holds_here(ruleset, shadows[number], packet, place, direction)]
    if decides is not None and shadows[decides] is not None:
        faults.append(f"@{decides} decides: {direction}, {place}, {packet}")
    seen = Counter({MARKED_HOLDS: bool(held), OTHER_DECIDES: decides is not None and shadows[decides] is None})
    return faults, seen


def case_at(comparison, number):
    """Some packets at a ruleset. It answers how often each thing was seen."""
    draw = random.Random(f"{SEED} {number}")
    ruleset, asked = some_small_ruleset(draw, number)
    shadows, near = shadows_of(ruleset), Near(ruleset)
    marked = [rule for rule, shadow in zip(ruleset.rules.filter, shadows) if shadow is not None]
    faults, counts = [], Counter({RULES_MARKED: len(marked)})
    for _ in range(PACKETS):
        rule = draw.choice(marked if marked and draw.random() < 0.5 else ruleset.rules.filter)
        direction, place = rule.direction or draw.choice(("in", "out")), draw.randrange(len(asked.interfaces) + 1)
        packet = near.packet(draw, rule)
        found, seen = faults_of(ruleset, shadows, packet, place, direction, draw.random() < ROOM)
        faults += found
        counts += seen
    comparison.expect(f"ruleset {number}: {asked.text.decode('latin-1')}", [], faults)
    return counts
