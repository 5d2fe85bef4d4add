"""Translation in a model of the run: which rule of a flat ruleset translates the first packet of a connection, and
which keys the connection has then.

`binat` rules are asked first, and then `rdr` rules for a packet that comes in and `nat` rules for one that goes out. Of
a kind the first rule that holds decides. Where it says `no`, this kind doesn't translate, and the next is asked. The
rules of a kind are visited up to the one that decides, or all of them.

A rule holds where its interface, protocol, addresses and ports do. They are asked of the packet as it was captured. But
a `binat` rule with a target is turned round for a packet that comes in: its target is asked of the destination, and its
`to` of the source. A port beside its `from` is asked of the destination then, and one beside its `to` of the source.

What comes in gets another end inside on the stack, and what goes out another one on the wire.
"""

from typing import NamedTuple

from captures.frames import ICMP, TCP, UDP
from expansions.hosts import FlatHost
from expansions.rules import FlatTranslation
from steps.filter import match_holds
from steps.picks import picked, tried_ports
from tracking.connections import Key

# the kinds of rules that are asked for a packet of each direction, in order
KINDS_ASKED = {"in": ("binat", "rdr"), "out": ("binat", "nat")}


class Found(NamedTuple):
    """What the rules say of a packet: the numbers of those that are visited, in the order in which they are, and the
    kind and the rule that translates it, if one does."""
    visited: tuple
    kind: str | None = None
    rule: FlatTranslation | None = None


class Passage(NamedTuple):
    """The keys of a connection on both sides of the firewall. Untranslated they are one."""
    wire: Key
    stack: Key

    def beyond(self, direction):
        """The inside end of a packet of this direction once it has passed."""
        return self.stack.inside if direction == "in" else self.wire.inside

    def before(self, direction):
        """Its inside end as it comes."""
        return self.wire.inside if direction == "in" else self.stack.inside

    def writes(self):
        """Whether the inside end is another one on each side, so that it is written into packets."""
        return self.wire.inside != self.stack.inside


# Which rule

def turned(rule):
    """What a `binat` rule asks of a packet that comes in."""
    match = rule.match
    return match._replace(source=match.destination, source_port=match.destination_port,
                          destination=FlatHost(rule.target, False), destination_port=match.source_port)


def rule_holds(ruleset, kind, rule, packet, place, direction):
    is_turned = kind == "binat" and direction == "in" and not rule.is_no_rule
    return match_holds(ruleset, turned(rule) if is_turned else rule.match, packet, place)


def find(ruleset, packet, place, direction):
    """What the rules of translation say of a packet on the interface of a place."""
    visited = ()
    for kind in KINDS_ASKED[direction]:
        rules = ruleset.rules.translation[kind]
        deciding = next((number for number, rule in enumerate(rules)
                         if rule_holds(ruleset, kind, rule, packet, place, direction)), None)
        last = len(rules) - 1 if deciding is None else deciding
        visited += tuple(rule.number for rule in rules[:last + 1])
        if deciding is not None and not rules[deciding].is_no_rule:
            return Found(visited, kind, rules[deciding])
    return Found(visited)


# What it makes of a connection

def redirected_port(rule, key):
    """The port, or the identifier, that a `rdr` rule sends a packet's inside one to: only one of TCP or UDP may become
    another. A map keeps the distance to the first of the ports that the rule asks for."""
    port = key.inside[1]
    if rule.ports is None or key.protocol not in (TCP, UDP):
        return port
    first, last = rule.ports
    return first + port - rule.match.destination_port.low if last == "*" else first


def wires(rule, key, seed, number):
    """The keys on the wire that a `nat` rule tries for a packet's key, in order. An ICMP echo has its identifier at
    both ends."""
    address, outside_port = key.outside
    for port in tried_ports(rule, key, seed, number):
        outside = (address, port) if key.protocol == ICMP else (address, outside_port)
        yield Key(key.protocol, outside, (rule.target.address, port))


def passage(found, key, direction, seed, number, table):
    """The passage of the packet of a number with a key that no state has; None where `nat` finds no free port."""
    kind, rule = found.kind, found.rule
    if rule is None:
        return Passage(key, key)
    if kind == "nat":
        wire = picked(wires(rule, key, seed, number), table)
        return wire and Passage(wire, key)
    if kind == "rdr":
        return Passage(key, key._replace(inside=(rule.target.address, redirected_port(rule, key))))
    if direction == "in":
        return Passage(key, key._replace(inside=(rule.match.source.what.address, key.inside[1])))
    return Passage(key._replace(inside=(rule.target.address, key.inside[1])), key)


def translated(packet, direction, end):
    """A packet as it is with another end inside."""
    address, port = end
    if direction == "in":
        return packet._replace(destination=address, ports=packet.ports and (packet.ports[0], port))
    return packet._replace(source=address, ports=packet.ports and (port, packet.ports[1]))
