"""Filtering in a model of the run: which rule of a flat ruleset decides on a packet.

It goes by the definition over the places of rules, and not the way of a walk over them: which rules hit, where the
first stop is, and which of the hits up to there is the last.

A rule with `max N` hits only if it has room: fewer than N states have it as their rule of the filter. Only a packet that
could make a state asks for that, and only if the rule holds otherwise. A rule without room is visited all the same.
"""

from typing import NamedTuple

from expansions.rules import FlatRule
from rulesets.tree import ANY, Network, Range
from tracking.connections import ECHOES

# what a port is asked by the sign of a criterion; those of two ports name them both
PORT_SIGNS = {
    "=": lambda port, low, high: port == low,
    "!=": lambda port, low, high: port != low,
    "<": lambda port, low, high: port < low,
    "<=": lambda port, low, high: port <= low,
    ">": lambda port, low, high: port > low,
    ">=": lambda port, low, high: port >= low,
    ":": lambda port, low, high: low <= port <= high,
    "><": lambda port, low, high: low < port < high,
    "<>": lambda port, low, high: port < low or port > high,
}


def network_holds(network, address):
    return (network.address ^ address) >> (32 - network.bits) == 0


def table_holds(entries, address):
    """Of the entries that hold the address the longest decides by its sign; where none holds it the table doesn't."""
    holding = [entry for entry in entries if network_holds(entry.network, address)]
    return bool(holding) and not max(holding, key=lambda entry: entry.network.bits).negated


def what_holds(what, tables, address):
    """Whether what a host names, without its not, holds the address."""
    if what == ANY:
        return True
    if isinstance(what, Network):
        return network_holds(what, address)
    if isinstance(what, Range):
        return what.first <= address <= what.last
    return table_holds(tables[what], address)


def host_holds(host, tables, address):
    return what_holds(host.what, tables, address) != host.negated


def interface_holds(asked, name):
    """Asked is the name of the interface on which the packet is."""
    return asked is None or (asked.name == name) != asked.negated


def ports_hold(match, packet):
    """Ports are asked of packets that have them alone: where one is written, no other packet holds."""
    if match.source_port is None and match.destination_port is None:
        return True
    if packet.ports is None:
        return False
    return all(asked is None or PORT_SIGNS[asked.sign](port, asked.low, asked.high)
               for asked, port in zip((match.source_port, match.destination_port), packet.ports))


def icmp_holds(asked, packet):
    if asked is None:
        return True
    if packet.icmp is None:
        return False
    kind, code = packet.icmp
    return kind == asked.number and asked.code in (None, code)


def flags_hold(rule, packet):
    """Flags are asked of TCP packets alone. Those that are written hold of no fragment, the default isn't asked of
    one."""
    if rule.flags is None:
        return True
    if packet.is_fragment:
        return rule.has_default_flags
    flags, mask = rule.flags
    return packet.flags is None or packet.flags & mask == flags


def match_holds(ruleset, match, packet, place):
    """The place is that of the packet's interface."""
    tables = ruleset.hosts.tables
    return (interface_holds(match.interface, ruleset.hosts.run.name_at(place))
            and match.protocol in (None, packet.protocol)
            and host_holds(match.source, tables, packet.source)
            and host_holds(match.destination, tables, packet.destination)
            and ports_hold(match, packet) and icmp_holds(match.icmp, packet))


def holds(ruleset, written, packet, place, direction):
    """Whether all that a rule or an anchor writes by itself holds of a packet."""
    if written.direction not in (None, direction) or not match_holds(ruleset, written.match, packet, place):
        return False
    return not isinstance(written, FlatRule) or flags_hold(written, packet)


def could_make_state(packet):
    """A fragment, and an ICMP message that is no echo, makes none."""
    return not packet.is_fragment and (packet.icmp is None or packet.icmp[0] in ECHOES)


class Room(NamedTuple):
    """A rule that is asked for room: its place, how many states of it there may be, and whether there are fewer."""
    place: int
    most: int
    is_left: bool


class Filtered(NamedTuple):
    """What the filter says of a packet: the place of the rule that decides, None if none does; the places of the rules that
    are visited; and of these the ones that are asked for room."""
    place: int | None
    visited: tuple
    rooms: tuple


def rooms_of(rules, holding, packet, has_room):
    """The rules that are asked for room, by their places: those that hold and have a limit, if the packet could make a
    state."""
    if not could_make_state(packet):
        return {}
    limits = {place: rules.filter[place].most for place in holding}
    return {place: Room(place, most, has_room(place, most)) for place, most in limits.items() if most is not None}


def stops(rules, hit):
    """The places where one stops: that of a quick rule that hits, the last of a quick anchor in which one hits."""
    quick_rules = [place for place in hit if rules.filter[place].quick]
    quick_anchors = [anchor.last for anchor in rules.anchors
                     if anchor.quick and any(anchor.first <= place <= anchor.last for place in hit)]
    return quick_rules + quick_anchors


def filtered(ruleset, packet, place, direction, has_room):
    """What the filter says of a packet on the interface of a place. `has_room` answers of a rule's place and a limit
    whether fewer states have the rule.

    The last rule that hits up to the first stop decides: one that holds, has room if it is asked for it, and whose anchors
    hold. Visited are those up to the stop whose anchors all hold, whether they hold themselves or not.
    """
    rules = ruleset.rules
    held = [holds(ruleset, anchor, packet, place, direction) for anchor in rules.anchors]
    inside = [number for number, rule in enumerate(rules.filter) if all(held[anchor] for anchor in rule.anchors)]
    holding = [number for number in inside if holds(ruleset, rules.filter[number], packet, place, direction)]
    rooms = rooms_of(rules, holding, packet, has_room)
    hit = [number for number in holding if number not in rooms or rooms[number].is_left]
    last = min(stops(rules, hit), default=len(rules.filter) - 1)
    return Filtered(max((number for number in hit if number <= last), default=None),
                    tuple(number for number in inside if number <= last),
                    tuple(room for room in rooms.values() if room.place <= last))
