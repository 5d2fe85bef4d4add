"""What comes up in runs with several interfaces, by kinds that are counted: which states are found on another interface
than the one that made them and which ones aren't, those that are made beside others of their keys, those that aren't
because of others, how they are bound, and what is taken by states that are bound elsewhere. Also what rules and
skipping would come to on the next interface, and where the address of another interface than the packet's decides.
"""

from collections import Counter

from contextlib import contextmanager

from captures.frames import Packet, datagram_of, view
from expansions.hosts import OWN, FlatHost
from steps import translation
from steps.filter import filtered
from steps.states import ALL, meets
from tracking.connections import connection, told_connection

FLOATING, IF_BOUND = "floating", "if-bound"
ON_BOTH, ON_ONE = "of both keys", "of one key"
# what the filter has decided by itself
FILTERED = ("rule", "default", "ip-option", "state-insert", "state-limit")
# what is counted, by titles
COUNTED = {
    "rules on several interfaces": (
        "skipped here, not elsewhere", "skipped elsewhere, not here", "filtered otherwise elsewhere",
        "filtered otherwise behind the last interface", "translated here, not elsewhere",
        "translated elsewhere, not here", "translated otherwise elsewhere", "translated behind the last interface",
        "`self` holds by another's address", "`! self` fails by another's address"),
    "look-ups on several interfaces": (
        *(f"{way} a state of another interface" for way in ("found", "told of")),
        *(f"not {way} a state bound elsewhere" for way in ("found", "told of")),
        *(f"{way} one state beside others bound elsewhere" for way in ("found", "told of"))),
    "states of one key": (
        *(f"made beside one {keys}" for keys in (ON_BOTH, ON_ONE)), "made beside several",
        "state-insert: for all beside one bound elsewhere", "state-insert: for all beside one for all",
        "state-insert: bound beside one for all", "state-insert: bound beside one bound alike",
        *(f"gone beside others: {which}" for which in ("the least", "another"))),
    "taken by states bound elsewhere": ("all ports", "a port", "the room of a rule", "the room of the table"),
    "policies of states": tuple(f"{policy} {way}" for policy in (FLOATING, IF_BOUND) for way in (
        "without a rule", "by a rule without state", "by the rule alone")),
}


class Own:
    """A table as it would be if a pick asked for one place alone."""

    def __init__(self, table, place):
        self.table, self.place = table, place

    def at(self, direction, key, scope):
        return self.table.at(direction, key, self.place if scope is ALL else scope)


@contextmanager
def own_addresses_of(hosts, place):
    """The table of own addresses while `self` were the address of one interface alone, or none."""
    whole = hosts.tables[OWN]
    hosts.tables[OWN] = [entry for each in hosts.run.interfaces[place:place + 1] for entry in whole
                         if entry.network == each.own()]
    yield
    hosts.tables[OWN] = whole


class PlaceKinds:
    """The kinds of the packets of a run, which are asked for before the table takes over what they change."""

    def __init__(self, job, link, table):
        self.job, self.link, self.table = job, link, table
        self.policy = job.ruleset.options.values["state-policy"]
        self.count = len(job.ruleset.hosts.run.interfaces)
        # the states that were made, by their numbers
        self.made = {}

    def of(self, step):
        """The kinds of a packet."""
        yield from self.of_gone(step)
        seen, datagram = view(self.link, step.record.frame), datagram_of(self.link, step.record.frame)
        if not isinstance(seen, Packet):
            return
        yield from self.of_skipped(step.record.place)
        if step.outcome.reason == "skip-on":
            return
        direction, place = step.outcome.direction, step.record.place
        if step.outcome.translation is None and step.outcome.reason in FILTERED:
            yield from self.of_filter(seen, direction, place)
        told, key = told_connection(seen, datagram, direction), connection(seen, datagram, direction)
        if told or key:
            yield from self.of_look_up(told or key, direction, place, "told of" if told else "found")
        if key and not self.table.at(self.job.side_of(direction), key, place):
            yield from self.of_first(step, seen, key)

    # States that go

    def of_gone(self, step):
        kind, changed = step.outcome.change or (None, None)
        for number in (*step.purged, *([changed] if kind == "removed" else ())):
            entry = self.made.pop(number)
            others = [other.number for other in self.made.values() if shared(entry, other)]
            if others:
                yield f"gone beside others: {'the least' if number < min(others) else 'another'}"

    # Rules

    def elsewhere(self, place):
        """The next interface."""
        return (place + 1) % self.count if place < self.count else 0

    def of_skipped(self, place):
        here, elsewhere = self.job.is_skipped(place), self.job.is_skipped(self.elsewhere(place))
        if here != elsewhere:
            yield "skipped here, not elsewhere" if here else "skipped elsewhere, not here"

    def filtered(self, seen, direction, place):
        """The rule of the filter that decides on the interface of a place."""
        return filtered(self.job.ruleset, seen, place, direction, self.table.has_rule_room).place

    def asks(self, rule, negated):
        """Whether the deciding rule asks for own addresses, or for all others."""
        if rule is None:
            return False
        match = self.job.ruleset.rules.filter[rule].match
        return FlatHost(OWN, negated) in (match.source, match.destination)

    def of_filter(self, seen, direction, place):
        decides = self.filtered(seen, direction, place)
        if decides != self.filtered(seen, direction, self.elsewhere(place)):
            yield f"filtered otherwise {'elsewhere' if place < self.count else 'behind the last interface'}"
        with own_addresses_of(self.job.ruleset.hosts, place):
            other = self.filtered(seen, direction, place)
        if decides != other:
            yield from ["`self` holds by another's address"] if self.asks(decides, False) else []
            yield from ["`! self` fails by another's address"] if self.asks(other, True) else []

    def of_translation(self, found, seen, direction, place):
        """What a packet finds here beside what it would find on the next interface."""
        other = self.job.translation_of(seen, self.elsewhere(place), direction)
        if found.rule and place >= self.count:
            yield "translated behind the last interface"
        if (found.rule is None) != (other.rule is None):
            yield "translated here, not elsewhere" if found.rule else "translated elsewhere, not here"
        elif found.rule != other.rule:
            yield "translated otherwise elsewhere"

    # Look-ups

    def of_look_up(self, key, direction, place, way):
        side = self.job.side_of(direction)
        entry, all_entries = self.table.at(side, key, place), self.table.all_at(side, key)
        if entry and entry.interface != place:
            yield f"{way} a state of another interface"
        if entry and len(all_entries) > 1:
            yield f"{way} one state beside others bound elsewhere"
        if all_entries and not entry:
            yield f"not {way} a state bound elsewhere"

    # First packets

    def of_first(self, step, seen, key):
        direction, place = step.outcome.direction, step.record.place
        found = self.job.translation_of(seen, place, direction)
        passage, own = (translation.passage(found, key, direction, self.job.seed, step.number, table)
                        for table in (self.table, Own(self.table, place)))
        yield from self.of_translation(found, seen, direction, place)
        if passage != own:
            yield "a port" if passage else "all ports"
        yield from self.of_rooms(step.outcome, place)
        if step.outcome.reason == "state-insert":
            yield from self.of_taken(step.outcome, place, passage)
        if step.outcome.change:
            yield from self.of_made(step.outcome.change[1])

    def of_rooms(self, outcome, place):
        own = [entry for entry in self.table.by_number() if meets(entry.binding, place)]
        counts = Counter(entry.rule for entry in own)
        if any(not room.is_left and counts[room.place] < room.most for room in outcome.rooms):
            yield "the room of a rule"
        if outcome.reason == "state-limit" and len(own) < self.table.limit:
            yield "the room of the table"

    def of_taken(self, outcome, place, passage):
        """A state that isn't made because of others."""
        others = [*self.table.all_at("in", passage.wire), *self.table.all_at("out", passage.stack)]
        bindings = {entry.binding for entry in others}
        if self.job.policy(outcome.rule) == FLOATING:
            yield f"state-insert: for all beside one {'for all' if ALL in bindings else 'bound elsewhere'}"
        else:
            yield f"state-insert: bound beside one {'for all' if ALL in bindings else 'bound alike'}"

    def of_made(self, entry):
        others = [keys for keys in (shared(entry, other) for other in self.table.by_number()) if keys]
        yield from (f"made beside one {keys}" for keys in others[:1])
        yield from ["made beside several"] if len(others) > 1 else []
        self.made[entry.number] = entry
        policy = IF_BOUND if entry.binding == entry.interface else FLOATING
        rule = None if entry.rule is None else self.job.ruleset.rules.filter[entry.rule]
        if rule is None:
            yield f"{policy} without a rule"
        elif rule.binding is None:
            yield f"{policy} by a rule without state"
        elif policy != self.policy:
            yield f"{policy} by the rule alone"


def shared(entry, other):
    """The keys that two states share, in words; none for none."""
    keys = [entry.wire == other.wire, entry.stack == other.stack]
    return ON_BOTH if all(keys) else ON_ONE if any(keys) else ""
