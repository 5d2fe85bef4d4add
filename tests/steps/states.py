"""The table of states in a model of the run.

A packet comes on one of the gateway's interfaces, each of which has a place, a number from 0. A state is bound to the
place of the packet that made it, or to all places. A look-up is for one place, or for all. It finds a state whose
binding meets that: they meet if one is for all, or if both are for the same place.
"""

from typing import NamedTuple

import tracking.model
from tracking.connections import Key

# a state bound to all places, and a look-up for all
ALL = None


def meets(binding, scope):
    return ALL in (binding, scope) or binding == scope


class Entry(NamedTuple):
    """A state in the table, by the number of the packet that made it: its keys on the wire and on the stack, the rules
    of the filter and of translation that it was made by, whether the first allows IP options, the place of the
    interface on which it was made, the place to which it is bound, and what tracking knows of it."""
    number: int
    wire: Key
    stack: Key
    rule: int | None
    translation: int | None
    allows_options: bool
    interface: int
    binding: int | None
    state: tracking.model.State

    def key(self, direction):
        """Its key on the side on which a packet of this direction is looked up."""
        return self.wire if direction == "in" else self.stack

    def stands_beside(self, other):
        """Whether both may be in one table: they have no key in common on one side, or their bindings don't meet."""
        return self.wire != other.wire and self.stack != other.stack or not meets(self.binding, other.binding)

    def text(self):
        """Its line, without the newline."""
        shared = tracking.model.Conversation(self.number, self.wire.protocol, self.wire.text(), self.stack.text(),
                                             self.rule, self.translation, (), [])
        return self.state.line(shared)


def meeting(entries, scope):
    """Those of some states whose bindings meet a scope, by number."""
    return sorted((entry for entry in entries if meets(entry.binding, scope)), key=lambda entry: entry.number)


class StateTable:
    """States by their numbers, and how many there may be."""

    def __init__(self, limit):
        self.limit = limit
        self.entries = {}

    def by_number(self):
        return [self.entries[number] for number in sorted(self.entries)]

    def purge(self, clock):
        """Removes the states whose deadline is at most the clock, and answers their numbers in the order in which they
        go: by deadline, then by number."""
        due = sorted((entry.state.deadline, number) for number, entry in self.entries.items()
                     if entry.state.deadline <= clock)
        for _, number in due:
            del self.entries[number]
        return [number for _, number in due]

    def all_at(self, direction, key):
        """All states with a key on the side on which a packet of this direction is looked up, wherever they are
        bound."""
        return [entry for entry in self.entries.values() if entry.key(direction) == key]

    def at(self, direction, key, scope):
        """Of these the one of the least number whose binding meets a scope, if there is one."""
        return next(iter(meeting(self.all_at(direction, key), scope)), None)

    def is_full(self):
        return len(self.entries) >= self.limit

    def has_rule_room(self, rule, most):
        """Whether fewer than `most` states have a rule of the filter."""
        return sum(entry.rule == rule for entry in self.entries.values()) < most

    def apply(self, change):
        """Takes over what a packet changes."""
        if change is None:
            return
        kind, changed = change
        if kind == "removed":
            del self.entries[changed]
        else:
            self.entries[changed.number] = changed
