"""A model of the table of states, and what it answers to the calls that `answers table` reads.

The table is a dictionary by number. It knows the numbers of the states with a key, and each other question goes over all
states. A key is a tuple: the protocol, the outside party's address and port, and the inside one's. A binding is the place
of an interface, or ALL; a scope of a look-up is one too.
"""

from collections import defaultdict
from functools import lru_cache
from typing import NamedTuple

NO_MEMORY = "no memory"
# the calls that may be refused memory
TAKE_MEMORY = ("make", "touch")
SIDES = ("wire", "stack")
# the binding to all interfaces, and the scope of all
ALL = None


class State(NamedTuple):
    """What differs between states."""
    number: int
    wire: tuple
    stack: tuple
    deadline: int
    bytes: int
    # that of the filter, None if none made it
    rule: int | None = None
    binding: int | None = ALL

    def lives(self, clock):
        """Whether its deadline hasn't come."""
        return clock < self.deadline

    def keys(self):
        """Its keys, each with the side."""
        return zip(SIDES, (self.wire, self.stack))

    def text(self):
        """Its numbers, as they stand in calls and answers."""
        numbers = map(str, (self.number, *self.wire, *self.stack, self.deadline, self.bytes))
        return " ".join((*numbers, word_of(self.rule), word_of(self.binding)))


def word_of(number):
    return "-" if number is None else str(number)


def number_of(word):
    return None if word == "-" else int(word)


def state_of(numbers):
    """The state of which these are the numbers of its text."""
    return State(numbers[0], tuple(numbers[1:6]), tuple(numbers[6:11]), *numbers[11:])


def meet(first, second):
    """Whether two bindings have an interface in common."""
    return ALL in (first, second) or first == second


class Table:
    """States by number, at most as many as the limit."""

    def __init__(self, limit):
        self.limit = limit
        self.states = {}
        # the numbers of the states with a key on a side
        self.numbers = defaultdict(set)

    def put(self, state):
        """The state comes; one that has its number goes."""
        self.remove(state.number)
        self.states[state.number] = state
        for side_and_key in state.keys():
            self.numbers[side_and_key].add(state.number)

    def with_key(self, side, key, scope=ALL):
        """The states with this key on the side that are bound to an interface of the scope, by rising number."""
        states = (self.states[number] for number in sorted(self.numbers.get((side, key), ())))
        return [state for state in states if meet(state.binding, scope)]

    def sharing(self, state):
        """The states that have one of this state's keys and are bound to an interface of its binding."""
        return [other for side, key in state.keys() for other in self.with_key(side, key, state.binding)]

    def make(self, state):
        """A new state comes. The answer is `done` or why it isn't taken."""
        if self.sharing(state):
            return "key taken"
        if len(self.states) >= self.limit:
            return "full"
        self.put(state)
        return "done"

    def touch(self, state):
        """The state of this number is as this one from now on, if there is one. It may share no key with another state."""
        if any(other.number != state.number for other in self.sharing(state)):
            return "key taken"
        if state.number in self.states:
            self.put(state)
        return "done"

    def remove(self, number):
        gone = self.states.pop(number, None)
        if gone:
            for side_and_key in gone.keys():
                self.numbers[side_and_key].discard(number)
        return "done"

    def purge(self, clock):
        for number in [number for number, state in self.states.items() if not state.lives(clock)]:
            self.remove(number)
        return "done"

    def at(self, side, key, scope, clock):
        """Of the states with this key on the side that are bound to an interface of the scope and whose deadline hasn't
        come, that of the least number."""
        return next((state for state in self.with_key(side, key, scope) if state.lives(clock)), None)

    def room(self, clock):
        """Whether one more could be made, once those are gone whose deadline has come."""
        return sum(state.lives(clock) for state in self.states.values()) < self.limit

    def rule_room(self, rule, most, clock):
        """Whether a rule has fewer states than `most`, once those are gone whose deadline has come."""
        return self.count_of_rule(rule, clock) < most

    def count_of_rule(self, rule, clock):
        """How many states a rule has without those whose deadline has come."""
        return sum(state.lives(clock) for state in self.states.values() if state.rule == rule)

    def due(self, clock):
        """Of the states whose deadline has come that of the least deadline, and of those that of the least number."""
        come = (state for state in self.states.values() if not state.lives(clock))
        return min(come, key=lambda state: (state.deadline, state.number), default=None)

    def after(self, number):
        """The state of the least number above this one."""
        return min((state for state in self.states.values() if state.number > number), default=None)


def found(state):
    return "none" if state is None else state.text()


def listed(table):
    """The lines of a list: how many states there are, and those above number 0 in order."""
    states = sorted(state for state in table.states.values() if state.number > 0)
    return [str(len(table.states)), *map(State.text, states), "none"]


# a call is answered just after it was looked at for what it comes upon
@lru_cache(maxsize=1)
def read(call):
    """The word of a call with what stands behind it: a state, or a side, a key, a scope and a clock, or numbers."""
    word, *rest = call.split()
    if word == "at":
        side, *rest = rest
        *key, scope, clock = map(number_of, rest)
        return word, side, tuple(key), scope, clock
    numbers = list(map(number_of, rest))
    return (word, state_of(numbers)) if word in TAKE_MEMORY else (word, *numbers)


def answer(table, call):
    """The lines that a call is answered by."""
    word, *parts = read(call)
    match word:
        case "make":
            return [table.make(*parts)]
        case "touch":
            return [table.touch(*parts)]
        case "remove":
            return [table.remove(*parts)]
        case "settle":
            # nothing that is asked later changes
            return ["done"]
        case "purge":
            return [table.purge(*parts)]
        case "at":
            return [found(table.at(*parts))]
        case "room":
            return ["yes" if table.room(*parts) else "no"]
        case "rule_room":
            return ["yes" if table.rule_room(*parts) else "no"]
        case "due":
            return [found(table.due(*parts))]
        case "after":
            return [found(table.after(*parts))]
        case "len":
            return [str(len(table.states))]
        case "list":
            return listed(table)
    raise ValueError(call)


def refused(lines, seen):
    """The calls that were refused memory, as the lines that were seen say, and the lines that are right where they were:
    such a call changes nothing."""
    table = Table(int(lines[0]))
    calls, right = [], []
    for call in lines[1:]:
        if call.split()[0] in TAKE_MEMORY and seen[len(right):len(right) + 1] == [NO_MEMORY]:
            calls.append(call)
            right.append(NO_MEMORY)
        else:
            right += answer(table, call)
    return calls, right
