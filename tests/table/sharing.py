"""Lists of calls to a table whose states share keys on several interfaces.

Look-ups for all find several states then, of which some have no time left. They come behind each change: before it was
purged what has no time left, and behind it.
"""

from table.kinds import NO_LIMIT, KindWriter, own_key, shuffled
from table.cases import GREATEST_CLOCK
from table.model import ALL, SIDES, State, word_of

# there is one more, to which none is bound
MOST_PLACES = 255
FAR = 1000


class SharingWriter(KindWriter):
    """Writes a list whose states have few keys, and are bound to the first interfaces or to all."""

    def __init__(self, seed, keys, places):
        super().__init__(seed, NO_LIMIT, bool(seed % 2))
        self.places = range(places)
        self.bindings = (*self.places, *self.places, ALL)
        self.keys = [own_key(number) for number in range(1, keys + 1)]

    def key(self):
        return self.source.choice(self.keys)

    def look_up_for(self, side, key, scope, clock):
        self.add("at", side, *key, word_of(scope), clock)

    def look_for_all(self, side, key):
        """Looks for a key on all interfaces before and behind the deadline of each of some states that have it."""
        states = self.table.with_key(side, key)
        deadlines = {state.deadline for state in states[:1] + self.source.sample(states, min(1, len(states)))}
        for clock in sorted({self.clock, *deadlines, *(max(0, deadline - 1) for deadline in deadlines)}):
            self.look_up_for(side, key, ALL, clock)

    def look(self, key):
        """Looks for a key on a side: on all interfaces, and on one of those with states or the next one."""
        side = self.source.choice(SIDES)
        self.look_for_all(side, key)
        self.look_up_for(side, key, self.source.choice((*self.places, len(self.places))), self.clock)

    def new_number(self):
        """A number that no state has, mostly one that none had."""
        self.last_number += self.source.randrange(1, 4)
        free = range(1, self.last_number)
        number = self.source.choice(free) if free and not self.source.randrange(3) else self.last_number
        return self.last_number if number in self.table.states else number

    def deadline(self, spread):
        return self.clock + self.source.randrange(1, spread)

    def make(self, spread):
        """A state comes, mostly with one key on both sides."""
        wire = self.key()
        stack = self.source.choice((wire, wire, wire, self.key()))
        self.add_state("make", self.new_number(), wire, stack, self.deadline(spread))
        self.look(wire)

    def bind(self, state):
        """Binds a state otherwise, to an interface to which another one of its key may be bound."""
        self.touch_with(state, binding=self.source.choice(self.bindings))
        self.look(state.wire)

    def change_keys(self, state):
        """Gives a state another key on a side or both, and mostly the same binding."""
        key = self.key()
        wire, stack = self.source.choice(((key, state.stack), (state.wire, key), (key, key)))
        self.add_state("touch", state.number, wire, stack, state.deadline)
        self.look(key)

    def change(self, spread):
        """Changes a state in some way, or makes one."""
        way = self.source.choice(("make", "make", "make", "bind", "bind", "keys", "move", "remove"))
        if way == "make" or not self.table.states:
            self.make(spread)
            return
        state = self.any_state()
        match way:
            case "bind":
                self.bind(state)
            case "keys":
                self.change_keys(state)
            case "move":
                self.move(state, ("later", "same", "earlier"), spread)
                self.look(state.wire)
            case "remove":
                self.add("remove", self.table.with_key("wire", state.wire)[0].number)
                self.look(state.wire)

    def changed_often(self, turns, spread):
        """States that come, go, move and run out. Now and then what has no time left is purged."""
        for _ in range(turns):
            self.clock += self.source.choice((0, 0, 0, 1))
            self.change(spread)
            if not self.source.randrange(20):
                self.purge(self.clock)
                self.look(self.key())
        self.purge_by_and_by({state.deadline for state in self.table.states.values()})

    def made_on_each(self, key):
        """A state of a key on each interface, in any order; then one for all and one more on an interface, in vain."""
        deadlines = self.source.sample(range(FAR, 9 * FAR), len(self.places))
        for place, deadline in zip(shuffled(self.source, self.places), deadlines):
            self.make_on(key, place, deadline)
            self.look(key)
        for binding in (ALL, self.source.choice(self.places)):
            self.make_on(key, binding, FAR)

    def make_on(self, key, binding, deadline):
        self.last_number += 1
        # they don't rise
        self.add_plain("make", self.last_number ^ 5, key, binding, deadline)

    def add_plain(self, word, number, key, binding, deadline):
        self.add(word, State(number, key, key, deadline, len(self.lines), None, binding).text())

    def least_removed(self, key, count):
        """Removes the state of least number of a key, over and over."""
        for _ in range(count):
            self.add("remove", self.table.with_key("wire", key)[0].number)
            self.look(key)

    def least_run_out(self, key, count):
        """Purges the states of least number of a key, over and over. No other one has so little time."""
        for _ in range(count):
            self.clock += 2
            self.touch_with(self.table.with_key("stack", key)[0], deadline=self.clock)
            self.look(key)
            self.purge(self.clock)
            self.look(key)

    def bound_otherwise(self, key, count):
        """Binds states otherwise: in vain to the interface of another one, and then to one that has none."""
        for _ in range(count):
            state, other, gone = self.source.sample(self.table.with_key("wire", key), 3)
            for binding in (ALL, other.binding):
                self.touch_with(state, binding=binding)
            self.add("remove", gone.number)
            self.touch_with(state, binding=gone.binding)
            self.look_up_for("wire", key, gone.binding, self.clock)
            self.look_up_for("stack", key, state.binding, self.clock)
            self.make_on(key, state.binding, 9 * FAR)
            self.look(key)

    def of_one_key(self, count):
        """States of one key, one on each interface. `count` of them go in each way, and all in the end. Then one for all
        interfaces comes, and is bound to one."""
        key = self.keys[0]
        self.made_on_each(key)
        self.bound_otherwise(key, count)
        self.least_removed(key, count)
        self.least_run_out(key, count)
        self.purge_by_and_by(range(FAR, 9 * FAR, FAR // 2))
        self.purge(GREATEST_CLOCK)
        self.clock = 9 * FAR
        self.add_plain("make", 7, key, ALL, 10 * FAR)
        self.make_on(key, 0, 10 * FAR)
        self.add_plain("touch", 7, key, 1, 10 * FAR)
        self.make_on(key, 0, 10 * FAR)
        self.make_on(key, 1, 10 * FAR)
        self.look(key)
        self.add("list")


def sharing_lists():
    """Each list with the name of its kind."""
    seed = 0
    for keys, places in ((1, 2), (1, 3), (2, 3), (3, 3), (5, 2), (9, 3)):
        for turns, spread in ((200, 8), (400, 40)):
            seed += 1
            writer = SharingWriter(seed, keys, places)
            writer.changed_often(turns, spread)
            yield "sharing keys", writer
    for places, count in ((4, 1), (40, 8), (MOST_PLACES, 40)):
        seed += 1
        writer = SharingWriter(seed, 1, places)
        writer.of_one_key(count)
        yield "of one key", writer
