"""Lists of calls to a table of states: random ones, and one for memory that is refused.

A list is of the lines that `answers table` reads: the limit, and then the calls.
"""

import random
from collections import Counter
from itertools import accumulate
from typing import NamedTuple

from table.model import ALL, SIDES, State, Table, answer, word_of
from table.reach import reached

LIMITS = (1, 2, 3, 100000)
# the keys and numbers to pick from in every second list of the last limit
MANY_KEYS = 20000
MANY_NUMBERS = 20000
GREATEST_CLOCK = 2**32 - 1
KEY = (6, 167772165, 1000, 3325256711, 80)
# keys that differ in one part each, and one that is turned round
NEAR_KEYS = [KEY, (17, *KEY[1:]), (6, 167772166, *KEY[2:]), (6, 167772165, 1001, *KEY[3:]), (*KEY[:3], 3325256712, 80),
             (*KEY[:4], 81), (6, *KEY[3:], *KEY[1:3]), (0, 0, 0, 0, 0), (255, 2**32 - 1, 65535, 2**32 - 1, 65535)]
FEW_NUMBERS = [0, 1, 2, 3, 4, 255, 256, 2**32, 2**64 - 1]
WEIGHTS = {"make": 30, "touch": 26, "remove": 6, "settle": 3, "purge": 3, "at": 16, "room": 4, "rule_room": 12, "due": 5,
           "after": 5, "len": 1, "list": 2}
# the rules of states, and how many states of a rule a question asks for
RULES = (None, 0, 0, 1, 1, 1, 2, 2, 3, 40)
MOST = range(5)
# the bindings of states in a list: all have the same one, or those of few interfaces, among which there may be ALL
BINDINGS = ((ALL,), (0, 1, 2), (ALL, 0, 0, 1, 1, 2, 2))
# those of look-ups; to the last interface no state is bound
SCOPES = (ALL, ALL, ALL, 0, 1, 2, 3)
WORDS = tuple(WEIGHTS)
WEIGHTS_SO_FAR = tuple(accumulate(WEIGHTS.values()))


class Pool(NamedTuple):
    """What is picked from, and how far from the clock most deadlines are."""
    keys: list
    numbers: list
    spread: int


def far_key(source):
    return (source.choice((1, 6, 17)), source.getrandbits(32), source.getrandbits(16), source.getrandbits(32),
            source.getrandbits(16))


def pool_of(source, has_many):
    if has_many:
        return Pool([far_key(source) for _ in range(MANY_KEYS)], list(range(1, MANY_NUMBERS)), 50000)
    return Pool(source.sample(NEAR_KEYS, source.randrange(2, len(NEAR_KEYS) + 1)), FEW_NUMBERS, source.choice((3, 8, 30)))


def words(*parts):
    return " ".join(map(str, parts))


class Writer:
    """Writes calls, along the model of the table."""

    def __init__(self, seed, limit, bindings=BINDINGS[-1]):
        self.source = random.Random(seed)
        self.table = Table(limit)
        self.bindings = bindings
        self.clock = 0
        self.lines = [str(limit)]
        # for each call the lines that answer it
        self.answers = []
        # how often calls come upon what has a name
        self.reached = Counter()

    def add(self, *parts):
        call = words(*parts)
        self.lines.append(call)
        for name in reached(self.table, call):
            self.reached[name] += 1
        self.answers.append(answer(self.table, call))
        return self.answers[-1]

    def add_state(self, word, number, wire, stack, deadline):
        """Makes or touches a state, which counts other bytes than all others."""
        rule, binding = self.rule_of(word, number), self.binding_of(word, number)
        return self.add(word, State(number, wire, stack, deadline, len(self.lines), rule, binding).text())

    def rule_of(self, word, number):
        return self.part_of("rule", RULES, word, number)

    def binding_of(self, word, number):
        return self.part_of("binding", self.bindings, word, number)

    def part_of(self, name, choices, word, number):
        """A part of a state: one that is touched mostly keeps its own."""
        if word == "touch" and number in self.table.states and self.source.randrange(8):
            return getattr(self.table.states[number], name)
        return self.source.choice(choices)

    def look_up(self, side, key, clock):
        """Looks for a key, for all interfaces or for one."""
        self.add("at", side, *key, word_of(self.source.choice(SCOPES)), clock)

    def any_state(self):
        return self.source.choice(list(self.table.states.values()))


class RandomWriter(Writer):
    """Writes random calls."""

    def __init__(self, seed, limit, has_many, bindings):
        super().__init__(seed, limit, bindings)
        self.pool = pool_of(self.source, has_many)

    def key(self):
        """A key, now and then that of a state: few states share one of many keys otherwise."""
        if self.table.states and not self.source.randrange(6):
            return self.any_state().wire
        return self.source.choice(self.pool.keys)

    def kept(self):
        """One of the states, but now and then none."""
        if self.table.states and self.source.randrange(4):
            return self.any_state()
        return None

    def number(self):
        kept = self.kept()
        return kept.number if kept else self.source.choice(self.pool.numbers)

    def side_and_key(self):
        side, kept = self.source.choice(SIDES), self.kept()
        return side, dict(kept.keys())[side] if kept else self.key()

    def deadline(self):
        if self.source.randrange(12):
            return max(0, self.clock + self.source.randrange(-1, self.pool.spread))
        return self.source.choice((0, self.clock, GREATEST_CLOCK, 2**32, 2**64 - 1))

    def any_clock(self):
        """Mostly the clock, which rises."""
        if self.source.randrange(10):
            return self.clock
        return self.source.choice((0, max(0, self.clock - 1), self.clock + self.pool.spread // 2, GREATEST_CLOCK))

    def add_change(self, word):
        """Makes or touches a state; most of those that are touched differ little from one that is there."""
        number, wire, stack = self.source.choice(self.pool.numbers), self.key(), self.key()
        kept = self.kept() if word == "touch" else None
        if kept:
            number = kept.number
            wire, stack = self.source.choice(((kept.wire, kept.stack), (kept.wire, kept.stack), (kept.wire, stack),
                                              (wire, kept.stack), (wire, stack)))
        self.add_state(word, number, wire, stack, self.deadline())

    def add_at_clock(self, word, *parts):
        """A call at a clock, every second time behind a settling, mostly at the same one."""
        clock = self.any_clock()
        if self.source.randrange(2):
            self.add("settle", clock if self.source.randrange(4) else self.any_clock())
        self.add(word, *parts, clock)

    def rule(self):
        """A rule, mostly that of a state; one has no states."""
        kept = self.kept()
        return kept.rule if kept and kept.rule is not None else self.source.choice((0, 1, 2, 3, 4, 40))

    def step(self):
        """One call, or two with a settling."""
        self.clock += self.source.choice((0, 0, 0, 1, 1, 2))
        word, = self.source.choices(WORDS, cum_weights=WEIGHTS_SO_FAR)
        match word:
            case "make" | "touch":
                self.add_change(word)
            case "remove" | "after":
                self.add(word, self.number())
            case "at":
                self.look_up(*self.side_and_key(), self.any_clock())
            case "settle":
                self.add(word, self.any_clock())
            case "purge" | "room" | "due":
                self.add_at_clock(word)
            case "rule_room":
                self.add_at_clock(word, self.rule(), self.source.choice(MOST))
            case _:
                self.add(word)

    def drain(self):
        """Takes out what is due, one after the other, as long as something is."""
        for _ in range(len(self.table.states)):
            if self.source.randrange(2):
                self.add("settle", GREATEST_CLOCK)
            due, = self.add("due", GREATEST_CLOCK)
            if due == "none":
                break
            self.add("remove", due.split()[0])
        self.add("list")


def random_lists(count, calls):
    """`count` lists of `calls` calls, the settlings before others not counted, and what drains the table then."""
    for place in range(count):
        turn, limit = place // len(LIMITS), LIMITS[place % len(LIMITS)]
        writer = RandomWriter(place, limit, limit == LIMITS[-1] and turn % 2 == 1, BINDINGS[turn % len(BINDINGS)])
        for _ in range(calls):
            writer.step()
        writer.drain()
        yield writer


class Refusals(Writer):
    """Writes the list for memory that is refused, of states whose keys are mostly those of two places in a list."""

    def __init__(self):
        super().__init__(0, LIMITS[-1])
        # of the questions about rules
        self.turn = 0
        self.keys = [far_key(self.source) for _ in range(34)]

    def look_at_keys(self, *keys, scopes=(ALL,)):
        for key in keys:
            for side in SIDES:
                for scope in scopes:
                    self.add("at", side, *key, word_of(scope), 0)

    def look(self):
        """Questions that see the table, but of the order of deadlines its beginning alone."""
        self.add("list")
        self.look_at_keys(*self.keys)
        for clock in (0, 1000, GREATEST_CLOCK):
            self.add("due", clock)
            self.add("room", clock)
            for rule in (0, 1, 2, 8):
                self.add("rule_room", rule, self.turn % 5, clock)
                self.turn += 1

    def twice(self, *parts):
        """A change, and the same change once more. What that one does to the keys is seen behind the next change."""
        self.add(*parts)
        self.look()
        self.add(*parts)
        self.add("list")

    def change_twice(self, word, number, wire, stack, deadline):
        """A change of a state, and the same change once more. This state alone is seen, and what is due first."""
        for _ in range(2):
            self.add_state(word, number, wire, stack, deadline)
            self.look_at_keys(wire, stack)
            self.add("due", GREATEST_CLOCK)
            self.add("after", max(0, number - 1))

    def rule_of(self, word, number):
        """A state keeps its rule. Those of greater numbers are mostly of later rules, so that more rules are counted."""
        return None if number % 7 == 0 else number // 9 * 8 + number % 2

    def binding_of(self, word, number):
        """A state keeps its binding, unless it is bound otherwise below."""
        return BINDINGS[-1][number % 5]

    def text(self, number, wire, stack, deadline):
        return self.bound(number, self.keys[wire], self.keys[stack], deadline, self.binding_of("make", number))

    def bound(self, number, wire, stack, deadline, binding):
        return State(number, wire, stack, deadline, len(self.lines), self.rule_of("make", number), binding).text()

    def grow(self):
        """Makes states until each index of them has grown a few times, touches them, and makes one over another."""
        for number in range(1, 31):
            self.twice("make", self.text(number, number, 31 - number, 1000 + number * 7 % 30))
        for number in range(1, 31, 3):
            # deadlines that move later take no memory
            self.add("touch", self.text(number, number, 31 - number, 2000 + number * 11 % 30))
        for number in range(2, 31, 9):
            # no state has the keys 0, 31, 32 and 33
            self.twice("touch", self.text(number, number, 0, 1500))
            self.twice("touch", self.text(number, 31, 32, 1500 + number))
            self.add("remove", number)
        self.twice("make", self.text(1, 33, 33, 3000))
        self.twice("touch", self.text(99, 32, 32, 3000))
        self.look()

    def touch_earlier(self):
        """Moves deadlines of states earlier, until the deadlines that no state has any more are dropped for their
        number. Now and then one moves later."""
        for turn in range(120):
            state = self.any_state()
            earlier = state.deadline - 1 - turn % 3
            self.change_twice("touch", state.number, state.wire, state.stack, earlier)
            if turn % 7 == 0:
                self.add_state("touch", state.number, state.wire, state.stack, earlier + 50)
            if turn % 30 == 0:
                self.look()

    def touch_with_new_keys(self):
        """Gives states new keys over and over, on one side or both, until the indexes of keys are made anew."""
        for turn in range(60):
            state, new = self.any_state(), far_key(self.source)
            wire, stack = ((new, state.stack), (state.wire, new), (new, new))[turn % 3]
            self.change_twice("touch", state.number, wire, stack, state.deadline + turn % 5 - 2)
        self.look()

    def bind_otherwise(self):
        """Makes states of few keys on some interfaces, and binds them otherwise over and over, each twice. Some may not be,
        since others have their keys there."""
        keys = [far_key(self.source) for _ in range(6)]
        for number in range(60, 78):
            key = keys[number % 6]
            self.add("make", self.bound(number, key, key, 1000 + number, number // 6 - 10))
        for turn in range(40):
            state = self.table.states[self.source.randrange(60, 78)]
            binding = self.source.choice((ALL, *range(8)))
            for _ in range(2):
                self.add("touch", self.bound(*state[:3], state.deadline - turn % 2, binding))
                self.look_at_keys(state.wire, scopes=(ALL, state.binding, binding))
        for number in range(60, 78, 2):
            self.add("remove", number)
            self.look_at_keys(keys[number % 6])
        self.look()

    def make_in_places(self):
        """Makes states in the places of others, until their numbers are dropped, and more states than before."""
        for number in range(100, 160):
            if number % 5:
                self.add("remove", self.any_state().number)
            key = far_key(self.source)
            # they don't rise
            self.change_twice("make", number ^ 3, key, key, 1000 + number * 7 % 30)
        self.look()

    def purge_one_by_one(self, clocks):
        """Purges at clocks, so that the whole order of deadlines is seen."""
        for clock in sorted(clocks):
            if clock % 2:
                self.add("settle", clock)
            self.add("due", clock)
            self.add("purge", clock)
            self.add("list")

    def grow_and_purge(self, count):
        """Makes `count` states, touches most of them, and purges them one after the other: so the whole order of
        deadlines is seen, also after a change that was refused."""
        numbers = range(1, count + 1)
        deadlines = self.source.sample(range(1000, 1000 + 2 * count), 2 * count)
        for number in numbers:
            self.add("make", self.text(number, number, number, deadlines[number - 1]))
        self.look()
        for number in numbers[:2 * count // 3]:
            # one of them gets another key too
            wire = 33 if number == 2 else number
            self.add("touch", self.text(number, wire, number, deadlines[-number]))
        self.look()
        self.purge_one_by_one(deadlines)


def refusals():
    """The list for memory that is refused."""
    writer = Refusals()
    writer.grow()
    writer.touch_earlier()
    writer.touch_with_new_keys()
    writer.bind_otherwise()
    writer.make_in_places()
    writer.purge_one_by_one({state.deadline for state in writer.table.states.values()})
    for count in (1, 2, 5, 12, 32):
        writer.grow_and_purge(count)
    return writer
