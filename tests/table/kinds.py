"""Lists of calls to a table of states, each of its own kind: of deadlines that move, of places and numbers that are
used again, of keys that are near one another, and of rules that are asked how many states they have.
"""

from table.cases import BINDINGS, GREATEST_CLOCK, KEY, RULES, Writer
from table.model import SIDES

NO_LIMIT = 100000
# how many states have near keys, and how many of those are looked for after each of the changes
NEAR = 2200
LOOKED_FOR = 400


def own_key(number):
    """A key for each number."""
    return (17, 3232235520 + number, 53, 167772161, number % 65536)


def bits_turned(word, bits):
    return [word ^ 1 << bit for bit in range(bits)]


def near_keys():
    """Keys that differ from one key in one part each, mostly in one bit of it or by a little; the first is that key."""
    protocol, outside, outside_port, inside, inside_port = KEY
    addresses = bits_turned(0, 32) + list(range(3, 500))
    ports = bits_turned(0, 16) + list(range(3, 500))
    return list(dict.fromkeys((
        KEY,
        *((other, *KEY[1:]) for other in range(256)),
        *((protocol, outside ^ bits, *KEY[2:]) for bits in addresses),
        *((*KEY[:2], outside_port ^ bits, *KEY[3:]) for bits in ports),
        *((*KEY[:3], inside ^ bits, inside_port) for bits in addresses),
        *((*KEY[:4], inside_port ^ bits) for bits in ports))))


def shuffled(source, items):
    return source.sample(items, len(items))


class KindWriter(Writer):
    """Writes a list of one kind, in which questions about deadlines come behind a settling or all without one."""

    def __init__(self, seed, limit, settles, bindings=BINDINGS[-1]):
        super().__init__(seed, limit, bindings)
        self.settles = settles
        self.last_number = 0

    def make_new(self, deadline):
        """A state that has a new number and new keys."""
        self.last_number += 1
        key = own_key(self.last_number)
        self.add_state("make", self.last_number, key, key, deadline)

    def touch_by(self, state, deadline):
        """Touches a state so that it has this deadline from now on."""
        self.add_state("touch", state.number, state.wire, state.stack, deadline)

    def touch_with(self, state, **parts):
        """Touches a state so that it has these parts from now on, and counts other bytes."""
        self.add("touch", state._replace(bytes=len(self.lines), **parts).text())

    def settle(self, clock):
        """Settles, now and then at another clock than the next questions, where the list has that."""
        if self.settles:
            others = (max(0, clock - 2), min(GREATEST_CLOCK, clock + 3))
            self.add("settle", self.source.choice((clock, clock, clock, *others)))

    def ask(self, clock):
        """Asks what follows from deadlines alone."""
        self.settle(clock)
        self.add("due", clock)
        self.add("room", clock)

    def purge(self, clock):
        self.ask(clock)
        self.add("purge", clock)
        self.add("len")

    def ask_rules(self, clock):
        """Asks each rule whether it has fewer states than about as many as it has, of which some may be due."""
        self.settle(clock)
        for rule in sorted({rule for rule in RULES if rule is not None}):
            count = sum(state.rule == rule for state in self.table.states.values())
            self.add("rule_room", rule, max(0, count + self.source.choice((-2, -1, 0, 0, 0, 1))), clock)

    def purge_by_and_by(self, clocks):
        """Purges at each of some clocks, so that the order in which states are due is seen."""
        for clock in sorted(clocks):
            self.purge(clock)
        self.ask(GREATEST_CLOCK)
        self.add("list")

    def moved(self, deadline, way, spread):
        """A deadline that one is moved to in a way."""
        match way:
            case "later":
                return max(deadline + 1, self.clock + self.source.randrange(spread))
            case "earlier":
                return self.source.randrange(min(deadline, self.clock), deadline + 1)
        return deadline

    def move(self, state, ways, spread):
        """Moves the deadline of a state in one of some ways."""
        self.touch_by(state, self.moved(state.deadline, self.source.choice(ways), spread))

    def touched_often(self, count, spread, ways):
        """`count` states which are touched over and over; others come for those that are purged."""
        for _ in range(400):
            self.clock += self.source.choice((0, 0, 1))
            while len(self.table.states) < count:
                self.make_new(self.clock + self.source.randrange(1, spread))
            self.move(self.any_state(), ways, spread)
            if not self.source.randrange(6):
                self.ask(self.clock + self.source.choice((0, 0, 1, spread // 2, spread)))
            if not self.source.randrange(12):
                self.purge(self.clock)
        self.purge_by_and_by({state.deadline for state in self.table.states.values()})

    def move_some_later(self, count):
        for state in self.source.sample(list(self.table.states.values()), count):
            self.touch_by(state, state.deadline + self.source.randrange(1, 3000))

    def moved_earlier(self, count):
        """`count` states whose deadlines move earlier, so that there are many deadlines that no state has any more.
        Before that and after it those of some move later."""
        for _ in range(count):
            self.make_new(self.source.randrange(100000, 101000))
        self.move_some_later(count // 3)
        for turn in range(800):
            state = self.any_state()
            self.touch_by(state, state.deadline - self.source.randrange(1, 5))
            if turn % 50 == 0:
                self.ask(state.deadline)
        self.move_some_later(count // 2)
        self.purge_by_and_by({state.deadline for state in self.table.states.values()})

    def all_moved(self, count, ways):
        """`count` states, whose deadlines all move before it is purged at each clock that was a deadline."""
        clocks = self.source.sample(range(1000, 1000 + 3 * count), count)
        for clock in clocks:
            self.make_new(clock)
        self.clock = 900
        for state in shuffled(self.source, list(self.table.states.values())):
            clocks.append(self.moved(state.deadline, self.source.choice(ways), 200 + 3 * count))
            self.touch_by(state, clocks[-1])
        self.purge_by_and_by(clocks)

    def made_again(self, turns):
        """States that are removed, and others in their places which have the same keys and mostly other numbers. The
        deadlines of those that are gone aren't gone yet, and some of them are those of the others too."""
        for _ in range(turns):
            self.clock += self.source.choice((0, 0, 0, 1))
            while len(self.table.states) < 9:
                self.make_new(self.clock + self.source.randrange(1, 40))
            self.move(self.any_state(), ("later", "later", "earlier"), 40)
            state = self.any_state()
            if self.source.randrange(2):
                self.move(state, ("later", "later", "earlier"), 40)
                # the deadline that it goes with
                state = self.table.states[state.number]
            self.add("remove", state.number)
            others = (state.deadline, state.deadline, self.clock + self.source.randrange(40), state.deadline + 5)
            number = self.source.choice((state.number, self.last_number + 1, self.last_number + 1))
            self.last_number = max(self.last_number, number)
            self.add_state("make", number, state.wire, state.stack, self.source.choice(others))
            if not self.source.randrange(3):
                self.ask(self.clock + self.source.randrange(8))
            if not self.source.randrange(9):
                self.purge(self.clock)
        self.purge_by_and_by(range(self.clock, self.clock + 50))

    def of_few_rules(self, count, ways):
        """`count` states of few rules. They move, now and then to another rule, go and come, and mostly aren't purged when
        they are due and their rules are asked."""
        for _ in range(300):
            self.clock += self.source.choice((0, 0, 1))
            while len(self.table.states) < count:
                self.make_new(self.clock + self.source.randrange(1, 30))
            self.move(self.any_state(), ways, 30)
            if not self.source.randrange(5):
                self.add("remove", self.any_state().number)
            self.ask_rules(self.clock + self.source.choice((0, 0, 1, 8, 30)))
            if not self.source.randrange(20):
                self.purge(self.clock)
        self.ask_rules(GREATEST_CLOCK)
        self.purge_by_and_by({state.deadline for state in self.table.states.values()})

    def look_for(self, keys):
        for key in keys:
            self.look_up(self.source.choice(SIDES), key, self.clock)

    def with_near_keys(self):
        """Many states with keys that are near one another. They are looked for while some are removed, others made, and
        all purged in the end."""
        keys = self.source.sample(near_keys(), NEAR)
        made, absent = keys[:NEAR * 3 // 4], keys[NEAR * 3 // 4:]
        some = self.source.sample(keys, LOOKED_FOR)
        for number, (wire, stack) in enumerate(zip(shuffled(self.source, made), shuffled(self.source, made)), 1):
            self.add_state("make", number, wire, stack, self.source.randrange(1, 100))
        self.look_for(some)
        for number in self.source.sample(range(1, len(made) + 1), len(made) // 2):
            self.add("remove", number)
        self.look_for(some)
        for number, key in enumerate(shuffled(self.source, absent), len(made) + 1):
            self.add_state("make", number, key, self.source.choice(made), 50)
        self.look_for(some)
        for clock in (20, 49, 50, 99):
            self.clock = clock
            self.purge(clock)
            self.look_for(some[::5])

    def numbers(self, order):
        match order:
            case "rising":
                return range(1, 300)
            case "falling":
                return range(299, 0, -1)
        return shuffled(self.source, range(1, 300))

    def numbered(self, order, few):
        """States whose numbers come in an order, few at a time; some are made again after they were removed."""
        gone = [0]
        for number in self.numbers(order):
            again = self.source.choice((number, number, self.source.choice(gone)))
            for made in dict.fromkeys((number, again)):
                key = own_key(made)
                self.add_state("make", made, key, key, 1000 - made)
            if self.source.randrange(3) and self.table.states:
                gone.append(self.any_state().number)
                self.add("remove", gone[-1])
                self.add("after", gone[-1])
            while len(self.table.states) > few:
                gone.append(self.source.choice((min, max))(self.table.states))
                self.add("remove", gone[-1])
            self.add("after", self.source.choice(gone))
            self.add("after", number - 1)
            if not self.source.randrange(8):
                self.add("list")
        self.purge_by_and_by(range(600, 1001, 40))


def kinds(settles):
    """The lists, with settlings or without: of each the name of its kind, the limit, and what writes it."""
    for count, spread in ((1, 8), (3, 8), (9, 30), (40, 60), (90, 200)):
        for ways in (("later",), ("later", "later", "later", "same", "earlier"), ("later", "earlier", "earlier")):
            # there is room for another state only once a deadline has come
            yield "touched often", count, (KindWriter.touched_often, count, spread, ways)
    for count in (1, 8, 70, 100):
        yield "moved earlier", NO_LIMIT, (KindWriter.moved_earlier, count)
    for count in (1, 2, 7, 30, 150):
        for ways in (("later",), ("earlier",), ("later", "earlier", "same")):
            yield "all moved", count, (KindWriter.all_moved, count, ways)
    for count in (2, 8, 40):
        for ways in (("later",), ("later", "earlier", "same")):
            yield "of few rules", NO_LIMIT, (KindWriter.of_few_rules, count, ways)
    for turns in (30, 300, 300, 900):
        yield "made again", NO_LIMIT, (KindWriter.made_again, turns)
    for order in ("rising", "falling", "random"):
        for few in (2, 5, 30):
            yield "numbered", NO_LIMIT, (KindWriter.numbered, order, few)
    if settles:
        yield "near keys", NO_LIMIT, (KindWriter.with_near_keys,)


def all_kinds():
    """Each list with the name of its kind."""
    for settles in (True, False):
        for seed, (name, limit, (write, *parts)) in enumerate(kinds(settles)):
            writer = KindWriter(seed, limit, settles)
            write(writer, *parts)
            yield name, writer
