"""Random lists of what packets do to states, for the messages of a run.

Some hold what no run would, as numbers that don't rise. But of one state `made` always comes first, and nothing comes
behind `removed`.

Each list has a shape. What mostly happens in it fills messages by one kind of record, or lets states go at once.
"""

import random
from typing import NamedTuple

from messages.events import MADE, REMOVED, TOUCHED, Happening, State, by_deadline
from messages.random_messages import OFFERS, PORTS
from tracking.model import Peer

SEED = 20261126
LISTS = 3000
STARTS = (0, 1, 1000, 2**32 - 3000)


class Shape(NamedTuple):
    """How often a packet makes a state, touches one, removes one or does nothing; how many seconds until the next; for
    how many seconds a state stays; how many packets there are; and how often a list has this shape."""
    shares: tuple
    waits: tuple
    timeouts: tuple
    counts: tuple
    share: int


SHAPES = (
    # a bit of everything
    Shape((6, 8, 2, 3), (0,) * 6 + (1, 2, 5), (0, 1, 2, 5, 10, 60), (1, 60), 6),
    # many states at once
    Shape((10, 1, 1, 0), (0,) * 30 + (1,), (5, 60), (10, 80), 3),
    # many states that move on in a second
    Shape((4, 12, 1, 0), (0,) * 80 + (1, 3), (60, 300), (60, 160), 3),
    # states that go at once
    Shape((6, 3, 6, 1), (0,) * 12 + (1,), (0, 0, 0, 5), (10, 60), 3),
    # states that all go together
    Shape((30, 1, 0, 0), (0,) * 150 + (4,), (3, 4), (200, 330), 2),
    # seconds that go by, and little that happens
    Shape((2, 2, 1, 12), (0, 0, 1, 1, 2, 10, 100), (0, 1, 5, 60), (10, 40), 2),
)
SHARES_NOT_TOLD = (0, 0, 0.1, 0.5)
# of interfaces, of which a list has one to eight
PLACES = (0, 0, 0, 1, 1, 2, 3, 7, 8, 255)


class Writer:
    """Draws what happens in one list, with the states that there are."""

    def __init__(self, draw, shape):
        self.draw = draw
        self.shape = shape
        self.clock = draw.choice(STARTS)
        self.states = {}
        self.has_any_numbers = draw.random() < 0.5
        self.not_told = draw.choice(SHARES_NOT_TOLD)
        self.used = set()

    def number(self, place):
        """A number that no state had: of the packet, or any."""
        number = place
        while number in self.used:
            number = self.draw.getrandbits(self.draw.choice((10, 64)))
        self.used.add(number)
        return number

    def peer(self):
        draw = self.draw
        return Peer(draw.randint(0, 10), draw.getrandbits(32), draw.getrandbits(32), draw.getrandbits(16),
                    draw.choice(OFFERS))

    def moved(self, state, counts):
        """A state as a packet leaves it."""
        draw = self.draw
        deadline = self.clock + draw.choice(self.shape.timeouts)
        return state._replace(maker=self.peer(), other=self.peer(), deadline=deadline, counts=counts,
                              timeout=draw.randrange(14))

    def key(self):
        return tuple((self.draw.getrandbits(32), self.draw.choice(PORTS)) for _ in range(2))

    def first(self, place):
        draw, nobody = self.draw, Peer(0)
        number = self.number(self.draw.getrandbits(64) if self.has_any_numbers else place)
        state = State(number, draw.random() >= self.not_told, draw.choice((1, 6, 17, 47)), draw.choice(("in", "out")),
                      self.key(), self.key(), nobody, nobody, draw.choice((None, 0, 1, 65535)),
                      draw.choice((None, None, 0, 65535)), self.clock, 0, (), 0, draw.choice(PLACES))
        return MADE, self.moved(state, (1, draw.randint(20, 65535), 0, 0))

    def change(self, place):
        made, touched, removed, nothing = self.shape.shares
        kind = self.draw.choices((MADE, TOUCHED, REMOVED, None), (made, touched, removed, nothing))[0]
        if kind is None:
            return None
        if kind == MADE or not self.states:
            return self.first(place)
        state = self.states[self.draw.choice(list(self.states))]
        if kind == REMOVED:
            return REMOVED, state
        added = self.draw.choice(((1, 40, 0, 0), (0, 0, 1, 40)))
        return TOUCHED, self.moved(state, tuple(map(sum, zip(state.counts, added))))

    def happening(self, place):
        """What the next packet does."""
        self.clock += self.draw.choice(self.shape.waits)
        gone = [state for state in self.states.values() if state.deadline <= self.clock]
        for state in gone:
            del self.states[state.number]
        self.draw.shuffle(gone)
        change = self.change(place)
        if change and change[0] == REMOVED:
            del self.states[change[1].number]
        elif change:
            self.states[change[1].number] = change[1]
        return Happening(self.clock, gone, change)


class List(NamedTuple):
    """What the packets of a list do, and the states that they leave."""
    happenings: list
    left: list


def some_list(draw):
    shape = draw.choices(SHAPES, [shape.share for shape in SHAPES])[0]
    writer = Writer(draw, shape)
    happenings = [writer.happening(place) for place in range(1, draw.randint(*shape.counts) + 1)]
    return List(happenings, by_deadline(writer.states.values()))


def lists(count=LISTS):
    """`count` lists, the same every time."""
    draw = random.Random(SEED)
    return (some_list(draw) for _ in range(count))
