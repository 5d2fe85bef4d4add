"""A model of a run with workers: in which orders its calls can return, and which tables workers may see then.

- The committer asks the feed for a batch while the reading goes on and less than three are held. Else it takes the oldest
  one, once all of its packets are answered: it commits them, hands the feed their piece, and then publishes what they did
  to the table. Behind the call that gives no batch the reading is over.
- Workers draw the packets of the batches that are given, in order. Each has one at most: it draws the next one behind the
  call that says that the packet before is answered.
- A worker looks at the table between the call that says that a packet starts and the one that says that it is answered. It
  sees what is published then.

A call of the feed is made once all is done that comes before it. So what the piece before did is published when the call
behind that returns, but whether it is before that isn't known.
"""

from functools import lru_cache
from typing import NamedTuple

# batches that are held at once
HELD = 3
STARTS, ANSWERED, BATCH, TAKE = "starts", "answered", "batch", "take"


class Step(NamedTuple):
    """A call that returns, with the number of its packet, or its own among the feed's calls of its kind."""
    call: str
    number: int

    def words(self):
        return f"{self.call} {self.number}"


class Shape(NamedTuple):
    """Of how many packets the batches are, and how many workers there are."""
    batches: tuple
    workers: int

    def name(self):
        return f"{len(self.batches)} batches of {self.batches[0]}, workers: {self.workers}"

    def packets(self):
        """The numbers of all packets."""
        return range(1, sum(self.batches) + 1)

    def packets_of(self, batch):
        """The numbers of a batch's packets; behind the last batch there are none."""
        first = sum(self.batches[:batch - 1]) + 1
        return range(first, first + sum(self.batches[batch - 1:batch]))


@lru_cache
def feed_calls(shape):
    """The calls of the feed, in order."""
    calls, given, taken, is_over = [], 0, 0, False
    while not is_over or taken < len(shape.batches):
        if not is_over and given - taken < HELD:
            is_over = given == len(shape.batches)
            calls.append(Step(BATCH, given + 1))
            given += not is_over
        else:
            taken += 1
            calls.append(Step(TAKE, taken))
    return calls


class Point(NamedTuple):
    """Which calls have returned: how many of the feed, and which packets are started and answered."""
    fed: int = 0
    started: frozenset = frozenset()
    answered: frozenset = frozenset()

    def behind(self, step):
        match step.call:
            case "starts":
                return self._replace(started=self.started | {step.number})
            case "answered":
                return self._replace(answered=self.answered | {step.number})
        return self._replace(fed=self.fed + 1)


@lru_cache(maxsize=None)
def next_steps(shape, point):
    """The calls that may return next."""
    steps = []
    for call in feed_calls(shape)[point.fed:point.fed + 1]:
        if call.call == BATCH or point.answered.issuperset(shape.packets_of(call.number)):
            steps.append(call)
    given = sum(len(shape.packets_of(call.number)) for call in feed_calls(shape)[:point.fed] if call.call == BATCH)
    drawn = min(given, len(point.answered) + shape.workers)
    steps += [Step(STARTS, number) for number in range(1, drawn + 1) if number not in point.started]
    return steps + [Step(ANSWERED, number) for number in sorted(point.started - point.answered)]


@lru_cache(maxsize=None)
def count_behind(shape, point=Point()):
    """In how many orders the calls that are left can return."""
    steps = next_steps(shape, point)
    return sum(count_behind(shape, point.behind(step)) for step in steps) if steps else 1


def all_orders(shape, point=Point()):
    """All orders of the calls that are left."""
    steps = next_steps(shape, point)
    if not steps:
        yield ()
    for step in steps:
        for rest in all_orders(shape, point.behind(step)):
            yield (step, *rest)


def drawn_order(draw, shape, weight):
    """An order in which each step is drawn by its weight behind those before it."""
    order, point = [], Point()
    while steps := next_steps(shape, point):
        step, = draw.choices(steps, [weight(step, point.behind(step)) for step in steps])
        order.append(step)
        point = point.behind(step)
    return tuple(order)


def evenly_drawn_order(draw, shape):
    """One of all orders, each as likely as any other."""
    return drawn_order(draw, shape, lambda _, behind: count_behind(shape, behind))


def unevenly_drawn_order(draw, shape):
    """An order in which some kinds of calls are early and others late."""
    weights = {call: draw.choice((1, 1, 5, 25)) for call in (STARTS, ANSWERED, BATCH, TAKE)}
    return drawn_order(draw, shape, lambda step, _: weights[step.call])


# Which tables workers may see

def taken_behind(shape, fed):
    """How many batches are taken after `fed` calls of the feed."""
    return sum(step.call == TAKE for step in feed_calls(shape)[:fed])


def tables_at(shape, point):
    """How many batches at least are published at a point, and how many at most."""
    return taken_behind(shape, max(point.fed - 1, 0)), taken_behind(shape, point.fed)


def seen_tables(shape, order):
    """For each packet, of how many batches the table may be that its worker looks at: at least of those that are published
    when the packet starts, and at most of those that are taken when it is answered."""
    least, most, point = {}, {}, Point()
    for step in order:
        published, taken = tables_at(shape, point)
        if step.call == STARTS:
            least[step.number] = published
        elif step.call == ANSWERED:
            most[step.number] = taken
        point = point.behind(step)
    return tuple(range(least[number], most[number] + 1) for number in shape.packets())


@lru_cache(maxsize=None)
def bounds_behind(shape, point=Point()):
    """One order of the calls that are left for each choice of bounds that these bring: for each packet the least and the
    most, None where the call that brings it isn't left."""
    steps = next_steps(shape, point)
    if not steps:
        return {((None, None),) * len(shape.packets()): ()}
    published, taken = tables_at(shape, point)
    found = {}
    for step in steps:
        for bounds, rest in bounds_behind(shape, point.behind(step)).items():
            if step.call in (STARTS, ANSWERED):
                place = step.number - 1
                least, most = bounds[place]
                mine = (published, most) if step.call == STARTS else (least, taken)
                bounds = (*bounds[:place], mine, *bounds[place + 1:])
            found.setdefault(bounds, (step, *rest))
    return found


def orders_by_tables(shape):
    """One order for each choice of tables that the packets may see."""
    return list(bounds_behind(shape).values())
