"""The packets of the runs: in each row the outcome of a packet depends on one some packets before it.

A row has six packets, mostly of one interface. A run that has fewer has the first ones. In a run that has more they come
again, later by some seconds.
"""

import random
from itertools import cycle, islice
from typing import NamedTuple

import steps.place_runs
import steps.random_runs
import steps.translation_runs
from captures.packets import ACK, LINKTYPE_RAW, RST, SYN, tcp, udp
from steps.run import INSIDE, THREE, Run, seed_of
from steps.translation_rows import TWO_PORTS
from steps.translation_words import H, P

SEED = 20261128
FIRST, SECOND, THIRD, FOURTH = (udp(H, port, P, 53) for port in (1000, 1001, 1002, 1003))
REPLY = udp(P, 53, H, 1000)
OPENING, RESET, ANEW = (tcp(H, 1000, P, 80, SYN, 1000), tcp(P, 80, H, 1000, RST | ACK, 0, 1001),
                        tcp(H, 1000, P, 80, SYN, 5000))
# states of UDP last for five seconds
SHORT = "".join(f"set timeout udp.{name} 5\n" for name in ("first", "single", "multiple"))


class Row(NamedTuple):
    """A ruleset, six packets, each with its second, how many seconds later they come again, and the places of their
    interfaces, if they aren't all of the first one."""
    name: str
    rules: str
    packets: tuple
    period: int
    places: tuple = ()

    def run(self, count):
        """A run of `count` packets."""
        records = []
        for place in range(count):
            turn, which = divmod(place, len(self.packets))
            second, packet = self.packets[which]
            records.append((second + turn * self.period, packet))
        return Run(self.name, self.rules, records, interfaces=THREE, places=tuple(islice(cycle(self.places), count)))


ROWS = (
    Row("one connection", "pass out",
        ((0, FIRST), (0, REPLY), (1, FIRST), (1, REPLY), (1, FIRST), (2, FIRST)), 2),
    Row("two connections in turn", "pass out",
        ((0, FIRST), (0, SECOND), (0, FIRST), (0, SECOND), (0, FIRST), (0, SECOND)), 0),
    # the third packet removes the state, and the fourth makes another one
    Row("a state that is removed", "block in\npass out",
        ((0, OPENING), (0, RESET), (0, ANEW), (0, ANEW), (0, RESET), (0, ANEW)), 0),
    # a port comes free for the fourth packet, and one for the sixth
    Row("two ports for more", SHORT + TWO_PORTS,
        ((0, FIRST), (3, SECOND), (3, THIRD), (5, THIRD), (5, FOURTH), (8, FOURTH)), 8),
    Row("room for two states", "set limit states 2\npass out",
        ((0, FIRST), (0, SECOND), (0, THIRD), (0, FIRST), (0, FOURTH), (0, SECOND)), 40),
    # at the third packet the states of the first two have run out, and the second of the fourth is an earlier one
    Row("states that run out", SHORT + "pass out",
        ((0, FIRST), (0, SECOND), (5, FIRST), (3, SECOND), (9, FIRST), (10, SECOND)), 15),
    # the rule has room for the fourth packet again, and for the sixth
    Row("room for two states of a rule", SHORT + "block out\npass out keep state (max 2)",
        ((0, FIRST), (3, SECOND), (3, THIRD), (5, THIRD), (5, FOURTH), (8, FOURTH)), 8),
    # the state for all that a reply on the third interface would make is refused because of that of the first packet
    Row("states of one connection on several interfaces", "pass out keep state (if-bound)\npass in keep state (floating)",
        ((0, FIRST), (0, FIRST), (0, REPLY), (0, FIRST), (0, REPLY), (0, REPLY)), 2, places=(0, 1, 2, 1, 2, 0)),
)


def is_fit(run, count):
    """Whether a run has `count` packets, and is one that the program takes."""
    return (len(run.records), run.link, run.interfaces, run.inside) == (count, LINKTYPE_RAW, THREE, INSIDE)


def some_run(draw, number, count):
    match number % 3:
        case 0:
            return steps.random_runs.some_run(draw, number, count, (count, count), THREE)
        case 1:
            seed = seed_of(draw.randrange(256))
            return steps.translation_runs.some_run(draw, number, count, seed, (count, count), THREE)
    return steps.place_runs.some_run(draw, number, count, (count, count))


def random_runs(count):
    """Random runs of `count` packets, without end: in turn without translation, with it, and such whose rules name
    interfaces and bind states."""
    draw, number = random.Random(SEED), 0
    while True:
        run = some_run(draw, number, count)
        if is_fit(run, count):
            yield run
            number += 1
