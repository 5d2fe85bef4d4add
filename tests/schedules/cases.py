"""Scripts that are written out: orders of calls, with what the run comes to.

An order stands in words: `b` and `t` are the next call of the feed for a batch and for a piece, and `s3` and `a3` say that
packet 3 starts and that it is answered.
"""

from typing import NamedTuple

from schedules.machine import ANSWERED, BATCH, STARTS, TAKE, Shape, Step
from schedules.model import Script, known_of
from schedules.rows import ROWS

CALLS = {"s": STARTS, "a": ANSWERED, "b": BATCH, "t": TAKE}
ONES, TWOS, THREE_TWOS = Shape((1, 1, 1), 2), Shape((2, 2), 2), Shape((2, 2, 2), 2)
# in how many orders the calls can return, and how many choices of tables the packets have
COUNTS = {Shape((1,), 1): (3, 1), Shape((1,), 2): (3, 1), Shape((1, 1), 1): (27, 2), ONES: (1729, 15), TWOS: (8394, 4),
          THREE_TWOS: (2936514, 137)}

# the verdict lines of the rows, without the numbers of their packets and the names of their interfaces
ONE = ("0 out pass rule r=0 t=- s=1", "0 in pass state r=0 t=- s=1", "1 out pass state r=0 t=- s=1",
       "1 in pass state r=0 t=- s=1", "1 out pass state r=0 t=- s=1", "2 out pass state r=0 t=- s=1")
IN_TURN = ("0 out pass rule r=0 t=- s=1", "0 out pass rule r=0 t=- s=2", "0 out pass state r=0 t=- s=1",
           "0 out pass state r=0 t=- s=2", "0 out pass state r=0 t=- s=1", "0 out pass state r=0 t=- s=2")
REMOVED = ("0 out pass rule r=1 t=- s=1", "0 in pass state r=1 t=- s=1", "0 out block state-mismatch r=1 t=- s=1",
           "0 out pass rule r=1 t=- s=4", "0 in pass state r=1 t=- s=4", "0 out block state-mismatch r=1 t=- s=4")
PORTS = ("0 out pass rule r=0 t=0 s=1", "3 out pass rule r=0 t=0 s=2", "3 out block nat-exhausted r=- t=0 s=-",
         "5 out pass rule r=0 t=0 s=4", "5 out block nat-exhausted r=- t=0 s=-", "8 out pass rule r=0 t=0 s=6")
ROOM = ("0 out pass rule r=0 t=- s=1", "0 out pass rule r=0 t=- s=2", "0 out block state-limit r=0 t=- s=-",
        "0 out pass state r=0 t=- s=1", "0 out block state-limit r=0 t=- s=-", "0 out pass state r=0 t=- s=2")
RUN_OUT = ("0 out pass rule r=0 t=- s=1", "0 out pass rule r=0 t=- s=2", "5 out pass rule r=0 t=- s=3",
           "5 out pass rule r=0 t=- s=4", "9 out pass state r=0 t=- s=3", "10 out pass rule r=0 t=- s=6")
ROOM_OF_RULE = ("0 out pass rule r=1 t=- s=1", "3 out pass rule r=1 t=- s=2", "3 out block rule r=0 t=- s=-",
                "5 out pass rule r=1 t=- s=4", "5 out block rule r=0 t=- s=-", "8 out pass rule r=1 t=- s=6")
SEVERAL = ("0 out pass rule r=0 t=- s=1", "0 out pass rule r=0 t=- s=2", "0 in block state-insert r=1 t=- s=-",
           "0 out pass state r=0 t=- s=2", "0 in block state-insert r=1 t=- s=-", "0 in pass state r=0 t=- s=1")
LINES = dict(zip(ROWS, (ONE, IN_TURN, REMOVED, PORTS, ROOM, RUN_OUT, ROOM_OF_RULE, SEVERAL), strict=True))
(CONNECTION, TWO_CONNECTIONS, REMOVED_STATE, TWO_PORTS, ROOM_FOR_TWO, RUNNING_OUT, RULE_FOR_TWO,
 SEVERAL_INTERFACES) = ROWS


class Written(NamedTuple):
    """A script, its verdict lines, and which packets are surely evaluated again, and which ones may be."""
    script: Script
    verdicts: list
    surely: set
    maybe: set


def order_of(words):
    """The order that stands in words."""
    counts, order = {BATCH: 0, TAKE: 0}, []
    for word in words.split():
        call, number = CALLS[word[0]], word[1:]
        if call in counts:
            counts[call] += 1
            number = counts[call]
        order.append(Step(call, int(number)))
    return tuple(order)


def written(row, shape, words, surely, maybe=None):
    """A script of a row; where it leaves no choice the packets are told once."""
    run = row.run(len(shape.packets()))
    verdicts = [f"{number} {line} i=em{place}"
                for number, (line, (_, _, place)) in enumerate(zip(LINES[row], run.placed()), 1)]
    script = Script(known_of(run, shape), order_of(words))
    return Written(script, verdicts, surely, surely if maybe is None else maybe)


def connection_rows():
    # all are evaluated on the empty table
    yield written(CONNECTION, ONES, "b b b s1 a1 s2 a2 s3 a3 t b t t", {2, 3})
    # the second is evaluated behind the first, and the third as well, but not behind the second
    yield written(CONNECTION, ONES, "b b b s1 a1 t b s2 a2 s3 a3 t t", {3})
    # whether the third is evaluated behind the second can't be told
    yield written(CONNECTION, ONES, "b b b s1 a1 t b s2 a2 t s3 a3 t", set(), {3})
    # what the first did is published while the second is evaluated
    yield written(CONNECTION, ONES, "b b b s1 s2 a1 t b a2 s3 a3 t t", {3}, {2, 3})
    # the call behind the piece of the first hasn't returned when the second starts
    yield written(CONNECTION, ONES, "b b b s1 a1 t s2 b a2 s3 a3 t t", {3}, {2, 3})
    # the second and the third are answered before the first
    yield written(CONNECTION, ONES, "b b b s2 s1 a2 s3 a3 a1 t b t t", {2, 3})


def other_rows():
    yield written(TWO_CONNECTIONS, ONES, "b b b s1 a1 s2 t b s3 a3 a2 t t", set())
    yield written(TWO_CONNECTIONS, ONES, "b b b s1 s2 a2 s3 a3 a1 t b t t", {3})
    # on the empty table the fourth finds no state, as when it is committed; behind the second it finds one
    yield written(REMOVED_STATE, TWOS, "b b b s1 s2 a1 a2 s3 s4 a3 a4 t t", {2, 3})
    yield written(REMOVED_STATE, TWOS, "b b b s1 s2 a1 a2 t s3 s4 a3 a4 t", {2}, {2, 3, 4})
    yield written(REMOVED_STATE, THREE_TWOS, "b b b s1 a1 s2 a2 t b s3 a3 s4 a4 s5 a5 s6 a6 t t", {2, 4, 5, 6})
    yield written(REMOVED_STATE, THREE_TWOS, "b b b s1 a1 s2 a2 s4 t b s3 a3 a4 s5 a5 s6 a6 t t", {2, 5, 6}, {2, 4, 5, 6})
    yield written(TWO_PORTS, THREE_TWOS, "b b b s1 s2 a2 a1 t b s3 s4 a3 a4 s5 s6 a6 a5 t t", {5, 6})
    yield written(ROOM_FOR_TWO, THREE_TWOS, "b b b s1 s2 a2 a1 t b s3 s4 a3 a4 s5 s6 a6 a5 t t", set())
    yield written(ROOM_FOR_TWO, THREE_TWOS, "b b b s1 s2 a2 s3 a3 s4 a4 a1 s5 t b a5 s6 a6 t t", {3, 4}, {3, 4, 5})
    yield written(RUNNING_OUT, THREE_TWOS, "b b b s1 s2 a2 a1 t b s3 s4 a3 a4 s5 s6 a6 a5 t t", {5})
    yield written(RUNNING_OUT, THREE_TWOS, "b b b s1 s2 a2 a1 t b s3 s4 a3 a4 t s5 s6 a6 a5 t", set(), {5})
    # on the empty table the rule has room for the third packet, and behind the first two it has none
    yield written(RULE_FOR_TWO, ONES, "b b b s1 a1 s2 a2 s3 a3 t b t t", {3})
    yield written(RULE_FOR_TWO, ONES, "b b b s1 a1 t b s2 a2 s3 a3 t t", {3})
    yield written(RULE_FOR_TWO, ONES, "b b b s1 a1 t b s2 a2 t s3 a3 t", set(), {3})
    yield written(RULE_FOR_TWO, THREE_TWOS, "b b b s1 s2 a2 a1 t b s3 s4 a3 a4 s5 s6 a6 a5 t t", {5})
    yield written(RULE_FOR_TWO, THREE_TWOS, "b b b s1 s2 a2 s3 a3 s4 a4 a1 s5 t b a5 s6 a6 t t", {3, 5})
    yield written(RULE_FOR_TWO, THREE_TWOS, "b b b s1 s2 a2 a1 t b s3 s4 a3 a4 t s5 s6 a6 a5 t", set(), {5})


def place_rows():
    # on the empty table the second is right, which comes on another interface, and the third isn't
    yield written(SEVERAL_INTERFACES, ONES, "b b b s1 a1 s2 a2 s3 a3 t b t t", {3})
    # behind the first the third is right, whatever the second makes
    yield written(SEVERAL_INTERFACES, ONES, "b b b s1 a1 t b s2 a2 s3 a3 t t", set())
    # that the fourth touches the state of the second doesn't matter to the fifth, nor to the sixth
    yield written(SEVERAL_INTERFACES, THREE_TWOS, "b b b s1 s2 a2 a1 t b s3 s4 a3 a4 s5 s6 a6 a5 t t", set())
    yield written(SEVERAL_INTERFACES, THREE_TWOS, "b b b s1 s2 a2 s3 a3 s4 a4 a1 s5 t b a5 s6 a6 t t", {3, 4}, {3, 4, 5})
    yield written(SEVERAL_INTERFACES, THREE_TWOS, "b b b s1 a1 s2 a2 s3 a3 s4 a4 s5 a5 s6 a6 t b t t", {3, 4, 5, 6})


def rows():
    yield from connection_rows()
    yield from other_rows()
    yield from place_rows()
