"""Streams with damage beside the command `standby`, which takes each in a process of its own."""

import random
from collections import Counter

from runs.model import FILE
from standby.asking import answered
from standby.model import SHORT, answer, ending_of
from standby.streams import BLOCK, OF_BYTES, OF_MESSAGES, block

ANSWERS = ("taken", *(f"refused by {code}" for code in (1, 2, 3, 4, 5, 6, 7, 8, 10)))
COUNTED = (*ANSWERS, "in a file", "over a connection", "with lines", "without damage",
           *(kind.__name__ for kind in (*OF_MESSAGES, *OF_BYTES)))


def blocks_of(count):
    """How many blocks have at least `count` streams."""
    return -(-count // BLOCK)


def counts_of(stream, expected):
    code = expected.err.decode().rpartition("refused: ")[2].strip()
    return Counter((f"refused by {code}" if code else "taken",
                    "in a file" if stream.form == FILE else "over a connection", *set(stream.damage),
                    *(["with lines"] if expected.out else []), *([] if stream.damage else ["without damage"])))


def by_program(comparison, number):
    """The streams of a block."""
    counts = Counter()
    for place, stream in enumerate(block(number)):
        expected = answer(stream.octets, stream.form)
        comparison.expect(f"stream {place} of block {number}, {', '.join(stream.damage)}", expected,
                          answered(comparison, stream.octets, stream.form))
        counts += counts_of(stream, expected)
    return counts


def agrees(early, whole):
    """Whether the end of a stream's beginning goes with the end of the stream: what is refused stays so, unless bytes
    were missing, and else no message is taken back."""
    if early.refusal in (None, SHORT):
        return early.count <= whole.count
    return (early.count, early.refusal, early.standby.states) == (whole.count, whole.refusal, whole.standby.states)


def by_model(comparison, number):
    """The streams of a block and beginnings of them by the model, so that what is answered doesn't depend on the pieces
    in which they come."""
    draw, counts = random.Random(number), Counter()
    for place, stream in enumerate(block(number)):
        length = draw.randint(0, len(stream.octets))
        early, whole = (ending_of(octets, stream.form) for octets in (stream.octets[:length], stream.octets))
        comparison.expect(f"the first {length} bytes of stream {place} of block {number}", True, agrees(early, whole))
        counts += counts_of(stream, answer(stream.octets, stream.form))
    return counts
