"""Streams of messages for a standby, and streams with damage. They are the same every time.

Some messages are those of random lists of events and of random runs. Others hold anything that a reader takes, in
records about states as a standby holds them. In these a number stands in several kinds of one message, which no run
writes. Damage comes to messages and to bytes.
"""

import random
from typing import NamedTuple

from messages import model, random_events
from messages.model import Origin
from messages.events import packet_of
from messages.message import HEADER, IP_HEADER, SUBHEADER, Message
from messages.random_messages import LONG_WORDS, some_delete, some_insert, some_number, some_update
from messages.run import told
from messages.samples import VECTOR
from messages.spelling import bare, ip_header
from messages.texts import NEAR_CODES, half_right
from runs.model import FILE, PEER
from standby.cases import run_at

SEED = 20261204
HERE = "192.0.2.1"
# streams that are made of the messages of one list or run, and how many of these messages a stream has at most
BLOCK, MOST_MESSAGES = 50, 12
# how many streams come bare of a block
BARE = 2
# how often the first messages are missing, and how often a stream has damage of some kinds at once
LATE, DAMAGES = 0.1, (0, 1, 1, 1, 1, 2, 3)
# of messages whose records hold anything: how many there are, and the records of each kind in one
COUNTS, MOST_RECORDS = (1, 6), (3, 3, 3)
NEAR_NUMBERS = (*range(12), *LONG_WORDS)
# the place of the first record's number in a message
FIRST_NUMBER = HEADER + SUBHEADER


def spelled(texts, form):
    """A stream of bare messages as it is in a form."""
    return b"".join(text if form == PEER else ip_header(len(text), HERE) + text for text in texts)


# Messages that a standby takes

def of_events(draw, _):
    """The messages of a random list of events."""
    packets = list(map(packet_of, random_events.some_list(draw).happenings))
    return model.whole(Origin((b"em0",), draw.randbytes(16), 1), packets)


def of_run(_, number):
    """The messages of a random run."""
    return told(run_at(number)).whole()


def new_numbers(draw, held):
    """Numbers of states that aren't held."""
    numbers = {some_number(draw, 64, NEAR_NUMBERS) for _ in range(draw.randint(0, MOST_RECORDS[0]))}
    return numbers - held


def some_of(draw, numbers, most):
    return draw.sample(sorted(numbers), min(draw.randint(0, most), len(numbers)))


def of_records(draw, _):
    """Messages whose records hold anything, about states that are held, or that the message itself inserts."""
    held = set()
    for _ in range(draw.randint(*COUNTS)):
        inserted = new_numbers(draw, held)
        updated, deleted = (some_of(draw, held | inserted, most) for most in MOST_RECORDS[1:])
        records = [tuple(make(draw, number) for number in sorted(numbers)) for make, numbers in (
            (some_insert, inserted), (some_update, updated), (some_delete, deleted))]
        if any(records):
            yield Message(draw.randbytes(16), *records)
        held = (held | inserted) - set(deleted)


MAKERS = (of_events, of_events, of_records, of_records, of_run)


# Damage to messages

def left_out(draw, texts):
    place = draw.randrange(len(texts))
    return texts[:place] + texts[place + 1:]


def doubled(draw, texts):
    """A message comes once more, right behind itself or later."""
    place = draw.randrange(len(texts))
    later = draw.choice((place, draw.randint(place, len(texts))))
    return [*texts[:later], texts[place], *texts[later:]]


def swapped(draw, texts):
    first, second = (draw.randrange(len(texts)) for _ in range(2))
    changed = list(texts)
    changed[first], changed[second] = texts[second], texts[first]
    return changed


def replaced(draw, texts, change):
    """The messages, of which a function changes one."""
    place = draw.randrange(len(texts))
    return [*texts[:place], change(texts[place]), *texts[place + 1:]]


def changed_bytes(draw, text):
    octets = bytearray(text)
    for _ in range(draw.choice((1, 1, 2, 3)) if octets else 0):
        octets[draw.randrange(len(octets))] = draw.choice((*NEAR_CODES, draw.randrange(256)))
    return bytes(octets)


def changed(draw, texts):
    return replaced(draw, texts, lambda text: changed_bytes(draw, text))


def renumbered(draw, texts):
    """The first record of a message is about another state, mostly one that another message is about."""
    other = draw.choice(texts)[FIRST_NUMBER:FIRST_NUMBER + 8]
    number = draw.choice((other, other, bytes(7) + draw.randbytes(1))).ljust(8, b"\0")
    return replaced(draw, texts, lambda text: text[:FIRST_NUMBER] + number + text[FIRST_NUMBER + 8:])


def shortened(draw, texts):
    """A message lacks some bytes."""
    def lacking(text):
        first, last = sorted(draw.choices(range(len(text) + 1), k=2))
        return text[:first] + text[last:]
    return replaced(draw, texts, lacking)


def spoilt(draw, texts):
    """There is one message more, mostly with a mistake."""
    place = draw.randint(0, len(texts))
    return [*texts[:place], half_right(draw), *texts[place:]]


# Damage to the bytes of a stream

def cut_off(draw, octets):
    """It ends early, mostly anywhere."""
    return octets[:draw.choice((draw.randint(0, len(octets)), max(len(octets) - draw.randint(1, 50), 0)))]


def longer(draw, octets):
    """More bytes stand behind it."""
    head = draw.choice((VECTOR, ip_header(len(VECTOR), HERE) + VECTOR))
    return octets + draw.choice((head[:draw.randint(1, len(head))], draw.randbytes(draw.choice((1, 23, 24, 60)))))


def changed_anywhere(draw, octets):
    return changed_bytes(draw, octets)


def changed_header(draw, octets):
    """A byte is another near the front, in a file mostly in the IP header."""
    place = draw.randrange(IP_HEADER + SUBHEADER)
    return octets[:place] + draw.randbytes(1) + octets[place + 1:]


OF_MESSAGES = (left_out, doubled, swapped, changed, renumbered, shortened, spoilt)
OF_BYTES = (cut_off, longer, changed_anywhere, changed_header)


class Damaged(NamedTuple):
    """A stream of a form, and the names of its damage."""
    octets: bytes
    form: str
    damage: tuple


def damaged(draw, texts, form):
    """A stream of these bare messages with damage of some kinds, or of none."""
    kinds = draw.choices(OF_MESSAGES + OF_BYTES, k=draw.choice(DAMAGES))
    for kind in kinds:
        if kind in OF_MESSAGES and texts:
            texts = kind(draw, texts)
    octets = spelled(texts, form)
    for kind in kinds:
        if kind in OF_BYTES:
            octets = kind(draw, octets)
    return Damaged(octets, form, tuple(kind.__name__ for kind in kinds))


def block(number):
    """The streams of the block of this number, from 0 on."""
    draw = random.Random(f"{SEED} {number}")
    messages = list(draw.choice(MAKERS)(draw, number))
    texts = list(map(bare, messages))
    for place in range(BLOCK):
        first = draw.randrange(len(texts)) if texts and draw.random() < LATE else 0
        chosen = texts[first:first + draw.randint(1, MOST_MESSAGES)]
        yield damaged(draw, chosen, PEER if place < BARE else FILE)
