"""Hostile texts for a reader of messages, and what the model makes of one, as a line.

The texts are the same at every time: each byte of five messages set to each of 256 values; every cut of these messages;
messages joined; and random texts, most of which are messages but for one or two mistakes.

    python3 -m messages.texts

in the folder `tests` prints how often the model gives each kind of answer.
"""

import random
import sys
from collections import Counter
from itertools import chain, permutations

sys.dont_write_bytecode = True

from messages.random_messages import fits, some_counts, some_message
from messages.reading import Refusal, read
from messages.samples import VECTOR, five_messages
from messages.spelling import ACTIONS, END, SPELLED, bare, number, subheader

SEED = 20261127
RANDOM_TEXTS = 100000


# What the model makes of a text

def answer(text, by=read):
    """`ok LENGTH CONTENT`, with the content as Message.text words it. Or why the text is refused: `short`, `version`,
    `length`, `action N`, `count`, `no end`, `trailing` or `fixed OFFSET`."""
    found = by(text)
    if isinstance(found, Refusal):
        return found.text()
    message, length = found
    return f"ok {length} {message.text()}"


def name_of(found):
    """The kind of an answer."""
    return found.name if isinstance(found, Refusal) else "ok"


# Changed, cut and joined

def with_each_byte(text, places):
    """The text with each byte at one of the places set to each value."""
    for place in places:
        for value in range(256):
            yield text[:place] + bytes([value]) + text[place + 1:]


def changed_texts():
    return chain.from_iterable(with_each_byte(text, range(len(text))) for text in map(bare, five_messages()))


def cut_texts():
    """Every beginning of the messages, with the length that it was cut from and with its own."""
    for each in map(bare, five_messages()):
        for length in range(len(each) + 1):
            yield each[:length]
            yield each[:2] + number(length, 2) + each[4:length] if length >= 4 else each[:length]


def joined_texts():
    """Two of them and more behind one another, the first one also with the length of both."""
    spelled = [*map(bare, five_messages()), VECTOR]
    for first, second in chain(permutations(spelled, 2), zip(spelled, spelled)):
        yield first + second
        yield first[:2] + number(len(first) + len(second), 2) + first[4:] + second
    yield b"".join(spelled)


# Random texts

# by the bytes of a record: in INS the peers' codes and scales, direction, timeout, and bytes of the interface; in UPD_C
# the peers' and the timeout; DEL_C has none, and the creator stands here
CODE_PLACES = {242: (120, 121, 152, 153, 234, 239, 8, 15, 22, 23), 84: (32, 33, 64, 65, 80), 12: (8,)}
# bytes that are codes, or nearly
NEAR_CODES = (0, 1, 2, 3, 10, 11, 13, 14, 0x80, 0x8E, 0x8F, 0xFF)


class Block:
    """A subheader and its records, as they are spelled but for mistakes."""

    def __init__(self, action, count, records=()):
        self.action = action
        self.pad = 0
        self.count = count
        self.records = list(records)

    def spelled(self):
        return number(self.action, 1) + number(self.pad, 1) + number(self.count % 65536, 2) + b"".join(self.records)


class HalfRight:
    """A message with mistakes."""

    def __init__(self, draw):
        self.draw = draw
        whole = some_message(draw, some_counts(draw))
        self.sum = whole.checksum
        self.blocks = [Block(ACTIONS[kind], len(records), map(SPELLED[kind], records))
                       for kind, records in whole.records().items() if records]
        self.blocks.append(Block(END, 1))
        self.version, self.pad = 5, 0
        # what stands behind the last block, within the length and behind it; and what is added to the length
        self.surplus = self.behind = b""
        self.added = 0

    def block(self):
        return self.draw.choice(self.blocks)

    def records(self):
        """Those of one block, maybe none."""
        return self.draw.choice([block for block in self.blocks if block.records] or [self.block()]).records

    # Mistakes

    def spoil_version(self):
        self.version = self.draw.choice((0, 4, 6, self.draw.randrange(256)))

    def spoil_pad(self):
        self.pad = self.draw.choice((1, 128, 255))

    def spoil_length(self):
        self.added = self.draw.choice((-40, -12, -4, -1, 1, 4, 12, 100, 1440))

    def spoil_action(self):
        self.block().action = self.draw.choice((*range(14), 255))

    def spoil_block_pad(self):
        self.block().pad = self.draw.choice((1, 128, 255))

    def spoil_count(self):
        block = self.block()
        block.count = self.draw.choice((0, block.count + 1, block.count - 1, block.count + 256, 65535))

    def spoil_record(self):
        """One byte or several of a record."""
        records = self.records()
        if records:
            place = self.draw.randrange(len(records))
            octets = bytearray(records[place])
            start = self.draw.randrange(len(octets))
            octets[start] = self.draw.choice((*NEAR_CODES, self.draw.randrange(256)))
            if self.draw.random() < 0.3:
                octets[self.draw.randrange(len(octets))] = self.draw.randrange(256)
            records[place] = bytes(octets)

    def spoil_code(self):
        """A code, the scale of a window or the padding of a name, in the place where it stands."""
        records = self.records()
        if records:
            place = self.draw.randrange(len(records))
            octets = bytearray(records[place])
            start = self.draw.choice(CODE_PLACES[len(octets)])
            octets[start] = self.draw.randrange(256) if self.draw.random() < 0.5 else self.draw.choice(NEAR_CODES)
            records[place] = bytes(octets)

    def double_record(self):
        """A number that doesn't rise; the count is mended, mostly."""
        block = self.block()
        if block.records:
            block.records.insert(self.draw.randrange(len(block.records)), self.draw.choice(block.records))
            block.count += self.draw.random() < 0.9

    def swap_records(self):
        self.draw.shuffle(self.records())

    def drop_block(self):
        self.blocks.pop(self.draw.randrange(len(self.blocks)))

    def double_block(self):
        self.blocks.insert(self.draw.randrange(len(self.blocks) + 1), self.block())

    def swap_blocks(self):
        self.draw.shuffle(self.blocks)

    def drop_end(self):
        """The last subheader is gone, or there is a part of it."""
        self.blocks.pop()
        self.surplus = subheader(END, 1)[:self.draw.randrange(4)]

    def add_behind_end(self):
        self.surplus += self.draw.choice((b"\0", subheader(END, 1), subheader(7, 1), self.draw.randbytes(12)))

    def text(self):
        rest = b"".join(block.spelled() for block in self.blocks) + self.surplus
        length = max(20 + len(rest) + self.added, 0) % 65536
        return number(self.version, 1) + number(self.pad, 1) + number(length, 2) + self.sum + rest + self.behind


# how often each is made
MISTAKES = {HalfRight.spoil_version: 1, HalfRight.spoil_pad: 1, HalfRight.spoil_length: 2, HalfRight.spoil_action: 3,
            HalfRight.spoil_block_pad: 2, HalfRight.spoil_count: 3, HalfRight.spoil_record: 5, HalfRight.spoil_code: 5,
            HalfRight.double_record: 2, HalfRight.swap_records: 1, HalfRight.drop_block: 2, HalfRight.double_block: 1,
            HalfRight.swap_blocks: 1, HalfRight.drop_end: 2, HalfRight.add_behind_end: 2}


def half_right(draw):
    """A message with up to three mistakes."""
    text = HalfRight(draw)
    for mistake in draw.choices(list(MISTAKES), list(MISTAKES.values()), k=draw.choice((0, 1, 1, 1, 1, 2, 2, 3))):
        if text.blocks:
            mistake(text)
    if draw.random() < 0.2:
        text.behind = draw.choice((b"\0", VECTOR, draw.randbytes(30)))
    return text.text()


def random_octets(draw):
    """Bytes of which only the beginning is right, if anything is."""
    head = VECTOR[:draw.choice((0, 1, 2, 4, 20, 24))]
    return head + draw.randbytes(draw.choice((0, 5, 20, 40, 300)))


def long_message(draw):
    """A message near the greatest length, now and then past it."""
    counts = draw.choice(((6, 0, 0), (5, 2, 5), (0, 17, 0), (0, 16, 7), (0, 0, 121), (2, 5, 45), (0, 0, 122), (6, 0, 1),
                          (2, 5, 46)))
    text = bare(some_message(draw, counts))
    if draw.random() < 0.5 or not fits(counts):
        return text
    place = draw.randrange(20, len(text))
    return text[:place] + draw.randbytes(1) + text[place + 1:]


def random_texts(count=RANDOM_TEXTS):
    draw = random.Random(SEED)
    for _ in range(count):
        kind = draw.random()
        if kind < 0.04:
            yield random_octets(draw)
        elif kind < 0.06:
            yield long_message(draw)
        elif kind < 0.1:
            text = half_right(draw)
            yield text[:draw.randint(0, len(text))]
        else:
            yield half_right(draw)


# All of them, by what they are

CHANGED = "a byte changed"
KINDS_OF_TEXTS = {CHANGED: changed_texts, "cut": cut_texts, "joined": joined_texts, "random": random_texts}


def texts():
    return chain.from_iterable(make() for make in KINDS_OF_TEXTS.values())


def main():
    for kind, make in KINDS_OF_TEXTS.items():
        counts = Counter(name_of(read(text)) for text in make())
        print(f"{kind}: {counts.total()} texts; " + ", ".join(f"{counts[name]} {name}" for name in sorted(counts)))


if __name__ == "__main__":
    main()
