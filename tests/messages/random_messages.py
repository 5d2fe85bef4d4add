"""Messages whose records hold anything that a reader takes, whatever states a run may have."""

from messages.message import DEL_C, INS, KINDS, MOST, UPD_C, Delete, Insert, Message, Update, size
from tracking.model import Peer

# bytes of an interface's name
NAME_BYTES = 15
PORTS = (0, 1, 53, 80, 50001, 65535)
RULES = (None, 0, 1, 65535, 65536, 2**32 - 2)
WORDS = (0, 1, 2, 255, 256, 2**31 - 1, 2**31, 2**32 - 1)
LONG_WORDS = (0, 1, 28, 2**32, 2**63, 2**64 - 1)
OFFERS = (None, None, 0, 1, 7, 14)


def some_number(draw, bits, near):
    """A number of `bits` bits, mostly one of a few."""
    return draw.choice(near) if draw.random() < 0.6 else draw.getrandbits(bits)


def some_word(draw):
    return some_number(draw, 32, WORDS)


def some_count(draw):
    return some_number(draw, 64, LONG_WORDS)


def some_name(draw):
    """The name of an interface; it has any bytes but 0, and maybe none."""
    if draw.random() < 0.5:
        return draw.choice((b"em0", b"lo0", b"a2345678901234.", b""))
    return bytes(draw.randint(1, 255) for _ in range(draw.randint(0, NAME_BYTES)))


def some_key(draw):
    return tuple((some_word(draw), some_number(draw, 16, PORTS)) for _ in range(2))


def some_peer(draw):
    return Peer(draw.randint(0, 10), some_word(draw), some_word(draw), some_number(draw, 16, (0, 1, 1000, 65535)),
                draw.choice(OFFERS))


def some_rule(draw):
    rule = draw.choice(RULES) if draw.random() < 0.6 else draw.getrandbits(32)
    return None if rule == 2**32 - 1 else rule


def some_insert(draw, number):
    return Insert(number, some_name(draw), some_key(draw), some_key(draw), some_peer(draw), some_peer(draw),
                  some_rule(draw), some_rule(draw), some_word(draw), some_word(draw),
                  (some_count(draw), some_count(draw)), (some_count(draw), some_count(draw)), some_word(draw),
                  draw.randrange(256), draw.randint(1, 2), draw.randrange(14))


def some_update(draw, number):
    return Update(number, some_peer(draw), some_peer(draw), some_word(draw), some_word(draw), draw.randrange(14))


def some_delete(draw, number):
    return Delete(number, some_word(draw))


MAKERS = {INS: some_insert, UPD_C: some_update, DEL_C: some_delete}


def some_numbers(draw, count):
    """Different numbers of states in rising order, now and then with 0 or the greatest one."""
    near = draw.choice((None, None, 0, 2**64 - count - 1))
    numbers = set()
    while len(numbers) < count:
        numbers.add(near + draw.randint(0, count) if near is not None else draw.getrandbits(draw.choice((8, 16, 64))))
    return sorted(numbers)


def some_message(draw, counts):
    """A message with these counts of records of each kind. A number may stand in several kinds."""
    records = (tuple(MAKERS[kind](draw, number) for number in some_numbers(draw, count))
               for kind, count in zip(KINDS, counts))
    return Message(draw.randbytes(16), *records)


def fits(counts):
    return 0 < sum(counts) and size(dict(zip(KINDS, counts))) <= MOST


def some_counts(draw, most=(2, 3, 4)):
    """Numbers of records by kind, at least one of them, with which a message isn't too long."""
    while True:
        counts = tuple(draw.randint(0, count) for count in most)
        if fits(counts):
            return counts
