"""Some messages that texts are made of."""

from messages.message import Delete, Insert, Message, Update
from tracking.model import Peer

EMPTY_SUM = "d41d8cd98f00b204e9800998ecf8427e"
# DEL_C of state 1 by creator 1 under the empty ruleset, as it is spelled
VECTOR = bytes.fromhex(f"05000028 {EMPTY_SUM} 07000001 0000000000000001 00000001 0c000001")

# Five messages: one of each kind, one of all of them, and the longest that there can be

SUM = bytes(range(0xA0, 0xB0))
SYN_SENT, ESTABLISHED = Peer(2, 0x01020304, 0x05060708, 0x1112, 14), Peer(4, 0x21222324, 0x25262728, 0x3132)
WIRE, STACK = ((0xC6336407, 443), (0xC0000201, 50001)), ((0xC6336407, 443), (0x0A000005, 1000))
CREATOR = 0x0A0B0C0D


def insert(place):
    return Insert(place, b"em0", WIRE, STACK, SYN_SENT, ESTABLISHED, 7, None, 3, 86400, (5, 4), (1500, 260), CREATOR,
                  6, 2, 2)


def update(place):
    return Update(place, ESTABLISHED, SYN_SENT, CREATOR, 900, 3)


def message(inserts, updates, deletes):
    """A message with these numbers of records of each kind."""
    numbers = iter(range(1, 1 + inserts + updates + deletes))
    return Message(SUM, tuple(insert(next(numbers)) for _ in range(inserts)),
                   tuple(update(next(numbers)) for _ in range(updates)),
                   tuple(Delete(next(numbers), CREATOR) for _ in range(deletes)))


def five_messages():
    return [message(1, 0, 0), message(0, 1, 0), message(0, 0, 1), message(1, 2, 3), message(2, 5, 45)]
