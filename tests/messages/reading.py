"""What a reader makes of bytes: the message that they begin with and its length, or the first thing that is wrong.

A message is refused at the first of these, from left to right:

1. There are fewer than 20 bytes: `short`.
2. The version isn't 5: `version`.
3. The byte behind it isn't 0: `fixed`.
4. The length is below 40 or above 1480: `length`.
5. There are fewer bytes than the length: `short`.
6. At a subheader:
   - the message has fewer than 4 bytes left: `no end`;
   - the action isn't one of 1, 4, 7 and 12, or isn't above the one before, or is 12 in the first: `action`;
   - its second byte isn't 0: `fixed`;
   - the count is 0, or for action 12 isn't 1, or the records go past the message: `count`.
7. In one of its records, at the first byte where it is so: a byte isn't the one that stands there in all records, a
   number doesn't rise (at its first byte), or a code or the padding of the interface's name is one that no state has:
   `fixed`. Then 6 and 7 for the next subheader, up to that with action 12.
8. The message has bytes behind the subheader that ends it: `trailing`.

What stands behind the message isn't read. In a file there is an IP header before the message. It is asked first:

1. There are fewer than 24 bytes: `short`.
2. The first byte isn't 0x45, or the protocol isn't 240: `version`.
3. The total length isn't that of the message and 20: `length`.

Offsets of `fixed` count from the message's own header, also in a file.

A stream is a row of messages. What isn't one is refused in the same way.
"""

from typing import NamedTuple

from messages.message import Delete, Insert, Message, Update
from tracking.model import Peer

NUMBERS = {"short": 1, "version": 2, "length": 3, "action": 4, "count": 5, "no end": 6, "trailing": 7, "fixed": 10}
IP_BYTES, HEADER_BYTES, SUBHEADER_BYTES = 20, 20, 4
VERSION, LEAST, MOST = 5, 40, 1480
FIRST_BYTE, PROTOCOL = 0x45, 240
INS, UPD_C, DEL_C, END = 1, 4, 7, 12
SIZES = {INS: 242, UPD_C: 84, DEL_C: 12}
GREATEST_PEER_CODE, GREATEST_SHIFT, TIMEOUTS = 10, 14, 14
NOBODY = b"\xff\xff\xff\xff"
# what the byte of a window's scale says: no offer, or a shift
SCALES = {0: None, **{0x80 + shift: shift for shift in range(GREATEST_SHIFT + 1)}}


class Refusal(NamedTuple):
    """Why bytes are refused; `action` with the action, `fixed` with an offset."""
    name: str
    detail: int | None = None

    def number(self):
        return NUMBERS[self.name]

    def text(self):
        return self.name if self.detail is None else f"{self.name} {self.detail}"


class Refused(Exception):
    """The bytes are refused."""

    def __init__(self, name, detail=None):
        super().__init__(name)
        self.refusal = Refusal(name, detail)


class Reader:
    """Goes over the bytes of one message, which are all there."""

    def __init__(self, octets):
        self.octets = octets
        self.place = HEADER_BYTES

    def left(self):
        return len(self.octets) - self.place

    def take(self, width):
        self.place += width
        return self.octets[self.place - width:self.place]

    def number(self, width):
        return int.from_bytes(self.take(width), "big")

    def fixed(self, expected):
        """Bytes that are the same in all records."""
        start = self.place
        seen = self.take(len(expected))
        if seen != expected:
            wrong = next(place for place, octet in enumerate(expected) if seen[place] != octet)
            raise Refused("fixed", start + wrong)

    def code(self, allowed):
        """A byte that has only some values."""
        code = self.number(1)
        if code not in allowed:
            raise Refused("fixed", self.place - 1)
        return code

    def rule(self):
        octets = self.take(4)
        return None if octets == NOBODY else int.from_bytes(octets, "big")

    # The parts of records

    def interface(self):
        """A name, and zeros up to 16 bytes, at least one."""
        start = self.place
        octets = self.take(16)
        name = octets[:15].split(b"\0")[0]
        for place in range(len(name), 16):
            if octets[place]:
                raise Refused("fixed", start + place)
        return name

    def address(self):
        number = self.number(4)
        self.fixed(bytes(12))
        return number

    def key(self):
        addresses = self.address(), self.address()
        return tuple(zip(addresses, (self.number(2), self.number(2))))

    def peer(self):
        self.fixed(bytes(8))
        low, high = self.number(4), self.number(4)
        self.fixed(bytes(4))
        window = self.number(2)
        self.fixed(bytes(2))
        code = self.code(range(GREATEST_PEER_CODE + 1))
        offer = SCALES[self.code(SCALES)]
        self.fixed(bytes(6))
        return Peer(code, low, high, window, offer)

    # Records, behind their number

    def insert(self, number):
        interface, wire, stack, maker, other = self.interface(), self.key(), self.key(), self.peer(), self.peer()
        self.fixed(bytes(16))
        rule = self.rule()
        self.fixed(NOBODY)
        translation, age, remaining = self.rule(), self.number(4), self.number(4)
        packets, octets = (self.number(8), self.number(8)), (self.number(8), self.number(8))
        creator = self.number(4)
        self.fixed(b"\2")
        protocol, direction = self.number(1), self.code((1, 2))
        self.fixed(bytes(4))
        timeout = self.code(range(TIMEOUTS))
        self.fixed(bytes(2))
        return Insert(number, interface, wire, stack, maker, other, rule, translation, age, remaining, packets, octets,
                      creator, protocol, direction, timeout)

    def update(self, number):
        maker, other, creator, remaining = self.peer(), self.peer(), self.number(4), self.number(4)
        timeout = self.code(range(TIMEOUTS))
        self.fixed(bytes(3))
        return Update(number, maker, other, creator, remaining, timeout)

    def delete(self, number):
        return Delete(number, self.number(4))

    def records(self, action, count):
        """`count` records of one kind."""
        read = {INS: self.insert, UPD_C: self.update, DEL_C: self.delete}[action]
        records = []
        for _ in range(count):
            number = self.number(8)
            if records and number <= records[-1].number:
                raise Refused("fixed", self.place - 8)
            records.append(read(number))
        return tuple(records)

    def subheader(self, before):
        """An action and a count, behind the action before, which is 0 at first."""
        start = self.place
        if self.left() < SUBHEADER_BYTES:
            raise Refused("no end")
        action = self.number(1)
        if action not in (INS, UPD_C, DEL_C, END) or action <= before or (action == END and before == 0):
            raise Refused("action", action)
        if self.number(1) != 0:
            raise Refused("fixed", start + 1)
        count = self.number(2)
        if count == 0 or (action == END and count != 1) or (action != END and count * SIZES[action] > self.left()):
            raise Refused("count")
        return action, count

    def message(self):
        found = {INS: (), UPD_C: (), DEL_C: ()}
        action, count = self.subheader(0)
        while action != END:
            found[action] = self.records(action, count)
            action, count = self.subheader(action)
        if self.left():
            raise Refused("trailing")
        return Message(self.octets[4:20], *found.values())


def read_message(octets):
    if len(octets) < HEADER_BYTES:
        raise Refused("short")
    if octets[0] != VERSION:
        raise Refused("version")
    if octets[1] != 0:
        raise Refused("fixed", 1)
    length = int.from_bytes(octets[2:4], "big")
    if not LEAST <= length <= MOST:
        raise Refused("length")
    if len(octets) < length:
        raise Refused("short")
    return Reader(octets[:length]).message(), length


def ask_ip_header(octets):
    if len(octets) < IP_BYTES + 4:
        raise Refused("short")
    if octets[0] != FIRST_BYTE or octets[9] != PROTOCOL:
        raise Refused("version")
    if int.from_bytes(octets[2:4], "big") != int.from_bytes(octets[22:24], "big") + IP_BYTES:
        raise Refused("length")


def read(octets):
    """The message that the bytes begin with and its length, or a Refusal."""
    try:
        return read_message(octets)
    except Refused as why:
        return why.refusal


def read_in_file(octets):
    """The same for bytes of a file. The length is with the IP header."""
    try:
        ask_ip_header(octets)
        message, length = read_message(octets[IP_BYTES:])
    except Refused as why:
        return why.refusal
    return message, IP_BYTES + length


# Streams

class Stream(NamedTuple):
    """The whole messages at the front of a stream, and why the bytes behind them are refused, None if none are left."""
    messages: list
    refusal: Refusal | None


def stream_of(octets, by=read):
    """The messages of which a stream is made, by what reads one of its form."""
    messages, place = [], 0
    while place < len(octets):
        # no message has more bytes
        answer = by(octets[place:place + IP_BYTES + MOST])
        if isinstance(answer, Refusal):
            return Stream(messages, answer)
        message, length = answer
        messages.append(message)
        place += length
    return Stream(messages, None)
