"""What the command `standby` answers to a stream of messages: a second implementation of docs/FORMATS.md, section
"Messages to a standby", written from the text alone.

A stream is a file, in which each message stands behind an IP header, or the bytes of a connection, in which messages
are bare. What a reader makes of the bytes of one message stands in messages.reading.

- The stream is a row of whole messages. The first bytes that aren't one refuse it. A stream may have no messages.
- A message is taken with its insertions first, then its updates, then its deletions. It is refused if it inserts a
  state that is held, or if it updates or deletes one that is neither held nor inserted by the message itself. A message
  that is refused changes nothing.
- At the end there is a line for each state that is held, by number: `N PROTO DIR WIRE STACK r=R PEER PEER TIMEOUT`. The
  lines are also written if a message is refused or reading fails. They are those of the messages before.
- If reading fails, whole messages and a refusal come first that stand in the bytes before. Bytes that may still become
  a message are no refusal then.
"""

from typing import NamedTuple

from messages.message import DIRECTIONS, key_text
from messages.reading import NUMBERS, read, read_in_file, stream_of
from runs.model import FILE, PEER, Outcome, failed, refused
from tracking.model import Peer, dashed

# what reads the messages of each form
READERS = {FILE: read_in_file, PEER: read}
SHORT, UNKNOWN_STATE = NUMBERS["short"], 8
DIRECTION_NAMES = {code: name for name, code in DIRECTIONS.items()}


# States

class Kept(NamedTuple):
    """What is kept of a state. A key is the end outside and the end inside, each an address and a port."""
    protocol: int
    direction: int
    wire: tuple
    stack: tuple
    rule: int | None
    maker: Peer
    other: Peer
    timeout: int

    def line(self, number):
        """Without the newline."""
        return (f"{number} {self.protocol} {DIRECTION_NAMES[self.direction]} {key_text(self.wire)} "
                f"{key_text(self.stack)} r={dashed(self.rule)} {self.maker.line()} {self.other.line()} {self.timeout}")


class Standby:
    """The states that are held, by their numbers."""

    def __init__(self):
        self.states = {}

    def refuses(self, message):
        """Whether a message isn't about the states that are held."""
        inserted = {record.number for record in message.inserts}
        known = self.states.keys() | inserted
        moved = {record.number for record in (*message.updates, *message.deletes)}
        return bool(inserted & self.states.keys() or moved - known)

    def take(self, message):
        """Takes a message, unless it is refused: whether it was taken."""
        if self.refuses(message):
            return False
        for each in message.inserts:
            self.states[each.number] = Kept(each.protocol, each.direction, each.wire, each.stack, each.rule, each.maker,
                                            each.other, each.timeout)
        for each in message.updates:
            moved = self.states[each.number]._replace(maker=each.maker, other=each.other, timeout=each.timeout)
            self.states[each.number] = moved
        for each in message.deletes:
            del self.states[each.number]
        return True

    def lines(self):
        return [self.states[number].line(number) for number in sorted(self.states)]


# Answers

class Ending(NamedTuple):
    """How a stream ends: what is held then, how many messages were taken, and the number of the refusal of the next
    one, None if nothing is refused."""
    standby: Standby
    count: int
    refusal: int | None


def ending_of(octets, form):
    """How a stream of a form ends."""
    stream, standby = stream_of(octets, READERS[form]), Standby()
    for count, message in enumerate(stream.messages):
        if not standby.take(message):
            return Ending(standby, count, UNKNOWN_STATE)
    return Ending(standby, len(stream.messages), stream.refusal and stream.refusal.number())


def answer(octets, form, fails=False):
    """What the command leaves that reads a stream of a form: one that ends behind these bytes, or that fails there."""
    ending = ending_of(octets, form)
    if fails and ending.refusal in (None, SHORT):
        outcome = failed(f"read failed, after {ending.count} messages")
    elif ending.refusal is None:
        outcome = Outcome(b"", b"", 0)
    else:
        outcome = refused(f"message {ending.count + 1} refused: {ending.refusal}")
    return outcome._replace(out="".join(f"{line}\n" for line in ending.standby.lines()).encode())


def unwritten(octets, form):
    """What it leaves if nothing can be written to standard output: the same if there is no line."""
    ending = ending_of(octets, form)
    if not ending.standby.states:
        return answer(octets, form)
    return failed(f"write failed, after {ending.count} messages")
