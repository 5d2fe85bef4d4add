"""The messages of a list of events, by cutting the list when it is finished.

- The list is cut into runs of events at one clock. Each run is cut from its front into parts: a part ends before the
  first event with which its message would have more than 1500 bytes with its IP header.
- Each part is a message, and its clock is the message's closing clock. Each number in it has one record, if any. Where
  its first event is `made` that is INS, or none if its last is `removed`. For any other it is DEL_C if its last event
  is `removed`, else UPD_C.
- What a record says of a state is as the number's last event in the part has it. A part without records is no message.
"""

from itertools import groupby
from typing import NamedTuple

from messages.events import MADE, REMOVED
from messages.message import DEL_C, DIRECTIONS, INS, KINDS, MOST, UPD_C, Delete, Insert, Message, Update, size


class Origin(NamedTuple):
    """What all messages of a run say: the names of the interfaces by their places, the MD5 of the ruleset's text, and
    the host id."""
    interfaces: tuple
    checksum: bytes
    creator: int

    def name_at(self, place):
        """The name of the interface of a place, empty behind the last one."""
        return self.interfaces[place] if place < len(self.interfaces) else b""


# Parts

def entries_of(events):
    """Of the events of a part the kind of record and the last event of each number that has a record."""
    first, last = {}, {}
    for event in events:
        first.setdefault(event.number, event)
        last[event.number] = event
    for number in sorted(first):
        is_gone = last[number].kind == REMOVED
        if first[number].kind != MADE:
            yield DEL_C if is_gone else UPD_C, last[number]
        elif not is_gone:
            yield INS, last[number]


def size_of(events):
    """The bytes of the message of a part."""
    counts = dict.fromkeys(KINDS, 0)
    for kind, _ in entries_of(events):
        counts[kind] += 1
    return size(counts)


def first_part(run):
    """The events of the first part of a run."""
    for count in range(1, len(run)):
        if size_of(run[:count + 1]) > MOST:
            return run[:count]
    return run


def parts_of(events):
    """The parts of a list of events, one after the other: each a list of at least one event."""
    for _, same in groupby(events, key=lambda event: event.clock):
        run = list(same)
        while run:
            part = first_part(run)
            yield part
            run = run[len(part):]


# Their messages

def record_of(origin, kind, state, clock):
    """What a message that closes at a clock says of a state."""
    if kind == DEL_C:
        return Delete(state.number, origin.creator)
    remaining = max(0, state.deadline - clock)
    if kind == UPD_C:
        return Update(state.number, state.maker, state.other, origin.creator, remaining, state.timeout)
    return Insert(state.number, origin.name_at(state.interface), state.wire, state.stack, state.maker, state.other,
                  state.rule, state.translation, clock - state.made, remaining, state.counts[::2], state.counts[1::2],
                  origin.creator, state.protocol, DIRECTIONS[state.direction], state.timeout)


def message_of(origin, part):
    """The message of a part, None where it has no records."""
    records = {kind: [] for kind in KINDS}
    for kind, event in entries_of(part):
        records[kind].append(record_of(origin, kind, event.state, part[0].clock))
    message = Message(origin.checksum, *map(tuple, records.values()))
    return message if message.numbers() else None


def messages_of(origin, parts):
    return [message for message in (message_of(origin, part) for part in parts) if message]


def events_of(packets):
    return [event for packet in packets for event in packet.events]


def whole(origin, packets):
    """The messages of a run that came to its end."""
    return messages_of(origin, parts_of(events_of(packets)))


def online(origin, packets):
    """The messages that are out behind some packets, while the run goes on: those of all parts but the last one, if its
    clock is that of the last packet."""
    parts = list(parts_of(events_of(packets)))
    if parts and parts[-1][0].clock == packets[-1].clock:
        parts.pop()
    return messages_of(origin, parts)
