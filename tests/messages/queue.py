"""The messages of a run a second time, by a queue that closes them as it goes.

- `made` queues INS. `touched` queues UPD_C unless the number is queued. `removed` turns a queued UPD_C into DEL_C,
  takes a queued INS out, so that nothing is sent, and else queues DEL_C.
- The first entry opens a message at its clock. A message whose last entry is taken out isn't open any more.
- It closes before a packet whose clock is above the one at which it was opened, at the clock of the packet before. It
  closes before an entry with which it would have more than 1500 bytes with its IP header, at that entry's clock. And it
  closes at the end of the run, at the last clock.
- INS and UPD_C say the states as they are at closing.
"""

from messages.model import record_of
from messages.events import MADE, REMOVED
from messages.message import DEL_C, INS, KINDS, MOST, UPD_C, Message, size


class Queue:
    """The open message: the kinds of its entries by number, and the clock at which it was opened. Beside it stand all
    states as they are, and the clock of the last packet."""

    def __init__(self, origin):
        self.origin = origin
        self.entries = {}
        self.opened = None
        self.states = {}
        self.clock = 0

    def counts(self):
        kinds = list(self.entries.values())
        return {kind: kinds.count(kind) for kind in KINDS}

    def has_room(self, kind):
        """Whether one more entry of a kind goes into the message."""
        counts = self.counts()
        counts[kind] += 1
        return size(counts) <= MOST

    def close(self, clock):
        """The messages that close: the open one, if there is one."""
        if not self.entries:
            return []
        records = {kind: [] for kind in KINDS}
        for number in sorted(self.entries):
            kind = self.entries[number]
            records[kind].append(record_of(self.origin, kind, self.states[number], clock))
        self.entries = {}
        return [Message(self.origin.checksum, *map(tuple, records.values()))]

    def enter(self, kind, event):
        """Queues an entry; the messages that close before it."""
        closed = [] if self.has_room(kind) else self.close(event.clock)
        if not self.entries:
            self.opened = event.clock
        self.entries[event.number] = kind
        return closed

    def take(self, event):
        """Takes an event; the messages that close before it."""
        queued = self.entries.get(event.number)
        if event.kind == MADE:
            closed = self.enter(INS, event)
        elif event.kind == REMOVED and queued == INS:
            del self.entries[event.number]
            closed = []
        elif event.kind == REMOVED and queued == UPD_C:
            self.entries[event.number] = DEL_C
            closed = []
        elif queued is None:
            closed = self.enter(DEL_C if event.kind == REMOVED else UPD_C, event)
        else:
            closed = []
        # what closed before it was as it was before
        self.states[event.number] = event.state
        return closed

    def step(self, packet):
        """Takes the events of a packet; the messages that close at it."""
        closed = []
        if self.entries and packet.clock > self.opened:
            closed = self.close(self.clock)
        self.clock = packet.clock
        for event in packet.events:
            closed += self.take(event)
        return closed

    def end(self):
        """The messages that close at the end of the run."""
        return self.close(self.clock)


def by_packet(origin, packets):
    """The messages that close at each packet, and behind these the ones at the end."""
    queue = Queue(origin)
    return [*map(queue.step, packets), queue.end()]
