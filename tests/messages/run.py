"""A whole run with its messages."""

import hashlib
from itertools import chain
from typing import NamedTuple

from messages import model, queue
from messages.model import Origin
from messages.events import Followed, packet_of
from steps.replay import Record, steps_of
from steps.states import StateTable


class Told(NamedTuple):
    """A run: what its messages share, the seconds of the timeouts by their codes, its steps, what each packet does to
    states, its events, and the states that are left."""
    origin: Origin
    seconds: tuple
    steps: list
    happenings: list
    packets: list
    left: list

    def whole(self):
        """The messages of the run, by cutting the finished list of events."""
        return model.whole(self.origin, self.packets)

    def online(self, count):
        """Those that are out after `count` packets, while the run goes on."""
        return model.online(self.origin, self.packets[:count])

    def closed(self):
        """By the queue: those that close at each packet, and behind these the ones at the end."""
        return queue.by_packet(self.origin, self.packets)

    def out(self, is_ended):
        """Those that are out behind the last packet, where the run came to its end or was stopped there. Both ways have
        to give the same."""
        *closed, last = self.closed()
        by_queue = [*chain.from_iterable(closed), *(last if is_ended else [])]
        by_cut = self.whole() if is_ended else self.online(len(self.packets))
        if by_cut != by_queue:
            raise AssertionError("the cut and the queue give other messages")
        return by_cut


def told_of(text, job, steps):
    """Steps of a run of a job, whose ruleset's text has these bytes."""
    followed = Followed(job.ruleset)
    happenings = list(map(followed.happening, steps))
    names = tuple(interface.name.encode() for interface in job.ruleset.hosts.run.interfaces)
    origin = Origin(names, hashlib.md5(text).digest(), job.ruleset.options.values["hostid"])
    packets, left = list(map(packet_of, happenings)), list(followed.states.values())
    return Told(origin, job.seconds(), steps, happenings, packets, left)


def told(run):
    """A Run whose ruleset has no fault."""
    job = run.job()
    records = [Record(b"", *each) for each in run.placed()]
    table = StateTable(job.ruleset.options.values["states"])
    return told_of(run.rules.encode(), job, list(steps_of(job, run.link_at, records, table)))
