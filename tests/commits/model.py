"""A model of the book that commits a run's packets in order, with what was found out about them before.

It says which results the book tries and which it drops, and so how many packets it evaluates itself.

- A result is of one packet number, at one clock, on the interface of one place, as one packet is seen, under one job.
  It holds what was asked of the table for it and answered. Asked are the state with a key on one side whose binding
  meets a place, or the one of the least number wherever it is bound; whether there is room for one more; and for each
  rule that is asked for it whether there are fewer states of it than its limit.
- Of several results of a packet's number the first in the list is tried, and the others are dropped.
- It is taken where number, clock, place, packet and job are those of the packet, and the table gives each answer anew.
  States whose deadline is at most the clock are gone from the table then. Else the book evaluates the packet itself.
- What a batch emits, and what is left at the end, is the same in either case: what the packets one by one come to.
  Packets that are written stand by the places of their interfaces.
- A batch emits the messages that close at its packets: those that are out behind it and weren't before. The end emits
  the one that is open then.
"""

from collections import Counter
from typing import NamedTuple

from captures.frames import datagram_of, view
from commits import place_kinds
from messages.run import told_of
from messages.spelling import bare
from steps.marks import state_line, verdict_line
from steps.model import Outcome, step
from steps.replay import Refused, counters, job_of, step_of
from steps.run import seed_of
from steps.states import StateTable


class Speculate(NamedTuple):
    """Evaluates packet `number` of a job, seen as packet `seen_as` is, on the interface of a place, and keeps what is
    found."""
    job: int
    number: int
    seen_as: int
    clock: int
    place: int = 0

    def line(self):
        return f"speculate {self.job} {self.number} {self.seen_as} {self.clock} {self.place}"


class Holds(NamedTuple):
    """Asks whether a record that is kept holds."""
    kept: int
    clock: int

    def line(self):
        return f"holds {self.kept} {self.clock}"


class Batch(NamedTuple):
    """Commits the next packets with the results that are kept under some numbers."""
    count: int
    kept: tuple = ()

    def line(self):
        return " ".join(map(str, ("batch", self.count, *self.kept)))


class Commit(NamedTuple):
    """Commits the next packet alone; with a result, unless that is None."""
    kept: int | None = None

    def line(self):
        return f"commit {'-' if self.kept is None else self.kept}"


class Clear(NamedTuple):
    """Forgets what was emitted."""

    def line(self):
        return "clear"


class Found(NamedTuple):
    """A result: the identity of its job, what it is of, the questions with their answers, and what the packet comes
    to."""
    job: tuple
    number: int
    clock: int
    place: int
    seen: tuple
    answers: dict
    # of each look-up all states with its key, wherever they are bound
    around: dict
    outcome: Outcome

    def is_of(self):
        return self[:5]


class Asked:
    """A table that writes down what it is asked and answers."""

    def __init__(self, table):
        self.table = table
        self.answers, self.around = {}, {}

    def at(self, direction, key, scope):
        question = "at", direction, key, scope
        self.around[question] = self.table.all_at(direction, key)
        return self.answers.setdefault(question, self.table.at(direction, key, scope))

    def is_full(self):
        return self.answers.setdefault(("is_full",), self.table.is_full())

    def has_rule_room(self, rule, most):
        """Without writing it down: the model of the filter looks at more rules than are asked."""
        return self.table.has_rule_room(rule, most)

    def write_down(self, rooms):
        """Writes down for which rules it was asked."""
        self.answers |= {("has_rule_room", room.place, room.most): room.is_left for room in rooms}


def answer_to(table, question):
    name, *about = question
    return getattr(table, name)(*about)


def purged(table, clock):
    """A copy of the table as it is at a clock."""
    copy = StateTable(table.limit)
    copy.entries = dict(table.entries)
    copy.purge(clock)
    return copy


def failing(found, table):
    """The questions that a table answers otherwise than a result has them."""
    return [question for question, answer in found.answers.items() if answer_to(table, question) != answer]


def holds(found, table, clock):
    return not failing(found, purged(table, clock))


def hex_of(octets):
    return octets.hex() or "-"


def packet_lines(written):
    """The lines of packets that are written, each with the place of its interface: one for each place, by place."""
    texts = {}
    for place, text in written:
        texts[place] = texts.get(place, b"") + text
    return [f"packets {place} {texts[place].hex()}" for place in sorted(texts) if texts[place]] or ["packets -"]


def spelled(messages):
    """Messages as a peer gets them, in hex."""
    return hex_of(b"".join(map(bare, messages)))


class Book:
    """The book of a run. Its records have their headers; `jobs` are pairs of a byte of the seed and a ruleset's text."""

    def __init__(self, run, jobs, records):
        self.run, self.records, self.jobs = run, records, jobs
        self.told, self.kept, self.steps, self.emitted = [], [], [], []
        self.own = self.clock = self.tried = 0
        # of the results that were tried and of what was written, as place_kinds names them
        self.kinds = Counter()
        self.meanings = [self.job_of(run, *job) for job in jobs]
        self.table = StateTable(self.meanings[0].ruleset.options.values["states"]) if self.meanings[0] else None

    def job_of(self, run, byte, text):
        """The job of a text and a byte of the seed; a ruleset that is refused is told."""
        try:
            return job_of(text.encode(), run.interfaces, run.inside, seed_of(byte))
        except Refused as why:
            self.told.append(str(why))
            return None

    def seen(self, number):
        record = self.records[number - 1]
        link = self.run.link_at(record.place)
        return view(link, record.frame), datagram_of(link, record.frame)

    # What it is told to do

    def speculate(self, call):
        if not self.meanings[call.job]:
            self.kept.append(None)
            return
        asked, seen = Asked(purged(self.table, call.clock)), self.seen(call.seen_as)
        outcome = step(self.meanings[call.job], call.number, call.clock, call.place, *seen, asked)
        asked.write_down(outcome.rooms)
        self.kept.append(Found(self.jobs[call.job], call.number, call.clock, call.place, seen, asked.answers,
                               asked.around, outcome))

    def taken(self, kept):
        found = None if kept is None else self.kept[kept]
        if found:
            self.kept[kept] = None
        return found

    def asked_of(self, number):
        """What a result has to be of so that it is one of the next packet."""
        return self.jobs[0], number, self.clock, self.records[number - 1].place, self.seen(number)

    def fits(self, found, number):
        return found.is_of() == self.asked_of(number) and holds(found, self.table, self.clock)

    def kinds_of(self, found, number, outcome):
        now = purged(self.table, self.clock)
        return place_kinds.kinds_of(found, self.asked_of(number), failing(found, now), now, outcome)

    def take(self, results):
        """Commits the next packet."""
        number = len(self.steps) + 1
        record = self.records[number - 1]
        self.clock = max(self.clock, record.seconds)
        found = next((each for each in results if each.number == number), None)
        self.tried += found is not None
        self.own += not (found and self.fits(found, number))
        done = step_of(self.meanings[0], number, self.clock, self.run.link_at(record.place), record, self.table)
        self.kinds.update(self.kinds_of(found, number, done.outcome) if found else ())
        self.table.apply(done.outcome.change)
        self.steps.append(done)

    def told_to_standby(self):
        """What a standby is told of the run so far."""
        return told_of(self.jobs[0][1].encode(), self.meanings[0], self.steps)

    def emit(self, messages):
        """Of these messages the ones behind those that are emitted already."""
        new = messages[len(self.emitted):]
        self.emitted += new
        return new

    def commit(self, count, kept):
        start = len(self.steps)
        results = [found for found in map(self.taken, kept) if found]
        for _ in self.records[start:start + count]:
            self.take(results)
        added = self.steps[start:]
        self.kinds.update(place_kinds.kinds_of_batch(self.run.interfaces, added))
        messages = self.emit(self.told_to_standby().online(len(self.steps)))
        self.told += [*(verdict_line(self.run.interfaces, each) for each in added),
                      *packet_lines((each.record.place, each.text()) for each in added),
                      f"messages {spelled(messages)}", f"own {self.own}, committed {len(self.steps)}"]

    def holds(self, call):
        found = self.kept[call.kept]
        self.told.append("none" if not found else "holds" if holds(found, self.table, call.clock) else "fails")

    def obey(self, call):
        if not self.table:
            return
        match call:
            case Speculate():
                self.speculate(call)
            case Holds():
                self.holds(call)
            case Batch():
                self.commit(call.count, call.kept)
            case Commit():
                self.commit(1, () if call.kept is None else (call.kept,))

    def ending(self):
        """What is told at the end: the last message, a line for each rule and the totals, and the states."""
        if not self.table:
            return []
        self.kinds.update(place_kinds.kinds_of_left(self.table.by_number()))
        return [f"message {spelled(self.emit(self.told_to_standby().whole()))}",
                *counters(self.meanings[0].ruleset, self.steps).splitlines(),
                *(state_line(self.run.interfaces, entry) for entry in self.table.by_number())]
