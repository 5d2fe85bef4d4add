"""Scripts for a book: runs with what it is told to do, some written out and some random."""

import random
from typing import NamedTuple

import messages.random_runs
import steps.place_runs
import steps.random_runs
import steps.translation_runs
from captures.packets import SYN, UDP, ipv4, record, tcp, udp
from commits.model import Batch, Book, Clear, Commit, Holds, Speculate, hex_of
from steps.replay import Record
from steps.random_runs import LAST_SECOND
from steps.rows import H, P
from steps.run import Run
from steps.texts import some_text

SEED = 20261124
RECORD_HEADER = 16
LARGEST_BATCH = 20
# how far behind a batch a packet may be about which something is found out
FARTHEST = 10
OTHER_SEED = 1


class Script(NamedTuple):
    """A run, the jobs, each a byte of the seed and a text, of which the first is the book's, and what the book is told."""
    run: Run
    jobs: list
    calls: list

    def records(self):
        """The records with their headers."""
        return [Record(record(second, count, frame)[:RECORD_HEADER], second, frame, place)
                for count, (second, frame, place) in enumerate(self.run.placed())]

    def lines(self):
        """As the program reads it."""
        yield from (f"interface {each.name} {each.own().address} {each.bits}" for each in self.run.interfaces)
        yield from (f"inside {network.address} {network.bits}" for network in self.run.inside)
        yield from (f"job {seed} {hex_of(text.encode())}" for seed, text in self.jobs)
        yield from (f"packet {each.place} {self.run.link_at(each.place)} {each.seconds} {each.header.hex()} "
                    f"{hex_of(each.frame)}" for each in self.records())
        yield from (call.line() for call in self.calls)
        yield "end"

    def by_model(self):
        """The book once it was told all, with the lines that it has told."""
        book = Book(self.run, self.jobs, self.records())
        for call in self.calls:
            book.obey(call)
        book.told += book.ending()
        return book


# Written out

def both_ahead(name, rules, packets, lines):
    """Two packets, about both of which something is found out on the empty table, and taken in the other order; with the
    lines of the packets. The record of the second holds before the first is committed, and not then."""
    run = Run(name, rules, [(0, packet) for packet in packets])
    ahead = [Speculate(0, number, number, 0) for number in (1, 2)]
    written = hex_of(b"".join(each.header + each.frame for each, line in zip(Script(run, [], []).records(), lines)
                              if " pass " in line))
    yield (Script(run, [(0, rules)], [*ahead, Batch(2, (1, 0))]),
           [*lines, f"packets 0 {written}", "messages -", "own 1, committed 2"])
    first = hex_of(b"".join(Script(run, [], []).records()[0][::2]))
    yield (Script(run, [(0, rules)], [*ahead, Holds(1, 0), Batch(1, (0,)), Holds(1, 0), Holds(0, 0)]),
           ["holds", lines[0], f"packets 0 {first}", "messages -", "own 0, committed 1", "fails", "none"])


def ahead_in_order(name, rules, packets, lines, own):
    """Packets about all of which something is found out on the empty table, and taken in a batch; with the lines of the
    packets, which all pass, and how many the book evaluates itself."""
    run = Run(name, rules, [(0, packet) for packet in packets])
    numbers = range(1, len(packets) + 1)
    written = hex_of(b"".join(each.header + each.frame for each in Script(run, [], []).records()))
    yield (Script(run, [(0, rules)], [*(Speculate(0, number, number, 0) for number in numbers),
                                      Batch(len(packets), tuple(range(len(packets))))]),
           [*lines, f"packets 0 {written}", "messages -", f"own {own}, committed {len(packets)}"])


def rows():
    """Scripts, each with the lines that it is answered with before the end. For messages these have their sizes."""
    opening = tcp(H, 1000, P, 80, SYN, 1000)
    yield from both_ahead("one packet twice", "pass out", [opening, opening],
                          ["1 0 out pass rule r=0 t=- s=1", "2 0 out pass state r=0 t=- s=1"])
    yield from both_ahead("room for one state", "set limit states 1\npass out",
                          [udp(H, 1000, P, 53), udp(H, 1001, P, 53)],
                          ["1 0 out pass rule r=0 t=- s=1", "2 0 out block state-limit r=0 t=- s=-"])
    yield from both_ahead("room for one state of a rule", "block out\npass out keep state (max 1)",
                          [udp(H, 1000, P, 53), udp(H, 1001, P, 53)],
                          ["1 0 out pass rule r=1 t=- s=1", "2 0 out block rule r=0 t=- s=-"])
    yield from ahead_in_order("room for two states of a rule", "pass out keep state (max 2)",
                              [udp(H, port, P, 53) for port in (1000, 1001, 1002)],
                              ["1 0 out pass rule r=0 t=- s=1", "2 0 out pass rule r=0 t=- s=2",
                               "3 0 out pass default r=- t=- s=-"], own=1)
    # a fragment isn't asked for room, and the state of another rule takes none
    fragment = ipv4(H, P, UDP, bytes(8), fragment=1)
    yield from ahead_in_order("packets whose answers stay", "pass out no state\npass out proto udp keep state (max 1)\n"
                              "pass out proto tcp keep state (max 1)", [udp(H, 1000, P, 53), opening, fragment],
                              ["1 0 out pass rule r=1 t=- s=1", "2 0 out pass rule r=2 t=- s=2",
                               "3 0 out pass rule r=1 t=- s=-"], own=0)


def in_batches(run, size):
    """A run that is committed in batches of one size, and without results."""
    count = -(-len(run.records) // size)
    return Script(run, [(run.seed[0], run.rules)], [Batch(size)] * count)


# Random

class Told:
    """What the book of a random run is told: each call is drawn by how far the book is then."""

    def __init__(self, draw, run, jobs):
        self.draw, self.run, self.jobs = draw, run, jobs
        script = Script(run, jobs, [])
        self.book = Book(run, jobs, script.records())
        self.total = len(run.records)
        self.clocks = self.all_clocks()
        self.calls = []

    def all_clocks(self):
        """The clock at each packet."""
        clocks, clock = [], 0
        for second, _ in self.run.records:
            clock = max(clock, second)
            clocks.append(clock)
        return clocks

    def tell(self, call):
        self.calls.append(call)
        self.book.obey(call)

    def committed(self):
        return len(self.book.steps)

    def seen_as(self, number):
        """Mostly the packet itself; else one that is surely seen as another, or has the same bytes."""
        other = self.draw.randint(1, self.total)
        mine, others = self.book.seen(number), self.book.seen(other)
        return other if self.draw.random() < 0.08 and (mine == others or mine[0] != others[0]) else number

    def speculate(self, number):
        """Finds something out about a packet; mostly what is of use."""
        draw = self.draw
        job = draw.randrange(len(self.jobs)) if draw.random() < 0.2 else 0
        clock = self.clocks[number - 1]
        if draw.random() < 0.06:
            clock = max(clock + draw.choice((-1, 1, 30)), 0) % 2**32
        self.tell(Speculate(job, number, self.seen_as(number), clock, self.some_place(number)))

    def some_place(self, number):
        """The place of a packet; now and then that of another one."""
        if self.run.places and self.draw.random() < 0.1:
            number = self.draw.randint(1, self.total)
        return self.book.records[number - 1].place

    def some_number(self):
        """The number of a packet: mostly a next one, else a later one, or one that is committed."""
        if self.committed() and self.draw.random() < 0.1:
            return self.draw.randint(1, self.committed())
        return min(self.committed() + self.draw.randint(1, LARGEST_BATCH + FARTHEST), self.total)

    def find_out(self):
        """Finds out about some packets, now and then about one of them twice or more."""
        for _ in range(self.draw.choice((0, 1, 5, 10, 30))):
            number = self.some_number()
            for _ in range(self.draw.choice((1,) * 6 + (2, 3))):
                self.speculate(number)

    def ask(self):
        if self.book.kept and self.draw.random() < 0.5:
            kept = self.draw.randrange(len(self.book.kept))
            clock = self.book.clock + self.draw.choice((0, 0, 1, 60))
            self.tell(Holds(kept, clock % 2**32))

    def some_kept(self, count):
        """Results for a batch: some of its packets', and some of others, in any order."""
        draw, start = self.draw, self.committed()
        kept = [place for place, found in enumerate(self.book.kept)
                if found and (start < found.number <= start + count or draw.random() < 0.1)]
        kept = [place for place in kept if draw.random() < 0.85]
        if draw.random() < 0.8:
            draw.shuffle(kept)
        return tuple(kept)

    def commit(self):
        if self.draw.random() < 0.2:
            kept = self.some_kept(1)
            self.tell(Commit(kept[0] if kept else None))
        else:
            count = self.draw.randint(0, LARGEST_BATCH)
            self.tell(Batch(count, self.some_kept(count)))
        if self.draw.random() < 0.3:
            self.tell(Clear())

    def all_calls(self):
        while self.committed() < self.total:
            self.find_out()
            self.ask()
            self.commit()
            self.ask()
        return self.calls


def some_jobs(draw, run):
    """The jobs of a run: the book's, one by the same inputs, one by another seed, and one by another text."""
    seed = run.seed[0]
    return [(seed, run.rules), (seed, run.rules), (seed ^ OTHER_SEED, run.rules), (seed, some_text(draw))]


def scripts_of(runs):
    """Random scripts for some runs, the same at every time."""
    draw = random.Random(SEED)
    for run in runs:
        jobs = some_jobs(draw, run)
        yield Script(run, jobs, Told(draw, run, jobs).all_calls() if run.records else [])


def some_scripts(packets):
    """Random scripts with `packets` packets in all."""
    return scripts_of(steps.random_runs.runs(packets))


def some_translated(packets):
    """The same of runs with translation."""
    return scripts_of(steps.translation_runs.runs(packets))


def some_placed(packets):
    """The same of runs on several interfaces."""
    return scripts_of(steps.place_runs.runs(packets))


def some_runs_with_messages(count):
    """`count` runs of which much is told to a standby, without those with a second that no record has."""
    return [run for run in messages.random_runs.runs(count) if run.records[-1][0] <= LAST_SECOND]


def some_with_messages(count):
    """Random scripts for these."""
    return scripts_of(some_runs_with_messages(count))
