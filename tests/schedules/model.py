"""A model of what a run with workers may come to where its calls return in an order.

What it hands its feed, and what it leaves, is what the packets one by one come to. How many packets the committer
evaluates itself depends on the tables that workers looked at: if a packet was evaluated on the table after some
batches, its result is taken if that table gave the answers that the table gives when the packet is committed.
"""

from typing import NamedTuple

from commits.model import Batch, Book, Speculate, holds
from schedules.machine import Shape, seen_tables
from steps.replay import Record
from steps.run import Run

RECORD_HEADER = bytes(16)


# What depends on no order

def book_of(run):
    """A book that has committed nothing. The headers of its records are zeros."""
    records = [Record(RECORD_HEADER, *each) for each in run.placed()]
    return Book(run, [(run.seed[0], run.rules)], records)


def clocks_of(run):
    """The clock at each packet, by its number."""
    clocks, clock = {}, 0
    for number, (second, _) in enumerate(run.records, 1):
        clocks[number] = clock = max(clock, second)
    return clocks


def results_on(book, numbers, clocks):
    """What is found out about some packets on the book's table, by their numbers."""
    for number in numbers:
        book.speculate(Speculate(0, number, number, clocks[number], book.records[number - 1].place))
    return dict(zip(numbers, book.kept[-len(numbers):]))


def taken_results(run, shape):
    """For each packet whether its result is taken, by how many batches the table is of that its worker looked at."""
    book, clocks, found, taken = book_of(run), clocks_of(run), [], {}
    for batch, _ in enumerate(shape.batches, 1):
        numbers = shape.packets_of(batch)
        found.append(results_on(book, range(numbers.start, shape.packets().stop), clocks))
        for number in numbers:
            taken[number] = [holds(results[number], book.table, clocks[number]) for results in found]
            book.take([])
    return taken


class Known(NamedTuple):
    """A run in batches, and what is known of it in any order of its calls: the lines of its pieces and those at its end, how
    many states are left, and for each packet whether its result is taken, by how many batches the table is of that its
    worker looked at."""
    run: Run
    shape: Shape
    pieces: list
    ending: list
    states: int
    taken: dict


def known_of(run, shape):
    book = book_of(run)
    for count in shape.batches:
        book.obey(Batch(count))
    pieces = [line for line in book.told if not line.startswith("own ")]
    return Known(run, shape, pieces, book.ending(), len(book.table.entries), taken_results(run, shape))


# What does

class Script(NamedTuple):
    """A run in batches, and the order in which its calls return."""
    known: Known
    order: tuple

    def lines(self):
        """As the program reads it."""
        run, shape = self.known.run, self.known.shape
        yield f"rules {run.seed[0]} {run.rules.encode().hex() or '-'}"
        yield from (f"packet {place} {second} {frame.hex() or '-'}" for second, frame, place in run.placed())
        yield " ".join(map(str, ("batches", *shape.batches)))
        yield f"workers {shape.workers}"
        yield " ".join(("steps", *(step.words() for step in self.order)))
        yield "end"


class Expected(NamedTuple):
    """What a script may come to: which packets are surely evaluated again, and which ones may be; and whether that would be
    others if a worker looked at an older table."""
    script: Script
    surely: frozenset
    maybe: frozenset
    tells_older: bool

    def is_exact(self):
        return self.surely == self.maybe

    def may_be(self, again):
        """Whether these may be the packets that are evaluated again."""
        return self.surely <= again <= self.maybe

    def lines(self, again):
        """The answer where these are the packets that are evaluated again."""
        known = self.script.known
        numbers = " ".join(map(str, (len(again), *sorted(again))))
        return [*known.pieces, f"own {len(again)}", f"again {numbers}", f"states {known.states}",
                f"shown {known.states}", f"passed {len(self.script.order)}", *known.ending]

    def lines_beside(self, seen):
        """The answer that is expected beside one that is seen: with the packets that are evaluated again in that, if these
        may be."""
        again = again_in(seen)
        return self.lines(again if again is not None and self.may_be(again) else self.surely)


def again_in(lines):
    """The packets that are evaluated again by an answer; None where it doesn't tell."""
    told = next((line.split()[2:] for line in lines if line.startswith("again ")), None)
    return None if told is None else frozenset(map(int, told))


def tells_older(taken, tables):
    """Whether it shows if a packet is evaluated on a table before these, by whether its result is taken."""
    here, older = {taken[count] for count in tables}, {taken[count] for count in range(tables.start)}
    return len(here) == 1 and not older <= here


def expected_of(script):
    known, surely, maybe, tells = script.known, set(), set(), False
    for number, tables in zip(known.shape.packets(), seen_tables(known.shape, script.order)):
        taken = known.taken[number]
        held = [taken[count] for count in tables]
        surely |= set() if any(held) else {number}
        maybe |= set() if all(held) else {number}
        tells = tells or tells_older(taken, tables)
    return Expected(script, frozenset(surely), frozenset(maybe), tells)
