#!/usr/bin/env python3
"""Measures commits a second of packets about which all was found out before, and of packets about which nothing was, as
rulesets grow, and counts the allocations of a commit.

    run.py [STATES] [--program PROGRAM]

Builds the program beside it in a temporary folder, which takes some minutes; crates that aren't built are built first,
in their own folders. If PROGRAM is given it is put there, and taken from there if it is there already. The table has
100000 states unless another number is given. For rulesets of 10, 100 and 1000 rules, of which the last alone matches,
it prints a row for each kind of packets.

The packets are records of raw IP with their views, made 256 at a time, a batch. If results are held, each packet is
evaluated on the table as it is before its batch is committed (`speculate` of pfr_record). Neither is measured: the
batch's commits alone are, with their lines and their records. A packet that matches a state is a segment of an open TCP
connection, of its two ends in turn, and so changes that state. One that makes a state is the SYN of another connection.
Allocations are counted by the library of tests/faults over a table of 1000 states: what the commits add.
"""

import sys
from pathlib import Path
from typing import NamedTuple

sys.dont_write_bytecode = True
sys.path.insert(0, str(Path(__file__).resolve().parent.parent))

from programs import COUNTS, Program, Timed, measure_growing, more_allocations, numbers_of, run_in_turn
from rules import vain_pairs
from running import RUNS

PROGRAM = Program("commits", "pfr_commit")
# the packets of a batch and of a run, and the packets times rules where each packet is asked about every rule
BATCH = 256
MOST_PACKETS = 1000 * BATCH
MOST_QUESTIONS = 10**8
# the batches of a run whose allocations are counted; another has twice as many
COUNTED_BATCHES = 20
COUNTED_STATES = 1000
RULE = "pass all keep state"


class Packets(NamedTuple):
    """A kind of packets: whether they have states, and whether they make some."""
    name: str
    are_known: bool

    def made(self, count):
        return 0 if self.are_known else count


KINDS = (Packets("matches a state", True), Packets("makes a state", False))


class Contest(Timed):
    """One kind of packets under a ruleset of one length, with a speculation for each or without."""

    def __init__(self, program, folder, states, count, packets, is_held):
        self.program, self.states, self.packets, self.is_held = program, states, packets, is_held
        self.rules = folder / f"{count} rules"
        rules = [rule for rule, _ in vain_pairs(count - 1, b"")]
        self.rules.write_text("\n".join(["set limit states 1000000", *rules, f"{RULE}\n"]))
        most = MOST_PACKETS if packets.are_known or is_held else min(MOST_PACKETS, MOST_QUESTIONS // count)
        self.count = most // BATCH * BATCH

    def command(self, states, count, is_committed=True):
        words = states, count, BATCH, self.packets.are_known, self.is_held, is_committed
        return [str(self.program), *(str(int(word)) for word in words)]

    def run(self):
        """Runs the program once more, and keeps the best nanoseconds of a commit."""
        nanoseconds, *found = numbers_of(self.command(self.states, self.count), self.rules)
        own = 0 if self.is_held else self.count
        if found != [self.count, own, self.states, self.states + self.packets.made(self.count)]:
            raise SystemExit(f"{self.packets.name}: of {self.count} packets came {found}")
        self.keep(nanoseconds / self.count)

    def allocations(self, folder):
        """The allocations of a commit: what a run of twice as many has more, without those that make a batch ready."""
        count = COUNTED_BATCHES * BATCH
        committed, ready = (more_allocations(words, count, self.rules, folder) for words in (
            lambda packets: self.command(COUNTED_STATES, packets),
            lambda packets: self.command(COUNTED_STATES, packets, is_committed=False)))
        return (committed - ready) / count


def measure(program, folder, states):
    contests = {(kind, count, is_held): Contest(program, folder, states, count, kind, is_held)
                for kind in KINDS for count in COUNTS for is_held in (True, False)}
    run_in_turn(RUNS, contests.values())
    print(f"{'a packet that':>16} {'rules':>6} {'held, a second':>15} {'without':>12} {'held / without':>15} "
          f"{'allocations, held':>18} {'without':>8}")
    for kind in KINDS:
        for count in COUNTS:
            held, without = contests[kind, count, True], contests[kind, count, False]
            print(f"{kind.name:>16} {count:>6} {1e9 / held.best:15,.0f} {1e9 / without.best:12,.0f} "
                  f"{without.best / held.best:14.2f}x {held.allocations(folder):18.3f} "
                  f"{without.allocations(folder):8.3f}", flush=True)


if __name__ == "__main__":
    measure_growing("Measures commits with speculations and without, as rulesets grow.", PROGRAM, measure)
