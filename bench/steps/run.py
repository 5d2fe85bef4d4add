#!/usr/bin/env python3
"""Measures steps a second, which say what a packet comes to, as rulesets grow, and counts the allocations of a step.

    run.py [STATES] [--program PROGRAM]

Builds the program beside it in a temporary folder, which takes some minutes; crates that aren't built are built first,
in their own folders. If PROGRAM is given it is put there, and taken from there if it is there already. The table has
100000 states unless another number is given. For rulesets of 10, 100 and 1000 rules, of which the last alone matches,
it prints a row for each kind of packets.

The packets are views that are ready before the clock starts, as many as there are states, each of another connection.
The steps go round them in another order than the states were made in, and no step's change is taken over. A packet that
matches a state is a segment of an open TCP connection, of its two ends in turn. One that passes by a rule and one that
makes a state are the same SYN of a connection without a state: what differs is the last rule. `x 10 rules` is the time
as a multiple of that with 10 rules, and `x matches` of that of packets that match a state. Allocations are counted by
the library of tests/faults.
"""

import sys
from pathlib import Path
from typing import NamedTuple

sys.dont_write_bytecode = True
sys.path.insert(0, str(Path(__file__).resolve().parent.parent))

from programs import COUNTS, Program, Timed, measure_growing, more_allocations, numbers_of, run_in_turn
from rules import vain_pairs
from running import RUNS

PROGRAM = Program("steps", "pfr_packet")
# the steps of a run, and the packets times rules where each packet is asked about every rule
MOST_STEPS = 10**6
MOST_QUESTIONS = 10**8
# the steps of a run whose allocations are counted; another has twice as many
COUNTED_STEPS = 1000


class Packets(NamedTuple):
    """A kind of packets: the last rule, whether they have states, and the place of their count in what the program
    prints."""
    name: str
    rule: str
    are_known: bool
    place: int


MATCHED = Packets("matches a state", "pass all keep state", True, 0)
PASSED = Packets("passes by a rule", "pass all no state", False, 1)
MADE = Packets("makes a state", "pass all keep state", False, 2)
KINDS = (MATCHED, PASSED, MADE)


class Contest(Timed):
    """One kind of packets under a ruleset of one length."""

    def __init__(self, program, folder, states, count, packets):
        self.program, self.states, self.packets = program, states, packets
        self.rules = folder / f"{count} {packets.name}"
        rules = [rule for rule, _ in vain_pairs(count - 1, b"")]
        self.rules.write_text("\n".join([*rules, f"{packets.rule}\n"]))
        self.steps = MOST_STEPS if packets is MATCHED else min(MOST_STEPS, MOST_QUESTIONS // count)

    def command(self, steps):
        return [str(self.program), str(self.states), str(steps), str(int(self.packets.are_known))]

    def run(self):
        """Runs the program once more, and keeps the best nanoseconds of a step."""
        nanoseconds, *found = numbers_of(self.command(self.steps), self.rules)
        if found[self.packets.place] != self.steps:
            raise SystemExit(f"{self.packets.name}: of {self.steps} packets only {found[self.packets.place]} did")
        self.keep(nanoseconds / self.steps)

    def allocations(self, folder):
        """The allocations of a step: what a run of twice as many has more."""
        return more_allocations(self.command, COUNTED_STEPS, self.rules, folder) / COUNTED_STEPS


def measure(program, folder, states):
    contests = {(kind, count): Contest(program, folder, states, count, kind) for kind in KINDS for count in COUNTS}
    run_in_turn(RUNS, contests.values())
    print(f"{'a packet that':>16} {'rules':>6} {'ns a step':>10} {'steps a second':>15} {f'x {COUNTS[0]} rules':>11} "
          f"{'x matches':>10} {'allocations a step':>19}")
    for (kind, count), contest in contests.items():
        few, matched = contests[kind, COUNTS[0]].best, contests[MATCHED, count].best
        allocations = contest.allocations(folder)
        print(f"{kind.name:>16} {count:>6} {contest.best:10.1f} {1e9 / contest.best:15,.0f} "
              f"{contest.best / few:10.2f}x {contest.best / matched:9.2f}x {allocations:19g}", flush=True)
        if kind is MATCHED and allocations:
            raise SystemExit("a packet that matches a state takes memory")


if __name__ == "__main__":
    measure_growing("Measures steps as rulesets grow.", PROGRAM, measure)
