#!/usr/bin/env python3
"""Measures what it costs that `nat` picks a port or an identifier for a flow, as more of them are taken.

    run.py [PFREPLAY] [--program PROGRAM]

Builds the program beside it in a temporary folder, which takes some minutes; crates that aren't built are built first,
in their own folders. Where PROGRAM is given it is put there, and taken from there where it is there already. All flows
go to one end outside. It prints a row for each share of the ports, or identifiers, that is taken towards that end. Then
PFREPLAY (`crates/pfr_cli/out/pfr_cli` where none is named) replays more such flows than there are ports.
"""

import argparse
import sys
import tempfile
from collections import Counter
from pathlib import Path
from typing import NamedTuple

sys.dont_write_bytecode = True
sys.path.insert(0, str(Path(__file__).resolve().parent.parent))

from make_flows import A_SECOND, OPENING
from programs import Program, Timed, add_program_flag, more_allocations, numbers_of, program_at, run_in_turn
from running import (OUTPUTS, PROGRAM as PFREPLAY, RUNS, best_seconds, check_built, count_lines, goal_line, outcomes,
                     print_head, print_row, replay_command)

# found where running says
from captures.packets import capture_header, record, udp
from steps.picks import IDENTIFIERS, PORTS, ZERO_SEED, try_list, word

PROGRAM = Program("picks", "pfr_packet")
SHARES = (50, 90, 99)
# the steps of a run, and the ports that are tried in it
MOST_STEPS = 10**6
MOST_TRIES = 2 * 10**7
# the steps of which the model says how many ports they try, and those whose allocations are counted; a second run has
# twice as many of these
CHECKED_STEPS = 300
COUNTED_STEPS = 100
# what a step asks besides the ports that it tries: about the packet's own key; and where it makes a state about both of
# that state's keys, and whether there is room
ASKED, ASKED_FOR_STATE = 1, 3
# nanoseconds a question, which are looked at where there are so many questions
GOAL, MANY = 100, 10
# flows through the whole program
FLOWS = 20000


class Ruleset(NamedTuple):
    """A ruleset, and whether it has a port tried for a packet."""
    name: str
    text: str
    tries: bool


NAT_RULE = "nat on em0 from 10.0.0.0/8 to any -> em0"
PICKING = Ruleset("nat", f"{NAT_RULE}\npass out\n", True)
KEEPING = Ruleset("nat, static-port", f"{NAT_RULE} static-port\npass out\n", True)
UNTRANSLATED = Ruleset("no nat", "pass out\n", False)


class Fill(NamedTuple):
    """What is taken before the steps: so many flows have made states, and the oldest of them are gone again."""
    name: str
    made: int
    gone: int


NONE = Fill("none", 0, 0)


class Range:
    """A range of ports, or of identifiers, in the model of picks, where flows are numbered from 1."""

    def __init__(self, name, low, high, are_pings):
        self.name, self.low, self.high, self.are_pings = name, low, high, are_pings
        self.size = high - low + 1
        # what each flow gets until there is none left, and how many were tried for all of them
        self.picked = []
        self.tried = 0
        taken = set()
        for number in range(1, self.size + 1):
            tries, port = self.pick(taken, number)
            taken.add(port)
            self.picked.append(port)
            self.tried += tries

    def pick(self, taken, number):
        """How many are tried for the packet of a number, and what it gets; None where all are taken."""
        if len(taken) == self.size:
            return self.size, None
        tried = enumerate(try_list(self.low, self.high, word(ZERO_SEED, number)), 1)
        return next((tries, port) for tries, port in tried if port not in taken)

    def tries(self, fill, count):
        """How many are tried for so many packets behind those that fill the table, which it leaves as it is."""
        taken = set(self.picked[fill.gone:fill.made])
        return sum(self.pick(taken, fill.made + turn)[0] for turn in range(1, count + 1))

    def fills(self):
        yield NONE
        for share in SHARES:
            taken = self.size * share // 100
            yield Fill(f"{share} of 100, one by one", taken, 0)
            yield Fill(f"{share} of 100, the oldest gone", self.size, self.size - taken)
        yield Fill("all", self.size, 0)


class Contest(Timed):
    """Packets that begin flows under a ruleset, over a table that is filled."""

    def __init__(self, program, folder, ruleset, ports, fill):
        self.program, self.ruleset, self.ports, self.fill = program, ruleset, ports, fill
        self.is_full = fill.made - fill.gone == ports.size
        self.rules = folder / ruleset.name
        self.rules.write_text(ruleset.text)
        tries = self.tries_of(CHECKED_STEPS)
        expected = ports.tries(fill, CHECKED_STEPS) if ruleset is PICKING else CHECKED_STEPS * ruleset.tries
        if tries != expected:
            raise SystemExit(f"{self.name()}: {tries} tries for {CHECKED_STEPS} packets, and not {expected}")
        self.steps = max(CHECKED_STEPS, min(MOST_STEPS, MOST_TRIES * CHECKED_STEPS // max(tries, 1)))
        self.tries = self.tries_of(self.steps) / self.steps

    def name(self):
        return f"{self.ports.name}, {self.ruleset.name}, {self.fill.name}"

    def command(self, steps, is_counted):
        words = self.ports.are_pings, self.fill.made, self.fill.gone, steps, is_counted
        return [str(self.program), *(str(int(word)) for word in words)]

    def measured(self, steps, is_counted):
        """What the program measures of so many steps."""
        measure, *found = numbers_of(self.command(steps, is_counted), self.rules)
        if found != [0 if self.is_full else steps, steps if self.is_full else 0, self.fill.made - self.fill.gone]:
            raise SystemExit(f"{self.name()}: of {steps} packets came {found}")
        return measure

    def tries_of(self, steps):
        """How many ports are tried in so many steps."""
        return self.measured(steps, True) - steps * (ASKED + ASKED_FOR_STATE * (not self.is_full))

    def run(self):
        """Runs the program once more, and keeps the best nanoseconds of a step."""
        self.keep(self.measured(self.steps, False) / self.steps)

    def nanoseconds_a_try(self, least):
        """By what a step takes longer than one of another contest; None where it hardly tries more."""
        more = self.tries - least.tries
        return (self.best - least.best) / more if more >= MANY else None

    def allocations(self, folder):
        """The allocations of a step: what a run of twice as many has more."""
        more = more_allocations(lambda steps: self.command(steps, False), COUNTED_STEPS, self.rules, folder)
        return more / COUNTED_STEPS


def contests_of(program, folder, ports):
    for ruleset in (UNTRANSLATED, KEEPING):
        yield Contest(program, folder, ruleset, ports, NONE)
    for fill in ports.fills():
        yield Contest(program, folder, PICKING, ports, fill)


def measure(program, folder, ports):
    """Prints the rows of a range, and answers the nanoseconds of a question where there are many."""
    contests = list(contests_of(program, folder, ports))
    run_in_turn(RUNS, contests)
    least = next(contest for contest in contests if contest.ruleset is PICKING)
    each = []
    for contest in contests:
        allocations, nanoseconds = contest.allocations(folder), contest.nanoseconds_a_try(least)
        print_row([ports.name, contest.ruleset.name, contest.fill.name, f"{contest.tries:.2f}", f"{contest.best:.0f}",
                   "-" if nanoseconds is None else f"{nanoseconds:.1f}", f"{allocations:g}"])
        each += [] if nanoseconds is None else [nanoseconds]
        if allocations:
            raise SystemExit(f"{contest.name()}: a step takes memory")
    return each


def write_capture(file):
    """First packets of flows from one inside end each to one end outside."""
    file.write(capture_header())
    for number in range(FLOWS):
        packet = udp(f"10.0.{number // 250}.{1 + number % 250}", 1024, "198.51.100.7", 53, b"question")
        file.write(record(OPENING + number // A_SECOND, number % A_SECOND * 200, packet))


def measure_whole(pfreplay, folder, ports):
    """Replays more flows than there are ports, and prints how long that took."""
    capture, rules = folder / "capture.pcap", folder / "rules"
    rules.write_text(PICKING.text)
    with open(capture, "wb") as file:
        write_capture(file)
    files = {name: folder / name for name in OUTPUTS}
    best, = best_seconds(replay_command(pfreplay, capture, rules, **files))
    states, found = count_lines(files["states"]), outcomes(files["verdicts"])
    if states != ports.size or found != Counter({"pass rule": states, "block nat-exhausted": FLOWS - states}):
        raise SystemExit(f"{states} states at the end, and of {FLOWS} packets came {found}")
    tries = ports.tried + (FLOWS - states) * ports.size
    print(f"{FLOWS} flows through the program: {states} states and {FLOWS - states} without a port in {best:.2f} s, "
          f"{best * 1e9 / tries:.1f} ns for each of {tries} ports that were tried")


def main():
    parser = argparse.ArgumentParser(description="Measures picks of ports and identifiers as more of them are taken.")
    parser.add_argument("pfreplay", nargs="?", type=Path, default=PFREPLAY)
    add_program_flag(parser)
    words = parser.parse_args()
    check_built(words.pfreplay)
    with tempfile.TemporaryDirectory() as name:
        folder = Path(name)
        program = program_at(words.program, folder, PROGRAM)
        print_head(["of", "rules", "taken", "questions a pick", "ns a step", "ns a question", "allocations a step"],
                   left=3)
        ranges = Range("UDP ports", *PORTS, False), Range("ICMP identifiers", *IDENTIFIERS, True)
        most = max(nanoseconds for ports in ranges for nanoseconds in measure(program, folder, ports))
        print(f"at most {most:.1f} ns a question, {goal_line(GOAL, most <= GOAL)}")
        measure_whole(words.pfreplay.resolve(), folder, ranges[0])


if __name__ == "__main__":
    main()
