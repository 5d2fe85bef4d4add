#!/usr/bin/env python3
"""Measures the program with workers beside itself without and prints a table for each of four captures.

    workers.py [PROGRAM] [--captures NAME ..] [--packets N] [--rules N ..] [--batches N ..] [--workers N ..]
    workers.py [PROGRAM] --long [N ..]

The packets of the capture `stateless` are decided by a rule that makes no state, each of those of `making` makes a
state, and those of `matching` match the states of a few connections. No rule but the last matches a packet. The
others ask for ranges of ports, by which no rule is passed over, so each packet that has no state is asked about each
rule of its protocol, half of them. Those of `early` are decided by the first rule. A row has one number of rules and
one of packets in a batch. Of each number of workers it has the speed as a multiple of that without, and in brackets
the time of processors as a multiple. Behind them are the peaks of memory without workers and with the last number of
them.

With --long it prints another table instead, of what a packet costs, and of the peak of memory, as captures grow. Runs
on up to 100000 packets are made five times, and longer ones twice. In brackets stands a cost as a multiple of that on
the shortest capture, on which it is checked what packets come to.
"""

import argparse
import sys
import tempfile
from collections import Counter
from copy import copy
from pathlib import Path
from typing import Callable, NamedTuple, Optional

sys.dont_write_bytecode = True

from make_capture import write_capture
from make_flows import write_flows
from rules import vain_ranges
from running import (OUTPUTS, RUNS, load_printed, outcomes, peak_memory, peak_word, print_head, print_row,
                     replay_command, seconds, seconds_and_peak, tell_of_time, used, words_with_program, written)

PACKETS = 200000
COUNTS, BATCHES, WORKERS = [10, 100, 1000], [256, 4096], [1, 2, 4, 8]
# the connections whose states are matched
FEW = 16
# of the table of long captures, and for each of these its numbers of rules; packets that match states ask none
LENGTHS = [10**5, 10**6, 10**7]
LONG_COUNTS = {"stateless": [100, 1000], "matching": [1000]}
LONG_BATCH, LONG_WORKERS, LONG_RUNS = 256, 4, 2
# packets times rules of a run without workers; longer ones are left out
MOST_LONG_QUESTIONS = 10**9


class Kind(NamedTuple):
    """A kind of captures: the rules that decide on its packets, what writes a number of them, and how many of these are
    decided by the rules, where that is known. The others match a state. A rule may stand before all others."""
    rules: str
    write: Callable
    decided: Optional[Callable] = None
    first: Optional[str] = None

    def written(self, folder, packets):
        """A capture of `packets` packets in a folder."""
        path = folder / f"{packets} packets.pcap"
        written(path, self.write, packets)
        return path


# each packet is the first one of its connection
MAKING = Kind("pass all keep state", lambda count, file: write_flows(count, file, count), lambda count: count)
KINDS = {
    "stateless": Kind("pass all no state", write_capture, lambda count: count),
    "making": MAKING,
    "matching": Kind("pass all keep state", lambda count, file: write_flows(count, file, FEW),
                     lambda count: min(count, FEW)),
    "early": Kind("pass all no state", write_capture, lambda count: count, "pass quick all no state"),
}


class Best(NamedTuple):
    """The best times of some runs in seconds: from start to end, and of processors."""
    passed: float
    spent: float


class Contest:
    """A capture and a ruleset of one length, and the program on them with each number of workers."""

    def __init__(self, folder, program, kind, capture, packets, count, batch):
        self.folder, self.program, self.kind = folder, program, kind
        self.capture, self.packets, self.count, self.batch = capture, packets, count, batch
        self.rules = folder / "rules"
        first = [kind.first] if kind.first else []
        vain = [rule for rule, _ in vain_ranges(count - 1 - len(first), capture.read_bytes())]
        self.rules.write_text("\n".join([f"set limit states {packets}", *first, *vain, f"{kind.rules}\n"]))

    def on(self, capture, packets):
        """The same program and rules on another capture of the same kind."""
        other = copy(self)
        other.capture, other.packets = capture, packets
        return other

    def command(self, workers, **files):
        """The words of a run; an output that isn't named goes nowhere."""
        return replay_command(self.program, self.capture, self.rules, workers, self.batch, **files)

    def best(self, numbers):
        """The best times with each of these numbers of workers, run in turn."""
        times = {number: [] for number in numbers}
        for _ in range(RUNS):
            for number in numbers:
                passed, usage = used(self.command(number))
                times[number].append((passed, usage.ru_utime + usage.ru_stime))
        return {number: Best(*map(min, zip(*found))) for number, found in times.items()}

    def outputs(self, workers):
        """What a run leaves in its files."""
        files = {name: self.folder / name for name in OUTPUTS}
        seconds(self.command(workers, **files))
        return files, {name: file.read_bytes() for name, file in files.items()}

    def check(self, numbers):
        """Each packet comes to what its kind says, and outputs are the same with each of these numbers of workers."""
        files, expected = self.outputs(0)
        decided = self.kind.decided(self.packets)
        found = outcomes(files["verdicts"])
        if found != +Counter({"pass rule": decided, "pass state": self.packets - decided}):
            sys.exit(f"of {self.packets} packets came {found}")
        for number in numbers:
            _, seen = self.outputs(number)
            if wrong := [name for name in OUTPUTS if seen[name] != expected[name]]:
                sys.exit(f"with {number} workers and batches of {self.batch} these are others: {', '.join(wrong)}")


def cell(without, found):
    """The speed of a run as a multiple of that without workers, and the time of processors as a multiple."""
    return f"{without.passed / found.passed:.2f} ({found.spent / without.spent:.2f})"


def row(contest, workers):
    """The measures of one ruleset and size of batches, as words."""
    times = contest.best([0, *workers])
    contest.check(workers)
    peaks = [peak_memory(contest.command(number)) for number in (0, *workers[-1:])]
    return [f"{contest.count}", f"{contest.batch}", f"{contest.packets / times[0].passed:.0f}",
            *(cell(times[0], times[number]) for number in workers), *peaks]


class Growth:
    """A program and its ruleset, with one number of workers, on captures that grow."""

    def __init__(self, contest, workers, empty):
        self.contest, self.workers = contest, workers
        # the time of a run that has no packets, and what one costs on the first capture
        self.start, _ = self.measured(contest.on(empty, 0))
        self.first = None

    def measured(self, contest):
        """The best time of some runs, and the greatest peak of memory."""
        runs = RUNS if contest.packets <= LENGTHS[0] else LONG_RUNS
        times, peaks = zip(*(seconds_and_peak(contest.command(self.workers)) for _ in range(runs)))
        return min(times), None if None in peaks else max(peaks)

    def takes_too_long(self, packets):
        """Whether the calling thread alone would ask too many rules."""
        return self.workers == 0 and self.contest.kind.decided(packets) * self.contest.count > MOST_LONG_QUESTIONS

    def cells(self, capture, packets):
        """What a packet costs, in brackets as a multiple of that on the first capture, and the peak of memory."""
        if self.takes_too_long(packets):
            return ["-", "-"]
        passed, peak = self.measured(self.contest.on(capture, packets))
        cost = (passed - self.start) * 1e9 / packets
        self.first = self.first or cost
        return [f"{cost:.0f} ({cost / self.first:.2f})", peak_word(peak)]


def print_long(folder, program, lengths):
    numbers, shortest = (0, LONG_WORKERS), lengths[0]
    print_head(["capture", "rules", "packets", "ns a packet without", "peak MB", f"with {LONG_WORKERS}", "peak MB"],
               left=1)
    for name, counts in LONG_COUNTS.items():
        captures = {packets: KINDS[name].written(folder, packets) for packets in (0, *lengths)}
        for count in counts:
            contest = Contest(folder, program, KINDS[name], captures[shortest], shortest, count, LONG_BATCH)
            contest.check([LONG_WORKERS])
            growths = [Growth(contest, number, captures[0]) for number in numbers]
            for packets in lengths:
                cells = [cell for growth in growths for cell in growth.cells(captures[packets], packets)]
                print_row([name, f"{count}", f"{packets}", *cells])
        for capture in captures.values():
            capture.unlink()


def print_table(folder, program, name, words):
    kind = KINDS[name]
    capture = kind.written(folder, words.packets)
    names = ["rules", "batch", "packets/s without", *(f"with {number}" for number in words.workers),
             "peak MB without", *(f"with {number}" for number in words.workers[-1:])]
    print(f"\n{name}, {words.packets} packets\n")
    print_head(names)
    for count in words.rules:
        for batch in words.batches:
            contest = Contest(folder, program, kind, capture, words.packets, count, batch)
            print_row(row(contest, words.workers))
    capture.unlink()


def main():
    parser = argparse.ArgumentParser(description="Measures the program with workers beside itself without.")
    parser.add_argument("--captures", nargs="+", choices=KINDS, default=list(KINDS), help="what the packets come to")
    parser.add_argument("--packets", type=int, default=PACKETS, help="of each capture")
    parser.add_argument("--rules", type=int, nargs="+", default=COUNTS)
    parser.add_argument("--batches", type=int, nargs="+", default=BATCHES, help="the packets of a batch")
    parser.add_argument("--workers", type=int, nargs="+", default=WORKERS, help="beside 0, which is always measured")
    parser.add_argument("--long", type=int, nargs="*", metavar="N",
                        help="prints the table of captures of N packets, alone")
    words = words_with_program(parser)
    tell_of_time()
    with load_printed(), tempfile.TemporaryDirectory() as folder:
        if words.long is not None:
            print_long(Path(folder), words.program, sorted(words.long) or LENGTHS)
        else:
            for name in words.captures:
                print_table(Path(folder), words.program, name, words)


if __name__ == "__main__":
    main()
