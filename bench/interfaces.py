#!/usr/bin/env python3
"""Measures a run of several captures beside a run of one capture with the same packets and prints a table.

    interfaces.py [PROGRAM] [--packets N] [--instructions] [--workers N]

The packets are those of flows.py, of many flows at once. Each flow is on one interface. So what a packet comes to is
the same in all runs, with states that are met on all interfaces and with states that are bound to one. Runs are of one,
two and eight captures. With --instructions it counts instructions (by valgrind) in the place of seconds.

With --workers it prints another table instead, of two captures of which the second ends early: with N workers and
without, beside one capture with the same packets.
"""

import argparse
import re
import subprocess
import sys
import tempfile
import zlib
from pathlib import Path

sys.dont_write_bytecode = True

from flows import RULES
from make_flows import write_flows
from rules import vain_ranges
from running import (best_seconds, count_records, goal_line, peak_memory, print_head, print_row, replay_command,
                     words_with_program, written)

HEADER, RECORD = 24, 16
# the addresses of a frame's IP header behind its link header
ADDRESSES = slice(14 + 12, 14 + 20)
# states that are met on all interfaces, and states that are bound to one
KINDS = {"no state": RULES.replace("keep state", "no state"), "floating": RULES,
         "if-bound": "set state-policy if-bound\n" + RULES}
PACKETS = 10**6
CAPTURES = (1, 2, 8)
# of the time of one capture, by the number of captures
GOALS = {2: 1.15, 8: 1.3}
# how many rules of ranges of ports there are: none of them is passed over, so workers have something to do
MANY = 1000


def records_of(capture):
    """The records of a capture, with their headers."""
    place = HEADER
    while place < len(capture):
        end = place + RECORD + int.from_bytes(capture[place + 8:place + 12], sys.byteorder)
        yield capture[place:end]
        place = end


def interface_of(record, count):
    """Which of `count` interfaces a record's flow is on, the same for both of its directions."""
    addresses = record[RECORD:][ADDRESSES]
    return zlib.crc32(b"".join(sorted((addresses[:4], addresses[4:])))) % count


def split(capture, count, place_of):
    """`count` captures, each with the records that `place_of` gives its place."""
    files = [bytearray(capture[:HEADER]) for _ in range(count)]
    for number, record in enumerate(records_of(capture)):
        files[place_of(number, record)] += record
    return files


class Contest:
    """The packets of one capture, as one capture and as several."""

    def __init__(self, folder, program, packets):
        self.folder, self.program = folder, program
        whole = folder / "whole.pcap"
        written(whole, write_flows, packets)
        self.capture = whole.read_bytes()
        self.count = count_records(self.capture)

    def captures(self, count, place_of):
        """The files of `count` captures, each with the records that `place_of` gives its place."""
        paths = [self.folder / f"{count} {place}.pcap" for place in range(count)]
        for path, capture in zip(paths, split(self.capture, count, place_of)):
            path.write_bytes(capture)
        return paths

    def rules(self, kind, text):
        """The file of a ruleset."""
        path = self.folder / f"{kind}.conf"
        path.write_text(text)
        return path

    def command(self, paths, rules, workers=0, lines="/dev/null"):
        """The words that replay these captures."""
        also = [word for place, path in enumerate(paths) if place
                for word in ("--also", f"em{place},198.18.{place}.1/24,{path},/dev/null")]
        return [*replay_command(self.program, paths[0], rules, workers, verdicts=lines), *also]

    def lines(self, paths, rules, workers=0):
        """The verdict lines of such a run, without the names of interfaces."""
        lines = self.folder / "lines"
        subprocess.run(self.command(paths, rules, workers, lines), stdout=subprocess.DEVNULL, check=True)
        return re.sub(rb" i=em\d+\n", b"\n", lines.read_bytes())


def instructions(command):
    """How many instructions a run takes."""
    with tempfile.NamedTemporaryFile() as counts:
        done = subprocess.run(["valgrind", "--tool=callgrind", f"--callgrind-out-file={counts.name}", *command],
                              stdout=subprocess.DEVNULL, stderr=subprocess.PIPE, text=True, check=True)
    return int(re.search(r"Collected : (\d+)", done.stderr)[1])


def print_kinds(contest, counted):
    """Prints a row for each kind of rules and number of captures."""
    print_head(["rules", "captures", "packets", "instructions a packet" if counted else "ns a packet", "of one capture",
                "peak MB"], left=1)
    files = {count: contest.captures(count, lambda number, record: interface_of(record, count)) for count in CAPTURES}
    for kind, text in KINDS.items():
        rules = contest.rules(kind, text)
        expected = contest.lines(files[1], rules)
        if any(contest.lines(files[count], rules) != expected for count in CAPTURES):
            sys.exit(f"{kind}: packets come to something else in several captures")
        commands = [contest.command(files[count], rules) for count in CAPTURES]
        costs = list(map(instructions, commands)) if counted else [best * 1e9 for best in best_seconds(*commands)]
        for count, cost, command in zip(CAPTURES, costs, commands):
            print_row([kind, str(count), str(contest.count), f"{cost / contest.count:.0f}", f"{cost / costs[0]:.3f}",
                       peak_memory(command)])
            if count in GOALS and not counted:
                print(goal_line(GOALS[count], cost / costs[0] <= GOALS[count]))


def print_early(contest, workers):
    """Prints how long runs take of which one capture ends early, with workers and without."""
    early = contest.count // 50
    one = contest.captures(1, lambda number, record: 0)
    two = contest.captures(2, lambda number, record: int(number < early and number % 2))
    vain = [rule for rule, _ in vain_ranges(MANY - 1, contest.capture)]
    rules = contest.rules("many", "\n".join([*vain, "pass all no state\n"]))
    if contest.lines(one, rules, workers) != contest.lines(two, rules, workers):
        sys.exit("packets come to something else in two captures")
    print_head(["captures", "packets", "of them in the second", "ns a packet without workers", f"with {workers}",
                "with / without"])
    for paths, second in ((one, 0), (two, early // 2)):
        without, found = best_seconds(contest.command(paths, rules), contest.command(paths, rules, workers))
        print_row([str(len(paths)), str(contest.count), str(second), f"{without * 1e9 / contest.count:.0f}",
                   f"{found * 1e9 / contest.count:.0f}", f"{found / without:.3f}"])


def main():
    parser = argparse.ArgumentParser(description="Measures runs of several captures.")
    parser.add_argument("--packets", type=int, default=PACKETS)
    parser.add_argument("--instructions", action="store_true", help="counts instructions in the place of seconds")
    parser.add_argument("--workers", type=int, help="prints the table of a capture that ends early, alone")
    words = words_with_program(parser)
    with tempfile.TemporaryDirectory() as name:
        contest = Contest(Path(name), words.program, words.packets)
        if words.workers:
            print_early(contest, words.workers)
        else:
            print_kinds(contest, words.instructions)


if __name__ == "__main__":
    main()
