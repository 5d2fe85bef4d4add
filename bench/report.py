#!/usr/bin/env python3
"""Measures the command report beside `show --count` over the same packets, and prints a table.

    report.py [PROGRAM] [--packets N ..]

The captures are of many flows at once. A run with rules that make states writes the lines of verdicts and the states,
which isn't measured. Then report prints its page, with the states by age, and show says how many packets there are.
Both commands join the same packets with the same lines, so the difference is what a page costs. Each one runs five
times, in turn, and the best time counts.
"""

import argparse
import re
import sys
import tempfile
from pathlib import Path

sys.dont_write_bytecode = True

from flows import RULES
from make_flows import write_flows
from running import (INTERFACE, MEGABYTE, best_seconds, peak_word, print_head, print_row, replay_command, seconds,
                     seconds_and_peak, tell_of_time, words_with_program, written)
from show import output_of

PACKETS = [10**6]
# of report, over a capture of GOAL_PACKETS packets
GOAL_PACKETS, GOAL_SECONDS, GOAL_PEAK = 10**6, 3, 200
# how many packets there are, on the page and in the line of show
ON_PAGE = re.compile(rb"<th>Packets</th>\s*<td>(\d+)</td>")
IN_LINE = re.compile(rb"(\d+) of \1 packets\n")


class Contest:
    """One capture with what a run wrote of it, and the commands that are measured on it."""

    def __init__(self, folder, program, count):
        self.count = count
        self.capture, rules, lines, states = (folder / name for name in
                                              ("capture.pcap", "rules.conf", "verdicts", "states"))
        written(self.capture, write_flows, count)
        rules.write_text(RULES)
        seconds(replay_command(program, self.capture, rules, verdicts=lines, states=states))
        joined = [str(self.capture), str(lines), str(rules), *INTERFACE]
        self.report = [str(program), "report", *joined, "--states", str(states)]
        self.show = [str(program), "show", *joined, "--count"]

    def check(self):
        """Both commands say that they saw all packets. The length of the page, in kB."""
        page = output_of(self.report)
        seen = [said(ON_PAGE, page), said(IN_LINE, output_of(self.show))]
        if seen != [self.count] * len(seen):
            sys.exit(f"of {self.count} packets report and show say that they saw {seen}")
        return len(page) / 1000

    def measure(self):
        """Prints the row of the capture. The best seconds of report, and its peak memory in megabytes."""
        page = self.check()
        ours, theirs = best_seconds(self.report, self.show)
        peak, other_peak = (seconds_and_peak(command)[1] for command in (self.report, self.show))
        size = self.capture.stat().st_size / MEGABYTE
        print_row([f"{self.count}", f"{size:.1f}", f"{page:.1f}", f"{ours:.2f}", peak_word(peak), f"{theirs:.2f}",
                   peak_word(other_peak), f"{ours / theirs:.2f}"])
        return ours, peak


def said(pattern, printed):
    """The number that a pattern finds in what was printed; None if it finds none."""
    found = pattern.search(printed)
    return found and int(found[1])


def print_goal(measure, unit, goal):
    """Prints whether a measure of report is within its goal. It is None if it wasn't taken."""
    if measure is None:
        print(f"the goal of {goal} {unit} wasn't looked at")
    else:
        print(f"{measure:.2f} {unit}, the goal of {goal} {unit} is {'met' if measure <= goal else 'missed'}")


def main():
    parser = argparse.ArgumentParser(description="Measures the command report beside show --count.")
    parser.add_argument("--packets", type=int, nargs="+", default=PACKETS)
    words = words_with_program(parser)
    tell_of_time()
    print_head(["packets seen", "MB", "page kB", "report s", "peak MB", "show --count s", "peak MB", "report / show"])
    for count in words.packets:
        with tempfile.TemporaryDirectory() as folder:
            passed, peak = Contest(Path(folder), words.program, count).measure()
        if count == GOAL_PACKETS:
            print_goal(passed, "s", GOAL_SECONDS)
            print_goal(peak, "MB", GOAL_PEAK)


if __name__ == "__main__":
    main()
