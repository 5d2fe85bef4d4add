#!/usr/bin/env python3
"""Measures the program beside tcpdump on the same captures and prints a table.

    run.py [PROGRAM] [--packets N ..]
"""

import argparse
import sys
import tempfile
from pathlib import Path

sys.dont_write_bytecode = True

from make_capture import write_capture
from running import (MEGABYTE, best_seconds, count_records, need_tools, peak_memory, print_head, print_row,
                     replay_command, tcpdump_command, tell_of_time, words_with_program, written)

# the ruleset and the filter pass the same packets
RULES = "block in all\npass in from 198.51.100.0/24 to any no state\npass out all no state\n"
FILTER = "src net 10.0.0.0/8 or src net 198.51.100.0/24"


class Contest:
    """One capture and the commands that are measured on it."""

    def __init__(self, folder, program, count):
        self.count = count
        self.capture = folder / "capture.pcap"
        self.lines = folder / "verdicts"
        self.passed = folder / "passed.pcap"
        rules = folder / "rules"
        rules.write_text(RULES)
        written(self.capture, write_capture, count)
        self.program = replay_command(program, self.capture, rules, verdicts=self.lines,
                                      packets=folder / "written.pcap", counters=folder / "counters",
                                      states=folder / "states")
        self.tcpdump = tcpdump_command(self.capture, self.passed, FILTER)

    def best_seconds(self):
        """The best times of the program and of tcpdump, run in turn."""
        return best_seconds(self.program, self.tcpdump)

    def check(self):
        """Both have passed the same number of packets, and the program has a line for each."""
        verdicts = self.lines.read_bytes()
        passed = verdicts.count(b" pass ")
        kept = count_records(self.passed.read_bytes())
        if verdicts.count(b"\n") != self.count or passed != kept:
            sys.exit(f"of {self.count} packets the program passes {passed}, tcpdump {kept}")


def row(folder, program, count):
    """The measures of one capture, as words."""
    contest = Contest(folder, program, count)
    size = contest.capture.stat().st_size / MEGABYTE
    ours, theirs = contest.best_seconds()
    contest.check()
    return [f"{count}", f"{size:.1f}",
            f"{count / ours:.0f}", f"{size / ours:.0f}", peak_memory(contest.program),
            f"{count / theirs:.0f}", f"{size / theirs:.0f}", peak_memory(contest.tcpdump),
            f"{theirs / ours:.2f}"]


def main():
    parser = argparse.ArgumentParser(description="Measures the program beside tcpdump.")
    parser.add_argument("--packets", type=int, nargs="+", default=[10**4, 10**5, 10**6])
    words = words_with_program(parser)
    need_tools("tcpdump")
    tell_of_time()
    print_head(["packets", "MB", "pfreplay packets/s", "MB/s", "peak MB", "tcpdump packets/s", "MB/s", "peak MB",
                "pfreplay / tcpdump"])
    with tempfile.TemporaryDirectory() as folder:
        for count in words.packets:
            print_row(row(Path(folder), words.program, count))


if __name__ == "__main__":
    main()
