#!/usr/bin/env python3
"""Measures the command show beside tcpdump on the same packets, and prints a table.

    show.py [PROGRAM] [--packets N ..]

The captures are of many flows at once. A run with rules that make states writes the lines of verdicts, which isn't
measured. Then show prints all packets in two formats. With text it stands beside tcpdump on the same capture, and with
pflog beside tcpdump on the capture that show itself has written. Each command runs five times, in turn, and the best
time counts.
"""

import argparse
import subprocess
import sys
import tempfile
from pathlib import Path

sys.dont_write_bytecode = True

from flows import RULES
from make_flows import write_flows
from running import (INTERFACE, MEGABYTE, best_seconds, count_records, need_tools, peak_memory, print_head, print_row,
                     replay_command, seconds, tell_of_time, words_with_program, written)

PACKETS = [2 * 10**5]
TEXT, PFLOG = "text", "pflog"
# of the packets a second of tcpdump
GOAL = 1 / 3


class Contest:
    """One capture with its lines of verdicts, and the commands that are measured on it."""

    def __init__(self, folder, program, count):
        self.count = count
        capture, rules, lines = (folder / name for name in ("capture.pcap", "rules.conf", "verdicts"))
        written(capture, write_flows, count)
        rules.write_text(RULES)
        seconds(replay_command(program, capture, rules, verdicts=lines))
        words = [str(program), "show", str(capture), str(lines), str(rules), *INTERFACE, "--format"]
        self.show = {name: [*words, name] for name in (TEXT, PFLOG)}
        self.logged = folder / "logged.pcap"
        self.captures = {TEXT: capture, PFLOG: self.logged}

    def check(self):
        """Makes the capture with the headers of pflog. Both formats have all packets, and so has tcpdump of both
        captures."""
        self.logged.write_bytes(output_of(self.show[PFLOG]))
        found = [count_printed(self.show[TEXT]), count_records(self.logged.read_bytes()),
                 *(count_printed(self.tcpdump(name)) for name in (TEXT, PFLOG))]
        if found != [self.count] * len(found):
            sys.exit(f"of {self.count} packets there are {found}")

    def tcpdump(self, name):
        """The words that print the capture of a format."""
        return ["tcpdump", "-nn", "-r", str(self.captures[name])]

    def row(self, name):
        """The measures of a format, as words."""
        ours, theirs = best_seconds(self.show[name], self.tcpdump(name))
        size = self.captures[name].stat().st_size / MEGABYTE
        return [name, f"{self.count}", f"{size:.1f}", f"{self.count / ours:.0f}", peak_memory(self.show[name]),
                f"{self.count / theirs:.0f}", f"{theirs / ours:.2f}"]


def output_of(command):
    """What a command prints on standard output."""
    return subprocess.run(command, stdin=subprocess.DEVNULL, stdout=subprocess.PIPE, stderr=subprocess.PIPE,
                          check=True).stdout


def count_printed(command):
    """The lines that a command prints. Further lines of tcpdump about a packet, which begin with a tab, don't count."""
    lines = output_of(command)
    return lines.count(b"\n") - lines.count(b"\n\t")


def print_rows(folder, program, count):
    contest = Contest(folder, program, count)
    contest.check()
    for name in (TEXT, PFLOG):
        print_row(contest.row(name))


def main():
    parser = argparse.ArgumentParser(description="Measures the command show beside tcpdump.")
    parser.add_argument("--packets", type=int, nargs="+", default=PACKETS)
    words = words_with_program(parser)
    need_tools("tcpdump")
    tell_of_time()
    print_head(["format", "packets", "MB", "show packets/s", "peak MB", "tcpdump packets/s",
                f"show / tcpdump (goal {GOAL:.2f})"], left=1)
    with tempfile.TemporaryDirectory() as folder:
        for count in words.packets:
            print_rows(Path(folder), words.program, count)


if __name__ == "__main__":
    main()
