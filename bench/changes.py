#!/usr/bin/env python3
"""Measures the command diff beside the two runs that it stands for, and prints a table.

    changes.py [PROGRAM] [--packets N ..]

The captures are of many flows at once, and the rulesets make states. The new one is the old one with three rules more.
The two runs have no workers, as diff has none, and write their outputs into files. Each command runs five times, in
turn, and the best time counts.
"""

import argparse
import subprocess
import sys
import tempfile
from pathlib import Path

sys.dont_write_bytecode = True

from flows import PACKETS, RULES
from make_flows import write_flows
from running import (FLAGS, OUTPUTS, best_seconds, peak_memory, print_head, print_row, replay_command,
                     words_with_program, written)

# a server more, and one that is closed
NEW_RULES = RULES + """\
pass in proto tcp from any to 10.1.0.0/16 port 8080 keep state
block in proto tcp from any to 10.1.0.0/17 port 25
block in inet proto icmp from any to 10.1.0.0/17
"""
# of the seconds of two runs
GOAL = 1.2
STATUS_CHANGED = 1
# a command that ends well where packets change too
OR_CHANGED = ("sh", "-c", '"$@" || test $? -eq 1', "sh")


class Contest:
    """One capture, and the commands that are measured on it."""

    def __init__(self, folder, program, count):
        self.count = count
        capture = folder / "capture.pcap"
        written(capture, write_flows, count)
        self.old, self.new = folder / "old.conf", folder / "new.conf"
        self.old.write_text(RULES)
        self.new.write_text(NEW_RULES)
        files = {name: folder / name for name in OUTPUTS}
        self.runs = [replay_command(program, capture, rules, **files) for rules in (self.old, self.new)]
        self.diff = [str(program), "diff", str(capture), str(self.old), str(self.new), *FLAGS]

    def changed(self):
        """How many packets change, as the last line says."""
        done = subprocess.run(self.diff, stdout=subprocess.PIPE, check=False)
        if done.returncode != STATUS_CHANGED:
            sys.exit(f"status {done.returncode}")
        return int(done.stdout.splitlines()[-1].split()[0])


def row_of(program, count):
    with tempfile.TemporaryDirectory() as folder:
        contest = Contest(Path(folder), program, count)
        changed = contest.changed()
        diff = [*OR_CHANGED, *contest.diff]
        old_seconds, new_seconds, diff_seconds = best_seconds(*contest.runs, diff)
        both = old_seconds + new_seconds
        return [f"{count}", f"{changed}", f"{both:.2f}", f"{diff_seconds:.2f}", peak_memory(diff),
                f"{diff_seconds / both:.2f}"]


def main():
    parser = argparse.ArgumentParser()
    parser.add_argument("--packets", nargs="+", type=int, default=PACKETS)
    words = words_with_program(parser)
    print_head(["packets", "changed", "two runs, s", "diff, s", "peak MB", f"diff / runs (goal {GOAL})"])
    for count in words.packets:
        print_row(row_of(words.program, count))


if __name__ == "__main__":
    main()
