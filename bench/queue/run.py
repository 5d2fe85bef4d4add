#!/usr/bin/env python3
"""Measures the queue of messages: how many events a second it takes.

    run.py

Builds the program beside it in a temporary folder; crates that aren't built are built first, in their own folders. The
events are touches of 16 states, in turn, all in one second, so that no message closes; the same with each turn in a
second of its own, so that each 16 events close a message; and states that come to be in one second, of which six fill a
message.
"""

import sys
from pathlib import Path

sys.dont_write_bytecode = True
sys.path.insert(0, str(Path(__file__).resolve().parent.parent))

from programs import Program, built, rows_of
from running import RUNS

PROGRAM = Program("queue", "pfr_sync")
EVENTS = 10**6
WAYS = ("touched, one second", "touched, many seconds", "made, one second")


def measured(program):
    """The nanoseconds and the messages of each way."""
    return [tuple(map(int, row.split())) for row in rows_of(program, EVENTS)]


def main():
    with built(PROGRAM) as program:
        runs = [measured(program) for _ in range(RUNS)]
    print(f"{'events':<22} {'a second':>12} {'messages':>9}")
    for way, rows in zip(WAYS, zip(*runs)):
        nanoseconds, messages = min(rows)
        print(f"{way:<22} {EVENTS * 1e9 / nanoseconds:12,.0f} {messages:9}")


if __name__ == "__main__":
    main()
