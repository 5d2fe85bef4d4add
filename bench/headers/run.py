#!/usr/bin/env python3
"""Measures what it costs to see a packet and to rewrite it, beside copying its bytes, in one run.

    run.py

Builds the program beside it in a temporary folder; crates that aren't built are built first, in their own folders.
Prints for each kind and length of packet the nanoseconds of a copy, of a view and of a rewriting, and the last two as
multiples of the copy.
"""

import sys
from pathlib import Path

sys.dont_write_bytecode = True
sys.path.insert(0, str(Path(__file__).resolve().parent.parent))

from programs import Program, built, rows_of

PROGRAM = Program("headers", "pfr_headers")
ROUNDS = 4000000


def main():
    with built(PROGRAM) as program:
        rows = rows_of(program)
    print(f"{'packet':>6} {'bytes':>6} {'copy ns':>8} {'view ns':>8} {'x copy':>7} {'rewrite ns':>11} {'x copy':>7}")
    for row in rows:
        kind, length, copied, viewed, rewritten, _ = row.split()
        copy, seen, both = (int(n) * 1e6 / ROUNDS for n in (copied, viewed, rewritten))
        view, rewrite = seen - copy, both - seen
        print(f"{kind:>6} {length:>6} {copy:8.1f} {view:8.1f} {view / copy:6.1f}x {rewrite:11.1f} "
              f"{rewrite / copy:6.1f}x")


if __name__ == "__main__":
    main()
