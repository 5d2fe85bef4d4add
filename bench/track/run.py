#!/usr/bin/env python3
"""Measures what a packet costs that a state accepts, beside copying the state, in one run.

    run.py

Builds the program beside it in a temporary folder; crates that aren't built are built first, in their own folders.
Prints for a TCP state (data and acknowledgements in turn) and a UDP state the nanoseconds of a copy and of a touch, the
touch as a multiple of the copy, and touches in a second. A touch counts the packet's making and the storing of the
state.
"""

import sys
from pathlib import Path

sys.dont_write_bytecode = True
sys.path.insert(0, str(Path(__file__).resolve().parent.parent))

from programs import Program, built, rows_of

PROGRAM = Program("track", "pfr_track")
ROUNDS = 20000000


def main():
    with built(PROGRAM) as program:
        rows = rows_of(program)
    print(f"{'state':>6} {'copy ns':>8} {'touch ns':>9} {'x copy':>7} {'touches a second':>17}")
    for row in rows:
        kind, copied, touched, accepted, _ = row.split()
        if int(accepted) != ROUNDS:
            raise SystemExit(f"{kind}: of {ROUNDS} packets only {accepted} were accepted")
        copy, touch = (int(milliseconds) * 1e6 / ROUNDS for milliseconds in (copied, touched))
        print(f"{kind:>6} {copy:8.1f} {touch:9.1f} {touch / copy:6.1f}x {1e9 / touch:17,.0f}")


if __name__ == "__main__":
    main()
