#!/usr/bin/env python3
"""Compares runs with workers with runs without, on random cases.

    run.py [N] [--first K]

Takes 300 cases unless it is given another number, from case K on, or from the first one. It exits with 1 where a run
differs, and shows the first.
"""

import argparse
import sys
from pathlib import Path

sys.dont_write_bytecode = True
# Python looks for modules beside the command, and the packages stand one folder above
sys.path[0] = str(Path(__file__).resolve().parent.parent)

from workers.compare import compare

CASES = 300


def main():
    parser = argparse.ArgumentParser(description="Compares runs with workers with runs without.")
    parser.add_argument("count", nargs="?", type=int, default=CASES, metavar="N", help="how many cases")
    parser.add_argument("--first", type=int, default=0, metavar="K", help="the number of the first case")
    words = parser.parse_args()
    sys.exit(bool(compare(words.count, words.first)))


if __name__ == "__main__":
    main()
