"""Asks how the program meets those who use it: its helps and its version, the man page, the completions of shells, and
the Debian package.

    python3 -m manners.compare [--program FILE]

in the folder `tests`. A tool that isn't there is left out, and it is said which.
"""

import argparse
import sys
import tempfile
from pathlib import Path

sys.dont_write_bytecode = True

import building
from manners import documents, helps, packaged, tools
from runs.comparison import Comparison

MOST_SHOWN = 10


def compare(program):
    """All of it: what went wrong, in a line for the status."""
    left_out = []
    with tempfile.TemporaryDirectory() as folder:
        comparison = Comparison(program, Path(folder))
        listed = helps.Helps(comparison)
        helps.compare(comparison, listed)
        documents.compare(comparison, listed)
        tools.compare(comparison, listed, left_out)
        packaged.compare(comparison, left_out)
        comparison.show(MOST_SHOWN)
    print(f"{len(listed.flags)} commands, {len(listed.all_flags())} flags, {comparison.count} compared,",
          f"{len(comparison.wrong)} wrong" + "".join(f"; left out: {what}" for what in left_out))
    if comparison.wrong:
        sys.exit("the program, its documents or its package are not as they should be")


def main():
    compare(building.pfreplay())


if __name__ == "__main__":
    parser = argparse.ArgumentParser(description="Asks how the program meets those who use it.")
    parser.add_argument("--program", type=Path, metavar="FILE", help="the built program")
    asked = parser.parse_args()
    compare(asked.program or building.pfreplay())
