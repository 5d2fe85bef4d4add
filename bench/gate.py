#!/usr/bin/env python3
"""Runs the tests, or the command that is given, and prints where the processor's time goes, by crate.

    bench/gate.py [COMMAND WORDS..]

The command runs at the top of the repository, and its output goes on as it comes. Behind it stands a table for
docs/GATE_HISTORY.md: for each crate the processor minutes of its proofs, of its unit tests' proofs and of its must-fail
edits, and how many edits it has; and the minutes by the clock. The prover's processes are looked at in short turns, so
what one of them does behind its last look isn't counted. Those of other sessions of the machine (`setsid`) aren't
either.
"""

import os
import subprocess
import sys
import threading
import time
from collections import Counter
from pathlib import Path

sys.dont_write_bytecode = True

from running import table_row

# found where running says
from building import CRATES, ROOT, named_crates

TICKS = os.sysconf("SC_CLK_TCK")
# seconds between two looks
TURN = 0.2
KINDS = ("proofs", "tests", "edits")


def words_of(process):
    return (process / "cmdline").read_bytes().decode(errors="replace").split("\0")


def work_of(process):
    """The crate and the kind of work of one of the prover's processes, None for any other process."""
    words = words_of(process)
    if Path(words[0]).name != "rattle" or "--crate-name" not in words:
        return None
    crate = words[words.index("--crate-name") + 1]
    if "rt-edit-" in os.readlink(process / "cwd"):
        return crate, "edits"
    return crate, "tests" if "--test" in words else "proofs"


def ticks_of(process):
    """What the process itself has used: user and system time, the 14th and 15th field."""
    fields = (process / "stat").read_text().rpartition(")")[2].split()
    return int(fields[11]) + int(fields[12])


class Account:
    """The time of the prover's processes, each of which is kept at what was seen last."""

    def __init__(self):
        self.works = {}
        self.ticks = {}
        self.session = os.getsid(0)
        self.is_over = threading.Event()

    def look(self):
        for process in Path("/proc").glob("[0-9]*"):
            try:
                if os.getsid(int(process.name)) != self.session:
                    continue
                begin = (process.name, (process / "stat").read_text().rpartition(")")[2].split()[19])
                # a process that is no prover's may become one
                work = self.works.get(begin) or work_of(process)
                if work:
                    self.works[begin] = work
                    self.ticks[begin] = ticks_of(process)
            except OSError:
                continue

    def keep(self):
        while not self.is_over.wait(TURN):
            self.look()

    def minutes(self):
        """Processor minutes by crate and kind."""
        found = Counter()
        for begin, ticks in self.ticks.items():
            found[self.works[begin]] += ticks / TICKS / 60
        return found


def edits_of(crate):
    return len(list((CRATES / crate / "must-fail").glob("*.edit")))


def table(minutes):
    crates = list(named_crates())
    yield table_row(["Crate", "Proofs", "Unit tests", "Must-fail edits", "In all", "Number of edits"])
    yield "|---|---|---|---|---|---|"
    for crate in crates:
        parts = [minutes[crate, kind] for kind in KINDS]
        cells = [f"{part:.1f}" if part else "-" for part in parts]
        yield table_row([crate, *cells, f"{sum(parts):.1f}", str(edits_of(crate))])
    parts = [sum(minutes[crate, kind] for crate in crates) for kind in KINDS]
    edits = sum(map(edits_of, crates))
    yield table_row(["in all", *(f"{part:.0f}" for part in parts), f"{sum(parts):.0f}", str(edits)])


def main():
    command = sys.argv[1:] or ["./test"]
    account = Account()
    keeper = threading.Thread(target=account.keep)
    keeper.start()
    begin = time.monotonic()
    try:
        status = subprocess.run(command, cwd=ROOT, stdin=subprocess.DEVNULL, check=False).returncode
    finally:
        account.is_over.set()
        keeper.join()
    print(*table(account.minutes()), sep="\n")
    print(f"{(time.monotonic() - begin) / 60:.1f} minutes by the clock,",
          f"{len(os.sched_getaffinity(0))} processors: {' '.join(command)}")
    sys.exit(status)


if __name__ == "__main__":
    main()
