#!/usr/bin/env python3
"""Measures the table of states beside one of the same structure in plain Rust, in one run.

    run.py [SIZE ..]

Builds the program beside it in a temporary folder, and `main.rs` by `rustc -O`; crates that aren't built are built
first, in their own folders. For each size (1000, 100000 and 1000000 where none is given) it prints a row for each kind
of work: how many a second, and that as a multiple of the Rust program's. Five more rows are the milliseconds of the
longest call of each kind, from runs of their own in which the clock is read around each call. The last two rows are
bytes of memory for each state, of the full table and of the most on the way there. They are what a process holds beyond
one with an empty table, which is rough for 1000 states.

The Rust program has a slab of states, a list of numbers in order, two indexes of 8 bytes a slot, and a wheel of
deadlines with a heap in front. Hashes, load limits, sweeps and the fields of states are the same, 176 bytes. A round
fills a table, looks up each state by one of its keys and as many keys that no state has, gives each state a later
deadline, and purges at 1001 rising clocks until the table is empty. A touch leaves the deadline where it is by which
the state waits: the first purge puts them all off, and its time counts among the purges. In the runs of the longest
calls the clock rises by one second at a time, and `settle`, `due` and the removal are calls of their own. The least of
five counts, since other work makes calls longer.
"""

import subprocess
import sys
import tempfile
from pathlib import Path

sys.dont_write_bytecode = True
sys.path.insert(0, str(Path(__file__).resolve().parent.parent))

from programs import Program, build, build_rust, rows_of
from running import RUNS

PROGRAM = Program("states", "pfr_states")
SIZES = (1000, 100000, 1000000)
# at least so many are made, looked up, touched and purged in a run
LEAST = 1000000
WORKS = ("makes", "hits", "misses", "touches", "purges")
CALLS = ("longest make, ms", "longest hit, ms", "longest miss, ms", "longest touch, ms", "longest purge, ms")
# the files and lines below /proc/PID that tell of a process's memory, in KiB: what it holds, and the most that it held
MEMORY = {"bytes a state": ("smaps_rollup", "Rss"), "bytes at most": ("status", "VmHWM")}


def counts(program, words):
    """The nanoseconds of each kind of work, and what else a program prints, which is to be the same in both."""
    state_bytes, *rows = rows_of(program, *words)
    rows = [tuple(map(int, row.split())) for row in rows]
    return [nanoseconds for nanoseconds, _, _ in rows], (state_bytes, [row[1:] for row in rows])


def best(programs, words, each):
    """The least times of each program; they run in turn. All of the work is to be done, each kind so often."""
    times = [[] for _ in programs]
    seen = []
    for _ in range(RUNS):
        for place, program in enumerate(programs):
            nanoseconds, other = counts(program, words)
            times[place].append(nanoseconds)
            seen.append(other)
    for other in seen:
        if other != seen[0]:
            raise SystemExit(f"the programs find other states:\n{seen[0]}\n{other}")
    made, hit, missed, touched, purged = (successes for successes, _ in seen[0][1])
    if missed or {made, hit, touched, purged} != {each}:
        raise SystemExit(f"not all of the work was done: {seen[0]}")
    return [[min(row) for row in zip(*rows)] for rows in times]


def rates(programs, size):
    """How many of each kind of work each program does in a second."""
    rounds = max(1, LEAST // size)
    each = rounds * size
    rows = best(programs, ("rounds", size, rounds), each)
    return [[each * 1e9 / nanoseconds for nanoseconds in row] for row in rows]


def longest(programs, size):
    """The milliseconds of the longest call of each kind of work of each program."""
    return [[nanoseconds / 1e6 for nanoseconds in row] for row in best(programs, ("calls", size), size)]


def kibibytes(process, file, wanted):
    for row in Path(f"/proc/{process.pid}/{file}").read_text().splitlines():
        name, _, rest = row.partition(":")
        if name == wanted:
            return int(rest.split()[0])
    raise SystemExit(f"/proc has no {wanted}")


def memory(program, size):
    """The bytes of a program that holds a table of this size."""
    words = [program, "hold", str(size)]
    with subprocess.Popen(words, stdin=subprocess.PIPE, stdout=subprocess.PIPE, text=True) as process:
        made = process.stdout.readline()
        held = [kibibytes(process, *place) * 1024 for place in MEMORY.values()]
        rest, _ = process.communicate()
    if process.returncode or {made, rest} != {f"{size}\n"}:
        raise SystemExit(f"{program}: not all states were made")
    return held


def bytes_a_state(program, size):
    """What a full table takes beyond an empty one."""
    return [(full - empty) / size for full, empty in zip(memory(program, size), memory(program, 0))]


def show(size, names, rows, unit):
    """A row for each name: Rattle's value, Rust's, and the first as a multiple of the second."""
    for name, rattle, rust in zip(names, *rows):
        print(f"{size:8} {name:>18} {rattle:{unit}} {rust:{unit}} {rattle / rust:9.2f}x", flush=True)


def main():
    sizes = [int(word) for word in sys.argv[1:]] or SIZES
    with tempfile.TemporaryDirectory() as name:
        programs = [build(Path(name), PROGRAM), build_rust(Path(name), PROGRAM)]
        print(f"{'states':>8} {'a second':>18} {'Rattle':>12} {'Rust':>12} {'/ Rust':>10}")
        for size in sizes:
            show(size, WORKS, rates(programs, size), "12,.0f")
            show(size, CALLS, longest(programs, size), "12,.3f")
            show(size, MEMORY, [bytes_a_state(program, size) for program in programs], "12,.0f")


if __name__ == "__main__":
    main()
