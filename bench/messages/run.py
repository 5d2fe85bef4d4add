#!/usr/bin/env python3
"""Measures the codec of messages beside one in plain Rust by the same tables, in one run.

    run.py

Builds the program beside it in a temporary folder, and `main.rs` by `rustc -O`; crates that aren't built are built
first, in their own folders. For each of five messages (one of each kind of record, a mixed one, and one of 1480 bytes)
it prints how many a second are decoded and encoded, in MB too, and that as a multiple of the Rust program's.

Then it measures a standby (`standby.rattle`) on files of insertions, six in a message: the time of a message when all
are only decoded, when a standby takes each too, and when it reads them from the file and writes the lines of its
states. The last column is the peak of the memory by state of the last of these runs.
"""

import os
import subprocess
import sys
import tempfile
from pathlib import Path

sys.dont_write_bytecode = True
sys.path.insert(0, str(Path(__file__).resolve().parent.parent))

from programs import Program, build, build_rust, rows_of
from running import RUNS

# found where running says
from messages.message import Message
from messages.samples import SUM, five_messages, insert
from messages.spelling import bare

PROGRAM = Program("messages", "pfr_messages")
STANDBY = Program("messages", "pfr_stream", "standby")
ROUNDS = 200000
WORKS = ("decode", "encode")
# how a standby is measured, and with how many states; six are told of in a message
STANDBY_WORKS = ("decode", "take", "stream")
STATES = (10_002, 100_002, 1_000_002)
IN_A_MESSAGE = 6


def measured(program, given):
    """The nanoseconds of a message by each work, and what else the program prints, which is to be the same in both."""
    rows = [tuple(map(int, row.split())) for row in rows_of(program, ROUNDS, given=given)]
    return [[nanoseconds / ROUNDS for nanoseconds in row[1:3]] for row in rows], [(row[0], *row[3:]) for row in rows]


def best(programs, given):
    """The best times of each program, which run in turn."""
    times = [[] for _ in programs]
    found = set()
    for _ in range(RUNS):
        for place, program in enumerate(programs):
            each, other = measured(program, given)
            times[place].append(each)
            found.add(tuple(other))
    if len(found) != 1:
        raise SystemExit(f"the programs find other messages: {found}")
    return [[[min(one) for one in zip(*message)] for message in zip(*each)] for each in times]


def write_insertions(path, states):
    """Writes messages that insert states by rising number: one message again and again, with other numbers in it."""
    first = 1 << 56
    numbers = range(first, first + IN_A_MESSAGE)
    message = bytearray(bare(Message(SUM, tuple(map(insert, numbers)), (), ())))
    places = [message.index(number.to_bytes(8, "big")) for number in numbers]
    with open(path, "wb") as file:
        for before in range(0, states, IN_A_MESSAGE):
            for place, number in zip(places, range(before + 1, before + 1 + IN_A_MESSAGE)):
                message[place:place + 8] = number.to_bytes(8, "big")
            file.write(message)


def measured_standby(program, work, path):
    """How many messages a run of the program took, the nanoseconds that it took for them, and the bytes of its peak."""
    with subprocess.Popen([program, work, path], stdout=subprocess.PIPE) as run:
        count, passed = map(int, run.stdout.read().split())
        _, status, usage = os.wait4(run.pid, 0)
        run.returncode = status
    if status:
        raise SystemExit(f"{work} ended with {status}")
    return count, passed, usage.ru_maxrss * 1024


def print_standby(program, folder):
    print(f"{'states':>9} {'messages':>9} " + " ".join(f"{work + ' ns':>10}" for work in STANDBY_WORKS)
          + f" {'/ decode':>9} {'B a state':>9}")
    for states in STATES:
        path = folder / "insertions"
        write_insertions(path, states)
        rounds = [[measured_standby(program, work, path) for work in STANDBY_WORKS] for _ in range(RUNS)]
        counts = {count for each in rounds for count, _, _ in each}
        if counts != {states // IN_A_MESSAGE}:
            raise SystemExit(f"the program took {counts} messages")
        times = [min(passed for _, passed, _ in runs) * IN_A_MESSAGE / states for runs in zip(*rounds)]
        print(f"{states:9,} {states // IN_A_MESSAGE:9,} " + " ".join(f"{time:10.0f}" for time in times)
              + f" {times[-1] / times[0]:8.1f}x {rounds[0][-1][-1] / states:9.0f}")


def main():
    messages = list(map(bare, five_messages()))
    with tempfile.TemporaryDirectory() as name:
        programs = [build(Path(name), PROGRAM), build_rust(Path(name), PROGRAM)]
        ours, rust = best(programs, b"".join(messages))
    print(f"{'bytes':>6} {'work':>7} {'a second':>12} {'MB/s':>7} {'Rust':>12} {'/ Rust':>7}")
    for message, mine, other in zip(messages, ours, rust):
        for work, one, two in zip(WORKS, mine, other):
            print(f"{len(message):6} {work:>7} {1e9 / one:12,.0f} {len(message) * 1e3 / one:7.0f} {1e9 / two:12,.0f} "
                  f"{two / one:6.2f}x")
    with tempfile.TemporaryDirectory() as name:
        print_standby(build(Path(name), STANDBY), Path(name))


if __name__ == "__main__":
    main()
