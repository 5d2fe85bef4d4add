#!/usr/bin/env python3
"""Measures how many packets workers evaluate ahead, and how many of these the committer evaluates again.

    run.py [PFREPLAY] [--captures NAME ..] [--packets N] [--batches N ..] [--workers N] [--program PROGRAM]

Builds the program beside it in a temporary folder, which takes some minutes; crates that aren't built are built first,
in their own folders. Where PROGRAM is given it is put there, and taken from there where it is there already. It prints
a row for each capture and size of batches. Where PFREPLAY (`crates/pfr_cli/out/pfr_cli` where none is named) is built,
its speed with workers is measured beside that without.

The program replays a capture with a gate that counts (`Gate` of pfr_work) and with outputs that go nowhere. `many
flows` are those of flows.py with its ten rules. In `one connection` two ends send in turn, so each packet depends on
the one before. In `making` each packet makes a state. A row is of five runs, with the least share and the greatest. The
first share is of all packets, the second of those that were evaluated ahead. The others came while workers rested, or
behind the first 256 packets of a batch while it wasn't known whether workers pay.
"""

import argparse
import sys
import tempfile
from pathlib import Path
from typing import NamedTuple

sys.dont_write_bytecode = True
sys.path.insert(0, str(Path(__file__).resolve().parent.parent))

from flows import RULES
from make_flows import write_flows
from programs import Program, add_program_flag, numbers_of, program_at
from running import PROGRAM as PFREPLAY, RUNS, load_printed, print_head, print_row
from workers import MAKING, Contest, Kind, cell

PROGRAM = Program("again", "pfr_out")
PACKETS, BATCHES, WORKERS = 100000, [64, 256, 1024, 4096], 4
# the rules before those of a kind, which no packet matches
VAIN_RULES = 1000
KINDS = {
    "many flows": Kind(RULES, write_flows),
    # each packet depends on the one before
    "one connection": Kind("pass all keep state", lambda count, file: write_flows(count, file, 1)),
    "making": MAKING,
}


class Counts(NamedTuple):
    """How many packets were committed in a run, how many of them workers turned to and answered, how many the committer
    evaluated itself, and how many of these had been answered."""
    committed: int
    started: int
    answered: int
    ran_again: int
    in_vain: int


class Shares(NamedTuple):
    """In hundredths the packets that were answered, of all, and those that ran again, of the answered ones."""
    ahead: float
    again: float

    @classmethod
    def of(cls, counts):
        return cls(100 * counts.answered / counts.committed, 100 * counts.in_vain / max(counts.answered, 1))


def counts_of(program, contest, workers):
    """What one run counts."""
    command = [str(program), str(contest.capture), str(contest.batch), str(workers)]
    counts = Counts(*numbers_of(command, contest.rules))
    # a packet that nobody answered is left to the committer
    unanswered = counts.committed - counts.answered
    if counts.committed != contest.packets or counts.ran_again != unanswered + counts.in_vain:
        raise SystemExit(f"of {contest.packets} packets came {counts}")
    return counts


def spread(shares):
    """The least and the greatest of some shares as a word, or one of them where they look the same."""
    return " to ".join(dict.fromkeys(f"{share:.1f}" for share in (min(shares), max(shares))))


def row(program, contest, workers):
    """The measures of one capture and size of batches, as words."""
    shares = zip(*(Shares.of(counts_of(program, contest, workers)) for _ in range(RUNS)))
    words = [f"{contest.batch}", *map(spread, shares)]
    if contest.program is None:
        return [*words, "-"]
    times = contest.best([0, workers])
    return [*words, cell(times[0], times[workers])]


def print_rows(folder, program, pfreplay, name, words):
    kind = KINDS[name]
    capture = kind.written(folder, words.packets)
    for batch in words.batches:
        contest = Contest(folder, pfreplay, kind, capture, words.packets, VAIN_RULES + 1, batch)
        print_row([name, *row(program, contest, words.workers)])


def main():
    parser = argparse.ArgumentParser(description="Measures how many packets are evaluated ahead, and how many again.")
    parser.add_argument("--captures", nargs="+", choices=KINDS, default=list(KINDS), help="what the packets are")
    parser.add_argument("--packets", type=int, default=PACKETS, help="of each capture")
    parser.add_argument("--batches", type=int, nargs="+", default=BATCHES, help="the packets of a batch")
    parser.add_argument("--workers", type=int, default=WORKERS)
    add_program_flag(parser)
    parser.add_argument("pfreplay", nargs="?", type=Path, default=PFREPLAY)
    words = parser.parse_args()
    pfreplay = words.pfreplay.resolve() if words.pfreplay.is_file() else None
    if pfreplay is None:
        print(f"{words.pfreplay} isn't there, so no speed is measured")
    with tempfile.TemporaryDirectory() as place:
        folder = Path(place)
        program = program_at(words.program, folder, PROGRAM)
        with load_printed():
            print_head(["capture", "batch", "ahead, of 100", "again, of 100 of these", f"speed with {words.workers}"],
                       left=1)
            for name in words.captures:
                print_rows(folder, program, pfreplay, name, words)


if __name__ == "__main__":
    main()
