"""Programs that end otherwise than pfreplay: a script runs it and then spoils what it left. The runs here have to find
each of them."""

import tempfile
from pathlib import Path
from typing import NamedTuple

from workers import cuts, disks, kinds, pauses, readers
from workers.lawful import Judging

SCRIPT = """#!/usr/bin/env bash
program=%s
for word; do
    case $flag in --verdicts) verdicts=$word ;; --counters) counters=$word ;; esac
    flag=$word
done
run() { "$program" "$@"; status=$?; }
# whether the run failed, and an output isn't a pipe
spoils() { [ "$status" != 0 ] && [ -f "$1" ]; }
%s
exit "$status"
"""
BATCH = 7
# seconds for which lines are waited for that don't come
PATIENCE = 0.2


class Plant(NamedTuple):
    """A program that ends otherwise, by the lines of its script, and the runs that have to find it."""
    name: str
    lines: str
    finders: tuple


def limited(comparison):
    disks.files_at_limit(comparison, next(kind for kind in kinds.longest_kinds() if kind.longest == "counters"), BATCH)


def answered(comparison):
    disks.answer_at_limit(comparison, kinds.mixed_kind(0), BATCH)


def read(comparison):
    kind = kinds.mixed_kind(0)
    readers.readers_of(comparison, kind, comparison.known(kind, BATCH), "packets")


def unread(comparison):
    readers.streams(comparison, kinds.mixed_kind(0), BATCH)


def cut(comparison):
    cuts.cut_records(comparison, BATCH)


def pausing(comparison):
    pauses.pauses(comparison, kinds.resting, BATCH, PATIENCE)


PLANTS = (
    Plant("a status of 0", 'run "$@"; status=0', (limited, answered, read, unread, cut)),
    Plant("no message", 'run "$@" 2>/dev/null', (limited, read, cut)),
    Plant("one committed too many", 'exec 3>&1; said=$("$program" "$@" 2>&1 >&3); status=$?\n'
          'case $said in *committed*) said="${said%%committed*}committed $((${said##*committed } + 1))";; esac\n'
          '[ -z "$said" ] || echo "$said" >&2', (limited, read, cut)),
    Plant("a byte too few with workers", 'run "$@"; case " $* " in *" --workers 0 "*) ;; *)\n'
          'spoils "$verdicts" && truncate -s -1 "$verdicts" ;; esac', (limited, read, cut)),
    Plant("counters behind a failure", 'run "$@"; spoils "$counters" && echo total >>"$counters"',
          (limited, read, cut)),
    Plant("lines that are written late", 'cat "$2" >"$2.copy"; run "$1" "$2.copy" "${@:3}"', (pausing,)),
)


def pairs():
    """Each of them with each of the runs that have to find it."""
    yield from ((plant, finder) for plant in PLANTS for finder in plant.finders)


def find(comparison, plant, finder):
    """Expects that something is wrong in the runs of a program that ends otherwise."""
    script = comparison.folder / "program"
    script.write_text(SCRIPT % (comparison.program, plant.lines))
    script.chmod(0o755)
    with tempfile.TemporaryDirectory() as folder:
        spoilt = Judging(script, Path(folder))
        finder(spoilt)
    comparison.expect(f"planted, and to be found where it is {finder.__name__}: {plant.name}", True, bool(spoilt.wrong))
