"""Runs with workers whose disk is full: a file at its limit, a small disk, and standard output to a file at its limit.

A write is done in part then, and the next one fails. Each run ends as the one without workers, and that one lawfully.
"""

import contextlib
import os
import resource
import signal
import subprocess
from pathlib import Path

from faults import replay
from workers.choices import run_of

# a small disk has one page of memory, or `SHARED` pages if it has all outputs
PAGE, SHARED = resource.getpagesize(), 8
# a limit that no output reaches
LARGE = 1 << 24
# commands that make a namespace in which disks may be mounted, as a user who isn't root and as root
NAMESPACES = (("unshare", "-rm"), ("unshare", "-m"))
MOUNT = 'mount -t tmpfs -o "size=$1" tmpfs "$2" && echo mounted && exec cat'


# Files at their limit

def limited(limit):
    """What a process does before a program, so that no file may be longer, and a write past that fails."""
    def before():
        signal.signal(signal.SIGXFSZ, signal.SIG_IGN)
        resource.setrlimit(resource.RLIMIT_FSIZE, (limit, limit))
    return before


def limits(whole, longest):
    """Limits in the header and behind it, at a batch's end, and in the longest output past all others up to its end."""
    lengths = {name: len(text) for name, text in whole.files._asdict().items()}
    own = lengths.pop(longest)
    others = max(lengths.values())
    middle = whole.boundaries()[len(whole.boundaries()) // 2]
    batch_end = max(map(len, whole.online(middle).in_order()))
    return sorted({10, replay.HEADER, batch_end, others, (others + own) // 2, own - 1, own})


def first_past(whole, limit):
    """The output of which a write is the first one past a limit, None where none is."""
    return next((replay.WRITES[name] for name, length in whole.writes() if length > limit), None)


def files_at_limit(comparison, kind, batch):
    """Runs with limits that an output reaches, which is the longest one in the end."""
    known = comparison.known(kind, batch)
    whole = replay.whole_of(known)
    for limit in limits(whole, kind.longest):
        comparison.judge_all(f"{kind.case.name}, files of {limit} bytes", known, first_past(whole, limit),
                             lambda choice: run_of(comparison, kind.case, choice, kind.form, before=limited(limit)))


# Standard output

def answer_at_limit(comparison, kind, batch):
    """Runs whose standard output goes into a file that has room for a part of the answer."""
    known = comparison.known(kind, batch)
    answer = known.clean.out
    for room in (0, 1, len(answer) - 1, len(answer)):
        comparison.judge_all(f"{kind.case.name}, room for {room} bytes of the answer", known,
                             replay.ANSWER if room < len(answer) else None,
                             lambda choice: answered(comparison, kind, choice, room))


def answered(comparison, kind, choice, room):
    """A run whose standard output is a file with room for `room` bytes more."""
    file = comparison.folder / "answer"
    with open(file, "wb") as made:
        made.truncate(LARGE - room)
    with open(file, "ab") as out:
        outcome = run_of(comparison, kind.case, choice, kind.form, out=out, before=limited(LARGE))
    with open(file, "rb") as seen:
        seen.seek(LARGE - room)
        return outcome and outcome._replace(out=seen.read())


# Small disks

def keeper_of(place, size):
    """A process that keeps a disk of `size` bytes in memory, mounted at a place that it alone sees. The disk is gone
    with it. None if none may be mounted."""
    for namespace in NAMESPACES:
        with contextlib.suppress(FileNotFoundError):
            keeper = subprocess.Popen([*namespace, "sh", "-c", MOUNT, "sh", str(size), str(place)],
                                      stdin=subprocess.PIPE, stdout=subprocess.PIPE, stderr=subprocess.DEVNULL)
            if keeper.stdout.readline():
                return keeper
            keeper.communicate()
    return None


@contextlib.contextmanager
def small_disk(place, size):
    """The name by which all reach a disk of `size` bytes, None if none may be mounted."""
    place.mkdir(exist_ok=True)
    with keeper_of(place, size) or contextlib.nullcontext() as keeper:
        yield keeper and Path(f"/proc/{keeper.pid}/root{place}")


def are_mounted(folder):
    """Whether small disks may be mounted here, and reached."""
    with contextlib.suppress(OSError), small_disk(folder / "disk", PAGE) as disk:
        if disk is not None:
            found = os.statvfs(disk)
            return found.f_blocks * found.f_frsize == PAGE
    return False


def first_full(whole, names, size):
    """The output of which a write is the first one past a disk of `size` bytes that has these outputs, in whole pages
    each; None if none is."""
    pages = dict.fromkeys(names, 0)
    for name, length in whole.writes():
        if name in pages:
            pages[name] = -(-length // PAGE)
            if sum(pages.values()) * PAGE > size:
                return replay.WRITES[name]
    return None


def small_disks(comparison, kind, batch):
    """Runs with each output alone on a small disk, and with all of them on one."""
    known = comparison.known(kind, batch)
    names = replay.outputs_of(known.command)
    for on_disk, size in (*(((name,), PAGE) for name in names), (names, SHARED * PAGE)):
        on_a_disk(comparison, kind, known, on_disk, size)


def on_a_disk(comparison, kind, known, names, size):
    """Runs with these outputs on a disk of `size` bytes."""
    elsewhere = comparison.files
    with small_disk(comparison.folder / "disk", size) as disk:
        comparison.files = elsewhere._replace(**{name: disk / name for name in names})
        comparison.judge_all(f"{kind.case.name}, {', '.join(names)} on a disk of {size} bytes", known,
                             first_full(replay.whole_of(known), names, size),
                             lambda choice: run_of(comparison, kind.case, choice, kind.form))
    comparison.files = elsewhere
