"""Runs the program on an input, and judges how it ends.

It may not end by a signal, take longer than two seconds, or as long as is said, or more than 512 MB. Where other work
runs beside, the seconds are the processor's, and those of the clock count ten times less. The memory of who
runs it is counted as its own, until it begins. Its status is one of those that the command may have without a failing
device, but for a file that isn't there. What it refuses it says in one line on standard error.
"""

import os
import re
import resource
import signal
import time
from pathlib import Path
from typing import NamedTuple

from reporting.reading import read

SECONDS, MEGABYTES = 2, 512
# a run that takes so many times longer than it may is killed
PATIENCE = 10
DONE, REFUSED, CUT, FAILED = range(4)
# those of `diff`
CHANGED, TROUBLE, UNJUDGED = REFUSED, CUT, 5
STATUSES = {"check": (DONE, REFUSED), "adapt": (DONE, REFUSED), "run": (DONE, REFUSED, CUT), "standby": (DONE, REFUSED),
            "states": (DONE, REFUSED), "rules": (DONE, REFUSED), "diff": (DONE, CHANGED, TROUBLE, UNJUDGED),
            "show": (DONE, REFUSED), "report": (DONE, REFUSED)}
ONE_LINE = re.compile(rb"pfreplay: [^\n]*\n")
# the one device that fails: a file that isn't there
CANNOT_OPEN = re.compile(rb"pfreplay: cannot open: [^\n]*\n")
WARNING = b"pfreplay: warning: "
COMMITTED = re.compile(rb"committed (\d+)(, cut)?\n")
REMARK = re.compile(rb"[^:\n]*:\d+:\d+: (note|warning|error): ")


class Ended(NamedTuple):
    """How a run of the program ended: its status, negative for a signal, what it printed and said, and what it took."""
    status: int
    out: bytes
    err: bytes
    seconds: float
    megabytes: float


class TooLong(Exception):
    """A run took longer than anybody waits."""


def give_up(*_):
    raise TooLong


class Trial:
    """Runs the program in a folder of its own, each time for `seconds` at most. A process has one at most: it uses the
    alarm."""

    def __init__(self, program, folder, seconds=SECONDS, is_beside=False):
        self.program = str(program)
        self.seconds, self.is_beside = seconds, is_beside
        self.folder = Path(folder)
        self.out, self.err = self.folder / "out", self.folder / "err"
        self.made = set()
        os.chdir(folder)
        signal.signal(signal.SIGALRM, give_up)

    def prepare(self, files):
        """Writes the files that an input names; those of the one before are gone."""
        for name in (*self.made, "verdicts", "packets", "counters", "states", "messages"):
            (self.folder / name).unlink(missing_ok=True)
        self.made = set(files)
        for name, octets in files.items():
            (self.folder / name).write_bytes(octets)

    def wait(self, process):
        """How a process ended, and what it took; one that goes on and on is killed."""
        signal.setitimer(signal.ITIMER_REAL, PATIENCE * self.seconds)
        try:
            return os.wait4(process, 0)[1:]
        except TooLong:
            os.kill(process, signal.SIGKILL)
            return os.wait4(process, 0)[1:]
        finally:
            signal.setitimer(signal.ITIMER_REAL, 0)

    def run(self, given):
        self.prepare(given.files)
        writing = os.O_WRONLY | os.O_CREAT | os.O_TRUNC
        actions = [(os.POSIX_SPAWN_OPEN, 0, os.devnull, os.O_RDONLY, 0),
                   (os.POSIX_SPAWN_OPEN, 1, str(self.out), writing, 0o600),
                   (os.POSIX_SPAWN_OPEN, 2, str(self.err), writing, 0o600)]
        start = time.perf_counter()
        words = [os.fsencode(word) for word in (self.program, *given.words)]
        status, used = self.wait(os.posix_spawn(self.program, words, os.environ, file_actions=actions))
        seconds = time.perf_counter() - start
        if self.is_beside:
            seconds = max(used.ru_utime + used.ru_stime, seconds / PATIENCE)
        return Ended(os.waitstatus_to_exitcode(status), self.out.read_bytes(), self.err.read_bytes(), seconds,
                     used.ru_maxrss / 1024)

    def faults(self, given, ended):
        """What is wrong with how the run of an input ended."""
        if ended.status < 0:
            yield f"signal {-ended.status}"
            return
        yield from [f"{ended.seconds:.1f} s"] if ended.seconds > self.seconds else []
        yield from [f"{ended.megabytes:.0f} MB"] if ended.megabytes > MEGABYTES else []
        command = given.words[0] if given.words and given.words[0] in STATUSES else None
        if ended.status not in (*STATUSES.get(command, (DONE, REFUSED)), FAILED):
            yield f"status {ended.status}"
        if not is_said_well(command, ended) or warns(ended) and not may_warn(given.words, ended):
            yield f"status {ended.status} and {ended.err[:300]!r}"
        if command == "run" and ended.status in (DONE, CUT) and not self.agree(ended):
            yield f"{ended.out!r}, and other lines"
        if command == "report" and ended.status == DONE:
            _, wrong = read(ended.out)
            yield from (f"a page with {fault}" for fault in wrong[:1])

    def agree(self, ended):
        """Whether a run that came to its end has a line for each packet."""
        found = COMMITTED.fullmatch(ended.out)
        return found and int(found[1]) == (self.folder / "verdicts").read_bytes().count(b"\n")


def warns(ended):
    return any(row.startswith(WARNING) for row in ended.err.splitlines())


def may_warn(words, ended):
    """Whether a run of these words may warn if it ended so."""
    command = words[0] if words else None
    if command == "run":
        return "--warn" in words
    answered = {"diff": (DONE, CHANGED, UNJUDGED), "report": (DONE,)}.get(command, ())
    return ended.status in answered and "--quiet" not in words


def is_said_well(command, ended):
    """Whether what is said fits the status: a refusal in one line behind remarks and warnings, and else these alone."""
    rows = ended.err.splitlines(keepends=True)
    others = [row for row in rows if not REMARK.match(row) and not row.startswith(WARNING)]
    if ended.status in ((DONE, CHANGED, UNJUDGED) if command == "diff" else (DONE, CUT)):
        return not others
    if ended.status == FAILED:
        return len(others) == 1 and bool(CANNOT_OPEN.fullmatch(others[0]))
    # faults of a ruleset that is adapted are told each by its place
    if command == "adapt" and not others:
        return bool(rows)
    return len(others) == 1 and bool(ONE_LINE.fullmatch(others[0])) and rows[-1] == others[0]


def limit_files():
    """No run makes a file of more than 64 MB."""
    resource.setrlimit(resource.RLIMIT_FSIZE, (2**26, 2**26))
