"""Commands whose files come slowly, or whose output is read slowly, and what they say meanwhile."""

import os
import pty
import subprocess
import time
import tty
from contextlib import suppress
from threading import Thread
from typing import NamedTuple

# seconds between two pieces, and for a command at most
PAUSE, TIME_LIMIT = 0.1, 120
PIECE = 1 << 16


class Watched(NamedTuple):
    """What a command left, what it said, and for how many seconds it ran."""
    out: bytes
    err: bytes
    status: int | None
    seconds: float


def write_slowly(file, pieces, pause):
    """Writes pieces, each so many seconds behind the one before."""
    begin = time.monotonic()
    with suppress(BrokenPipeError), file:
        for number, piece in enumerate(pieces):
            time.sleep(max(0.0, begin + number * pause - time.monotonic()))
            file.write(piece)


def read_all(descriptor, into, pause=0.0):
    """Reads to the end, each piece so many seconds behind the one before. A terminal ends with an error."""
    with suppress(OSError):
        while piece := os.read(descriptor, PIECE):
            into.append(piece)
            time.sleep(pause)
    os.close(descriptor)


def begun(function, *words):
    thread = Thread(target=function, args=words, daemon=True)
    thread.start()
    return thread


def ends_of(is_terminal):
    """Both ends of what standard error is: what is read, and what the command writes to."""
    if not is_terminal:
        return os.pipe()
    ours, theirs = pty.openpty()
    tty.setraw(theirs)
    return ours, theirs


def watched(words, home, pieces=None, is_terminal=True, pause=PAUSE, reading=0.0, err=None):
    """What a command does to whose standard input pieces come slowly, or whose output is read slowly. Standard error is
    a terminal, a pipe, or a file that is open."""
    said, printed = [], []
    ours, theirs = (None, err) if err is not None else ends_of(is_terminal)
    begin = time.monotonic()
    with subprocess.Popen(list(map(str, words)), cwd=home, stderr=theirs, stdout=subprocess.PIPE, bufsize=0,
                          stdin=subprocess.DEVNULL if pieces is None else subprocess.PIPE) as run:
        threads = [begun(read_all, os.dup(run.stdout.fileno()), printed, reading)]
        if err is None:
            os.close(theirs)
            threads.append(begun(read_all, ours, said))
        if pieces is not None:
            begun(write_slowly, os.fdopen(os.dup(run.stdin.fileno()), "wb", 0), pieces, pause)
            run.stdin.close()
            run.stdin = None
        try:
            status = run.wait(TIME_LIMIT)
        except subprocess.TimeoutExpired:
            run.kill()
            status = None
        seconds = time.monotonic() - begin
        for thread in threads:
            thread.join(TIME_LIMIT)
    return Watched(b"".join(printed), b"".join(said), status, seconds)
