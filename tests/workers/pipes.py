"""Named pipes in place of a run's files, with somebody at their other end."""

import contextlib
import os
import time
from concurrent.futures import ThreadPoolExecutor

# seconds between two looks
PAUSE = 0.005


def beside(pipe, partner, run):
    """What a function answers that runs the program with a pipe for one of its files, and what another one does that
    opens the other end meanwhile."""
    os.mkfifo(pipe)
    with ThreadPoolExecutor(1) as pool:
        other = pool.submit(partner, pipe)
        outcome = run()
        while not other.done():
            # one that still waits for the program is released
            os.close(os.open(pipe, os.O_RDWR | os.O_NONBLOCK))
            time.sleep(PAUSE)
    pipe.unlink()
    return outcome, other.result()


def wait_until(holds, seconds):
    """Whether something holds within `seconds` seconds."""
    end = time.monotonic() + seconds
    while not (is_so := holds()) and time.monotonic() < end:
        time.sleep(PAUSE)
    return is_so


@contextlib.contextmanager
def without_reader():
    """The end of a pipe into which nobody can write, since its reader has gone."""
    reader, writer = os.pipe()
    os.close(reader)
    with open(writer, "wb", buffering=0) as file:
        yield file
