"""Runs of the command `standby` on a stream, from a file or over a connection, and beside a run that sends it."""

import subprocess
import time

from runs.comparison import TIME_LIMIT
from runs.model import FILE, NONE, Outcome, cannot_open
from runs.peers import HOST, PAUSE
from standby.callers import Caller, free_port

# how often another port is tried if somebody else has taken one meanwhile
TRIES = 5


def is_refused(seen, name):
    """Whether a run ended because it can't listen at, or call, the end of this name."""
    return seen is not None and seen.err == cannot_open(name).err


def from_file(comparison, octets, **how):
    """The command on a file of these bytes."""
    stream = comparison.folder / "stream"
    stream.write_bytes(octets)
    return comparison.execute(["standby", "--messages", stream], **how)


def over_connection(comparison, octets, out=subprocess.PIPE, **how):
    """The command with a caller who sends these bytes in some way."""
    for _ in range(TRIES):
        caller = Caller(octets, **how)
        seen = comparison.execute(["standby", "--listen", caller.name()], out, caller)
        if not is_refused(seen, caller.name()):
            break
    return seen


def answered(comparison, octets, form):
    """The command on a stream of a form."""
    return (from_file if form == FILE else over_connection)(comparison, octets)


# Two processes

def sent_to(comparison, case, name, listener):
    """A run of a case with a peer of this name. It runs again as long as the other process doesn't listen yet."""
    end = time.monotonic() + TIME_LIMIT
    while True:
        comparison.prepare(case)
        seen = comparison.execute([*comparison.command(case, NONE), "--peer", name])
        if not is_refused(seen, name) or listener.poll() is not None or time.monotonic() > end:
            return seen
        time.sleep(PAUSE)


def heard_from(comparison, case):
    """A run of a case that sends its messages to the command in another process: how both end."""
    for _ in range(TRIES):
        name = f"{HOST}:{free_port()}"
        with subprocess.Popen([comparison.program, "standby", "--listen", name], stdin=subprocess.DEVNULL,
                              stdout=subprocess.PIPE, stderr=subprocess.PIPE) as listener:
            ran = sent_to(comparison, case, name, listener)
            try:
                printed, said = listener.communicate(timeout=TIME_LIMIT)
            except subprocess.TimeoutExpired:
                listener.kill()
                return ran, None
        heard = Outcome(printed, said, listener.returncode)
        if not is_refused(heard, name):
            break
    return ran, heard
