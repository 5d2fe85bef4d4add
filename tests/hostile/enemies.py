"""Callers of `pfreplay standby --listen` who mean ill: garbage without end, single bytes, calls behind the first."""

import contextlib
import os
import resource
import socket
import subprocess
import time

from messages.rows import flows
from runs import model
from runs.case import INSIDE, Case, capture_of
from standby.callers import Caller

PIECE = 1 << 16
# the garbage that is sent unless the program ends, and how much memory it may need for it
GARBAGE, MEGABYTES = 1 << 28, 64
SECONDS = 60
# the calls behind the first
CALLS = 100_000


def messages():
    """What a peer gets of a run of some flows."""
    return model.run(Case("flows", b"pass out", INSIDE, capture_of(flows(20))), model.PEER).files.messages


def started(program, caller):
    return subprocess.Popen([program, "standby", "--listen", caller.name()], stdin=subprocess.DEVNULL,
                            stdout=subprocess.PIPE, stderr=subprocess.PIPE)


def ended(run):
    """How a program ends: its status, what it prints and says, and the greatest memory that it needed in megabytes."""
    try:
        out, err = run.communicate(timeout=SECONDS)
    except subprocess.TimeoutExpired:
        run.kill()
        out, err = run.communicate()
        return None, out, err
    return run.returncode, out, err


def garbage(program, octets):
    """Bytes that are no message are sent again and again: the program ends at the first, and takes no more."""
    caller = Caller(b"")
    with started(program, caller) as run:
        connection, sent = caller.call(run), 0
        with connection, contextlib.suppress(BrokenPipeError, ConnectionResetError):
            while sent < GARBAGE:
                connection.sendall(octets)
                sent += len(octets)
        status, out, err = ended(run)
    if status != 1 or out or err.count(b"\n") != 1 or sent >= GARBAGE:
        return f"garbage: status {status}, {out[:80]!r}, {err[:80]!r}, {sent} bytes were taken"
    return None


def slow(program):
    """Messages byte by byte, with a pause behind each: they are read as they are at once."""
    caller = Caller(b"")
    with started(program, caller) as run:
        with caller.call(run) as connection:
            connection.setsockopt(socket.IPPROTO_TCP, socket.TCP_NODELAY, 1)
            for octet in messages():
                connection.sendall(bytes([octet]))
                time.sleep(0.0005)
        byte_by_byte = ended(run)
    caller = Caller(messages())
    with started(program, caller) as run:
        caller.take(run)
        at_once = ended(run)
    if byte_by_byte != at_once or at_once[0] != 0:
        return f"single bytes: {byte_by_byte} and not {at_once}"
    return None


def calls(program, count):
    """Calls behind the first are refused, or dropped unread, and change nothing."""
    caller = Caller(b"")
    with started(program, caller) as run:
        with caller.call(run) as connection:
            connection.sendall(messages())
            for _ in range(count):
                with contextlib.suppress(OSError):
                    with socket.create_connection((caller.host, caller.port), SECONDS) as other:
                        other.sendall(b"\0")
        seen = ended(run)
    caller = Caller(messages())
    with started(program, caller) as run:
        caller.take(run)
        alone = ended(run)
    return None if seen == alone else f"calls behind the first: {seen} and not {alone}"


def compare(program, count=CALLS):
    """How many enemies have their way."""
    before = resource.getrusage(resource.RUSAGE_CHILDREN).ru_maxrss
    pieces = (bytes(PIECE), b"\xff" * PIECE, os.urandom(PIECE), b"\x05\0\xff\xff" * (PIECE // 4))
    wrong = [fault for fault in (*(garbage(program, octets) for octets in pieces), slow(program), calls(program, count))
             if fault]
    peak = resource.getrusage(resource.RUSAGE_CHILDREN).ru_maxrss / 1024
    if peak > MEGABYTES and peak * 1024 > before:
        wrong.append(f"{peak:.0f} MB")
    print(f"enemies of a standby: garbage, single bytes, {count} calls behind the first: {len(wrong)} wrong", *wrong,
          sep="\n  ")
    return len(wrong)
