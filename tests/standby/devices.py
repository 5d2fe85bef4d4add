"""Runs of the command `standby` with files that can't be opened or read, outputs that can't be written, streams that
come in pieces, and connections of every end."""

import os
from pathlib import Path
from threading import Thread

from runs import model
from runs.devices import NO_NAME, feed
from runs.model import FILE, PEER, Outcome
from runs.peers import Peer
from standby.asking import from_file, over_connection
from standby.callers import RESETS, WAITS
from standby.model import answer, ending_of, unwritten
from standby.rows import made, many_states
from standby.streams import spelled
from workers.pipes import without_reader

# bytes of a stream that come at once
PIECES = (1, 7, 24, 40, 290, 1000)
# states whose lines are longer than what a pipe holds
MANY = 3000
# an address that isn't this host's
ELSEWHERE = "192.0.2.77"
TAKEN = [made([1, 2]), made([3], [1]), made(deletes=[2])]
# a message that these don't go before
REFUSED = made(deletes=[9])


def named_streams():
    """Bare messages: of a stream that is taken, of some that end in a refusal, and of one without a line."""
    yield "a stream", TAKEN
    yield "a stream with a refusal", [*TAKEN, REFUSED, made([4])]
    yield "a stream with a wrong message", [*TAKEN, b"\6" + REFUSED[1:]]
    yield "a stream without a line", [made([1]), made(deletes=[1])]
    yield "a refusal at once", [REFUSED]


def compare(comparison):
    """All of these; the comparison keeps their number and what went wrong."""
    files(comparison)
    outputs(comparison)
    pieces(comparison)
    open_ends(comparison)
    resets(comparison)
    no_ends(comparison)
    for form, asked in ((FILE, from_file), (PEER, over_connection)):
        row = many_states(MANY)
        comparison.expect(f"{row.name}, {form}", row.outcome(), asked(comparison, row.streams[form]))


# Files

def files(comparison):
    """Files that can't be opened or read, and one without a byte."""
    folder = comparison.folder
    (folder / "stream").write_bytes(b"")
    for name in (folder / "missing", folder / "stream" / "below"):
        comparison.expect(f"messages from {name}", model.cannot_open(name),
                          comparison.execute(["standby", "--messages", name]))
    for name in (folder, "."):
        comparison.expect(f"messages from {name}", model.failed("read failed, after 0 messages"),
                          comparison.execute(["standby", "--messages", name]))
    for words in (["--messages", Path("/dev/null")], ["--messages=/dev/null"]):
        comparison.expect(f"words {words}", Outcome(b"", b"", 0), comparison.execute(["standby", *words]))


def outputs(comparison):
    """A full disk in place of standard output, and a pipe that nobody reads."""
    for name, texts in named_streams():
        for form, asked in ((FILE, from_file), (PEER, over_connection)):
            octets = spelled(texts, form)
            with open("/dev/full", "wb") as full:
                comparison.expect(f"{name} to a full disk, {form}", unwritten(octets, form),
                                  asked(comparison, octets, out=full))
            with without_reader() as gone:
                comparison.expect(f"{name} that nobody reads, {form}", unwritten(octets, form),
                                  asked(comparison, octets, out=gone))


# Pieces

def from_pipe(comparison, octets, piece):
    """The command on a pipe into which somebody writes these bytes in pieces."""
    pipe = comparison.folder / "pipe"
    os.mkfifo(pipe)
    Thread(target=feed, args=(pipe, octets, piece), daemon=True).start()
    seen = comparison.execute(["standby", "--messages", pipe])
    pipe.unlink()
    return seen


def pieces(comparison):
    """What is answered doesn't depend on the pieces in which a stream comes."""
    for name, texts in named_streams():
        for piece in PIECES:
            octets = spelled(texts, FILE)
            comparison.expect(f"{name} in pieces of {piece}, {FILE}", answer(octets, FILE),
                              from_pipe(comparison, octets, piece))
            octets = spelled(texts, PEER)
            comparison.expect(f"{name} in pieces of {piece}, {PEER}", answer(octets, PEER),
                              over_connection(comparison, octets, piece=piece))


# Connections

def open_ends(comparison):
    """A refusal ends the command while its caller waits, and so does one in the bytes of a message's header."""
    for name, texts in named_streams():
        octets = spelled(texts, PEER)
        if ending_of(octets, PEER).refusal is not None:
            comparison.expect(f"{name}, and the caller waits", answer(octets, PEER),
                              over_connection(comparison, octets, ends=WAITS))
    header = spelled(TAKEN, PEER) + b"\6" + bytes(19)
    comparison.expect("a wrong header, and the caller waits", answer(header, PEER),
                      over_connection(comparison, header, ends=WAITS))


def after_reset(octets):
    """How the command may end whose connection is reset behind these bytes. It may have read only some of them."""
    return [answer(octets[:length], PEER, fails=True) for length in range(len(octets) + 1)]


def resets(comparison):
    """Connections that are reset behind some messages, and behind a part of one."""
    for name, texts in named_streams():
        octets = spelled(texts, PEER)
        for sent in (b"", octets, octets[:-1]):
            lawful, seen = after_reset(sent), over_connection(comparison, sent, ends=RESETS)
            comparison.expect(f"{name}, of which {len(sent)} bytes come before a reset",
                              seen if seen in lawful else lawful[-1], seen)


def no_ends(comparison):
    """Ends at which nobody can listen, and some that have other words."""
    with Peer() as other:
        names = [other.name(), f"{NO_NAME}:{other.port}", f"{ELSEWHERE}:{other.port}", f"a:b:{other.port}"]
        for name in names:
            comparison.expect(f"listening at {name}", model.cannot_open(name),
                              comparison.execute(["standby", "--listen", name]))
    octets = spelled(TAKEN, PEER)
    for host in ("localhost", "127.000.0.01"):
        comparison.expect(f"listening at {host}", answer(octets, PEER),
                          over_connection(comparison, octets, host=host))
