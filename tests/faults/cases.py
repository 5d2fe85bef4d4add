"""Runs with one fault whose ending is written out: a read that fails behind some packets, and each write that may
fail."""

import tempfile
from pathlib import Path
from typing import NamedTuple

from captures.packets import capture_header, record
from faults import replay
from faults.trial import PEER, Fault, Trial
from messages.rows import NOT_IPV4, flow, flows
from runs.message_rows import pieces
from runs.model import REQUIRED
from steps.rows import OPENING, data

# without workers, so that the call of a number is the same one in each run
FLAGS = ("--interface", "em0", "--address", "192.0.2.1/24", "--inside", "10.0.0.0/8", "--workers", "0")
HEADER, RECORD = 24, 16
# the fault is at the last read of the capture, which finds its end
LAST_READ = 0


class Left(NamedTuple):
    """What the outputs hold: the lines of the texts, the bytes of the packets, and the sizes of the messages as a file
    has them."""
    verdicts: int = 0
    packets: int = 0
    counters: int = 0
    states: int = 0
    messages: tuple = ()


class Row(NamedTuple):
    """A run of packets by their seconds under `pass out`, with the output at which a call fails and its number, and
    what is said and left then."""
    name: str
    records: list
    output: str
    number: int
    said: str
    left: Left


def read_rows():
    one, two = [(0, flow(0))], [(0, flow(0)), (1, NOT_IPV4)]
    yield Row("one flow", one, "capture", LAST_READ, "read failed, committed 1", Left(1, HEADER + RECORD + 28))
    yield Row("one flow and no IPv4 packet", two, "capture", LAST_READ, "read failed, committed 2",
              Left(2, HEADER + 2 * RECORD + 28 + 40, messages=(290,)))


def write_rows():
    """The connection of four packets, all in one batch: the capture's header, lines and packets, the one message, and
    the two texts at the end. Then seven flows, of which six fill a message."""
    records = [(0, packet) for packet in (*OPENING, data(100))]
    octets = HEADER + 4 * (RECORD + 40) + 100
    for output, number, committed, left in (
            ("packets", 1, 0, Left()), ("verdicts", 1, 0, Left(0, HEADER)), ("packets", 2, 0, Left(4, HEADER)),
            ("messages", 1, 4, Left(4, octets)), ("counters", 1, 4, Left(4, octets, messages=(290,))),
            ("states", 1, 4, Left(4, octets, 2, messages=(290,)))):
        yield Row("a connection", records, output, number, f"write failed: {output}, committed {committed}", left)
    seven = [(0, packet) for packet in flows(7)]
    octets = HEADER + 7 * (RECORD + 28)
    for output, number, committed, left in (
            ("messages", 1, 0, Left(0, HEADER)), ("verdicts", 1, 0, Left(0, HEADER, messages=(1500,))),
            ("packets", 2, 0, Left(7, HEADER, messages=(1500,))), ("messages", 2, 7, Left(7, octets, messages=(1500,))),
            ("counters", 1, 7, Left(7, octets, messages=(1500, 290)))):
        yield Row("seven flows", seven, output, number, f"write failed: {output}, committed {committed}", left)


def left_of(files, before):
    """What files hold; `before` bytes stand before each message in a file that aren't there."""
    verdicts, packets, counters, states, messages = files
    return Left(verdicts.count(b"\n"), len(packets), counters.count(b"\n"), states.count(b"\n"),
                tuple(len(piece) + before for piece in pieces(messages)))


class Tried:
    """The rows with their messages in a file or sent to a peer."""

    def __init__(self, program, folder, output):
        self.output = output
        self.capture, rules, nothing = (Path(folder) / name for name in ("capture", "rules", "nothing"))
        rules.write_bytes(b"pass out")
        nothing.touch()
        words = [word for name in (*REQUIRED, output) for word in (f"--{name}", name)]
        self.command = [program, "run", str(self.capture), str(rules), *FLAGS, *words]
        self.source, self.folder = nothing, folder

    def target(self, row):
        if row.output == "capture":
            return replay.CAPTURE
        return replay.WRITES[self.output if row.output == "messages" else row.output]

    def seen(self, row):
        records = (record(second, 0, packet) for second, packet in row.records)
        self.capture.write_bytes(capture_header() + b"".join(records))
        trial = Trial(self.command, self.source, self.folder, replay.places(self.command), replay.OUTPUTS)
        target = self.target(row)
        number = row.number or trial.counted(target)[1].calls
        return trial.counted(target, Fault(target, "fail", number))[0]

    def fault(self, row):
        """What is wrong with a row."""
        seen = self.seen(row)
        wanted = 3, b"", f"pfreplay: {row.said}\n".encode(), row.left
        is_there = None not in seen.files
        found = (*seen[:3], left_of(seen.files, 20 if self.output == PEER else 0) if is_there else seen.files)
        return [] if wanted == found else [f"{row.name}, {row.output} {row.number}: {wanted} and not {found}"]


def compare(program):
    """How many rows end otherwise than is written."""
    rows = [*read_rows(), *write_rows()]
    faults = []
    for output in ("messages", PEER):
        with tempfile.TemporaryDirectory() as folder:
            tried = Tried(program, folder, output)
            faults += [f"{output}: {fault}" for row in rows for fault in tried.fault(row)]
    print(f"{2 * len(rows)} endings written out, {len(faults)} differ", *faults, sep="\n  ")
    return len(faults)
