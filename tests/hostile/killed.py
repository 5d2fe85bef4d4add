"""Kills runs at random moments, and looks at what they leave.

Each output has to hold a beginning of what the whole run writes. The lines of whole packets and the packets that are
written have to agree but for those of one batch.
"""

import random
import signal
import subprocess
import tempfile
import time
from pathlib import Path

from captures.merging import source_of
from captures.packets import capture_header, record, udp
from runs.case import INSIDE

OUTPUTS = ("verdicts", "packets", "counters", "states", "messages")
HEADER = 24
PACKETS, FLOWS = 60_000, 500
RULES = b"set timeout { udp.first 5, udp.single 5, udp.multiple 5 }\nblock in\npass out\n"
SIGNALS = (signal.SIGKILL, signal.SIGTERM)
# numbers of workers and packets of a batch of the runs in turn
SHAPES = ((0, 256), (2, 256), (4, 7))
# no run takes longer than some seconds
TIME_LIMIT = 60


def capture():
    """Packets of many flows, of which each third is an answer, and some are blocked."""
    packets = [udp("10.0.0.5", 1000 + flow, "198.51.100.7", 53) for flow in range(FLOWS)]
    answers = [udp("198.51.100.7", 53, "10.0.0.5", 1000 + flow) for flow in range(FLOWS + FLOWS // 10)]
    return capture_header() + b"".join(
        record(number // 1000, 0, (answers[number % len(answers)] if number % 3 == 2 else packets[number * 7 % FLOWS]))
        for number in range(PACKETS))


def passes(line):
    """Whether the line of a packet says that it passes."""
    return b" pass " in line or b" skip " in line


class Runs:
    """Runs of one capture, whose whole outputs are known."""

    def __init__(self, program, folder):
        self.program, self.folder = program, Path(folder)
        (self.folder / "capture").write_bytes(capture())
        (self.folder / "rules").write_bytes(RULES)
        start = time.monotonic()
        self.start(0, 256).wait(TIME_LIMIT)
        self.seconds = time.monotonic() - start
        self.whole = self.left()

    def start(self, workers, batch):
        words = [word for name in OUTPUTS for word in (f"--{name}", self.folder / name)]
        flags = ["--interface", "em0", "--address", "192.0.2.1/24", "--inside", INSIDE, "--workers", str(workers)]
        command = [self.program, "run", self.folder / "capture", self.folder / "rules", *flags, "--batch", str(batch),
                   *words]
        return subprocess.Popen(command, stdin=subprocess.DEVNULL, stdout=subprocess.DEVNULL, stderr=subprocess.DEVNULL)

    def left(self):
        return {name: (self.folder / name).read_bytes() for name in OUTPUTS if (self.folder / name).exists()}

    def fault(self, killing, after, workers, batch):
        """What is wrong with what a run leaves that is killed after some seconds, and whether it was killed before its
        end."""
        for name in OUTPUTS:
            (self.folder / name).unlink(missing_ok=True)
        with self.start(workers, batch) as run:
            time.sleep(after)
            run.send_signal(killing)
            status = run.wait(TIME_LIMIT)
        if status not in (0, -killing):
            return f"status {status}", False
        return self.fault_of(self.left(), batch), status != 0

    def fault_of(self, left, batch):
        for name, octets in left.items():
            if not self.whole[name].startswith(octets):
                return f"{name} are no beginning"
        lines = left.get("verdicts", b"").splitlines(keepends=True)
        told = sum(passes(line) for line in lines if line.endswith(b"\n"))
        written = packets_in(left.get("packets", b""))
        if not told - batch <= written <= told:
            return f"{told} packets pass by their lines, and {written} are written"
        return None


def packets_in(octets):
    """How many whole packets stand in a capture, or in a beginning of one."""
    return len(source_of(octets).records) if len(octets) >= HEADER else 0


def compare(program, count, seed=0):
    """How many of some killed runs leave something else, or whether too few were killed in their midst."""
    draw, wrong, killed, parts = random.Random(seed), [], 0, 0
    with tempfile.TemporaryDirectory() as folder:
        runs = Runs(program, folder)
        for number in range(count):
            (workers, batch), killing = SHAPES[number % len(SHAPES)], SIGNALS[number % len(SIGNALS)]
            fault, was_killed = runs.fault(killing, draw.uniform(0, runs.seconds), workers, batch)
            killed += was_killed
            parts += HEADER < len(runs.left().get("packets", b"")) < len(runs.whole["packets"])
            wrong += [f"{killing.name}, {workers} workers: {fault}"] if fault else []
    print(f"{count} runs to be killed: {killed} were, {parts} in the midst of their packets; {len(wrong)} wrong",
          *wrong[:5], sep="\n  ")
    return len(wrong) + (parts < count // 4)
