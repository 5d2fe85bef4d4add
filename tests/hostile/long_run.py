#!/usr/bin/env python3
"""Replays a long capture from a pipe, with workers and without, and compares what both write and hold at the end.

    long_run.py [--program FILE] [MILLIONS]

The capture has as many millions of packets as are asked for, or a hundred. A process writes them as they are read, and
others take the outputs and sum them up, so nothing stands on a disk. The run with workers sends its messages to a
standby. Printed is how much memory the run needs on its way, whether the outputs of both runs are the same, and whether
the standby has as many states as the run.
"""

import argparse
import hashlib
import os
import subprocess
import sys
import tempfile
import time
from multiprocessing import Process, Queue
from pathlib import Path

sys.dont_write_bytecode = True
# Python looks for modules beside the command, and the packages stand one folder above
sys.path[0] = str(Path(__file__).resolve().parent.parent)

import building
from captures.packets import capture_header, record, udp
from runs.peers import HOST
from standby.callers import free_port

# Every flow is translated. It has few packets, and its state ends some seconds later. For some flows a rule has no room,
# and for some the table.
RULES = """set timeout { udp.first 3, udp.single 3, udp.multiple 3 }
set limit states 22000
nat on em0 proto udp from 10.0.0.0/8 to any -> 192.0.2.1 port 1024:65535
block all
pass out proto udp to any port 53 keep state (max 15000)
pass out proto udp to any port 123 keep state
"""
MILLION, BLOCK, FLOWS = 10**6, 10**5, 10**4
OUTPUTS = ("verdicts", "packets", "counters", "states")
SIZE = 16 + 28
# where the second and the middle bytes of the source stand in a record
SECOND, SOURCE = 0, 16 + 13
WORKERS, PIECE, PAUSE = 4, 1 << 20, 2.0


def block():
    """The records of a block, of many flows at once, with one packet in ten that comes in and is blocked."""
    packets = [udp(f"10.0.{flow >> 8}.{flow & 255}", 1000 + flow % 7, "198.51.100.7", 53 if flow % 3 else 123)
               for flow in range(FLOWS)]
    other = udp("198.51.100.7", 53, "192.0.2.1", 9)
    return bytearray(b"".join(record(0, 0, packets[number * 7 % FLOWS] if number % 10 else other)
                              for number in range(BLOCK)))


def write_capture(path, millions):
    """Writes the capture: block by block, each a second later and from other sources."""
    octets = block()
    with open(path, "wb", buffering=0) as pipe:
        pipe.write(capture_header())
        for number in range(millions * MILLION // BLOCK):
            for place, octet in enumerate(number.to_bytes(4, "little")):
                octets[SECOND + place::SIZE] = bytes([octet]) * BLOCK
            octets[SOURCE::SIZE] = bytes([number % 256]) * BLOCK
            rest = memoryview(octets)
            while rest:
                rest = rest[pipe.write(rest):]


def sum_up(name, path, sums):
    """Reads an output to its end, and tells its checksum and how many bytes and lines it has."""
    found, size, lines = hashlib.sha256(), 0, 0
    with open(path, "rb", buffering=0) as pipe:
        while octets := pipe.read(PIECE):
            found.update(octets)
            size += len(octets)
            lines += octets.count(b"\n")
    sums.put((name, found.hexdigest(), size, lines))


def memory_of(process):
    """How many megabytes a process holds."""
    try:
        words = Path(f"/proc/{process.pid}/status").read_text()
    except OSError:
        return None
    return next((int(line.split()[1]) // 1024 for line in words.splitlines() if line.startswith("VmRSS:")), None)


def ran(program, folder, millions, words):
    """Runs the program: what it says, the sums of its outputs, and the megabytes that it held on its way."""
    for name in ("capture", *OUTPUTS):
        (folder / name).unlink(missing_ok=True)
        os.mkfifo(folder / name)
    sums, held = Queue(), []
    others = [Process(target=write_capture, args=(folder / "capture", millions)),
              *(Process(target=sum_up, args=(name, folder / name, sums)) for name in OUTPUTS)]
    for other in others:
        other.start()
    command = [program, "run", folder / "capture", folder / "rules", "--interface", "em0", "--address", "192.0.2.1/24",
               "--inside", "10.0.0.0/8", *(word for name in OUTPUTS for word in (f"--{name}", folder / name)), *words]
    with subprocess.Popen(command, stdin=subprocess.DEVNULL, stdout=subprocess.PIPE, stderr=subprocess.STDOUT) as run:
        while run.poll() is None:
            time.sleep(PAUSE)
            held.append(memory_of(run))
        said = run.stdout.read().decode().strip()
    found = sorted(sums.get() for _ in OUTPUTS)
    for other in others:
        other.join()
    return said, found, [each for each in held if each is not None]


def main():
    parser = argparse.ArgumentParser(description="Replays a long capture with workers and without.")
    parser.add_argument("millions", type=int, nargs="?", default=100, metavar="MILLIONS", help="of packets")
    parser.add_argument("--program", type=Path, metavar="FILE", help="the built program")
    asked = parser.parse_args()
    program = asked.program.resolve() if asked.program else building.pfreplay()
    with tempfile.TemporaryDirectory() as name:
        folder = Path(name)
        (folder / "rules").write_text(RULES)
        peer = f"{HOST}:{free_port()}"
        with subprocess.Popen([program, "standby", "--listen", peer], stdout=subprocess.PIPE) as standby:
            time.sleep(1)
            start = time.monotonic()
            with_workers = ran(program, folder, asked.millions, ["--workers", str(WORKERS), "--peer", peer])
            middle = time.monotonic()
            held = standby.stdout.read()
        alone = ran(program, folder, asked.millions, ["--workers", "0"])
        end = time.monotonic()
    for title, run, seconds in (("4 workers", with_workers, middle - start), ("none", alone, end - middle)):
        said, found, megabytes = run
        print(f"{title}: {said}, {seconds:.0f} s, {megabytes[len(megabytes) // 4]} MB at a quarter of the way, at most "
              f"{max(megabytes)} MB")
        print(*(f"  {output}: {size} bytes, {checksum[:16]}" for output, checksum, size, _ in found), sep="\n")
    states = next(lines for output, *_, lines in alone[1] if output == "states")
    is_same, are_held = with_workers[:2] == alone[:2], held.count(b"\n") == states
    print(f"the outputs are {'the same' if is_same else 'NOT THE SAME'}; the standby has {held.count(10)} states, and "
          f"the run {states}")
    sys.exit(not (is_same and are_held))


if __name__ == "__main__":
    main()
