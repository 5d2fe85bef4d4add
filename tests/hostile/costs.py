#!/usr/bin/env python3
"""Measures what the worst inputs cost that were thought of: rulesets of at most 1 MiB, and captures of 1 MiB.

    costs.py [--program FILE] [NAME ..]

Of each it prints the seconds, the greatest memory, and how the program ended. Names choose some of them.
"""

import argparse
import os
import subprocess
import sys
import tempfile
import time
from itertools import count, islice
from pathlib import Path
from typing import NamedTuple

sys.dont_write_bytecode = True
# Python looks for modules beside the command, and the packages stand one folder above
sys.path[0] = str(Path(__file__).resolve().parent.parent)

import building
from captures.packets import capture_header, ipv4, record, udp
from expansions.hostile import addresses, doubled, nested

MOST = 1 << 20
OUTPUTS = ("verdicts", "packets", "counters", "states", "messages")


class Costly(NamedTuple):
    """A ruleset, and the packets of a capture, each with its second; without any it is checked, adapted or told."""
    name: str
    rules: str
    records: list = []
    command: str = "check"


def fitting(make):
    """As many records as a capture of 1 MiB holds, made by their numbers."""
    records, size = [], len(capture_header())
    while True:
        second, packet = make(len(records))
        size += 16 + len(packet)
        if size > MOST:
            return records
        records.append((second, packet))


def flow(number):
    """The first packet of a flow of its own."""
    return udp(f"10.{number >> 16}.{number >> 8 & 255}.{number & 255}", 1000, "198.51.100.7", 53)


def bare(number):
    """The shortest packet that is one, from outside."""
    return ipv4("198.51.100.7", "192.0.2.1", 255)


def many_ranges():
    """Rules of ranges of ports, of which each is asked and none holds."""
    ranges = (f"{first}:{last}" for first in count(1) for last in range(first + 1, 1000))
    return f"block in proto udp from any to any port {{ {' '.join(islice(ranges, 65535))} }}\npass in no state\n"


def inbound(number):
    return udp("198.51.100.7", 9, "192.0.2.1", 2000 + number % 60000)


def costly():
    yield Costly("rules of which each is asked", many_ranges(), fitting(lambda n: (0, inbound(n))))
    yield Costly("anchors sixteen deep", nested("anchor proto { tcp, udp }", "block in proto udp to any port 9\n"),
                 fitting(lambda n: (0, inbound(n))))
    nat = "nat on em0 proto udp from 10.0.0.0/8 to any -> 192.0.2.1"
    yield Costly("a range of ports that is full", f"{nat} port 1024:13023\npass out\n", fitting(lambda n: (0, flow(n))))
    yield Costly("the default range of ports", f"{nat}\npass out\n", fitting(lambda n: (0, flow(n))))
    yield Costly("a table of 65536 entries, asked twice", f"table <t> {{ {addresses(65536)} }}\nblock in from <t>\n"
                 "block in from ! <t> to <t>\npass in no state\n", fitting(lambda n: (0, bare(n))))
    yield Costly("states that all end at once", "set timeout udp.first 5\npass out\n",
                 fitting(lambda n: (0 if n < 23000 else 9, flow(n))))
    yield Costly("states that end one by one", "set timeout udp.first 1\npass out\n", fitting(lambda n: (n, flow(n))))
    yield Costly("a limit of states that is reached", "set limit states 1\npass out\n", fitting(lambda n: (0, flow(n))))
    yield Costly("rules with limits, of which each is asked", "pass out proto udp from any to any port { " + " ".join(
        ["53"] * 65536) + " } keep state (max 1)\n", fitting(lambda n: (0, flow(n)))[:500])
    yield Costly("fragments with IP options", "pass in allow-opts\n",
                 fitting(lambda n: (0, ipv4("198.51.100.7", "192.0.2.1", 17, b"", ip_options=bytes(40), fragment=1))))
    yield Costly("times that go back", "pass out\n", fitting(lambda n: (2**32 - 1 - n, flow(n))))
    yield Costly("macros that double forty times", doubled(40) + "pass proto { $m40 }\n")
    yield Costly("macros that double to 65536 words", doubled(16) + "pass proto { $m16 }\n")
    yield Costly("65536 rules of addresses", f"pass from {{ {addresses(256)} }} to {{ {addresses(256)} }}\n")
    yield Costly("brackets that are never closed", "pass from {" * (MOST // 11))
    yield from adapted()
    yield from told()
    yield Costly("comments alone", "#\n" * (MOST // 2))
    yield Costly("labels of 65536 rules", "pass label \"x\"\n" * 65536)


# one long line of each, and where it stands
PIECES = (("round brackets", "("), ("pairs of braces", "{}"), ("groups that are never closed", "rtable < "),
          ("options that are never closed", "max-src-nodes ( "))
BEFORE = (("before any word", ""), ("in a rule", "pass "), ("in the options of a state", "pass keep state ("))


def adapted():
    """Rulesets that are adapted: long lines, large macros, and many faults."""
    for name, piece in PIECES:
        for place, before in BEFORE:
            line = before + piece * ((MOST - len(before)) // len(piece))
            yield Costly(f"adapt: {name} {place}", line, command="adapt")
    networks, names = " ".join(["10.0.0.0/8"] * 370), " ".join(["em0"] * 1000)
    yield Costly("adapt: a macro of 4 KiB as each target",
                 f'm = "{networks}"\nrdr pass on em0 -> ' + "$m " * 300000, command="adapt")
    yield Costly("adapt: a macro of 4 KiB as each interface", f'm = "{names}"\npass ' + "on $m " * 150000,
                 command="adapt")
    yield Costly("adapt: anchors alone", "anchor a\n" * (MOST // 9), command="adapt")
    yield Costly("adapt: a fault in each statement", "pass nonsense\n" * (MOST // 14), command="adapt")


def told():
    """Rulesets whose rules are printed, as many as shadows are looked for among."""
    ports = " ".join(str(port) for port in range(1, 2049))
    yield Costly("rules: 2048 rules of one port each", f"block quick proto udp to port {{ {ports} }}\n",
                 command="rules")
    half, table = " ".join(["<t>"] * 1024), f"table <t> {{ {addresses(50000)} }}\n"
    alone = " ".join(f"1.1.{place // 256}.{place % 256}" for place in range(1024))
    yield Costly("rules: 1024 addresses in no table", f"{table}block quick from {{ {half} }} to 9.9.9.9\n"
                 f"block from {{ {alone} }} to 9.9.9.9\n", command="rules")


def run(program, folder, case):
    """Runs the program on a case: its seconds, its peak in megabytes, and how it ended."""
    (folder / "rules").write_text(case.rules)
    words = [case.command, folder / "rules"]
    if case.records:
        (folder / "capture").write_bytes(capture_header() + b"".join(record(second, 0, packet)
                                                                     for second, packet in case.records))
        words = ["run", folder / "capture", folder / "rules", "--inside", "10.0.0.0/8",
                 *(word for name in OUTPUTS for word in (f"--{name}", folder / name))]
    words += ["--interface", "em0", "--address", "192.0.2.1/24"]
    start = time.monotonic()
    with subprocess.Popen([program, *words], stdin=subprocess.DEVNULL, stdout=subprocess.PIPE,
                          stderr=subprocess.STDOUT) as done:
        said = done.stdout.read()
        _, status, used = os.wait4(done.pid, 0)
        done.returncode = os.waitstatus_to_exitcode(status)
    return time.monotonic() - start, used.ru_maxrss / 1024, said.decode(errors="replace").strip()[:60]


def main():
    parser = argparse.ArgumentParser(description="Measures the worst inputs.")
    parser.add_argument("--program", type=Path, metavar="FILE", help="the built program")
    parser.add_argument("names", nargs="*", metavar="NAME", help="parts of the names of some")
    asked = parser.parse_args()
    program = asked.program.resolve() if asked.program else building.pfreplay()
    print("| Input | Packets | Seconds | MB | End |\n|---|---|---|---|---|")
    with tempfile.TemporaryDirectory() as folder:
        for case in costly():
            if not asked.names or any(name in case.name for name in asked.names):
                seconds, megabytes, end = run(program, Path(folder), case)
                packets = len(case.records) or "-"
                print(f"| {case.name} | {packets} | {seconds:.2f} | {megabytes:.0f} | {end} |", flush=True)


if __name__ == "__main__":
    main()
