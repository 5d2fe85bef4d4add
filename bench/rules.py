#!/usr/bin/env python3
"""Measures the program as rulesets grow, beside tcpdump and beside another build of the program, and prints a table.

    rules.py [PROGRAM] [--beside OTHER] [--kinds KIND ..] [--rules N ..] [--unchecked]

No rule but the last matches a packet. How many of the others a packet is asked about depends on what they pin. `x
fewest` is the time of a million packets as a multiple of that of the first row of the kind. Each row is checked on 1000
packets: the last rule decides on each, and tcpdump passes each.
"""

import argparse
import ipaddress
import os
import random
import shutil
import struct
import subprocess
import sys
import tempfile
import time
from pathlib import Path

sys.dont_write_bytecode = True

from make_capture import write_capture
from running import (RUNS, check_built, count_records, peak_memory, print_head, print_row, replay_command,
                     tcpdump_command, words_with_program, written)

# found where running says
from captures.packets import LINKTYPE_ETHERNET

# the kinds of rulesets, and how many rules each is measured with
KINDS = {"ports": (10, 100, 1000, 10000), "pairs": (10, 100, 1000, 10000), "ranges": (10, 100, 1000),
         "mixed": (10, 1000), "networks": (10, 1000), "tables": (10, 10000), "lists": (65472,)}
PACKETS = 200000
CHECKED_PACKETS = 1000
# the bytes of both addresses and the type
ETHERNET_HEADER = 14
# tcpdump takes half a minute and more to compile a filter of more terms
MOST_TERMS = 1000
# seconds after which a command is given up
PATIENCE = 60


class GivenUp(Exception):
    """A command has failed or taken too long; this says which."""


def ports_in(capture):
    """The ports of a capture of whole TCP and UDP packets without IP options, raw or in Ethernet frames without tags,
    in this machine's byte order."""
    ports, place = set(), 24
    before = ETHERNET_HEADER if int.from_bytes(capture[20:24], sys.byteorder) == LINKTYPE_ETHERNET else 0
    while place < len(capture):
        # behind the headers of the record, the frame and the packet
        ports.update(struct.unpack_from(">HH", capture, place + 16 + before + 20))
        place += 16 + struct.unpack_from("=I", capture, place + 8)[0]
    return ports


def free_ports(capture):
    """The ports that no packet of a capture has."""
    return sorted(set(range(1, 65536)) - ports_in(capture))


def transport(place):
    return ("udp", "tcp")[place % 2]


def vain_ports(count, capture):
    """Rules of a port each, in order, with their terms of tcpdump's language."""
    for place, port in zip(range(count), free_ports(capture)):
        protocol = transport(place)
        yield f"block quick proto {protocol} from any to any port {port}", f"{protocol} dst port {port}"


def vain_pairs(count, capture):
    """The same, of which every second pair asks for a network besides."""
    for place, (rule, term) in enumerate(vain_ports(count, capture)):
        network = f"172.{16 + place // 256 % 16}.{place % 256}.0/24"
        if place % 4 < 2:
            yield rule, term
        else:
            yield rule.replace("from any", f"from {network}"), f"(src net {network} and {term})"


def vain_ranges(count, capture):
    """Rules of a range of ports each, in order, with their terms. They pin a protocol and no port, so each packet is
    asked about each rule of its protocol."""
    for place, port in zip(range(count), free_ports(capture)):
        protocol = transport(place)
        yield (f"block quick proto {protocol} from any to any port {port}:{port}",
               f"{protocol} dst portrange {port}-{port}")


def vain_mixed(count, capture):
    """Rules that ask for directions, protocols, addresses, networks, ports and ranges of them."""
    chance, ports = random.Random(count), free_ports(capture)
    for place in range(count):
        host = f"172.{chance.randrange(16, 32)}.{chance.randrange(256)}.{chance.randrange(256)}"
        network = f"{host}/{chance.choice([16, 20, 24, 28])}"
        port = ports[place % len(ports)]
        yield chance.choice([
            f"block in quick proto tcp from {network} to any",
            f"block out quick proto udp from any to {network} port {port}",
            f"block in quick from {host} to any",
            f"block quick proto {transport(place)} from {host} to any port {port}",
            f"block quick proto tcp from any to {host} port {port}", f"block out quick from any to {network}",
            f"block in quick proto udp from {network} to any port {port}:{port}",
            f"pass quick proto {transport(place)} from any port {port} to {host}"]), None


def vain_networks(count, capture):
    """Rules of a network each, of eight lengths."""
    chance = random.Random(count)
    for place in range(count):
        address = f"172.{chance.randrange(256)}.{chance.randrange(256)}.{chance.randrange(256)}"
        network = ipaddress.ip_network(f"{address}/{(10, 12, 16, 18, 20, 22, 24, 28)[place % 8]}", strict=False)
        yield f"block quick from {network} to any", f"src net {network}"


def vain_rules(kind, count, capture):
    """The lines of a ruleset of one kind but the last, and the terms of tcpdump's filter, None if there is none."""
    if kind == "tables":
        entries = ", ".join(f"172.{place // 65536 + 16}.{place // 256 % 256}.{place % 256}" for place in range(count))
        return [f"table <vain> {{ {entries} }}", "block quick from <vain> to any"], None
    if kind == "lists":
        hosts = ", ".join(f"172.16.{place // 256}.{place % 256}" for place in range(count // 64))
        ports = ", ".join(map(str, free_ports(capture)[:64]))
        return [f"block quick proto tcp from {{ {hosts} }} to any port {{ {ports} }}"], None
    make = {"ports": vain_ports, "pairs": vain_pairs, "ranges": vain_ranges, "mixed": vain_mixed,
            "networks": vain_networks}[kind]
    rules, terms = zip(*make(count, capture))
    return list(rules), None if None in terms else terms


class Contest:
    """A ruleset and a filter of one kind and length, and the commands that are measured on a capture."""

    def __init__(self, folder, kind, count):
        self.folder = folder
        self.capture = self.written_capture("capture.pcap", PACKETS)
        self.empty = self.written_capture("empty.pcap", 0)
        lines, terms = vain_rules(kind, count, self.capture.read_bytes())
        self.rules, self.filter = folder / "rules", None
        self.rules.write_text("".join(f"{line}\n" for line in lines) + "pass all no state\n")
        if terms and len(terms) <= MOST_TERMS and shutil.which("tcpdump"):
            self.filter = folder / "filter"
            self.filter.write_text(f"ip and not ({' or '.join(terms)})\n")

    def written_capture(self, name, packets):
        path = self.folder / name
        written(path, write_capture, packets)
        return path

    def replay(self, program, capture, verdicts=os.devnull):
        return replay_command(program, capture, self.rules, verdicts=verdicts)

    def tcpdump(self, capture, passed=os.devnull):
        return tcpdump_command(capture, passed, "-F", self.filter)

    def best_seconds(self, programs):
        """The best times of each program, and of tcpdump if it has a filter: the whole run and the run on a capture
        without packets, all in turn. One that is given up isn't run again, and has its reason for a time."""
        makers = [lambda capture, program=program: self.replay(program, capture) for program in programs]
        makers += [self.tcpdump] if self.filter else []
        runs = [make(capture) for make in makers for capture in (self.capture, self.empty)]
        best = [PATIENCE] * len(runs)
        for _ in range(RUNS):
            for place, command in enumerate(runs):
                # what is given up on a capture needn't be tried on none
                if not any(isinstance(found, str) for found in best[place // 2 * 2:place + 1]):
                    best[place] = better(best[place], command)
        return [best[place:place + 2] for place in range(0, len(best), 2)]

    def check_program(self, program, few):
        """The last rule decides on each packet of a short capture."""
        lines = self.folder / "lines"
        seconds(self.replay(program, few, lines))
        rules = {line.split()[5] for line in lines.read_text().splitlines() if line.split()[3] == "pass"}
        if len(rules) != 1 or lines.read_bytes().count(b" pass rule ") != CHECKED_PACKETS:
            sys.exit("the last rule doesn't decide on each packet")

    def check_tcpdump(self, few):
        """The filter passes each packet of a short capture."""
        passed = self.folder / "passed.pcap"
        seconds(self.tcpdump(few, passed))
        if count_records(passed.read_bytes()) != CHECKED_PACKETS:
            sys.exit("tcpdump's filter doesn't pass each packet")


def seconds(command):
    """The time of one run from its start to its end, or GivenUp."""
    start = time.perf_counter()
    try:
        subprocess.run(command, stdin=subprocess.DEVNULL, stdout=subprocess.DEVNULL, stderr=subprocess.PIPE, check=True,
                       timeout=PATIENCE)
    except subprocess.TimeoutExpired:
        raise GivenUp(f"none in {PATIENCE} s") from None
    except subprocess.CalledProcessError as failure:
        said = failure.stderr.decode(errors="replace").strip().splitlines()
        raise GivenUp(f"failed: {said[-1] if said else failure.returncode}") from None
    return time.perf_counter() - start


def better(best, command):
    """The better of a time and that of one more run, or why there is none."""
    try:
        return min(best, seconds(command))
    except GivenUp as why:
        return str(why)


def a_million(times):
    """The seconds that a million packets take beyond a run without packets, None if it was given up."""
    whole, idle = times
    return None if isinstance(whole, str) or isinstance(idle, str) else (whole - idle) * 10**6 / PACKETS


def figure(number, digits=2):
    return "-" if number is None else f"{number:.{digits}f}"


def row(contest, programs, kind, count, fewest):
    """The measures of a ruleset, as words, and the seconds of a million packets by the first program."""
    times = contest.best_seconds(programs)
    ours = a_million(times[0])
    others = [figure(a_million(found)) for found in times[1:len(programs)]]
    tcpdump = figure(a_million(times[-1])) if contest.filter else "-"
    start = times[0][1] if isinstance(times[0][1], str) else f"{times[0][1] * 1e3:.1f}"
    as_few = figure(ours / fewest if ours and fewest else None)
    peak = peak_memory(contest.replay(programs[0], contest.empty))
    return [kind, f"{count}", figure(ours), as_few, *others, tcpdump, start, peak], ours


def main():
    parser = argparse.ArgumentParser(description="Measures the program as rulesets grow.")
    parser.add_argument("--beside", type=Path, nargs="*", default=[], help="other builds of the program")
    parser.add_argument("--kinds", nargs="+", choices=KINDS, default=list(KINDS))
    parser.add_argument("--rules", type=int, nargs="+", help="in place of the numbers that each kind has")
    parser.add_argument("--unchecked", action="store_true", help="the program may print what it likes")
    words = words_with_program(parser)
    programs = [words.program, *(program.resolve() for program in words.beside)]
    for program in programs[1:]:
        check_built(program)
    print_head(["kind", "rules", "s a million packets", "x fewest", *(f"{program.name}, s" for program in programs[1:]),
                "tcpdump, s", "start ms", "start MB"], left=1)
    with tempfile.TemporaryDirectory() as folder:
        for kind in words.kinds:
            fewest = None
            for count in words.rules or KINDS[kind]:
                contest = Contest(Path(folder), kind, count)
                cells, ours = row(contest, programs, kind, count, fewest)
                fewest = fewest or ours
                few = contest.written_capture("few.pcap", CHECKED_PACKETS)
                if not words.unchecked:
                    contest.check_program(programs[0], few)
                if contest.filter:
                    contest.check_tcpdump(few)
                print_row(cells)


if __name__ == "__main__":
    main()
