#!/usr/bin/env python3
"""Measures what `max` on rules costs: beside the same rules without it, and if a rule has no room, by the number of
states.

    limits.py [PROGRAM] [--packets N] [--states K ..]
"""

import argparse
import sys
import tempfile
from pathlib import Path

sys.dont_write_bytecode = True

from make_capture import OPENING
from running import best_seconds, print_head, print_row, replay_command, words_with_program

# found where running says
from captures.packets import capture_header, record, udp

RULES = 1000
PACKETS = 500000
STATES = (1000, 100000, 999999)
# packets that find a rule without room
TURNED_AWAY = 200000
LIMIT = "set limit states 1000000\n"


def flow(number, port):
    """The first packet of a flow of its own to a port."""
    host, source = divmod(number, 60000)
    return udp(f"10.0.{host // 256}.{host % 256}", 1024 + source, "198.51.100.7", port)


def write_capture(path, packets):
    """A capture of these packets, all in one second."""
    with open(path, "wb") as file:
        file.write(capture_header())
        for packet in packets:
            file.write(record(OPENING, 0, packet))


def lines_of(folder, command):
    """The verdict lines of one run."""
    lines = folder / "lines"
    place = command.index("--verdicts") + 1
    best_seconds([*command[:place], str(lines), *command[place + 1:]])
    return lines.read_bytes()


class Making:
    """Rules of a port each, of which each packet makes a state, with `max` and without."""

    def __init__(self, folder, program, count):
        capture = folder / "making.pcap"
        write_capture(capture, (flow(number, 1 + number % RULES) for number in range(count)))
        self.count, self.folder = count, folder
        self.with_max = self.command(program, capture, "limited", f" (max {count})")
        self.without = self.command(program, capture, "unlimited", "")

    def command(self, program, capture, name, options):
        rules = self.folder / name
        rules.write_text(LIMIT + "block all\n" + "".join(
            f"pass out quick proto udp from any to any port {port} keep state{options}\n"
            for port in range(1, RULES + 1)))
        return replay_command(program, capture, rules)

    def row(self):
        ours, other = best_seconds(self.with_max, self.without)
        for command in (self.with_max, self.without):
            if lines_of(self.folder, command).count(b" pass rule ") != self.count:
                sys.exit("a packet makes no state")
        return [f"{RULES}", f"{self.count}", *(f"{best * 1e6 / self.count:.3f}" for best in (other, ours)),
                f"{ours / other:.3f}"]


class Full:
    """A rule that has as many states as it may have, beside many states of another rule."""

    def __init__(self, folder, program, states):
        self.folder, self.states = folder, states
        rules = folder / "full"
        rules.write_text(LIMIT + "block all\npass out quick proto udp from any to any port 1 keep state\n"
                         "pass out quick proto udp from any to any port 2 keep state (max 1)\n")
        self.commands = []
        # one packet makes the rule full; then come none, those that find no room, and those of which no other rule
        # holds
        for more, port in ((0, 2), (TURNED_AWAY, 2), (TURNED_AWAY, 3)):
            capture = folder / f"{more}-{port}.pcap"
            ports = [2, *[port] * more]
            write_capture(capture, (flow(number, 1 if number < states else ports[number - states])
                                    for number in range(states + 1 + more)))
            self.commands.append(replay_command(program, capture, rules))

    def row(self):
        few, full, other = best_seconds(*self.commands)
        for command in self.commands[1:]:
            if lines_of(self.folder, command).count(b" block rule r=0 ") != TURNED_AWAY:
                sys.exit("a packet isn't blocked")
        return [f"{self.states}", *(f"{(many - few) * 1e9 / TURNED_AWAY:.0f}" for many in (full, other))]


def main():
    parser = argparse.ArgumentParser(description="Measures what `max` on rules costs.")
    parser.add_argument("--packets", type=int, default=PACKETS)
    parser.add_argument("--states", type=int, nargs="+", default=list(STATES))
    words = words_with_program(parser)
    with tempfile.TemporaryDirectory() as folder:
        print_head(["rules", "packets that make a state", "us each without max", "us each with max", "ratio"])
        print_row(Making(Path(folder), words.program, words.packets).row())
        print()
        print_head(["states", "ns a packet that finds no room", "ns a packet that no such rule holds for"])
        for states in words.states:
            print_row(Full(Path(folder), words.program, states).row())


if __name__ == "__main__":
    main()
