"""Reads the written conversations, `conversations/*.txt`.

A conversation begins with its protocol (tcp, udp, icmp or other) and its name, as `tcp: a SYN sent twice`. These lines may
stand behind it:

- `state NUMBER WIRE STACK R T` says what else its packets share;
- `seconds` and 14 numbers set the timeouts;
- `after NAME` puts the packets of an earlier one before its own.

Each of its packets is a line. What it is expected to do is an indented line below: `mismatch`, `removed`, or the end of the
line of the state that it makes or changes, from the ends on.

A TCP packet is its direction, flags, sequence number and acknowledged number, and then words with numbers: `win`, `scale`,
`data` (the length of the payload), `length` (of the whole packet, where it isn't what follows from the others) and `at`, the
clock from here on. Flags are their first letters (C is CWR), or a point for none. Others are their direction, kind and
length, and `at`. A number may be `-` for zero, or a sum as `1000+67035`.
"""

import re
from typing import NamedTuple

from tracking.model import DEFAULT_SECONDS, ICMP, TCP, UDP, Conversation, Packet

PROTOCOLS = {"tcp": TCP, "udp": UDP, "icmp": ICMP, "other": 47}
FLAG_LETTERS = "FSRPAUEC"
KEY = "198.51.100.7:80,10.0.0.5:1000"
SUM = re.compile(r"\d+(\+\d+)*")


class Written(NamedTuple):
    """A written conversation and the lines that are expected."""
    name: str
    conversation: Conversation
    expected: list


def number(word):
    if word == "-":
        return 0
    if not SUM.fullmatch(word):
        raise SystemExit(f"no number: {word}")
    return sum(map(int, word.split("+")))


def options(words):
    """What stands in pairs of a word and a number."""
    return {name: number(value) for name, value in zip(words[::2], words[1::2], strict=True)}


def flags(letters):
    return sum(1 << FLAG_LETTERS.index(letter) for letter in letters if letter != ".")


def tcp_packet(direction, words, clock):
    letters, sequence, acknowledgement, *rest = words
    given = {"win": 0, "data": 0, "at": clock} | options(rest)
    scale = given.get("scale")
    length = given.get("length", 40 + given["data"] + 4 * (scale is not None))
    return Packet(direction, given["at"], length, "tcp", number(sequence), number(acknowledgement), flags(letters),
                  given["win"], scale, given["data"])


def packet_of(line, clock):
    direction, *words = line.split()
    if words[0] in ("udp", "echo", "error", "icmp", "fragment", "other"):
        given = {"at": clock} | options(words[2:])
        return Packet(direction, given["at"], number(words[1]), words[0])
    return tcp_packet(direction, words, clock)


class Draft:
    """A conversation that is read line by line."""

    def __init__(self, line):
        protocol, self.name = line.split(": ", 1)
        self.shared = [1, PROTOCOLS[protocol], KEY, KEY, 0, None, DEFAULT_SECONDS]
        self.packets = []
        self.expected = []
        self.maker = None

    def share(self, words):
        shared, wire, stack, *rules = words
        self.shared = [number(shared), self.shared[1], wire, stack,
                       *(None if rule == "-" else number(rule) for rule in rules), self.shared[6]]

    def start(self, line):
        identifier, protocol, wire, stack, *rules, _ = self.shared
        first, second = ("-" if rule is None else rule for rule in rules)
        return f"{identifier} {protocol} {self.maker} {wire} {stack} r={first} t={second} {line}"

    def expect(self, line):
        """What the last packet is expected to do."""
        if self.maker is None:
            self.maker = self.packets[-1].direction
            line = self.start(line)
        elif line == "removed":
            self.maker = None
        elif line != "mismatch":
            line = f"touched {self.start(line)}"
        self.expected.append(line)

    def follow(self, earlier):
        self.shared = list(earlier.shared)
        self.packets = list(earlier.packets)
        self.expected = list(earlier.expected)
        self.maker = earlier.maker

    def take(self, line, drafts):
        """Takes a line behind the first."""
        word, _, rest = line.partition(" ")
        if line.startswith(" "):
            self.expect(line.strip())
        elif word == "state":
            self.share(rest.split())
        elif word == "seconds":
            self.shared[6] = tuple(map(number, rest.split()))
        elif word == "after":
            self.follow(drafts[rest])
        else:
            clock = self.packets[-1].clock if self.packets else 0
            self.packets.append(packet_of(line, clock))

    def written(self):
        if len(self.packets) != len(self.expected):
            raise SystemExit(f"{self.name}: {len(self.packets)} packets and {len(self.expected)} expected lines")
        return Written(self.name, Conversation(*self.shared, self.packets), self.expected)


def read(paths):
    """The written conversations of these files, in order; lines that begin with # are left out."""
    drafts = {}
    for path in paths:
        draft = None
        for line in path.read_text().splitlines():
            if not line or line.startswith("#"):
                continue
            if line.split()[0] in (f"{protocol}:" for protocol in PROTOCOLS):
                draft = Draft(line)
                if draft.name in drafts:
                    raise SystemExit(f"two conversations of the name {draft.name}")
                drafts[draft.name] = draft
            else:
                draft.take(line, drafts)
    return [draft.written() for draft in drafts.values()]
