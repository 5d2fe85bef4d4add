#!/usr/bin/env python3
"""Measures how long rulesets take to be read, and how much memory, as they grow.

    reading.py [PROGRAM WORDS..]

Takes the program answers by its word `rulesets` unless it is given another. It prints for each kind of text, at lengths
that double, the nanoseconds and the bytes of memory that a byte of text takes. Both should stay as they are. The program
answers isn't proved, and some ten times slower than one that is.
"""

import sys
import tempfile

sys.dont_write_bytecode = True

from running import used

# found where running says
import building

LENGTHS = [1 << n for n in (18, 19, 20, 21, 22)]
RULE = b"pass in quick on em0 proto { tcp, udp } from { 10.0.0.0/8, !<bad> } to any port { 80, 443 } keep state\n"
ENTRY = b"10.0.0.0/8, "


def repeated(piece, length, before=b"", behind=b""):
    """As many of the pieces as fit into the length, between what stands before and behind."""
    return before + piece * ((length - len(before) - len(behind)) // len(piece)) + behind


KINDS = {
    "rules": lambda length: repeated(RULE, length),
    "one list": lambda length: repeated(ENTRY, length, b"table <t> { ", b"10.0.0.1 }\n"),
    "anchors": lambda length: repeated(b'anchor "a" {\npass all\nblock in\n}\n', length),
    "one word": lambda length: b"a" * length,
    "open braces": lambda length: b"{" * length,
    "comment": lambda length: b"#" + b"x" * (length - 1),
    "newlines": lambda length: b"\n" * length,
}


def run(command, text):
    """The seconds and the greatest memory that the program takes for a text."""
    with tempfile.TemporaryFile() as given:
        given.write(len(text).to_bytes(4, "big") + text)
        given.seek(0)
        passed, usage = used(command, given)
    return passed, usage.ru_maxrss * 1024


def measure(command):
    idle, _ = min(run(command, b"") for _ in range(5))
    print(f"{'text':>12} {'KiB':>6} {'ms':>8} {'ns a byte':>10} {'memory a byte':>14}")
    for name, make in KINDS.items():
        for length in LENGTHS:
            text = make(length)
            seconds, memory = min(run(command, text) for _ in range(5))
            spent = max(seconds - idle, 0)
            print(f"{name:>12} {length >> 10:>6} {spent * 1e3:8.1f} {spent * 1e9 / length:10.1f} "
                  f"{memory / length:14.1f}")


def main():
    measure(sys.argv[1:] or building.answers("rulesets"))


if __name__ == "__main__":
    main()
