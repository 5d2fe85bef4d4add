#!/usr/bin/env python3
"""Writes a capture of so many IPv4 packets, the same bytes on every run.

    make_capture.py N FILE

Of twelve packets seven have 40 bytes, one has 1500, and four have anything between. A little more than half
come in from two outside networks, the others go out from 10.0.0.0/8; 10000 packets make a second.
"""

import random
import struct
import sys

sys.dont_write_bytecode = True

from running import written

# found where running says
from captures.packets import ACK, capture_header, tcp, udp

OPENING = 1767261600
DIFFERENT = 6000
A_SECOND = 10000
# packets a write of the file
BLOCK = 20000


def some_packet(chance, inside, outside):
    """One packet between an inside and an outside address."""
    kind = chance.randrange(12)
    size = 40 if kind < 7 else 1500 if kind == 7 else chance.randint(41, 1499)
    near, far = (chance.choice(inside), chance.randint(1024, 65535)), (chance.choice(outside), 443)
    ends = (*near, *far) if chance.random() < 0.45 else (*far, *near)
    if size > 40 and chance.random() < 0.3:
        return udp(*ends, chance.randbytes(size - 28))
    return tcp(*ends, ACK, chance.getrandbits(32), chance.getrandbits(32), payload=chance.randbytes(size - 40))


def write_capture(count, file):
    """Writes the capture; the packets are drawn from some thousands that are built first."""
    chance = random.Random(1)
    inside = [f"10.{chance.randrange(256)}.{chance.randrange(256)}.{chance.randrange(256)}" for _ in range(400)]
    outside = [f"{net}.{host}" for net in ("198.51.100", "203.0.113") for host in range(1, 255)]
    packets = [some_packet(chance, inside, outside) for _ in range(DIFFERENT)]
    rests = [struct.pack("<II", len(packet), len(packet)) + packet for packet in packets]
    clock = struct.Struct("<II").pack
    file.write(capture_header())
    for start in range(0, count, BLOCK):
        numbers = range(start, min(start + BLOCK, count))
        file.write(b"".join([
            clock(OPENING + number // A_SECOND, number % A_SECOND * 100) + rest
            for number, rest in zip(numbers, chance.choices(rests, k=len(numbers)))]))


def main():
    if len(sys.argv) != 3:
        sys.exit(__doc__)
    written(sys.argv[2], write_capture, int(sys.argv[1]))


if __name__ == "__main__":
    main()
