"""The bytes of a message, by the tables of the formats. All numbers are big-endian.

- A message is a header of 20 bytes, and then for each kind that has records a subheader of 4 and the records by rising
  number. A last subheader says that it ends.
- In a file it stands behind an IP header of 20 bytes.
"""

import socket

from captures.packets import checksum
from messages.message import DEL_C, HEADER, INS, IP_HEADER, KINDS, UPD_C

VERSION = 5
ACTIONS = {INS: 1, UPD_C: 4, DEL_C: 7}
END = 12
NOBODY = 0xFFFFFFFF
HAS_OFFER = 0x80
INTERNET = 2
INTERFACE_BYTES = 16


def number(value, width):
    return value.to_bytes(width, "big")


def rule_number(rule):
    return number(NOBODY if rule is None else rule, 4)


def peer(end):
    scale = 0 if end.offer is None else HAS_OFFER + end.offer
    return b"".join([bytes(8), number(end.low, 4), number(end.high, 4), bytes(4), number(end.window, 2), bytes(2),
                     number(end.code, 1), number(scale, 1), bytes(6)])


def key(ends):
    addresses = b"".join(number(address, 4) + bytes(12) for address, _ in ends)
    return addresses + b"".join(number(port, 2) for _, port in ends)


def insert(record):
    counts = b"".join(number(count, 8) for count in record.packets + record.bytes)
    return b"".join([
        number(record.number, 8), record.interface.ljust(INTERFACE_BYTES, b"\0"), key(record.wire), key(record.stack),
        peer(record.maker), peer(record.other), bytes(16), rule_number(record.rule), number(NOBODY, 4),
        rule_number(record.translation), number(record.age, 4), number(record.remaining, 4), counts,
        number(record.creator, 4), number(INTERNET, 1), number(record.protocol, 1), number(record.direction, 1),
        bytes(4), number(record.timeout, 1), bytes(2)])


def update(record):
    return b"".join([number(record.number, 8), peer(record.maker), peer(record.other), number(record.creator, 4),
                     number(record.remaining, 4), number(record.timeout, 1), bytes(3)])


def delete(record):
    return number(record.number, 8) + number(record.creator, 4)


SPELLED = {INS: insert, UPD_C: update, DEL_C: delete}


def subheader(action, count):
    return number(action, 1) + bytes(1) + number(count, 2)


def bare(message):
    """The message as a peer gets it."""
    parts = []
    for kind in KINDS:
        records = message.records()[kind]
        if records:
            parts += [subheader(ACTIONS[kind], len(records)), *map(SPELLED[kind], records)]
    parts.append(subheader(END, 1))
    rest = b"".join(parts)
    return number(VERSION, 1) + bytes(1) + number(HEADER + len(rest), 2) + message.checksum + rest


def ip_header(length, address):
    """The IP header before a message of `length` bytes, from an interface's address to the group of pfsync."""
    head = bytes.fromhex("4510") + number(IP_HEADER + length, 2) + bytes.fromhex("00004000fff0")
    ends = socket.inet_aton(address) + bytes.fromhex("e00000f0")
    return head + number(checksum(head + bytes(2) + ends), 2) + ends


def in_file(message, address):
    """The message as it stands in a file."""
    octets = bare(message)
    return ip_header(len(octets), address) + octets
