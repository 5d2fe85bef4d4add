"""Messages to a standby as the models have them, with their sizes and the line that shows one.

A record INS says all of a state, UPD_C what moves in it, and DEL_C that it is gone.
"""

from typing import NamedTuple

from expansions.model import dotted
from tracking.model import Peer, dashed

INS, UPD_C, DEL_C = "INS", "UPD_C", "DEL_C"
# the kinds of records in the order in which they stand in a message
KINDS = (INS, UPD_C, DEL_C)
RECORD_BYTES = {INS: 242, UPD_C: 84, DEL_C: 12}
IP_HEADER, HEADER, SUBHEADER = 20, 20, 4
# bytes of a message with its IP header
MOST = 1500
DIRECTIONS = {"in": 1, "out": 2}


class Insert(NamedTuple):
    """A key is the end outside and the end inside, each an address and a port. Of packets and bytes the first number is
    of the maker's way."""
    number: int
    interface: bytes
    wire: tuple
    stack: tuple
    maker: Peer
    other: Peer
    rule: int | None
    translation: int | None
    age: int
    remaining: int
    packets: tuple
    bytes: tuple
    creator: int
    protocol: int
    direction: int
    timeout: int


class Update(NamedTuple):
    number: int
    maker: Peer
    other: Peer
    creator: int
    remaining: int
    timeout: int


class Delete(NamedTuple):
    number: int
    creator: int


class Message(NamedTuple):
    """The MD5 of the ruleset's text, and the records of each kind by rising number."""
    checksum: bytes
    inserts: tuple = ()
    updates: tuple = ()
    deletes: tuple = ()

    def records(self):
        """The records of each kind."""
        return dict(zip(KINDS, self[1:]))

    def numbers(self):
        """The numbers in the records of each kind that has any."""
        return {kind: [record.number for record in records] for kind, records in self.records().items() if records}

    def size(self):
        """With its IP header."""
        return size({kind: len(records) for kind, records in self.records().items()})

    def text(self):
        """In one line: `checksum=HEX`, and for each record `; KIND NAME=VALUE ..` with its fields as they are named
        here. Numbers are decimal, keys and peers as in the text of states, the interface in hexadecimal digits, a pair
        with a comma, and `-` stands for what isn't there."""
        records = (record_text(kind, record) for kind, records in self.records().items() for record in records)
        return "; ".join([f"checksum={self.checksum.hex()}", *records])


def size(counts):
    """The bytes of a message with these counts of records, with its IP header: there is a header, a subheader for
    each kind that has records, the records, and a subheader that ends it."""
    kinds = sum(SUBHEADER + count * RECORD_BYTES[kind] for kind, count in counts.items() if count)
    return IP_HEADER + HEADER + kinds + SUBHEADER


def key_text(key):
    return ",".join(f"{dotted(address)}:{port}" for address, port in key)


def value_text(name, value):
    if name in ("wire", "stack"):
        return key_text(value)
    if name == "interface":
        return value.hex() or "-"
    if isinstance(value, Peer):
        return value.line()
    return ",".join(map(str, value)) if isinstance(value, tuple) else str(dashed(value))


def record_text(kind, record):
    return " ".join([kind, *(f"{name}={value_text(name, value)}" for name, value in record._asdict().items())])
