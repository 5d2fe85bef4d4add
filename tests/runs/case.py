"""The form of a case of the command `run`, and what most cases share."""

from typing import NamedTuple

import building
from captures.packets import MICROSECONDS, NANOSECONDS, capture_header, record, udp

EXAMPLES = building.ROOT / "examples"
# the inside networks of the examples that don't have those of most cases
OFFICE_INSIDE = "198.51.100.64/27,192.0.2.1,203.0.113.2"
EXAMPLE_INSIDES = {"gateway": "198.51.100.64/27,192.0.2.1", "home": "10.0.0.0/24", "server": "192.0.2.1",
                   "router": "198.51.100.0/24,203.0.113.0/26", "office": OFFICE_INSIDE, "office_em0": OFFICE_INSIDE,
                   "office_em1": OFFICE_INSIDE}
FIRST_RULES = (b"block in all\npass in quick from 198.51.100.0/24 to any no state\n"
               b"block in from 198.51.100.7 to any\n")
INSIDE = "10.0.0.0/8"
# the seed of a run if none is told
NO_SEED = "0" * 64
PACKETS = [udp("198.51.100.7", 9, "192.0.2.1", 9), udp("203.0.113.9", 9, "192.0.2.1", 9),
           udp("10.0.0.5", 9, "198.51.100.7", 9)]
# every byte order with every magic
FORMS = [(order, magic) for order in "<>" for magic in (MICROSECONDS, NANOSECONDS)]


class Also(NamedTuple):
    """One more interface of a run, with its capture."""
    name: str
    address: str
    capture: bytes


class Case(NamedTuple):
    """A run of the program: what its files and its words hold. The inside may be left out, and so may the tap. The
    addresses are words of link-level addresses, each behind the name of its interface."""
    name: str
    rules: bytes
    inside: str | None
    capture: bytes
    interface: str = "em0"
    address: str = "192.0.2.1/24"
    seed: str = NO_SEED
    also: tuple = ()
    tap: str | None = None
    addresses: tuple = ()

    def interfaces(self):
        """Of each interface its name, and its address with the bits behind it."""
        return [(self.interface, self.address), *((each.name, each.address) for each in self.also)]

    def captures(self):
        """By the places of their interfaces."""
        return [self.capture, *(each.capture for each in self.also)]

    def addressed(self):
        """Of each interface its name, and the word of its link-level address, None for one that has none."""
        words = dict(self.addresses)
        return [(name, words.get(name)) for name, _ in self.interfaces()]


class Line(NamedTuple):
    """Words of a command line, and what is said of them besides that they don't fit."""
    words: tuple
    said: tuple = ()


class Written(NamedTuple):
    """A case, and what is written out of its outcome by hand: parts of it by their names. A file that is left as it was is
    None."""
    case: Case
    parts: dict


def wholly(case, verdicts, packets, count):
    """What is written out of a case whose capture is read to a clean end."""
    return Written(case, {"verdicts": verdicts, "packets": packets, "out": b"committed %d\n" % count, "err": b"",
                          "status": 0})


def refused(case, text, **files):
    """What is written out of a case that is refused, with the files that aren't as they were."""
    untouched = dict.fromkeys(EMPTIED)
    return Written(case, {"out": b"", "err": b"pfreplay: %s\n" % text, "status": 1, **untouched, **files})


EMPTIED = dict.fromkeys(("verdicts", "packets", "counters", "states", "messages"), b"")


def capture_of(packets, order="<", **header):
    """A capture of these packets, all at second 0."""
    records = [record(0, 0, packet, order=order) for packet in packets]
    return capture_header(order, **header) + b"".join(records)
