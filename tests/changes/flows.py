"""Which flow each packet of a run is of, as the command `diff` tells it: a second implementation, written from
docs/FORMATS.md, section "What another ruleset changes".

- A flow has a protocol, both ends and an interface. Packets either way are of one flow. The words for it are those of
  one of its packets, source first. The protocol has the name that pfctl has for it, or else its number.
- An end has a port if the packet is TCP or UDP, and no part of a packet.
- What is no IPv4 packet is of the flow `not-ip`, and what is too short is of the flow `short`.
- The interface is told if the run has several.
"""

import os
from typing import NamedTuple

from captures import merging
from captures.frames import view
from captures.model import read_header
from expansions.model import dotted
from listing.model import PROTOCOLS

# the words for what a record shows if that isn't a packet with two ends
WITHOUT_ENDS = {"skip": "not-ip", "short": "short"}


class Flow(NamedTuple):
    """What the packets of a flow have in common, and the words for the flow as one of them has it. The protocol's
    number and both ends, each an address and a port, are those of this packet, and None if it shows none. The name is
    that of its interface."""
    key: tuple
    words: str
    protocol: int | None = None
    source: tuple | None = None
    destination: tuple | None = None
    name: str = ""


def end_words(address, port):
    return dotted(address) if port is None else f"{dotted(address)}:{port}"


def flow_of(seen, mark):
    """The flow of what a record shows; the mark tells the interface."""
    if seen in WITHOUT_ENDS:
        words = WITHOUT_ENDS[seen] + mark
        return Flow((words,), words)
    source, destination = ends = tuple(zip((seen.source, seen.destination), seen.ports or (None, None)))
    words = [end_words(*end) for end in ends]
    protocol = PROTOCOLS.get(seen.protocol, str(seen.protocol))
    return Flow((protocol, frozenset(words), mark), f"{protocol} {' > '.join(words)}{mark}", seen.protocol, source,
                destination)


def names_of(case):
    """The names of the interfaces, by their places. Each byte of a name is a character."""
    return [os.fsencode(name).decode("latin-1") for name, _ in case.interfaces()]


def flows_of(captures, names):
    """The flows of the packets of captures, whose headers are accepted, in the order of a run. The names are those of
    the interfaces."""
    links = [read_header(capture).link for capture in captures]
    marks = [f" on {name}" if len(names) > 1 else "" for name in names]
    for place, record in merging.merged(list(map(merging.source_of, captures))).records:
        yield flow_of(view(links[place], record.frame), marks[place])._replace(name=names[place])
