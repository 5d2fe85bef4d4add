"""What the command `show` prints of a packet as text and as JSON: a second implementation, written from
docs/FORMATS.md, section "Packets one by one".
"""

import os
from datetime import datetime, timedelta

from changes.flows import end_words
from expansions.model import dotted
from listing.model import PROTOCOLS, spelled
from showing.packets import NOT_IP, SHORT

# of TCP, from the lowest bit on
FLAGS = "FSRPAUEW"
MICROSECOND = 1000
EPOCH = datetime(1970, 1, 1)
WITHOUT_ENDS = {NOT_IP: "not-ip", SHORT: "short"}
# what JSON has of a packet with two ends
OF_ENDS = ("protocol", "source", "destination", "flags", "icmp_type", "icmp_code", "fragment", "length")


# Text

def time_words(packet):
    """When a packet was captured. A fraction of a second or more is carried."""
    digits = 9 if packet.has_nanoseconds() else 6
    fraction, *_ = packet.fields()
    carried, rest = divmod(fraction, 10**digits)
    seconds = EPOCH + timedelta(seconds=packet.record.seconds + carried)
    return f"{seconds:%Y-%m-%d %H:%M:%S}.{rest:0{digits}}"


def flag_letters(flags):
    return "".join(letter for place, letter in enumerate(FLAGS) if flags >> place & 1)


def protocol_words(protocol):
    return PROTOCOLS.get(protocol, str(protocol))


def what_words(packet):
    """What a packet shows."""
    seen = packet.seen()
    if seen in WITHOUT_ENDS:
        return WITHOUT_ENDS[seen]
    ports = seen.ports or (None, None)
    source, destination = map(end_words, (seen.source, seen.destination), ports)
    flags = "" if seen.flags is None else f" flags {flag_letters(seen.flags) or 'none'}"
    icmp = "" if seen.icmp is None else " type {} code {}".format(*seen.icmp)
    return (f"{protocol_words(seen.protocol)} {source} > {destination}{flags}{icmp}{' fragment' * seen.is_fragment} "
            f"length {packet.total()}")


def rule_words(said, rules):
    """The rules that a line names."""
    words = "no rule" if said.rule is None else f"rule {said.rule} L{rules.filter[said.rule].line}"
    if said.translation is None:
        return words
    kind, line = rules.translation[said.translation]
    return f"{words}, {kind} {said.translation} L{line}"


def text_line(packet, said, rules, name):
    """The line of a packet, with its newline; the name is that of its interface."""
    state = "" if said.state is None else f", state {said.state}"
    direction = "" if said.direction == "-" else f" {said.direction}"
    before = f"{time_words(packet)} {rule_words(said, rules)} ({said.reason}{state}): {said.verdict}{direction} on "
    return before.encode() + os.fsencode(name) + f": {what_words(packet)}, packet {packet.number}\n".encode()


# JSON

def end_object(address, port):
    return {"address": dotted(address), "port": port}


def ends_of(packet):
    """What JSON has of the headers, by its names."""
    seen = packet.seen()
    if seen in WITHOUT_ENDS:
        return dict.fromkeys(OF_ENDS)
    source, destination = map(end_object, (seen.source, seen.destination), seen.ports or (None, None))
    flags = None if seen.flags is None else flag_letters(seen.flags)
    return dict(zip(OF_ENDS, (seen.protocol, source, destination, flags, *(seen.icmp or (None, None)), seen.is_fragment,
                              packet.total()), strict=True))


def object_of(packet, said, rules, name):
    """What the object of a packet has, by its names and in their order. Each byte of a name is a character."""
    fraction, *_ = packet.fields()
    line = None if said.rule is None else rules.filter[said.rule].line
    translation_line = None if said.translation is None else rules.translation[said.translation].line
    return {"number": packet.number, "seconds": packet.record.seconds,
            "nanoseconds": fraction * (1 if packet.has_nanoseconds() else MICROSECOND),
            "interface": os.fsencode(name).decode("latin-1"),
            "direction": None if said.direction == "-" else said.direction, "verdict": said.verdict,
            "reason": said.reason, "rule": said.rule, "line": line, "translation": said.translation,
            "translation_line": translation_line, "state": said.state, **ends_of(packet),
            "captured": len(packet.record.frame)}


def json_line(packet, said, rules, name):
    """The object of a packet, with its newline."""
    return f"{spelled(object_of(packet, said, rules, name))}\n".encode()
