"""The lines of the states that a run has left, as a standby is to print them that took its messages.

A standby doesn't know the translation rule, the clocks and the counts, nor the interface to which a state is bound, and
prints the code of the timeout. The code follows from a line of the run: the first timeout holds until a second packet counts, and then the ends tell it. States
of rules with `no-sync` aren't held.
"""

from messages.events import timeout_of
from tracking.model import ICMP, TCP, UDP, Peer, State

KINDS = {TCP: "tcp", UDP: "udp", ICMP: "echo"}


def number_or_none(word):
    return None if word == "-" else int(word)


def peer_of(word):
    code, low, high, window, offer = word.split("/")
    return Peer(int(code), int(low), int(high), int(window), number_or_none(offer))


def state_of(fields):
    """The state of a line of a run."""
    *_, maker, other, made, deadline, packets, octets, packets_back, octets_back = fields
    counts = tuple(map(int, (packets, octets, packets_back, octets_back)))
    kind = KINDS.get(int(fields[1]), "other")
    return State(fields[2], kind, peer_of(maker), peer_of(other), int(made), int(deadline), counts)


def is_told(fields, ruleset):
    """Whether a standby is told of the state of a line."""
    rule = number_or_none(fields[5].removeprefix("r="))
    return rule is None or not ruleset.rules.filter[rule].no_sync


def held_line(fields):
    """The line of a standby for that of a run."""
    *_, maker, other, _, _, _, _, _, _ = fields
    return " ".join([*fields[:6], maker, other, str(timeout_of(state_of(fields)))])


def fields_of(states):
    """The fields of each line of the text of the states that a run has left, but for the interface."""
    return [line.partition(" i=")[0].split(" ") for line in states.decode().splitlines()]


def held_lines(states, ruleset):
    """The lines of a standby for the text of the states that a run of a ruleset has left."""
    return [held_line(fields) for fields in fields_of(states) if is_told(fields, ruleset)]
