"""What becomes of the states of a run, as events of which a standby is told.

- Each packet gives the removals of the states that go before it, by deadline and then by number. Then it gives its own
  event, if it makes, touches or removes a state.
- A state that a rule with `no-sync` keeps gives none at any time. Every other state does, also one that a translation
  makes where the filter has no rule, or a rule without state.
- An event has the clock of its packet, and the state as the packet leaves it; a removed one is as it was.
"""

from typing import NamedTuple

import tracking.model
from tracking.model import Peer

MADE, TOUCHED, REMOVED = "made", "touched", "removed"
FIRST_TIMEOUTS = {"tcp": tracking.model.TCP_FIRST, "udp": tracking.model.UDP_FIRST, "echo": tracking.model.ICMP_FIRST,
                  "other": tracking.model.OTHER_FIRST}
DATAGRAM_TIMEOUTS = {"udp": (tracking.model.UDP_SINGLE, tracking.model.UDP_MULTIPLE),
                     "other": (tracking.model.OTHER_SINGLE, tracking.model.OTHER_MULTIPLE)}


class State(NamedTuple):
    """What a standby may be told of a state, and whether it is told."""
    number: int
    is_told: bool
    protocol: int
    direction: str
    # the end outside and the end inside, each an address and a port
    wire: tuple
    stack: tuple
    maker: Peer
    other: Peer
    rule: int | None
    translation: int | None
    made: int
    deadline: int
    # packets and bytes the maker's way and the other way
    counts: tuple
    # its code
    timeout: int
    # the place of the interface on which it was made
    interface: int = 0


class Event(NamedTuple):
    kind: str
    number: int
    state: State
    clock: int


class Happening(NamedTuple):
    """What a packet does to states: those that go before it, in any order, and a pair of a kind and a state, or
    None."""
    clock: int
    gone: list
    change: tuple | None


class Packet(NamedTuple):
    """The clock at a packet, and its events."""
    clock: int
    events: list


def by_deadline(states):
    """The order in which states go whose time has come."""
    return sorted(states, key=lambda state: (state.deadline, state.number))


def packet_of(happening):
    changes = [(REMOVED, state) for state in by_deadline(happening.gone)]
    changes += [happening.change] if happening.change else []
    return Packet(happening.clock, [Event(kind, state.number, state, happening.clock) for kind, state in changes
                                    if state.is_told])


# Those of a run of the steps

def timeout_of(state):
    """The code of the timeout that a state of the tracking waits for. It has its first one until a second packet
    counts."""
    if state.counts[0] + state.counts[2] == 1:
        return FIRST_TIMEOUTS[state.kind]
    if state.kind == "tcp":
        return tracking.model.tcp_timeout(state.maker.code, state.other.code)
    if state.kind == "echo":
        return tracking.model.ICMP_ERROR
    single, multiple = DATAGRAM_TIMEOUTS[state.kind]
    return multiple if state.maker.code == state.other.code == tracking.model.MULTIPLE else single


def state_of(ruleset, entry):
    """A state of the table."""
    rule, state = entry.rule, entry.state
    is_told = rule is None or not ruleset.rules.filter[rule].no_sync
    return State(entry.number, is_told, entry.wire.protocol, state.direction, entry.wire[1:], entry.stack[1:],
                 state.maker, state.other, rule, entry.translation, state.made, state.deadline, state.counts,
                 timeout_of(state), entry.interface)


class Followed:
    """The states of a run as they are behind its packets so far."""

    def __init__(self, ruleset):
        self.ruleset = ruleset
        self.states = {}

    def happening(self, step):
        """What the next packet of the run does to them."""
        gone = [self.states.pop(number) for number in step.purged]
        if step.outcome.change is None:
            return Happening(step.clock, gone, None)
        kind, changed = step.outcome.change
        if kind == REMOVED:
            return Happening(step.clock, gone, (REMOVED, self.states.pop(changed)))
        state = self.states[changed.number] = state_of(self.ruleset, changed)
        return Happening(step.clock, gone, (kind, state))

