"""Runs on several interfaces, with the sizes of their messages and, of each state that is inserted, the number and the
name of the interface: that of the packet which made it. Behind the last interface the name is empty."""

from captures.packets import udp
from steps.rows import H, P
from steps.run import EIGHT, THREE, Run

BOUND, RULES = "set state-policy if-bound\n", "block in\npass out"
ASKED, REPLY = udp(H, 1000, P, 53), udp(P, 53, H, 1000)


def run_of(name, rules, *packets, interfaces=THREE):
    """A run whose packets stand each behind a second and a place."""
    return Run(name, rules, [(second, packet) for second, _, packet in packets], interfaces=interfaces,
               places=tuple(place for _, place, _ in packets))


def rows():
    # INS of two states, and UPD_C of one and of the other
    yield (run_of("one connection on two interfaces", BOUND + RULES, (0, 0, ASKED), (0, 1, ASKED), (1, 0, REPLY),
                  (2, 1, REPLY)), [532, 132, 132], [(1, b"em0"), (2, b"em1")])
    # a state for all is that of the interface on which it was made
    yield (run_of("a state for all interfaces", RULES, (0, 2, ASKED), (0, 0, REPLY), (0, 1, ASKED)), [290],
           [(1, b"em2")])
    yield (run_of("states of eight interfaces and behind them", BOUND + RULES, (0, 7, ASKED), (1, 8, ASKED),
                  (2, 255, ASKED), (3, 0, ASKED), interfaces=EIGHT), [290] * 4,
           [(1, b"em7"), (2, b""), (3, b""), (4, b"em0")])
