"""Random runs of which much is to be told: many states at once, short timeouts, rules with `no-sync` or `max`, and
translation.

Packets are drawn by the model's table of states before them.
"""

import random

from captures.frames import ICMP, TCP, UDP
from captures.packets import LINKTYPE_RAW
from expansions.options import TIMEOUT_SECONDS
from steps.random_runs import Packets, datagram_of, with_packets
from steps.run import Run
from tracking import cases

SEED = 20261128
RUNS = 600
PROTOCOLS = (UDP,) * 6 + (TCP,) * 4 + (ICMP, 47)
INSIDE_HOSTS, OUTSIDE_HOSTS = ("10.0.0.5", "10.0.0.6", "10.1.2.3"), ("198.51.100.7", "198.51.100.8", "203.0.113.9")
PORTS = range(1000, 1200)
SECONDS = (0, 0, 1, 2, 5, 10)
NO_SYNC = ("pass proto udp keep state (no-sync)", "pass in keep state (no-sync)", "pass proto tcp keep state (no-sync)",
           "pass quick from any port 1000:1040 keep state (no-sync)", "pass flags any keep state (no-sync)",
           "pass proto udp keep state (max 5, no-sync)")
# rules that decide on most packets
FIRST_RULES = ("pass",) * 3 + ("pass flags any",) * 3 + ("pass out", "pass no state", "pass flags any keep state (max 30)")
TRANSLATIONS = ("nat on em0 from any to any -> em0", "nat pass on em0 proto udp from any to any -> em0",
                "rdr on em0 from any to em0 port 1000:1100 -> 10.0.0.5 port 1000:*",
                "binat on em0 from 10.0.0.6 to any -> 192.0.2.9", "nat on em0 from any to any -> em0 port 50001:50050")


class Bursts(Packets):
    """Connections that begin together, move on together and end."""
    AT_DEADLINES = 0.01
    # as in Packets; with them the waits between packets, where the second one ends a burst
    SHAPES = (((4, 12, 1, 0), 5, (1,)), ((12, 6, 1, 0), 30, (1, 2)), ((20, 2, 0, 1), 100, (1, 10)),
              ((20, 4, 0, 0), 60, (1,)))

    def __init__(self, draw, run, table):
        super().__init__(draw, run, table)
        self.SHARES, bursting, waits = draw.choice(self.SHAPES)
        self.WAITS = (0,) * bursting + waits

    def first(self):
        draw = self.draw
        protocol = draw.choice(PROTOCOLS)
        inside = draw.choice(INSIDE_HOSTS), draw.choice(PORTS)
        outside = draw.choice(OUTSIDE_HOSTS), draw.choice(PORTS)
        if draw.random() < 0.3:
            inside = draw.choice(("192.0.2.1", "192.0.2.9", inside[0])), inside[1]
            source, destination = outside, inside
        else:
            source, destination = inside, outside
        packet = cases.first_packet(draw, "tcp", self.clock)
        return datagram_of(draw, protocol, source, destination, packet)

    def changed(self, datagram):
        return super().changed(datagram) if self.draw.random() < 0.2 else datagram


class Together(Bursts):
    """Connections that begin together, and whose states go together."""
    PAUSE = 200

    def __init__(self, draw, run, table):
        super().__init__(draw, run, table)
        self.SHARES = (1, 40, 0, 0)
        self.burst = draw.randint(150, 220)
        self.count = 0

    def second(self):
        """The packets of a burst are all at one second."""
        self.count += 1
        self.clock += 0 if self.count % self.burst else self.PAUSE
        return self.clock


def some_timeouts(draw):
    """The fewer are set, the longer states stay."""
    for name in draw.sample(sorted(TIMEOUT_SECONDS), draw.choice((0, 3, 14))):
        yield f"set timeout {name} {draw.choice(SECONDS)}"


def some_text(draw, timeouts):
    """The text of a ruleset."""
    yield from timeouts
    if draw.random() < 0.3:
        yield f"set hostid {draw.choice((2, 0x0A0B0C0D, 2**32 - 1))}"
    yield from draw.sample(TRANSLATIONS, draw.choice((0, 0, 1, 2)))
    yield draw.choice(FIRST_RULES)
    yield from draw.sample(NO_SYNC, draw.choice((0, 0, 1, 2)))


def some_run(draw, number):
    """One of few packets or many, or of many connections whose states go together."""
    if draw.random() < 0.25:
        packets, rules, count = Together, ("pass flags any",), draw.randint(240, 330)
    else:
        packets, rules = Bursts, some_text(draw, some_timeouts(draw))
        count = draw.choice((1, 2, draw.randint(3, 60), draw.randint(60, 300), draw.randint(150, 400)))
    text = "\n".join(rules) + draw.choice(("", "\n"))
    run = Run(f"random run with messages {number}", text, [], LINKTYPE_RAW, seed=draw.randbytes(32))
    return with_packets(draw, run, packets, count)


def runs(count=RUNS):
    """`count` runs, the same every time."""
    draw = random.Random(SEED)
    return (some_run(draw, number) for number in range(count))
