"""Random runs with translation: connections from the inside and to own addresses, their packets both ways, and errors
about packets as they are written."""

import tracking.cases
from captures.frames import ICMP, TCP, UDP
from captures.packets import ipv4, summed_message
from rulesets.tree import Network
from steps.model import WIRE
from steps.random_runs import LINKS, Packets, datagram_of, drawn, ends_of, with_packets
from steps.run import INSIDE, INTERFACE, Run, seed_of
from steps.settings import PLAIN, plain
from steps.translation_texts import (INSIDE_HOSTS, INSIDE_PORTS, OUTSIDE_HOSTS, OWN_HOSTS, OWN_PORTS, SERVER_PORTS,
                                     some_text)

SEED = 20261125
# packets of a run
COUNTS = (60, 140)
# bytes of which each is all of a seed
SEED_BYTES = (0, 0, 1, 127, 255)
# the interface's own address is inside too, or one of two hosts isn't
OTHER_INSIDES = ((*INSIDE, Network(0xC0000201, 32)), (Network(0x0A000005, 32),))
PROTOCOLS = (UDP,) * 3 + (TCP,) * 3 + (ICMP,) * 4 + (47,) * 6
IDENTIFIERS = (7, 8, 9, 1000)
# of own addresses, for packets that go out behind their translation
WIRE_PORTS = (80, 1000, 50001, 50001, 50002, 50003)
ERROR_TYPES = (3, 3, 3, 11, 11, 12, 12, 5)
ROUTERS_OUTSIDE, ROUTERS_INSIDE = ("203.0.113.9", "198.51.100.7"), ("10.9.9.9", "10.0.0.6")


def without_sum(datagram):
    """A UDP datagram without IP options, which says that it has no checksum."""
    return datagram[:26] + b"\0\0" + datagram[28:] if datagram[9] == UDP else datagram


class TranslatedPackets(Packets):
    """The packets of a run with translation: each is drawn by the table as it is then."""
    SHARES = (8, 14, 14, 1)
    WAITS, AT_DEADLINES = (0,) * 24 + (1, 1, 3, 10), 0.03
    QUOTED_BADLY = 0.06

    # to which packets are sent from outside, and how often the first of a connection is. On the wire only these are
    # translated
    OWN_HOSTS, TO_OWN, TO_OWN_ON_WIRE = OWN_HOSTS, 0.45, 0.7

    def __init__(self, draw, run, table):
        super().__init__(draw, run, table)
        # of most connections, so that they stand in each other's way
        self.protocol = draw.choice((UDP, UDP, TCP, TCP, ICMP, ICMP, ICMP))

    def between(self, protocol, source, destination):
        """A packet between two ends."""
        packet = tracking.cases.first_packet(self.draw, "tcp", self.clock)
        datagram = datagram_of(self.draw, protocol, source, destination, packet)
        return without_sum(datagram) if self.draw.random() < 0.05 else datagram

    def first(self):
        """A packet from the inside to a server outside, or from there to an own address; now and then between any
        two."""
        draw = self.draw
        if draw.random() < 0.05:
            return super().first()
        protocol = self.protocol if draw.random() < 0.6 else draw.choice(PROTOCOLS)
        outside = draw.choice(OUTSIDE_HOSTS), draw.choice(SERVER_PORTS)
        if draw.random() < (self.TO_OWN_ON_WIRE if self.run.tap == WIRE else self.TO_OWN):
            source, destination = outside, (draw.choice(self.OWN_HOSTS), draw.choice(OWN_PORTS))
        elif self.run.tap == WIRE and draw.random() < 0.6:
            source, destination = (draw.choice(self.OWN_HOSTS), draw.choice(WIRE_PORTS)), outside
        else:
            source, destination = (draw.choice(INSIDE_HOSTS), draw.choice(INSIDE_PORTS)), outside
        if protocol == ICMP:
            source = source[0], draw.choice(IDENTIFIERS)
        return self.between(protocol, source, destination)

    def told_of(self):
        """A state for an error to tell of, mostly a translated one; None where there is none. The protocol is drawn
        first, so that each comes up."""
        entries = self.table.by_number()
        chosen = [entry for entry in entries
                  if entry.translation is not None and entry.wire.protocol in (TCP, UDP, ICMP)]
        if not chosen or self.draw.random() < 0.1:
            return self.draw.choice(entries) if entries else None
        protocol = self.draw.choice(sorted({entry.wire.protocol for entry in chosen}))
        return self.draw.choice([entry for entry in chosen if entry.wire.protocol == protocol])

    def error(self):
        """An ICMP error about a packet of a state's connection as it left the firewall; now and then any error."""
        draw, entry = self.draw, self.told_of()
        if entry is None or draw.random() < 0.1:
            return super().error()
        self.go_near(entry)
        direction = draw.choice(("in", "out"))
        self.goes_out = direction == "out"
        key = self.shown(entry, direction)
        outside, inside = ends_of(key)
        embedded = self.between(key.protocol, *((inside, outside) if direction == "in" else (outside, inside)))
        quoted = embedded if draw.random() < 0.2 else self.beginning(embedded)
        # the error's own end is mostly that of the embedded packet
        own = inside[0] if draw.random() < 0.6 else draw.choice(self.OWN_HOSTS if direction == "in" else ROUTERS_INSIDE)
        ends = (draw.choice(ROUTERS_OUTSIDE), own) if direction == "in" else (own, outside[0])
        return ipv4(*ends, ICMP, summed_message(draw.choice(ERROR_TYPES), draw.choice((0, 1, 3)), bytes(4) + quoted))


def some_run(draw, number, most, seed, counts=COUNTS, interfaces=(INTERFACE,), settings=PLAIN):
    """A run of `most` packets at most, under a seed."""
    rules, link = some_text(draw), draw.choice(LINKS)
    count = min(draw.randint(*counts), most)
    inside = INSIDE if draw.random() < 0.9 else draw.choice(OTHER_INSIDES)
    run = Run(f"random run with translation {number}", rules, [], link, interfaces, inside, seed)
    return with_packets(draw, settings.given(draw, run), TranslatedPackets, count)


def runs(packets, settings=plain):
    """Runs with `packets` packets in all, the same every time. `settings` draws those of each run, and then its seed is
    drawn."""
    def seeded_run(draw, *words):
        drawn_settings = settings(draw)
        return some_run(draw, *words, seed_of(draw.choice(SEED_BYTES)), settings=drawn_settings)

    return drawn(seeded_run, SEED, packets)
