"""Random runs on several interfaces. Most packets of a connection come on the interface of its state, and some on
others; some are sent to the addresses of other interfaces, and a few come at a place behind the last interface. Most
runs have translation."""

from captures.packets import udp
from steps.place_texts import some_port_text, some_text, some_translated_text, some_way_text
from steps.random_runs import LINKS, Packets, drawn, with_packets
from steps.run import EIGHT, THREE, Run, seed_of
from steps.settings import PLAIN, plain
from steps.translation_runs import SEED_BYTES, TranslatedPackets

SEED = 20261129
# packets of a run
COUNTS = (60, 160)
# the interfaces of a run, unless it is of flows
FEW = (THREE, THREE[:2])


class PlacedPackets(Packets):
    # how often one from outside is sent to an own address
    TO_OWN = 0.3

    def host(self, is_inside):
        if not is_inside and self.draw.random() < self.TO_OWN:
            return self.draw.choice(self.run.interfaces).address
        return super().host(is_inside)


class PlacedTranslatedPackets(TranslatedPackets):
    SHARES, OWN_HOSTS = (12, 24, 8, 1), (*TranslatedPackets.OWN_HOSTS * 2, "203.0.113.2", "203.0.113.9", "198.18.0.1")


class FlowPackets(Packets):
    """Packets of two flows of UDP: some that make bound states, and others that are mostly on other interfaces, where
    they would make a state for all."""
    # seconds until the next, and how often it comes about when a state goes
    WAITS, AT_DEADLINES = (0,) * 12 + (1, 1, 3), 0.1

    def outward(self):
        return udp("10.0.0.6", self.draw.choice((1000, 1001)), "198.51.100.7", 53)

    def inward(self):
        return udp("198.51.100.7", 53, "10.0.0.6", self.draw.choice((1000, 1001)))

    # the packets that make bound states, and the others
    bound, other = outward, inward

    def datagram(self):
        if len(self.table.entries) < 3 or self.draw.random() < 0.3:
            self.place = self.draw.choice((0, 1, 2))
            return self.bound()
        self.place = self.draw.choice((0, 3, 4, 5))
        return self.other()


class PortFlowPackets(FlowPackets):
    """Those that make bound states are sent to ports, and the others need these ports to get out."""

    def bound(self):
        return udp("198.51.100.7", 53, "192.0.2.1", self.draw.choice((50001, 50002)))

    other = FlowPackets.outward


OF_FLOWS = ((some_way_text, FlowPackets), (some_port_text, PortFlowPackets))
KINDS = (*OF_FLOWS, *((some_text, PlacedPackets),) * 3, *((some_translated_text, PlacedTranslatedPackets),) * 8)


def some_run(draw, number, most, counts=COUNTS, settings=PLAIN):
    """A run of `most` packets at most, or of none if the ruleset has a fault. One of flows has no settings."""
    count, link, kind = min(draw.randint(*counts), most), draw.choice(LINKS), draw.choice(KINDS)
    interfaces, (make_text, packets) = EIGHT[:6] if kind in OF_FLOWS else draw.choice(FEW), kind
    run = Run(f"random run on {len(interfaces)} interfaces {number}", make_text(draw), [], link, interfaces,
              seed=seed_of(draw.choice(SEED_BYTES)))
    return with_packets(draw, run if kind in OF_FLOWS else settings.given(draw, run), packets, count)


def runs(packets, settings=plain):
    """Runs with `packets` packets in all, the same every time. `settings` draws those of each run."""
    found = drawn(lambda draw, *words: some_run(draw, *words, settings=settings(draw)), SEED, packets)
    return (run for run in found if run.records)
