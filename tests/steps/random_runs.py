"""Random runs: what a packet holds is drawn by the model's table of states before it.

So packets often belong to a connection or tell of one, and come about when its state goes.
"""

import random
import socket

import tracking.model
import tracking.cases
from captures.frames import ICMP, TCP, UDP
from captures.model import Refused
from captures.packets import (ACK, ETHER_ARP, ETHER_IPV4, ETHER_IPV6, FIN, IGMP, LINKTYPE_ETHERNET, LINKTYPE_LOOPBACK,
                              LINKTYPE_RAW, RST, SYN, echo, ethernet, ipv4, loopback, summed_message, tcp, udp)
from expansions.hosts import Interface
from expansions.model import dotted
from rulesets.tree import Network
from steps.filter_texts import INSIDE_HOSTS, OUTSIDE_HOSTS, PORTS
from steps.model import WIRE
from steps.replay import Record, steps_of
from steps.run import INSIDE, INTERFACE, Run
from steps.settings import OTHER_ADDRESSES, OWN_ADDRESSES, PLAIN, plain
from steps.states import StateTable
from steps.texts import some_text

SEED = 20261123
# packets of a run
COUNTS = (20, 60)
LINKS = (LINKTYPE_RAW,) * 4 + (LINKTYPE_ETHERNET, LINKTYPE_LOOPBACK)
IPV6 = bytes([0x60]) + bytes(39)
# frames that carry no IPv4 packet
STRANGE_FRAMES = {
    LINKTYPE_RAW: (IPV6, b"", b"\x35"),
    LINKTYPE_ETHERNET: (ethernet(ETHER_ARP, bytes(28)), ethernet(ETHER_IPV6, IPV6), ethernet(ETHER_IPV4, IPV6, (1, 2)),
                        bytes(13)),
    LINKTYPE_LOOPBACK: (loopback(IPV6, 30), b"\2\0\0", b"\0\0\2\0" + IPV6),
}
FRAGMENT_FIELDS = (0x2000, 1, 0x2001, 0x1FFF, 185)
IP_OPTIONS = (bytes([1, 1, 1, 1]), bytes([148, 4, 0, 0]), bytes([0, 0, 0, 0]))
# windows are scaled by option 3; the others are read over, or end the reading
SCALE_PREFIXES = (b"", b"", b"\1", b"\2\4\5\xb4", b"\4\2", b"\3\4\7\7", b"\3\3\5", b"\0", b"\0\2", b"\2\1", b"\5\x30")
# places and bytes by which the packet that an error quotes is spoilt
QUOTED_CHANGES = ((0, b"\x65"), (0, b"\x44"), (0, b"\x46"), (2, b"\0\0"), (6, b"\0\1"), (6, b"\x20\0"), (9, b"\x2f"),
                  (20, b"\x0d"))
ERROR_TYPES = (3, 3, 3, 11, 11, 12, 4, 5)
MESSAGES = (3, 4, 5, 9, 11, 12, 13, 14)
PROTOCOLS = (TCP,) * 5 + (UDP,) * 4 + (ICMP,) * 2 + (47, IGMP)
IDENTIFIERS = (7, 8, 80)
LONGEST = 65535
LAST_SECOND = 2**32 - 1
# networks of the inside, and interfaces, for runs that don't have those of most
OTHER_INSIDES = ((), (Network(0, 0),), (Network(0x0A0000FF, 24), Network(0xC6336407, 32)), (Network(0x0A000005, 32),),
                 (Network(0x0A000006, 31), Network(0xC0000201, 24)))
OTHER_INTERFACES = (Interface("em1", "10.0.0.1", 8), Interface("a2345678901234.", "198.51.100.8", 31))


def with_field(datagram, place, number):
    """The bytes of a datagram with two of them changed."""
    return datagram[:place] + number.to_bytes(2) + datagram[place + 2:]


def with_options(draw, datagram):
    """A datagram whose header had no options, with some."""
    total = min(int.from_bytes(datagram[2:4], "big") + 4, LONGEST)
    return b"\x46" + with_field(datagram, 2, total)[1:20] + draw.choice(IP_OPTIONS) + datagram[20:]


def segment(draw, source, destination, packet):
    """A TCP packet; the bytes that it carries weren't captured."""
    options = b""
    if packet.scale is not None:
        options = draw.choice(SCALE_PREFIXES) + bytes([3, 3, packet.scale])
        options += bytes(-len(options) % 4)
    datagram = tcp(*source, *destination, packet.flags, packet.sequence, packet.acknowledgement, packet.window, options)
    return with_field(datagram, 2, min(len(datagram) + packet.payload, LONGEST))


def polite(draw, sender, other, packet):
    """A TCP packet as a host would send it: it goes on where its sender was, and acknowledges what came."""
    flags = draw.choice((ACK, ACK, ACK, ACK, FIN | ACK, FIN | ACK, RST))
    if sender.code == tracking.model.CLOSED:
        flags = SYN | ACK
    elif other.code == tracking.model.CLOSED or min(sender.code, other.code) >= tracking.model.FIN_WAIT_2:
        flags = SYN
    return packet._replace(
        sequence=sender.low or draw.choice((1, 5000)), acknowledgement=other.low, flags=flags,
        window=draw.choice((0, 1000, 65535)), scale=draw.choice((None, 0, 2, 14)) if flags & SYN else None,
        payload=0 if flags & SYN else draw.choice((0, 0, 1, 100, 1000)))


def datagram_of(draw, protocol, source, destination, packet):
    """A packet of a protocol between two ends; what it says as TCP stands in `packet`."""
    if protocol == TCP:
        return segment(draw, source, destination, packet)
    if protocol == UDP:
        return udp(*source, *destination, bytes(draw.choice((0, 0, 5))))
    if protocol == ICMP:
        return echo(source[0], destination[0], draw.random() < 0.5, source[1], 1)
    return ipv4(source[0], destination[0], protocol, bytes(draw.choice((0, 12))))


def ends_of(key):
    """The end outside and the end inside of a key, as packets are built with them."""
    return tuple((dotted(address), port) for address, port in (key.outside, key.inside))


class Packets:
    """The packets of a run: each is drawn by the table as it is then."""
    # how often one of a state's connection comes on another interface than made it, and one behind the last interface
    ELSEWHERE, BEHIND = 0.3, 0.04
    # how often a packet belongs to a connection, begins one, tells of one, or is another message of ICMP
    SHARES = (12, 4, 4, 1)
    # seconds until the next, and how often it comes about when a state goes
    WAITS, AT_DEADLINES = (0,) * 8 + (1, 1, 3, 10), 0.15
    # how often a packet on the wire has the key of the wire, and how often a frame is sent as its packet is meant to go
    BEHIND_TRANSLATION, SENT_ALIKE = 0.9, 0.85
    # how often an error doesn't quote just the header and 8 bytes of a packet; half as often it quotes others
    QUOTED_BADLY = 0.3

    def __init__(self, draw, run, table):
        self.draw = draw
        self.run = run
        self.table = table
        self.clock = draw.choice((0, 0, 1000, 1000, 1000, LAST_SECOND - 100))
        self.earlier = []
        # of the packet that is drawn: the place of its interface, and whether it is meant to go out, None if its source
        # tells that
        self.place = 0
        self.goes_out = None

    # Places

    def go_anywhere(self):
        """The packet comes on any interface."""
        count = len(self.run.interfaces)
        if count > 1:
            self.place = self.draw.randrange(count)
            if self.draw.random() < self.BEHIND:
                self.place = self.draw.choice((count, 255))

    def go_near(self, entry):
        """It comes mostly on the interface on which a state was made."""
        if len(self.run.interfaces) > 1 and self.draw.random() > self.ELSEWHERE:
            self.place = entry.interface

    # Sides

    def shown(self, entry, direction):
        """The key of a state that a packet of a direction shows; on the wire now and then that of the stack."""
        is_of_wire = direction == "in" or self.run.tap == WIRE and self.draw.random() < self.BEHIND_TRANSLATION
        return entry.wire if is_of_wire else entry.stack

    def is_from_inside(self, datagram):
        """Whether a packet is meant to go out, as far as its source says it."""
        own = [socket.inet_aton(each.address) for each in self.run.interfaces] if self.run.tap == WIRE else []
        return datagram[12:13] == b"\x0a" or datagram[12:16] in own

    def sender(self, datagram):
        """Who sent the frame of a packet: mostly the interface on which it was captured if it is meant to go out, and
        mostly another one if not. Without link-level addresses all frames have one sender."""
        if not self.run.addresses:
            return bytes(6)
        goes_out = self.is_from_inside(datagram) if self.goes_out is None else self.goes_out
        own = self.run.addresses[self.place] if self.place < len(self.run.addresses) else None
        if own and goes_out == (self.draw.random() < self.SENT_ALIKE):
            return own
        return self.draw.choice((*OWN_ADDRESSES[:len(self.run.interfaces)], *OTHER_ADDRESSES))

    # Datagrams

    def host(self, is_inside):
        return self.draw.choice(INSIDE_HOSTS[:2] if is_inside else OUTSIDE_HOSTS[:4])

    def first(self):
        """A packet between any two ends."""
        draw = self.draw
        protocol = draw.choice(PROTOCOLS)
        source, destination = draw.choice(((True, False),) * 5 + ((False, True),) * 4 + ((True, True), (False, False)))
        ports = [draw.choice(IDENTIFIERS)] * 2 if protocol == ICMP else draw.choices(PORTS[:3], k=2)
        packet = tracking.cases.first_packet(draw, "tcp", self.clock)
        return datagram_of(draw, protocol, (self.host(source), ports[0]), (self.host(destination), ports[1]), packet)

    def message(self):
        """An ICMP message that is no echo, and quotes nothing."""
        quoted = bytes(self.draw.choice((4, 20)))
        return ipv4(self.host(self.draw.random() < 0.5), self.host(self.draw.random() < 0.5), ICMP,
                    summed_message(self.draw.choice(MESSAGES), self.draw.choice((0, 1)), quoted))

    def following(self):
        """A packet of the connection of a state, either way."""
        draw = self.draw
        entries = self.table.by_number()
        if not entries:
            return self.first()
        entry = draw.choice(entries)
        self.go_near(entry)
        direction = draw.choice(("in", "out"))
        self.goes_out = direction == "out"
        # a packet is looked up on the side on which it was captured
        outside, inside = ends_of(self.shown(entry, direction))
        source, destination = (outside, inside) if direction == "in" else (inside, outside)
        packet = tracking.model.Packet(direction, self.clock, 40, entry.state.kind)
        if entry.state.kind == "tcp" and draw.random() < 0.4:
            packet = tracking.cases.segment(draw, entry.state, packet)
        elif entry.state.kind == "tcp":
            ends = entry.state.maker, entry.state.other
            packet = polite(draw, *(ends if direction == entry.state.direction else reversed(ends)), packet)
        return datagram_of(draw, entry.wire.protocol, source, destination, packet)

    def quoted(self):
        """What an ICMP error quotes of a packet, mostly of one of a connection."""
        draw = self.draw
        return self.beginning(draw.choice(self.earlier) if self.earlier and draw.random() < 0.3 else self.following())

    def beginning(self, quoted):
        """What is quoted of a packet: its header and 8 bytes, or more or less."""
        draw = self.draw
        if draw.random() < 0.1:
            quoted = with_options(draw, quoted)
        if draw.random() < self.QUOTED_BADLY / 2:
            place, octets = draw.choice(QUOTED_CHANGES)
            quoted = quoted[:place] + octets + quoted[place + len(octets):]
        if draw.random() < self.QUOTED_BADLY:
            return quoted[:draw.randint(0, 40)]
        return quoted[:4 * (quoted[0] & 15) + 8]

    def error(self):
        """An ICMP error, mostly to the side from which the packet came that it quotes."""
        draw = self.draw
        quoted = self.quoted()
        was_out = self.is_from_inside(quoted)
        if draw.random() < 0.1:
            was_out = not was_out
        self.goes_out = not was_out
        source, destination = self.host(not was_out), self.host(was_out)
        return ipv4(source, destination, ICMP,
                    summed_message(draw.choice(ERROR_TYPES), draw.choice((0, 1, 3)), bytes(4) + quoted))

    def datagram(self):
        makes = (self.following, self.first, self.error, self.message)
        make = self.draw.choice([make for make, share in zip(makes, self.SHARES) for _ in range(share)])
        datagram = make()
        self.earlier = [*self.earlier[-5:], datagram]
        return datagram

    def changed(self, datagram):
        """The datagram, now and then with IP options, as a fragment, cut off, or with another total length."""
        draw = self.draw
        if draw.random() < 0.12:
            datagram = with_options(draw, datagram)
        kind = draw.random()
        if kind < 0.06:
            return with_field(datagram, 6, draw.choice(FRAGMENT_FIELDS))
        if kind < 0.1:
            return datagram[:draw.randint(1, len(datagram))]
        if kind < 0.13:
            return with_field(datagram, 2, draw.randint(0, 80))
        if kind < 0.15:
            return datagram + bytes(draw.randint(1, 8))
        return datagram

    # Records

    def frame(self):
        draw, link = self.draw, self.run.link
        self.go_anywhere()
        self.goes_out = None
        if draw.random() < 0.03:
            return draw.choice(STRANGE_FRAMES[link])
        datagram = self.changed(self.datagram())
        if link == LINKTYPE_ETHERNET:
            return ethernet(ETHER_IPV4, datagram, draw.choice(((), (), (7,))), self.sender(datagram))
        if link == LINKTYPE_LOOPBACK:
            return loopback(datagram, order=draw.choice("<>"))
        return datagram

    def second(self):
        """The second of the next packet: soon, or about when a state goes; now and then an earlier one, which moves no
        clock."""
        draw = self.draw
        deadlines = [entry.state.deadline for entry in self.table.by_number()
                     if self.clock < entry.state.deadline < self.clock + 200]
        if deadlines and draw.random() < self.AT_DEADLINES:
            self.clock = max(self.clock, draw.choice(deadlines) + draw.choice((-1, 0, 1)))
        else:
            self.clock += draw.choice(self.WAITS)
        self.clock = min(self.clock, LAST_SECOND)
        return self.clock if draw.random() < 0.95 else max(self.clock - draw.randint(1, 50), 0)

    def records(self, count):
        for _ in range(count):
            second = self.second()
            frame = self.frame()
            yield Record(b"", second, frame, self.place)


def with_packets(draw, run, packets, count):
    """A run with `count` packets, which `packets` draws; or with none if its ruleset has a fault. They have places if
    it has several interfaces."""
    try:
        job = run.job()
    except Refused:
        return run
    table = StateTable(job.ruleset.options.values["states"])
    steps = steps_of(job, run.link_at, packets(draw, run, table).records(count), table)
    records = [step.record for step in steps]
    return run._replace(records=[(each.seconds, each.frame) for each in records],
                        places=tuple(each.place for each in records) if len(run.interfaces) > 1 else ())


def some_run(draw, number, most, counts=COUNTS, interfaces=(), settings=PLAIN):
    """A run of `most` packets at most, or of none if the ruleset has a fault; on one interface, or on these."""
    rules, link = some_text(draw), draw.choice(LINKS)
    count = min(draw.randint(*counts), most)
    interface = INTERFACE if draw.random() < 0.9 else draw.choice(OTHER_INTERFACES)
    inside = INSIDE if draw.random() < 0.8 else draw.choice(OTHER_INSIDES)
    run = Run(f"random run {number}", rules, [], link, interfaces or (interface,), inside)
    return with_packets(draw, settings.given(draw, run), Packets, count)


def drawn(some_run, seed, packets):
    """Runs with `packets` packets in all, the same every time for a seed. `some_run` draws each by its number, with no
    more packets than are left."""
    draw = random.Random(seed)
    left, number = packets, 0
    while left:
        run = some_run(draw, number, left)
        yield run
        left -= len(run.records)
        number += 1


def runs(packets, settings=plain):
    """Runs with `packets` packets in all, the same every time. `settings` draws those of each run."""
    return drawn(lambda draw, *words: some_run(draw, *words, settings=settings(draw)), SEED, packets)
