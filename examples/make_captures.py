#!/usr/bin/env python3
"""Writes the captures of the examples, the same bytes on every run.

    make_captures.py [FOLDER]     (the folder of this script where none is given)
"""

import socket
import struct
import sys
from pathlib import Path

HERE = Path(__file__).resolve().parent
sys.path.insert(0, str(HERE.parent / "tests"))
sys.dont_write_bytecode = True

from captures.packets import (ACK, ETHER_ARP, ETHER_IPV4, FIN, LINKTYPE_ETHERNET, PSH, RST, SYN, UNREACHABLE,
                              capture_header, echo, ethernet, fragments, group_report, icmp_error, ipv4, record, tcp,
                              udp)
from steps.picks import IDENTIFIERS, PORTS, ZERO_SEED, cut_of, word

OPENING = 1767261600  # 2026-01-01 10:00:00 UTC

# the firewall of each story and its neighbours at em0
FIREWALL, UPLINK, NAMES, NAMES_TOO = "192.0.2.1", "192.0.2.254", "192.0.2.53", "192.0.2.54"
FIREWALL_STATION, UPLINK_STATION = bytes.fromhex("020000000001"), bytes.fromhex("0200000000fe")
EVERYONE = b"\xff" * 6
LEAST_FRAME = 60

# the home
TABLET, DISKS, GUEST = "198.51.100.66", "198.51.100.70", "198.51.100.90"
SITE, CLOCK, MAIL, UNWANTED, SCANNER = "203.0.113.7", "203.0.113.123", "203.0.113.80", "203.0.113.70", "203.0.113.200"
# the web server's people
ADMIN, RETIRED_ADMIN, MONITOR = "198.51.100.4", "198.51.100.13", "198.51.100.9"
VISITOR, ATTACKER, REFORMED, UPDATES = "203.0.113.7", "203.0.113.66", "203.0.113.100", "198.51.100.20"
# the company
COMPANY_WEB, COMPANY_MAIL, COMPANY_NAMES = "203.0.113.20", "203.0.113.25", "203.0.113.53"
OTHER_MAIL, PARTNER, NO_PARTNER = "192.0.2.99", "192.0.2.130", "192.0.2.200"

# the home behind one address
PHONE, OTHER_PHONE, CONSOLE, CAMERA, HOME_DISKS = "10.0.0.11", "10.0.0.12", "10.0.0.20", "10.0.0.40", "10.0.0.30"
DISKS_OUTSIDE, OFFICE, GAME, FRIEND = "192.0.2.9", "172.16.1.5", "203.0.113.30", "203.0.113.80"

# the office with two providers
DESK, OFFICE_WEB, SECOND_LINE = "198.51.100.66", "198.51.100.80", "203.0.113.2"
SECOND_PROVIDER, SHOP, CUSTOMER = "203.0.113.254", "203.0.113.7", "203.0.113.150"

# the workshop behind one address, and the ports and the identifier that its gateway has picked
BENCH, WORKSHOP_PAGES = "10.0.0.11", "10.0.0.40"
INNER_STATION, BENCH_STATION = bytes.fromhex("020000000002"), bytes.fromhex("02000000000b")
NAME_PORT, PAGE_PORT, PING_IDENTIFIER = 57244, 50893, 31046

URG = 0x20
GRE = 47
# the IP option 'record route', with room for three addresses
RECORD_ROUTE = bytes([7, 15, 4]) + bytes(12) + b"\0"
# maximum segment size 1460, no operation, window scale 7
SYN_OPTIONS = bytes([2, 4, 5, 180, 1, 3, 3, 7])
# SNMP version 1 asks the community 'public' for sysDescr.0
SNMP_GET = bytes.fromhex("302902010004067075626c6963a01c020400000001020100020100"
                         "300e300c06082b060102010101000500")
CLIENT, SERVER = 0, 1


class Story:
    """Ethernet frames at em0 of a firewall: what comes from its side is sent by it, all else by the provider's router."""

    def __init__(self, *inside):
        self.inside = [(int.from_bytes(socket.inet_aton(address)), bits) for address, bits in inside]
        self.frames = []

    def is_inside(self, address):
        number = int.from_bytes(address)
        return any(number >> 32 - bits == network >> 32 - bits for network, bits in self.inside)

    def add(self, second, build, *words, captured=None, **named):
        """Builds a packet with an identification of its own and frames it, so many seconds after the opening."""
        packet = build(*words, identification=len(self.frames) + 1, **named)
        self.add_packet(second, packet, captured)
        return packet

    def add_packet(self, second, packet, captured=None):
        stations = [UPLINK_STATION, FIREWALL_STATION]
        if self.is_inside(packet[12:16]):
            stations.reverse()
        self.add_frame(second, ETHER_IPV4, packet, *stations, captured)

    def add_frame(self, second, kind, payload, source, destination, captured=None):
        # a cable carries no frame of fewer bytes
        frame = ethernet(kind, payload, (), source, destination).ljust(LEAST_FRAME, b"\0")
        self.frames.append((second, frame, captured))

    def records(self):
        """The frames as records, by their seconds, else in the order in which they were added."""
        for number, (second, frame, captured) in enumerate(sorted(self.frames, key=lambda each: each[0])):
            # the fractions only have to differ a little, as they do in a real capture
            fraction = number * 20011 % 1000000
            yield record(OPENING + second, fraction, frame[:captured], original=len(frame))

    def capture(self):
        return capture_header(network=LINKTYPE_ETHERNET) + b"".join(self.records())


class Lines(Story):
    """Ethernet frames at two interfaces of a firewall, which lead to two providers. A packet is added at that of the place
    that is set then."""

    def __init__(self, *inside):
        super().__init__(*inside)
        self.place, self.places = 0, []

    def at(self, place):
        self.place = place
        return self

    def add_frame(self, *words):
        super().add_frame(*words)
        self.places.append(self.place)

    def capture_at(self, place):
        """The frames at one interface. Their seconds have to rise as they were added."""
        own = (each for each, where in zip(self.records(), self.places) if where == place)
        return capture_header(network=LINKTYPE_ETHERNET) + b"".join(own)


class Gateway(Lines):
    """Ethernet frames at two interfaces of a gateway, as tcpdump shows them: em0 leads to the provider, em1 inside.
    What goes out is seen behind its translation."""

    # a neighbour and the gateway itself, by places
    STATIONS = ((UPLINK_STATION, FIREWALL_STATION), (BENCH_STATION, INNER_STATION))

    def __init__(self):
        super().__init__((FIREWALL, 32))

    def through(self, second, goes_out, build):
        """A packet that goes through is seen twice, and is a hop older where it leaves. `build` makes it as it is at a
        place."""
        identification = len(self.frames) + 1
        for hop, place in enumerate((1, 0) if goes_out else (0, 1)):
            packet = build(place, identification=identification, lifetime=64 - hop)
            neighbour, own = self.STATIONS[place]
            self.at(place).add_frame(second, ETHER_IPV4, packet, *((own, neighbour) if hop else (neighbour, own)))


class Passage:
    """A conversation through a gateway: its end inside, and the one that the provider sees in the place of that."""

    def __init__(self, gateway, inside, outside):
        self.gateway = gateway
        self.ends = (outside, inside)

    def add(self, second, build, *words, **named):
        """Builds a packet as it is on both sides, from the ends that the inside sees."""
        goes_out = words[:2] == self.ends[1]

        def built(place, **header):
            end = self.ends[place]
            ends = (*end, *words[2:4]) if goes_out else (*words[:2], *end)
            return build(*ends, *words[4:], **named, **header)
        self.gateway.through(second, goes_out, built)
        return built


class Connection:
    """A TCP connection, each packet of which goes on where the two ends are. Where it is translated on its way, each end sees
    the other one at another place."""

    def __init__(self, story, client, server, first=1000, second=5000, seen=None):
        self.story = story
        self.ends = [client, server]
        self.seen = seen or self.ends
        self.next = [first, second]

    def send(self, second, end, flags, size=0, **named):
        """One packet of an end with so many bytes."""
        named = {"window": 502, **named}
        packet = self.story.add(second, tcp, *self.ends[end], *self.seen[1 - end], flags, self.next[end],
                                self.next[1 - end] if flags & ACK else 0, payload=b"x" * size, **named)
        self.next[end] += size + bool(flags & SYN) + bool(flags & FIN)
        return packet

    def ask(self, second):
        """The packet that opens it."""
        return self.send(second, CLIENT, SYN, window=64240, options=SYN_OPTIONS)

    def open(self, second):
        self.ask(second)
        self.send(second, SERVER, SYN | ACK, window=65160, options=SYN_OPTIONS)
        self.send(second, CLIENT, ACK)

    def fetch(self, second, asked=200, answered=1200):
        """The client asks, and the server answers."""
        self.send(second, CLIENT, PSH | ACK, asked)
        return self.send(second, SERVER, PSH | ACK, answered)

    def close(self, second):
        self.send(second, CLIENT, FIN | ACK)
        self.send(second, SERVER, FIN | ACK)
        self.send(second, CLIENT, ACK)

    def whole(self, second, length):
        """From the opening to the end, over so many seconds."""
        self.open(second)
        self.fetch(second + length // 2)
        self.close(second + length)


def dns_query(identification, name):
    """A DNS message that asks for the address of a name."""
    labels = b"".join(bytes([len(label)]) + label.encode() for label in name.split("."))
    return struct.pack(">HHHHHH", identification, 0x0100, 1, 0, 0, 0) + labels + b"\0\0\1\0\1"


def dns_reply(identification, name, address):
    """The DNS message that answers it with one address."""
    question = dns_query(identification, name)[12:]
    answer = struct.pack(">HHHIH", 0xC00C, 1, 1, 300, 4) + socket.inet_aton(address)
    return struct.pack(">HHHHHH", identification, 0x8180, 1, 1, 0, 0) + question + answer


def look_up(story, second, host, port, resolver, wait=0):
    """A DNS look-up; the answer comes so many seconds later."""
    story.add(second, udp, host, port, resolver, 53, dns_query(port, "www.example.com"))
    story.add(second + wait, udp, resolver, 53, host, port, dns_reply(port, "www.example.com", SITE))


def ask_time(story, second, host, port, clock):
    story.add(second, udp, host, port, clock, 123, b"\x23" + bytes(47))
    story.add(second, udp, clock, 123, host, port, b"\x24" + bytes(47))


def ping(story, second, host, other, identifier):
    story.add(second, echo, host, other, True, identifier, 1, b"abcdefgh")
    story.add(second, echo, other, host, False, identifier, 1, b"abcdefgh")


def knock(story, second, source, target, *flags):
    """Single TCP packets with these flags, as a scanner sends them, each from a port of its own."""
    for step, each in enumerate(flags):
        story.add(second, tcp, source, 52000 + step, *target, each, 9000 + step, window=1024)


def look_for_firewall(story, second):
    """The provider's router asks by ARP for the firewall, and is told."""
    def message(operation, source_station, source, destination_station, destination):
        return (struct.pack(">HHBBH", 1, ETHER_IPV4, 6, 4, operation) + source_station + socket.inet_aton(source)
                + destination_station + socket.inet_aton(destination))
    story.add_frame(second, ETHER_ARP, message(1, UPLINK_STATION, UPLINK, bytes(6), FIREWALL), UPLINK_STATION, EVERYONE)
    story.add_frame(second, ETHER_ARP, message(2, FIREWALL_STATION, FIREWALL, UPLINK_STATION, UPLINK),
                    FIREWALL_STATION, UPLINK_STATION)


def add_fragments(story, second, whole, size):
    for fragment in fragments(whole, size):
        story.add_packet(second, fragment)


def house_goes_out(story):
    """Names, a web page, the time and a ping: what a house asks for, and what comes back."""
    look_up(story, 1, TABLET, 40001, NAMES)
    look_up(story, 1, FIREWALL, 40002, NAMES_TOO)
    page = Connection(story, (TABLET, 49152), (SITE, 443))
    page.open(2)
    page.fetch(3)
    # a router on the way says of a packet of the tablet's that it is too large
    asked = tcp(TABLET, 49152, SITE, 443, PSH | ACK, 1001, 5001, payload=b"x" * 200)
    story.add(4, icmp_error, UPLINK, UNREACHABLE, 4, asked)
    # bytes that the connection isn't about
    story.add(5, tcp, SITE, 443, TABLET, 49152, PSH | ACK, 900000000, 1201, window=509, payload=b"x" * 10)
    page.close(9)
    ask_time(story, 10, TABLET, 123, CLOCK)
    ping(story, 20, TABLET, SITE, 7)
    story.add(21, echo, SITE, TABLET, False, 7, 2, b"abcdefgh", ip_options=RECORD_ROUTE)
    story.add(22, echo, SITE, FIREWALL, True, 8, 1, b"abcdefgh")


def strangers_come(story):
    """Who comes from outside: someone who may, and those who may not."""
    Connection(story, (MAIL, 51001), (DISKS, 443)).open(40)
    story.add(41, udp, "10.1.2.3", 53, TABLET, 40001, bytes(12))
    knock(story, 42, UNWANTED, (DISKS, 443), SYN)
    Connection(story, (TABLET, 49202), (UNWANTED, 443)).ask(43)
    knock(story, 44, SCANNER, (DISKS, 443), SYN | FIN, FIN, 0, FIN | URG | PSH, ACK)
    for port in (22, 23, 3389):
        knock(story, 45, SCANNER, (DISKS, port), SYN)


def gateway():
    """Five minutes between a home's gateway and its provider."""
    story = Story(("198.51.100.64", 27), (FIREWALL, 32))
    look_for_firewall(story, 0)
    house_goes_out(story)
    strangers_come(story)
    look_up(story, 60, GUEST, 40090, NAMES)
    Connection(story, (GUEST, 49300), (SITE, 80)).ask(61)
    Connection(story, (GUEST, 49301), (SITE, 22)).ask(62)
    look_up(story, 100, TABLET, 40003, NAMES, wait=60)
    probe = udp(TABLET, 40003, NAMES, 53, dns_query(40003, "www.example.com"))
    story.add(161, icmp_error, NAMES, UNREACHABLE, 3, probe)
    answer = udp(NAMES, 53, TABLET, 40004, bytes(1600), identification=99)
    add_fragments(story, 170, answer, 1480)
    story.add(180, group_report, FIREWALL, "239.255.0.7")
    story.add(181, group_report, TABLET, "239.255.0.7")
    story.add(300, udp, SITE, 443, TABLET, 49204, bytes(40), captured=14 + 24)
    return story.capture()


def flood(story, second):
    """SYN packets that nobody goes on with, more than there may be states."""
    for step in range(5):
        knock(story, second, f"203.0.113.{210 + step}", (FIREWALL, 80), SYN)


def server():
    """A few minutes at the plug of a web server."""
    story = Story((FIREWALL, 32))
    look_for_firewall(story, 0)
    visit = Connection(story, (VISITOR, 50500), (FIREWALL, 443))
    visit.whole(1, 4)
    management = Connection(story, (ADMIN, 50600), (FIREWALL, 22))
    management.open(10)
    management.send(11, SERVER, PSH | ACK, 40)
    Connection(story, (RETIRED_ADMIN, 50601), (FIREWALL, 22)).ask(12)
    Connection(story, (ADMIN, 50603), (FIREWALL, 9100)).ask(13)
    story.add(14, udp, MONITOR, 3000, FIREWALL, 161, SNMP_GET)
    story.add(14, udp, FIREWALL, 161, MONITOR, 3000, SNMP_GET)
    # the visitor's state is gone by then
    visit.send(30, CLIENT, ACK)
    look_up(story, 31, FIREWALL, 40001, NAMES)
    update = Connection(story, (FIREWALL, 49152), (UPDATES, 443))
    asked = update.ask(32)
    story.add(32, icmp_error, UPLINK, UNREACHABLE, 1, asked)
    ping(story, 33, VISITOR, FIREWALL, 7)
    flood(story, 34)
    Connection(story, (VISITOR, 50501), (FIREWALL, 443)).ask(35)
    Connection(story, (VISITOR, 50502), (FIREWALL, 443)).ask(70)
    knock(story, 80, SCANNER, (FIREWALL, 443), SYN | FIN, FIN | URG | PSH, 0, ACK)
    for port in (21, 23, 3306, 3389):
        knock(story, 81, SCANNER, (FIREWALL, port), SYN)
    story.add(82, udp, SCANNER, 52200, FIREWALL, 161, SNMP_GET)
    knock(story, 83, ATTACKER, (FIREWALL, 443), SYN)
    knock(story, 84, REFORMED, (FIREWALL, 443), SYN)
    page = tcp(VISITOR, 50502, FIREWALL, 443, PSH | ACK, 1001, 5001, payload=b"x" * 1600, identification=98)
    add_fragments(story, 85, page, 1480)
    management.send(90, CLIENT, RST | ACK)
    return story.capture()


def traffic(story):
    """What a company does in a minute: pages, look-ups, visits and mail."""
    for number in range(24):
        host = f"198.51.100.{10 + number}"
        look_up(story, number, host, 40000 + number, NAMES)
        site = f"192.0.2.{10 + number % 5}"
        Connection(story, (host, 49152 + number), (site, 443), 1000 * number).whole(number, 6 + number)
    for number in range(12):
        visitor = f"203.0.113.{100 + number}"
        Connection(story, (visitor, 50000 + number), (COMPANY_WEB, (80, 443)[number % 2]), 7000 * number).whole(2 * number, 8)
        look_up(story, 3 * number, visitor, 41000 + number, COMPANY_NAMES)
    for number in range(3):
        Connection(story, (OTHER_MAIL, 51000 + number), (COMPANY_MAIL, 25)).whole(10 * number, 2)
        Connection(story, (COMPANY_MAIL, 51500 + number), (OTHER_MAIL, 25)).whole(10 * number + 5, 2)
        ask_time(story, 15 * number, COMPANY_NAMES, 123, CLOCK)


def router():
    """A busy minute and a quiet one at the router of a company."""
    story = Story(("198.51.100.0", 24), ("203.0.113.0", 26))
    look_for_firewall(story, 0)
    traffic(story)
    for step, port in enumerate((21, 22, 23, 110, 143, 3306, 3389, 5900)):
        story.add(20 + step, tcp, SCANNER, 52000 + step, COMPANY_WEB, port, SYN, 9000, window=1024)
    knock(story, 30, SCANNER, (COMPANY_WEB, 443), FIN | URG | PSH, FIN, ACK)
    story.add(31, udp, "10.9.9.9", 53, COMPANY_NAMES, 53, bytes(12))
    ping(story, 32, "198.51.100.10", CLOCK, 7)
    ping(story, 33, SCANNER, COMPANY_WEB, 8)
    for host in (PARTNER, NO_PARTNER):
        story.add(34, ipv4, host, COMPANY_WEB, GRE, bytes(40))
        story.add(34, ipv4, COMPANY_WEB, host, GRE, bytes(40))
    add_fragments(story, 35, ipv4(PARTNER, COMPANY_WEB, GRE, bytes(1400), identification=97), 1200)
    Connection(story, ("198.51.100.77", 49200), (OTHER_MAIL, 25)).ask(36)
    silent = Connection(story, ("198.51.100.78", 49201), ("192.0.2.66", 443))
    story.add(40, icmp_error, UPLINK, UNREACHABLE, 1, silent.ask(37))
    look_up(story, 90, "198.51.100.79", 40099, NAMES_TOO, wait=20)
    return story.capture()


def drawn(story, low, high):
    """Which of these a `nat` rule tries first for the next packet of a story, with a seed of zeros."""
    return cut_of(low, high, word(ZERO_SEED, len(story.frames) + 1))


def two_phones(story):
    """Both ask the same resolver from the same port, and then the same site by pings with the same identifier."""
    phones = (PHONE, OTHER_PHONE)
    ports = []
    for phone in phones:
        ports.append(drawn(story, *PORTS))
        story.add(1, udp, phone, 40000, NAMES, 53, dns_query(7, "www.example.com"))
    for port in ports:
        story.add(1, udp, NAMES, 53, FIREWALL, port, dns_reply(7, "www.example.com", SITE))
    identifiers = []
    for phone in phones:
        identifiers.append(drawn(story, *IDENTIFIERS))
        story.add(2, echo, phone, SITE, True, 7, 1, b"abcdefgh")
    for identifier in identifiers:
        story.add(2, echo, SITE, FIREWALL, False, identifier, 1, b"abcdefgh")


def page_behind_one_address(story):
    """A page, on the way to which a router says of a packet that it is too large: it embeds the packet as it was written."""
    port = drawn(story, *PORTS)
    page = Connection(story, (PHONE, 49152), (SITE, 443), seen=[(FIREWALL, port), (SITE, 443)])
    page.open(3)
    page.fetch(4)
    asked = tcp(FIREWALL, port, SITE, 443, PSH | ACK, 1001, 5001, payload=b"x" * 200)
    story.add(5, icmp_error, UPLINK, UNREACHABLE, 4, asked)


def home():
    """Half a minute of a home behind one address, as its gateway sees the packets before they are translated."""
    story = Story(("10.0.0.0", 24))
    look_for_firewall(story, 0)
    two_phones(story)
    page_behind_one_address(story)
    story.add(6, udp, CONSOLE, 3074, GAME, 3074, bytes(20))
    story.add(6, udp, GAME, 3074, FIREWALL, 3074, bytes(20))
    Connection(story, (SITE, 50500), (CAMERA, 80), seen=[(SITE, 50500), (FIREWALL, 8080)]).whole(7, 2)
    Connection(story, (HOME_DISKS, 50022), (CLOCK, 443), seen=[(DISKS_OUTSIDE, 50022), (CLOCK, 443)]).open(10)
    Connection(story, (FRIEND, 51001), (HOME_DISKS, 22), seen=[(FRIEND, 51001), (DISKS_OUTSIDE, 22)]).open(11)
    Connection(story, (PHONE, 49153), (OFFICE, 443)).open(12)
    for port in (21, 22, 23, 443, 8080):
        knock(story, 20, SCANNER, (FIREWALL, port), SYN)
    return story.capture()


def office():
    """Half a minute of an office with two providers."""
    lines = Lines(("198.51.100.64", 27), (FIREWALL, 32), (SECOND_LINE, 32))
    look_for_firewall(lines, 0)
    look_up(lines, 1, DESK, 40001, NAMES)
    # the question goes to the first provider, and the answer comes by the second one
    lines.add(2, udp, DESK, 40002, NAMES, 53, dns_query(40002, "www.example.com"))
    lines.at(1).add(2, udp, NAMES, 53, DESK, 40002, dns_reply(40002, "www.example.com", SHOP))
    lines.add(3, udp, DESK, 40003, NAMES, 53, dns_query(40003, "www.example.com"))
    page = Connection(lines.at(0), (DESK, 49152), (SHOP, 443))
    page.ask(4)
    lines.at(1)
    page.send(4, SERVER, SYN | ACK, window=65160, options=SYN_OPTIONS)
    lines.at(0)
    page.send(4, CLIENT, ACK)
    asked = page.send(5, CLIENT, PSH | ACK, 200)
    lines.at(1).add(5, icmp_error, SECOND_PROVIDER, UNREACHABLE, 4, asked)
    page.send(6, SERVER, PSH | ACK, 1200)
    visit = Connection(lines, (CUSTOMER, 50500), (OFFICE_WEB, 443))
    visit.ask(10)
    lines.at(0)
    visit.send(10, SERVER, SYN | ACK, window=65160, options=SYN_OPTIONS)
    lines.at(1)
    visit.send(10, CLIENT, ACK)
    ping(lines, 20, SECOND_PROVIDER, SECOND_LINE, 7)
    lines.at(0).add(21, echo, UPLINK, SECOND_LINE, True, 8, 1, b"abcdefgh")
    knock(lines, 30, SCANNER, (OFFICE_WEB, 22), SYN)
    knock(lines.at(1), 30, SCANNER, (OFFICE_WEB, 22), SYN)
    return lines


def office_at(place):
    """The capture of the office at one of its interfaces."""
    return lambda: office().capture_at(place)


def page_through(gateway):
    """A page, and a router on the way that says of its request that it is too large."""
    page = Connection(Passage(gateway, (BENCH, 49152), (FIREWALL, PAGE_PORT)), (BENCH, 49152), (SITE, 443))
    page.open(2)
    asked = page.send(3, CLIENT, PSH | ACK, 200)
    gateway.through(3, False, lambda place, **header: icmp_error(UPLINK, UNREACHABLE, 4, asked(place), **header))
    page.send(4, SERVER, PSH | ACK, 1200)
    page.close(5)


def workshop():
    """Half a minute of a workshop's gateway, as tcpdump shows it on both interfaces."""
    gateway = Gateway()
    look_for_firewall(gateway, 0)
    look_up(Passage(gateway, (BENCH, 40001), (FIREWALL, NAME_PORT)), 1, BENCH, 40001, NAMES)
    page_through(gateway)
    visit = Connection(Passage(gateway, (WORKSHOP_PAGES, 8443), (FIREWALL, 443)), (CUSTOMER, 50500),
                       (WORKSHOP_PAGES, 8443))
    visit.open(10)
    visit.fetch(11)
    ends = ((FIREWALL, PING_IDENTIFIER), (BENCH, 7))
    gateway.through(20, True, lambda place, **header: echo(ends[place][0], SITE, True, ends[place][1], 1, b"abcdefgh",
                                                           **header))
    gateway.through(20, False, lambda place, **header: echo(SITE, ends[place][0], False, ends[place][1], 1, b"abcdefgh",
                                                            **header))
    ask_time(gateway.at(0), 21, FIREWALL, 123, CLOCK)
    mail = tcp(BENCH, 49153, MAIL, 25, SYN, 1000, window=64240, options=SYN_OPTIONS, identification=99)
    gateway.at(1).add_frame(30, ETHER_IPV4, mail, BENCH_STATION, INNER_STATION)
    for port in (22, 8443):
        knock(gateway.at(0), 31, SCANNER, (FIREWALL, port), SYN)
    return gateway


def workshop_at(place):
    """The capture of the workshop's gateway at one of its interfaces."""
    return lambda: workshop().capture_at(place)


def first():
    """Three datagrams without payload at second 0, without frames."""
    packets = [udp("198.51.100.7", 9, FIREWALL, 9), udp("203.0.113.9", 9, FIREWALL, 9), udp("10.0.0.5", 9, "198.51.100.7", 9)]
    return capture_header() + b"".join(record(0, 0, packet) for packet in packets)


CAPTURES = {"first.pcap": first, "gateway.pcap": gateway, "gateway_wire_em0.pcap": workshop_at(0),
            "gateway_wire_em1.pcap": workshop_at(1), "home.pcap": home, "office_em0.pcap": office_at(0),
            "office_em1.pcap": office_at(1), "router.pcap": router, "server.pcap": server}


def main():
    folder = Path(sys.argv[1]) if len(sys.argv) > 1 else HERE
    for name, make in CAPTURES.items():
        (folder / name).write_bytes(make())


if __name__ == "__main__":
    main()
