#!/usr/bin/env python3
"""Writes a capture of so many packets of many flows at once, the same bytes on every run.

    make_flows.py N FILE [--stay K | --nat]

Of ten flows four are TCP connections from SYN to FIN, four are UDP queries with their replies, one is a row of pings,
and one is a packet from outside to a port that nobody offers. 1000 flows run at a time, and which of them has the next
packet is drawn. 5000 packets make a second. The frames are Ethernet; inside is 10.0.0.0/8.

With --stay there are K TCP connections, which send in turn and never end.

With --nat they are the flows of a network whose firewall, 192.0.2.1, translates. The capture has their packets as they
come to it. Those from inside have inside addresses still, and their replies come to the port of the firewall that it
has picked by a seed of zeros. Connections from outside come to ports of the firewall that lead to servers. All pings go
out. No two flows have the same ends on one side of the firewall, so the port that is tried first for a flow is free.
"""

import argparse
import random
import struct
import sys
from pathlib import Path

sys.dont_write_bytecode = True

from make_capture import BLOCK, OPENING
from running import written

# found where running says
from captures.packets import (ACK, ETHER_IPV4, FIN, ICMP, LINKTYPE_ETHERNET, PSH, SYN, TCP, UDP, capture_header, echo,
                              ethernet, record, tcp, udp)
from steps.picks import IDENTIFIERS, PORTS, ZERO_SEED, cut_of, word

A_SECOND = 5000
AT_ONCE = 1000
# of a segment that is full
MOST_PAYLOAD = 1400
# out of the inside network, and into its servers
TCP_OUT, UDP_OUT, TCP_IN = (80, 443, 22, 993), (53, 53, 53, 123), (25, 443)
CLOSED_TCP, CLOSED_UDP = 23, 161
HOSTS = [f"10.{net}.{part}.{host}" for net in (0, 2) for part in range(4) for host in range(1, 51)]
SERVERS = [f"10.1.0.{host}" for host in range(1, 9)]
OUTSIDE = [f"{net}.{host}" for net in ("198.51.100", "203.0.113") for host in range(1, 255)]
# a firewall that translates, and its ports with the ends that they lead to
FIREWALL = "192.0.2.1"
REDIRECTED = {25: ("10.1.0.1", 25), 443: ("10.1.0.2", 443), 2525: ("10.1.0.3", 25), 8443: ("10.1.0.4", 443)}
NOISE = random.Random(2).randbytes(2 * MOST_PAYLOAD)


def noise(chance, least, most):
    """So many bytes of payload."""
    start = chance.randrange(MOST_PAYLOAD)
    return NOISE[start:start + chance.randint(least, most)]


def opening(there, back, mine, yours):
    """The three packets that open a connection; ends are words of both addresses and ports, by direction."""
    yield tcp(*there, SYN, mine)
    yield tcp(*back, SYN | ACK, yours, mine + 1)
    yield tcp(*there, ACK, mine + 1, yours + 1)


def connection(chance, there, back):
    """A TCP connection from SYN to FIN, in which each request has an answer of one to three segments."""
    mine, yours = chance.getrandbits(31), chance.getrandbits(31)
    yield from opening(there, back, mine, yours)
    mine, yours = mine + 1, yours + 1
    for _ in range(chance.randint(1, 3)):
        request = noise(chance, 40, 400)
        yield tcp(*there, PSH | ACK, mine, yours, payload=request)
        mine += len(request)
        for _ in range(chance.randint(1, 3)):
            answer = noise(chance, 100, MOST_PAYLOAD)
            yield tcp(*back, PSH | ACK, yours, mine, payload=answer)
            yours += len(answer)
        yield tcp(*there, ACK, mine, yours)
    yield tcp(*there, FIN | ACK, mine, yours)
    yield tcp(*back, FIN | ACK, yours, mine + 1)
    yield tcp(*there, ACK, mine + 1, yours + 1)


def numbered(packet, sequence, acknowledgement):
    """A TCP packet without IP options whose two numbers are 0, with others in their place."""
    # a checksum is the complement of a sum by the modulus 0xFFFF, in which 0x10000 is one (RFC 1071)
    checksum = (int.from_bytes(packet[36:38], "big") - sequence - acknowledgement) % 0xFFFF
    return b"".join((packet[:24], struct.pack(">II", sequence, acknowledgement), packet[32:36],
                     struct.pack(">H", checksum), packet[38:]))


def endless(chance, there, back):
    """A TCP connection in which both ends send in turn for ever."""
    mine, yours = chance.getrandbits(31), chance.getrandbits(31)
    yield from opening(there, back, mine, yours)
    mine, yours = mine + 1, yours + 1
    payload = NOISE[:64]
    request, answer = (tcp(*ends, PSH | ACK, 0, 0, payload=payload) for ends in (there, back))
    while True:
        yield numbered(request, mine & 0xFFFFFFFF, yours & 0xFFFFFFFF)
        mine += len(payload)
        yield numbered(answer, yours & 0xFFFFFFFF, mine & 0xFFFFFFFF)
        yours += len(payload)


def query(chance, there, back):
    """A UDP query with its reply."""
    yield udp(*there, noise(chance, 30, 60))
    yield udp(*back, noise(chance, 50, 400))


def ping(ends, is_request, number, payload):
    source, identifier, destination, _ = ends
    return echo(source, destination, is_request, identifier, number, payload)


def row_of_pings(chance, there, back):
    """One to five echo requests, each with its reply. Their identifier stands as both ports of an end."""
    payload = noise(chance, 56, 56)
    for number in range(chance.randint(1, 5)):
        yield ping(there, True, number, payload)
        yield ping(back, False, number, payload)


def pings(chance, asker, asked):
    """The same with an identifier that nobody translates."""
    identifier = chance.getrandbits(16)
    yield from row_of_pings(chance, *both_ways(asker, identifier, asked, identifier))


def both_ways(client, port, server, service):
    return (client, port, server, service), (server, service, client, port)


def some_flow(chance):
    """The packets of one more flow, as they come."""
    kind = chance.randrange(10)
    host, server, far = chance.choice(HOSTS), chance.choice(SERVERS), chance.choice(OUTSIDE)
    port = chance.randint(1024, 65535)
    if kind < 3:
        return connection(chance, *both_ways(host, port, far, chance.choice(TCP_OUT)))
    if kind < 4:
        return connection(chance, *both_ways(far, port, server, chance.choice(TCP_IN)))
    if kind < 8:
        return query(chance, *both_ways(host, port, far, chance.choice(UDP_OUT)))
    if kind < 9:
        return pings(chance, host, far) if chance.random() < 0.5 else pings(chance, far, server)
    if chance.random() < 0.5:
        return iter([tcp(far, port, host, CLOSED_TCP, SYN, chance.getrandbits(32))])
    return iter([udp(far, port, host, CLOSED_UDP, noise(chance, 40, 80))])


def first_try(protocol, number):
    """The port, or identifier, that is tried first for the flow that the packet of a number begins."""
    return cut_of(*(IDENTIFIERS if protocol == ICMP else PORTS), word(ZERO_SEED, number))


class TranslatedFlows:
    """The flows of a network whose firewall translates.

    The ends of a flow are words of both addresses and ports, by direction, as packets have them that come to the
    firewall. They are drawn once its first packet comes, since the port that is picked depends on this packet's
    number.
    """

    def __init__(self, chance):
        self.chance = chance
        # of the packet that is made
        self.number = 0
        # the ends that flows have had so far, on either side of the firewall
        self.taken = set()
        self.opened = self.blocked = 0

    def packets(self):
        """The packets of many flows at once, for ever."""
        packets = mixed_packets(self.chance, self.some_flow)
        while True:
            self.number += 1
            yield next(packets)

    def outcomes(self):
        """How many of the packets so far are to come to each verdict and reason."""
        followed = self.number - self.opened - self.blocked
        return {"pass rule": self.opened, "pass state": followed, "block rule": self.blocked}

    def stranger(self):
        """An address outside, and a port there."""
        return self.chance.choice(OUTSIDE), self.chance.randint(1024, 65535)

    def out(self, protocol, services):
        """The ends of a flow out of the inside network."""
        host, port = self.chance.choice(HOSTS), self.chance.randint(1024, 65535)
        far, service = self.chance.choice(OUTSIDE), self.chance.choice(services)
        return (host, port, far, service), (far, service, FIREWALL, first_try(protocol, self.number))

    def pings_out(self):
        host, identifier = self.chance.choice(HOSTS), self.chance.getrandbits(16)
        far, picked = self.chance.choice(OUTSIDE), first_try(ICMP, self.number)
        return (host, identifier, far, identifier), (far, picked, FIREWALL, picked)

    def to_server(self):
        """The ends of a flow into the inside network."""
        stranger, offered = self.stranger(), self.chance.choice(list(REDIRECTED))
        return (*stranger, FIREWALL, offered), (*REDIRECTED[offered], *stranger)

    def flow(self, kind, protocol, draw):
        """A flow of a kind, with ends that none has had."""
        there, back = draw()
        while not self.taken.isdisjoint({(protocol, there), (protocol, back)}):
            there, back = draw()
        self.taken |= {(protocol, there), (protocol, back)}
        self.opened += 1
        yield from kind(self.chance, there, back)

    def intrusion(self):
        """A packet to a port of the firewall that leads nowhere."""
        self.blocked += 1
        if self.chance.random() < 0.5:
            yield tcp(*self.stranger(), FIREWALL, CLOSED_TCP, SYN, self.chance.getrandbits(32))
        else:
            yield udp(*self.stranger(), FIREWALL, CLOSED_UDP, noise(self.chance, 40, 80))

    def some_flow(self, chance):
        """The packets of one more flow, as they come."""
        kind = chance.randrange(10)
        if kind < 3:
            return self.flow(connection, TCP, lambda: self.out(TCP, TCP_OUT))
        if kind < 4:
            return self.flow(connection, TCP, self.to_server)
        if kind < 8:
            return self.flow(query, UDP, lambda: self.out(UDP, UDP_OUT))
        if kind < 9:
            return self.flow(row_of_pings, ICMP, self.pings_out)
        return self.intrusion()


def mixed_packets(chance, next_flow):
    """The packets of many flows at once, for ever."""
    flows = [next_flow(chance) for _ in range(AT_ONCE)]
    while True:
        place = chance.randrange(AT_ONCE)
        packet = next(flows[place], None)
        if packet is None:
            flows[place] = next_flow(chance)
            packet = next(flows[place])
        yield packet


def staying_packets(chance, count):
    """The packets of so many connections in turn, for ever; no two have the same ends."""
    flows = [endless(chance, *both_ways(HOSTS[number % len(HOSTS)], 1024 + number // len(HOSTS) % 64000,
                                        OUTSIDE[number % len(OUTSIDE)], 443)) for number in range(count)]
    while True:
        yield from map(next, flows)


def write_packets(count, file, packets):
    """Writes so many of the packets."""
    near, far = bytes([2, 0, 0, 0, 0, 1]), bytes([2, 0, 0, 0, 0, 2])
    header = ethernet(ETHER_IPV4, b"", source=near, destination=far)
    file.write(capture_header(network=LINKTYPE_ETHERNET))
    for start in range(0, count, BLOCK):
        numbers = range(start, min(start + BLOCK, count))
        file.write(b"".join([record(OPENING + number // A_SECOND, number % A_SECOND * 200, header + packet)
                             for number, packet in zip(numbers, packets)]))


def write_flows(count, file, stay=None):
    """Writes the capture; one with fewer packets is the beginning of one with more."""
    chance = random.Random(1)
    write_packets(count, file, mixed_packets(chance, some_flow) if stay is None else staying_packets(chance, stay))


def write_translated_flows(count, file):
    """Writes the capture of flows that are translated, and answers what its packets are to come to."""
    flows = TranslatedFlows(random.Random(1))
    write_packets(count, file, flows.packets())
    return flows.outcomes()


def main():
    parser = argparse.ArgumentParser(description="Writes a capture of many flows at once.")
    parser.add_argument("count", type=int, metavar="N")
    parser.add_argument("file", type=Path, metavar="FILE")
    shapes = parser.add_mutually_exclusive_group()
    shapes.add_argument("--stay", type=int, metavar="K")
    shapes.add_argument("--nat", action="store_true")
    words = parser.parse_args()
    if words.nat:
        written(words.file, write_translated_flows, words.count)
    else:
        written(words.file, write_flows, words.count, words.stay)


if __name__ == "__main__":
    main()
