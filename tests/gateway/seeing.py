"""What a capture of the gateway shows: its packets with their ends, and the conversation of each."""

import socket
from typing import NamedTuple

from captures.frames import ICMP, RAW, Packet, datagram_of, view
from captures.model import read_header, records_of
from gateway.network import INNER, INSIDE, OUTER_ADDRESS
from gateway.cases import ALL, Conversation

# an ICMP message begins behind this many bytes of a packet without options, and what an error quotes behind 8 more
IP_HEADER, ERROR_HEADER = 20, 8
# more bytes than a quoted packet has to have
QUOTED = 2048
ECHOES = (0, 8)
BY_MARK = {each.mark(): each for each in ALL}


class Seen(NamedTuple):
    """A frame of an interface. If it is IPv4: its datagram, what that shows, whether it is an ICMP error, and its
    conversation, for an error that of the packet which it quotes."""
    interface: str
    frame: bytes
    datagram: bytes | None = None
    packet: Packet | None = None
    is_error: bool = False
    conversation: Conversation | None = None

    def goes_out(self):
        """By the addresses: the house is behind em1, and all that em0 sends has its address."""
        source = spelled(self.packet.source)
        return source != INSIDE if self.interface == INNER else source == OUTER_ADDRESS

    def inner_end(self):
        """The address and the port of the end that the conversation isn't known by."""
        return next(end for protocol, *end in marks_of(self.packet) if (protocol, *end) != self.conversation.mark())


def spelled(address):
    return socket.inet_ntoa(address.to_bytes(4, "big"))


def marks_of(packet):
    """The protocol with either end of a packet."""
    ports = packet.ports or (0, 0)
    return [(packet.protocol, spelled(address), port)
            for address, port in zip((packet.source, packet.destination), ports)]


def conversation_of(packet):
    """The one conversation whose end a packet has."""
    found = [BY_MARK[mark] for mark in marks_of(packet) if mark in BY_MARK]
    if len(found) != 1:
        raise SystemExit(f"a packet of {len(found)} conversations: {marks_of(packet)}")
    return found[0]


def quoted_packet(datagram):
    """The packet that an ICMP error quotes; what isn't quoted of it is zeros."""
    return view(RAW, datagram[IP_HEADER + ERROR_HEADER:].ljust(QUOTED, b"\0"))


def seen_in(interface, link, frame):
    """What a frame shows."""
    packet, datagram = view(link, frame), datagram_of(link, frame)
    if not isinstance(packet, Packet):
        return Seen(interface, frame)
    is_error = packet.protocol == ICMP and packet.icmp[0] not in ECHOES
    conversation = conversation_of(quoted_packet(datagram) if is_error else packet)
    return Seen(interface, frame, datagram[:int.from_bytes(datagram[2:4], "big")], packet, is_error, conversation)


def all_seen(interface, capture):
    """What the whole records of a capture show, one by one."""
    header = read_header(capture)
    return [seen_in(interface, header.link, each.frame) for each in records_of(capture, header.order)[0]]
