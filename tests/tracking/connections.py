"""What a packet shows of connections in a model of the run: the key that its state is looked up by, the connection that an
ICMP error embeds, and what the tracking of states asks of the packet."""

import struct
from typing import NamedTuple

from captures.frames import ICMP, TCP, UDP
from expansions.model import dotted
from tracking import model

# types of ICMP messages: the echoes, and the errors that quote a packet
ECHOES, ERRORS = (0, 8), (3, 11, 12)
KINDS = {TCP: "tcp", UDP: "udp", ICMP: "echo"}
WINDOW_SCALE, NO_OPERATION, END_OF_OPTIONS = 3, 1, 0
GREATEST_SHIFT = 14
OTHER_WAY = {"in": "out", "out": "in"}


class Key(NamedTuple):
    """What a state is found by: a protocol, and the ends (address and port) of the outside and the inside party."""
    protocol: int
    outside: tuple
    inside: tuple

    def text(self):
        return ",".join(f"{dotted(address)}:{port}" for address, port in (self.outside, self.inside))


def key_of(protocol, direction, source, destination):
    """The key of a packet with these ends: it comes in from the outside party, and goes out to it."""
    return Key(protocol, source, destination) if direction == "in" else Key(protocol, destination, source)


def header_length(datagram):
    return 4 * (datagram[0] & 15)


def segment_of(datagram):
    """What stands behind the IPv4 header, as far as it was captured."""
    return datagram[header_length(datagram):]


def addresses_of(datagram):
    return (int.from_bytes(datagram[12:16], "big"), int.from_bytes(datagram[16:20], "big"))


def ports_of(protocol, segment):
    """The ports of a TCP or UDP segment, the identifier of an ICMP echo as both, and None for any other."""
    if protocol in (TCP, UDP):
        return struct.unpack_from(">HH", segment)
    if protocol == ICMP and segment[0] in ECHOES:
        return struct.unpack_from(">H", segment, 4) * 2
    return None


def key_in(datagram, direction, ports):
    return key_of(datagram[9], direction, *zip(addresses_of(datagram), ports))


def connection(packet, datagram, direction):
    """The key that a packet's own state is looked up by. A fragment, and an ICMP message that is no echo, has none."""
    if packet.is_fragment:
        return None
    if packet.protocol not in KINDS:
        return key_in(datagram, direction, (0, 0))
    ports = ports_of(packet.protocol, segment_of(datagram))
    return ports and key_in(datagram, direction, ports)


def told_connection(packet, datagram, direction):
    """The key of the connection that an ICMP error embeds; None for a packet that is no such error, or doesn't quote
    enough of a packet.

    The error quotes a packet that went the other way. What is quoted counts as far as it was captured, whatever the
    lengths in both headers say: a whole IPv4 header with the offset 0, and 8 bytes of TCP, UDP or an ICMP echo.
    """
    if packet.icmp is None or packet.icmp[0] not in ERRORS:
        return None
    quoted = segment_of(datagram)[8:]
    if len(quoted) < 20 or quoted[0] >> 4 != 4 or header_length(quoted) < 20:
        return None
    segment = segment_of(quoted)
    offset = int.from_bytes(quoted[6:8], "big") % 8192
    if len(segment) < 8 or offset != 0:
        return None
    ports = ports_of(quoted[9], segment)
    return ports and key_in(quoted, OTHER_WAY[direction], ports)


def offered_shift(options):
    """The first window scale among TCP's options, None where there is none; a greater one counts as the greatest."""
    while options and options[0] != END_OF_OPTIONS:
        if options[0] == NO_OPERATION:
            options = options[1:]
            continue
        length = options[1] if len(options) > 1 else 0
        if not 2 <= length <= len(options):
            return None
        if options[0] == WINDOW_SCALE and length == 3:
            return min(options[2], GREATEST_SHIFT)
        options = options[length:]
    return None


def tracked_packet(packet, datagram, direction, clock):
    """A packet that has a state of its own, as the tracking of states takes it."""
    total = int.from_bytes(datagram[2:4], "big")
    kind = KINDS.get(packet.protocol, "other")
    arrival = model.Packet(direction, clock, total, kind)
    if kind != "tcp":
        return arrival
    segment = segment_of(datagram)
    sequence, acknowledgement, words, flags, window = struct.unpack_from(">IIBBH", segment, 4)
    length = 4 * (words >> 4)
    return arrival._replace(sequence=sequence, acknowledgement=acknowledgement, flags=flags, window=window,
                            scale=offered_shift(segment[20:length]),
                            payload=total - header_length(datagram) - length)
