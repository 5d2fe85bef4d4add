"""What a record shows in a model of the run: its link's header, its IPv4 header and the header behind that."""

import struct
from typing import NamedTuple

LOOPBACK, ETHERNET, RAW = 0, 1, 101
# the loopback family of IPv4 in either byte order
FAMILIES = (b"\2\0\0\0", b"\0\0\0\2")
TYPE_IPV4, TYPE_VLAN = b"\x08\0", b"\x81\0"
ICMP, TCP, UDP = 1, 6, 17


class Packet(NamedTuple):
    """What a ruleset can ask of a packet, and who sent its frame. Of a fragment there are neither ports nor flags nor
    an ICMP type."""
    source: int
    destination: int
    protocol: int
    is_fragment: bool
    has_options: bool
    # source and destination of a TCP or a UDP packet
    ports: tuple | None = None
    # of a TCP packet
    flags: int | None = None
    # type and code of an ICMP packet
    icmp: tuple | None = None
    # the six bytes of the source address of an Ethernet frame
    sender: bytes | None = None


def datagram_of(link, frame):
    """The bytes of a frame that are taken for an IPv4 datagram, or None where it carries anything else."""
    if link == RAW:
        return frame if frame and frame[0] >> 4 == 4 else None
    if link == LOOPBACK:
        return frame[4:] if frame[:4] in FAMILIES else None
    if frame[12:14] == TYPE_IPV4:
        return frame[14:]
    if frame[12:14] == TYPE_VLAN and frame[16:18] == TYPE_IPV4:
        return frame[18:]
    return None


def sender_of(link, frame):
    """The source address of an Ethernet frame, which stands behind that of the destination; None for another link."""
    return frame[6:12] if link == ETHERNET else None


def lacks_transport(protocol, segment, whole):
    """Whether the transport's header isn't whole: neither in the captured bytes of the segment, nor in the
    `whole` bytes that it is said to have."""
    if protocol in (ICMP, UDP):
        return min(len(segment), whole) < 8
    if protocol != TCP:
        return False
    if len(segment) < 20:
        return True
    header_length = 4 * (segment[12] >> 4)
    return header_length < 20 or min(len(segment), whole) < header_length


def with_transport(packet, segment):
    """A packet that is no fragment, with what its transport's header tells, which is whole."""
    if packet.protocol == ICMP:
        return packet._replace(icmp=(segment[0], segment[1]))
    if packet.protocol in (TCP, UDP):
        packet = packet._replace(ports=struct.unpack_from(">HH", segment))
    return packet._replace(flags=segment[13]) if packet.protocol == TCP else packet


def view(link, frame):
    """The packet that the bytes of a record show: `skip`, `short` or a Packet."""
    datagram = datagram_of(link, frame)
    if datagram is None:
        return "skip"
    if len(datagram) < 20 or datagram[0] >> 4 != 4:
        return "short"
    header_length = 4 * (datagram[0] & 15)
    total = int.from_bytes(datagram[2:4], "big")
    if header_length < 20 or len(datagram) < header_length or total < header_length:
        return "short"
    # the flag for more fragments, or an offset
    is_fragment = int.from_bytes(datagram[6:8], "big") % 16384 != 0
    source, destination = (int.from_bytes(datagram[place:place + 4], "big") for place in (12, 16))
    packet = Packet(source, destination, datagram[9], is_fragment, header_length > 20, sender=sender_of(link, frame))
    if is_fragment:
        return packet
    segment = datagram[header_length:]
    if lacks_transport(packet.protocol, segment, total - header_length):
        return "short"
    return with_transport(packet, segment)
