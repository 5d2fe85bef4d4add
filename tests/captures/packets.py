"""Builds IPv4 packets and classic captures as bytes, for the examples, the tests and the bench."""

import socket
import struct

MICROSECONDS = 0xA1B2C3D4
NANOSECONDS = 0xA1B23C4D
LINKTYPE_LOOPBACK, LINKTYPE_ETHERNET, LINKTYPE_RAW = 0, 1, 101

ETHER_IPV4, ETHER_ARP, ETHER_VLAN, ETHER_IPV6 = 0x0800, 0x0806, 0x8100, 0x86DD

ICMP, IGMP, TCP, UDP = 1, 2, 6, 17
FIN, SYN, RST, PSH, ACK = 0x01, 0x02, 0x04, 0x08, 0x10
UNREACHABLE, TIME_EXCEEDED = 3, 11
DONT_FRAGMENT, MORE_FRAGMENTS = 0x4000, 0x2000


def capture_header(order="<", magic=MICROSECONDS, major=2, minor=4, network=LINKTYPE_RAW):
    """The 24 bytes that open a capture; `order` is struct's sign of the byte order."""
    return struct.pack(order + "IHHiIII", magic, major, minor, 0, 0, 262144, network)


def record(seconds, fraction, data, captured=None, original=None, order="<"):
    """One record; the lengths are those of the data unless others are given."""
    captured = len(data) if captured is None else captured
    original = captured if original is None else original
    return struct.pack(order + "IIII", seconds, fraction, captured, original) + data


def checksum(data):
    """The Internet checksum of RFC 1071."""
    data += bytes(len(data) % 2)
    total = sum(struct.unpack(f">{len(data) // 2}H", data))
    while total > 0xFFFF:
        total = (total & 0xFFFF) + (total >> 16)
    return total ^ 0xFFFF


def ethernet(kind, payload, tags=(), source=bytes(6), destination=b"\xff" * 6):
    """An Ethernet frame, with a VLAN tag for each of the numbers."""
    tagged = b"".join(struct.pack(">HH", ETHER_VLAN, tag) for tag in tags)
    return destination + source + tagged + struct.pack(">H", kind) + payload


def loopback(payload, family=2, order="<"):
    """A frame of a BSD loopback device: the family's number in the byte order of the machine, then the packet."""
    return struct.pack(order + "I", family) + payload


def ipv4(source, destination, protocol, payload=b"", identification=0, ip_options=b"", fragment=0, lifetime=64):
    """An IPv4 packet; the options come padded to a multiple of 4 bytes, `fragment` holds flags and offset."""
    length = 20 + len(ip_options)
    head = struct.pack(">BBHHHBB", 0x40 + length // 4, 0, length + len(payload), identification, fragment,
                       lifetime, protocol)
    rest = socket.inet_aton(source) + socket.inet_aton(destination) + ip_options
    return head + struct.pack(">H", checksum(head + rest)) + rest + payload


def fragments(packet, size):
    """A packet without options in two fragments, the first with `size` bytes (a multiple of 8) of the payload."""
    ends = socket.inet_ntoa(packet[12:16]), socket.inet_ntoa(packet[16:20])
    identification = int.from_bytes(packet[4:6], "big")
    payload = packet[20:]
    return (ipv4(*ends, packet[9], payload[:size], identification, fragment=MORE_FRAGMENTS),
            ipv4(*ends, packet[9], payload[size:], identification, fragment=size // 8))


def transport_checksum(source, destination, protocol, segment):
    """The checksum of a UDP or TCP segment with its pseudo header."""
    addresses = socket.inet_aton(source) + socket.inet_aton(destination)
    return checksum(addresses + struct.pack(">BBH", 0, protocol, len(segment)) + segment)


def udp(source, source_port, destination, destination_port, payload=b"", **header):
    """A UDP datagram in its packet; what else is named goes into the IPv4 header."""
    ports = struct.pack(">HHH", source_port, destination_port, 8 + len(payload))
    # a sum of 0 would say 'no checksum', so it is sent as all ones
    found = transport_checksum(source, destination, UDP, ports + b"\0\0" + payload) or 0xFFFF
    return ipv4(source, destination, UDP, ports + struct.pack(">H", found) + payload, **header)


def tcp(source, source_port, destination, destination_port, flags, sequence, acknowledgement=0,
        window=64240, options=b"", payload=b"", **header):
    """A TCP segment in its packet; the options come padded to a multiple of 4 bytes."""
    head = struct.pack(">HHIIBBH", source_port, destination_port, sequence, acknowledgement,
                       (20 + len(options)) // 4 << 4, flags, window)
    rest = struct.pack(">H", 0) + options + payload
    found = transport_checksum(source, destination, TCP, head + b"\0\0" + rest)
    return ipv4(source, destination, TCP, head + struct.pack(">H", found) + rest, **header)


def summed_message(kind, code, rest):
    """A message of ICMP or IGMP with its checksum."""
    return struct.pack(">BBH", kind, code, checksum(struct.pack(">BBH", kind, code, 0) + rest)) + rest


def echo(source, destination, request, identifier, sequence, payload=b"", **header):
    """An ICMP echo request or reply in its packet."""
    rest = struct.pack(">HH", identifier, sequence) + payload
    return ipv4(source, destination, ICMP, summed_message(8 if request else 0, 0, rest), **header)


def icmp_error(source, kind, code, packet, **header):
    """An ICMP error in its packet: to the sender of that packet, with its header and 8 bytes more."""
    quoted = packet[:4 * (packet[0] & 15) + 8]
    return ipv4(source, socket.inet_ntoa(packet[12:16]), ICMP, summed_message(kind, code, bytes(4) + quoted), **header)


def group_report(source, group, **header):
    """An IGMP version 2 report in its packet, which carries the option 'router alert'."""
    message = summed_message(0x16, 0, socket.inet_aton(group))
    return ipv4(source, group, IGMP, message, ip_options=bytes([148, 4, 0, 0]), lifetime=1, **header)
