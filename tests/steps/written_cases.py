"""Cases of what a translation writes, with the frames written out: errors about packets of a state's connection,
checksums, and frames of each link."""

from captures.packets import (ACK, ETHER_IPV4, LINKTYPE_ETHERNET, LINKTYPE_LOOPBACK, SYN, TIME_EXCEEDED, UNREACHABLE,
                              echo, ethernet, icmp_error, loopback, tcp, udp)
from rulesets.tree import Network
from steps.error_cases import PROBLEM, changed, error
from steps.translation_words import (ANSWER, ANSWERED, ASKED, INSIDE_END, MADE, NAT, ONE_END, ONE_PORT, OPENING,
                                     OPENING_WIRE, OPTIONS, OTHER, ROUTER, TOLD_IN, TOUCHED_IN, TOUCHED_OUT, WIRE, B,
                                     E, H, P, SERVER, case, made, told)


# Errors

def with_sum_of(segment, wire):
    """A TCP packet with the checksum of another: that of a segment that is quoted stays."""
    return changed(segment, 36, wire[36:38])


def told_cases():
    request, request_wire = echo(H, P, True, 7, 1), echo(E, P, True, 48980, 1)
    yield case("errors about what nat wrote", f"{ONE_PORT}\npass", (ASKED, MADE, WIRE),
               (icmp_error(OTHER, UNREACHABLE, 3, WIRE), TOLD_IN, icmp_error(OTHER, UNREACHABLE, 3, ASKED)),
               (OPENING, made("out", ONE_END, 3), OPENING_WIRE),
               (icmp_error(OTHER, TIME_EXCEEDED, 0, OPENING_WIRE), told("in", INSIDE_END, 3),
                icmp_error(OTHER, TIME_EXCEEDED, 0, OPENING)),
               (request, made("out", "192.0.2.1:48980", 5), request_wire),
               (icmp_error(OTHER, PROBLEM, 0, request_wire), told("in", "10.0.0.5:7", 5),
                icmp_error(OTHER, PROBLEM, 0, request)))
    yield case("an error to another address", f"{ONE_PORT}\npass", (ASKED, MADE, WIRE),
               (error(WIRE, destination="192.0.2.77"), TOLD_IN, error(ASKED, destination="192.0.2.77")))
    yield case("errors from the inside about an answer", f"{ONE_PORT}\npass", (ASKED, MADE, WIRE),
               (icmp_error(H, UNREACHABLE, 3, ANSWERED), told("out", ONE_END), icmp_error(E, UNREACHABLE, 3, ANSWER)),
               (icmp_error(ROUTER, UNREACHABLE, 3, ANSWERED), told("out", ONE_END),
                icmp_error(ROUTER, UNREACHABLE, 3, ANSWER)))
    came, sent_in = tcp(P, 9, B, 80, SYN, 1), tcp(P, 9, H, 80, SYN, 1)
    yield case("errors through binat", f"binat from {H} to any -> {B}\npass",
               (came, made("in", "10.0.0.5:80"), sent_in),
               (icmp_error(H, UNREACHABLE, 3, sent_in), told("out", "192.0.2.9:80"),
                icmp_error(B, UNREACHABLE, 3, came)),
               (icmp_error(OTHER, UNREACHABLE, 1, tcp(B, 80, P, 9, ACK, 1, 1)), told("in", "10.0.0.5:80"),
                icmp_error(OTHER, UNREACHABLE, 1, tcp(H, 80, P, 9, ACK, 1, 1))))
    request, sent_in = echo(P, E, True, 7, 1), echo(P, SERVER, True, 7, 1)
    yield case("an error about an echo that was redirected", f"rdr to em0 -> {SERVER}\npass",
               (request, made("in", "10.0.0.1:7"), sent_in),
               (icmp_error(SERVER, UNREACHABLE, 1, sent_in), told("out", "192.0.2.1:7"),
                icmp_error(E, UNREACHABLE, 1, request)))
    with_options, wire = udp(H, 1000, P, 53, **OPTIONS), udp(E, 50001, P, 53, **OPTIONS)
    yield case("an error about a packet with IP options", f"{ONE_PORT}\npass allow-opts", (with_options, MADE, wire),
               (error(wire, destination=E), TOLD_IN, error(with_options)))
    yield case("an error that quotes all of a segment", f"{ONE_PORT}\npass", (OPENING, MADE, OPENING_WIRE),
               (error(OPENING_WIRE, destination=E), TOLD_IN, error(with_sum_of(OPENING, OPENING_WIRE))))


def untold_cases():
    filtered = "in block rule r=0 s=-; 0,1; -"
    opened = (ASKED, made("out", ONE_END, rule=1, visited="0,1 0"), WIRE)
    yield case("an error about a packet as it was before", f"{ONE_PORT}\nblock in\npass out", opened,
               (error(ASKED, destination=E), filtered), (error(udp(E, 1000, P, 53), destination=E), filtered),
               (error(udp(H, 50001, P, 53), destination=E), filtered))
    yield case("an error about an answer as it was before", f"{ONE_PORT}\nblock in\npass out", opened,
               (error(ANSWER, source=H, destination=P), "out pass rule r=1 s=-; 0,1; -"))
    yield case("an error of no connection isn't translated", f"{NAT}\nrdr to em0 -> {SERVER}\npass",
               (icmp_error(H, UNREACHABLE, 3, ANSWERED), "out pass rule r=0 s=-; 0; -"),
               (icmp_error(OTHER, UNREACHABLE, 3, WIRE), "in pass rule r=0 s=-; 0; -"), states="",
               counters="filter 0 2 2 112\ntranslation 0 0 0 0\ntranslation 1 0 0 0\ntotal 2 2 0 0 0\n")


# Checksums

def without_sum(packet):
    """A UDP datagram that says that it has no checksum."""
    return changed(packet, 26, b"\0\0")


def summed_to(checksum, make):
    """Two bytes with which a datagram that `make` builds has this checksum."""
    payloads = (number.to_bytes(2) for number in range(2**16))
    return next(payload for payload in payloads if make(payload)[26:28] == checksum)


def one_off(packet, place):
    """A packet with one of its checksums wrong by 1."""
    return changed(packet, place, (int.from_bytes(packet[place:place + 2], "big") + 1).to_bytes(2))


def sum_cases():
    yield case("no UDP checksum", f"{ONE_PORT}\npass", (without_sum(ASKED), MADE, without_sum(WIRE)),
               (without_sum(ANSWER), TOUCHED_IN, without_sum(ANSWERED)),
               (error(without_sum(WIRE), destination=E), TOLD_IN, error(without_sum(ASKED))))
    # what was wrong by 1 is wrong by 1 afterwards
    yield case("checksums that are wrong", f"{ONE_PORT}\npass",
               (one_off(one_off(ASKED, 10), 26), MADE, one_off(one_off(WIRE, 10), 26)),
               (one_off(OPENING, 36), made("out", ONE_END, 2), one_off(OPENING_WIRE, 36)))
    yield case("half of an address that stays", f"nat from {H} to any -> 10.0.9.9 port 50001\npass",
               (ASKED, made("out", "10.0.9.9:50001"), udp("10.0.9.9", 50001, P, 53)))


def all_ones_cases():
    """Checksums of all ones, before and afterwards."""
    ones, same = b"\xff\xff", f"nat from {H} to any -> {H} static-port\npass"
    payload = summed_to(ones, lambda payload: udp(E, 50001, P, 53, payload))
    captured, wire = udp(H, 1000, P, 53, payload), udp(E, 50001, P, 53, payload)
    yield case("a UDP checksum that becomes 0", f"{ONE_PORT}\npass", (captured, MADE, wire),
               (error(wire, destination=E), TOLD_IN, error(captured)))
    payload = summed_to(ones, lambda payload: udp(H, 1000, P, 53, payload))
    captured, wire = udp(H, 1000, P, 53, payload), udp(E, 50001, P, 53, payload)
    yield case("a UDP checksum of all ones", f"{ONE_PORT}\npass", (captured, MADE, wire),
               (error(wire, destination=E), TOLD_IN, error(captured)))
    yield case("a UDP checksum of all ones, and nothing changes", same,
               (captured, "out pass rule r=0 t=0 s=1; 0 0; made 1; -"))
    # no word under it changes, so that it stays though it is right for no header
    came, sent_in = changed(udp(P, 9, E, 53), 10, ones), changed(udp(P, 9, E, 5353), 10, ones)
    yield case("a header's checksum of all ones, and the address stays",
               "rdr to em0 port 53 -> em0 port 5353\npass", (came, made("in", "192.0.2.1:5353"), sent_in))


def length_cases():
    """Payloads of each length up to 64 bytes, which all go one way or the other."""
    payloads = [b"\xa7" * length for length in range(65)]
    rules = f"{ONE_PORT}\npass"
    yield case("datagrams of each length", rules, (ASKED, MADE, WIRE),
               *((udp(H, 1000, P, 53, payload), TOUCHED_OUT, udp(E, 50001, P, 53, payload)) for payload in payloads),
               *((udp(P, 53, E, 50001, payload), TOUCHED_IN, udp(P, 53, H, 1000, payload)) for payload in payloads))
    # each of one window, from the first byte on
    forth, back = (ACK, 1001, 5001), (ACK, 5001, 1001)
    yield case("segments of each length", rules, (OPENING, MADE, OPENING_WIRE),
               (tcp(P, 80, E, 50001, SYN | ACK, 5000, 1001), TOUCHED_IN, tcp(P, 80, H, 1000, SYN | ACK, 5000, 1001)),
               *((tcp(H, 1000, P, 80, *forth, payload=payload), TOUCHED_OUT,
                  tcp(E, 50001, P, 80, *forth, payload=payload)) for payload in payloads),
               *((tcp(P, 80, E, 50001, *back, payload=payload), TOUCHED_IN,
                  tcp(P, 80, H, 1000, *back, payload=payload)) for payload in payloads))


# A datagram of odd length and an error, as other programs captured them (test vectors of the gopacket library), each before
# it as it is written. The checksums of the written ones are worked out in full.
LIBRARY_DATAGRAM, LIBRARY_DATAGRAM_WIRE, LIBRARY_ERROR, LIBRARY_ERROR_INSIDE = (bytes.fromhex(octets) for octets in (
    "45000039d4310000f311b3a00a4d2b830a010011ed2e003500250832474554202f20485454502f312e310d0a486f73743a207777770d0a0d0a",
    "45000039d4310000f311276fc00002010a010011c35100350025a5dd474554202f20485454502f312e310d0a486f73743a207777770d0a0d0a",
    "4500003800000000fc01d7a7480edee2ac1d140f030d946e000000004520004d000040003e112849ac1d140f0a4249c98ecc62e10039769d",
    "4500003800000000fc018dcf480edee20a000005030dde46000000004520004d000040003e11de700a0000050a4249c903e862e10039b7a9"))


def outside_cases():
    """Packets and checksums that others worked out."""
    yield case("a datagram that a library captured", f"{ONE_PORT}\npass", (LIBRARY_DATAGRAM, MADE, LIBRARY_DATAGRAM_WIRE))
    client, server = "172.29.20.15", "10.66.73.201"
    yield case("an error that a library captured", f"nat from {H} to any -> {client} port 36556\npass",
               (udp(H, 1000, server, 25313), made("out", f"{client}:36556"), udp(client, 36556, server, 25313)),
               (LIBRARY_ERROR, TOLD_IN, LIBRARY_ERROR_INSIDE), inside=(Network(0x0A000005, 32),))
    # the example of RFC 1624, section 4: from 5555 to 3285 the checksum dd2f becomes 0, which UDP writes as all ones
    example, became = b"\xdd\x2f", "10.0.0.5:12933"
    yield case("the example of a checksum that becomes 0", f"nat from {H} to any -> {H} port 12933\npass",
               (changed(tcp(H, 21845, P, 80, SYN, 1000), 36, example), made("out", became),
                changed(tcp(H, 12933, P, 80, SYN, 1000), 36, b"\0\0")),
               (changed(udp(H, 21845, P, 53), 26, example), made("out", became, 2),
                changed(udp(H, 12933, P, 53), 26, b"\xff\xff")),
               (changed(udp(H, 21845, P, 54), 26, b"\0\0"), made("out", became, 3),
                changed(udp(H, 12933, P, 54), 26, b"\0\0")))


# Frames

def frame_cases():
    text, long_wire = b"some text", udp(E, 50001, P, 53, b"some text")
    yield case("a payload that wasn't captured", f"{ONE_PORT}\npass",
               (udp(H, 1000, P, 53, text)[:28], MADE, long_wire[:28]))
    yield case("bytes behind the packet", f"{ONE_PORT}\npass", (ASKED + b"\1\2\3", MADE, WIRE + b"\1\2\3"))
    yield case("frames of Ethernet", f"{ONE_PORT}\npass",
               (ethernet(ETHER_IPV4, ASKED), MADE, ethernet(ETHER_IPV4, WIRE)),
               (ethernet(ETHER_IPV4, ANSWER, [7]), TOUCHED_IN, ethernet(ETHER_IPV4, ANSWERED, [7])),
               link=LINKTYPE_ETHERNET)
    yield case("frames of a loopback device", f"{ONE_PORT}\npass", (loopback(ASKED), MADE, loopback(WIRE)),
               (loopback(ANSWER, order=">"), TOUCHED_IN, loopback(ANSWERED, order=">")), link=LINKTYPE_LOOPBACK)
    segment = {"options": bytes([2, 4, 5, 180]), "payload": b"text"}
    yield case("a segment with TCP options", f"{ONE_PORT}\npass",
               (tcp(H, 1000, P, 80, SYN, 1000, **segment), MADE, tcp(E, 50001, P, 80, SYN, 1000, **segment)))


def cases():
    for make in (told_cases, untold_cases, sum_cases, all_ones_cases, length_cases, outside_cases, frame_cases):
        yield from make()
