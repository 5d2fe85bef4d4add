"""Cases of ICMP errors, with the outcomes written out: those that tell of a connection with a state, those that don't quote
enough of a packet, and those that tell of no connection with a state."""

from captures.packets import (ACK, DONT_FRAGMENT, ICMP, MORE_FRAGMENTS, SYN, echo, icmp_error, ipv4, summed_message,
                              tcp, udp)

H, P, ROUTER = "10.0.0.5", "198.51.100.7", "203.0.113.1"
GRE = 47
FOUR_OPTION_BYTES = bytes([1, 1, 1, 1])
OPTIONS = {"ip_options": FOUR_OPTION_BYTES}
UNREACHABLE, QUENCH, REDIRECT, EXCEEDED, PROBLEM = 3, 4, 5, 11, 12

RULES = "block in\npass out"
UDP_OUT = udp(H, 1000, P, 53)
SYN_OUT = tcp(H, 1000, P, 80, SYN, 1000)
MADE = "out pass rule r=1 s=1; 0,1; made 1"
TOLD, FILTERED = "in pass state-error r=1 s=1; -; -", "in block rule r=0 s=-; 0,1; -"
STATE = ("1 17 out 198.51.100.7:53,10.0.0.5:1000 198.51.100.7:53,10.0.0.5:1000 r=1 t=- 1/0/0/0/- 0/0/0/0/- 0 60 1 28 "
         "0 0\n")


def error(quoted, kind=UNREACHABLE, code=1, source=ROUTER, destination=H, **header):
    """An error that quotes all of these bytes."""
    return ipv4(source, destination, ICMP, summed_message(kind, code, bytes(4) + quoted), **header)


def changed(packet, place, octets):
    """A packet with other bytes from a place on."""
    return packet[:place] + octets + packet[place + len(octets):]


def known_cases(case):
    yield case("an error of a UDP datagram", RULES, (UDP_OUT, MADE), (icmp_error(ROUTER, UNREACHABLE, 1, UDP_OUT), TOLD),
               states=STATE, counters="filter 0 1 0 0\nfilter 1 1 2 84\ntotal 2 2 0 0 0\n", passed=[1, 2])
    yield case("an error of a TCP segment", RULES, (SYN_OUT, MADE), (icmp_error(ROUTER, EXCEEDED, 0, SYN_OUT), TOLD))
    request = echo(H, P, True, 7, 1)
    yield case("an error of an echo request", RULES, (request, MADE), (icmp_error(ROUTER, PROBLEM, 0, request), TOLD))
    reply = echo(H, P, False, 7, 1)
    yield case("an error of an echo reply", "pass in\nblock out",
               (echo(P, H, True, 7, 1), "in pass rule r=0 s=1; 0,1; made 1"),
               (reply, "out pass state r=0 s=1; -; touched 1"),
               (icmp_error(ROUTER, UNREACHABLE, 1, reply), "in pass state-error r=0 s=1; -; -"))
    yield case("the kinds of errors", RULES, (UDP_OUT, MADE), (error(UDP_OUT, EXCEEDED, 1), TOLD),
               (error(UDP_OUT, PROBLEM, 9), TOLD), (error(UDP_OUT, UNREACHABLE, 255), TOLD),
               (error(UDP_OUT, QUENCH), FILTERED), (error(UDP_OUT, REDIRECT), FILTERED), (error(UDP_OUT, 13), FILTERED))
    came = udp(P, 53, H, 1000)
    yield case("an error that goes out", "pass in\nblock out", (came, "in pass rule r=0 s=1; 0,1; made 1"),
               (icmp_error(H, UNREACHABLE, 3, came), "out pass state-error r=0 s=1; -; -"))
    yield case("an error that goes out and embeds an answer", RULES, (UDP_OUT, MADE),
               (error(came, source=H, destination=P), "out pass state-error r=1 s=1; -; -"))
    yield case("an error that comes in and embeds an answer", "pass in\nblock out",
               (came, "in pass rule r=0 s=1; 0,1; made 1"), (error(UDP_OUT), "in pass state-error r=0 s=1; -; -"))
    yield case("an error to another host", RULES, (UDP_OUT, MADE), (error(UDP_OUT, destination="192.0.2.1"), TOLD))
    yield case("an error and a full table", "set limit states 1\n" + RULES, (UDP_OUT, MADE), (error(UDP_OUT), TOLD))
    yield case("an error puts no deadline off", RULES, (0, UDP_OUT, MADE), (59, error(UDP_OUT), TOLD),
               (60, error(UDP_OUT), FILTERED), states="")
    yield case("an error where nothing is filtered", "set skip on em0", (error(UDP_OUT), "- pass skip-on r=- s=-; -; -"))
    yield case("an error that is a fragment", RULES, (UDP_OUT, MADE), (error(UDP_OUT, fragment=MORE_FRAGMENTS), FILTERED))
    yield case("an error of a segment without a fitting number", RULES, (SYN_OUT, MADE),
               (error(changed(SYN_OUT, 24, bytes(4))), TOLD))


def quoted_cases(case):
    whole = error(UDP_OUT)
    short = "- block short r=- s=-; -; -"
    yield case("an error that is cut at each length", RULES, (UDP_OUT, MADE),
               *((whole[:length], short) for length in range(20, 28)),
               *((whole[:length], FILTERED) for length in range(28, 56)), (whole, TOLD))
    yield case("an error that quotes bytes up to each length", RULES, (UDP_OUT, MADE),
               *((error(UDP_OUT[:length]), FILTERED) for length in range(28)), (error(UDP_OUT), TOLD))
    beyond = changed(whole, 2, (28).to_bytes(2))
    yield case("what is quoted behind the total length counts", RULES, (UDP_OUT, MADE), (beyond, TOLD),
               (changed(whole, 2, (55).to_bytes(2)), TOLD), (changed(whole, 2, (27).to_bytes(2)), short))
    yield case("a quoted total length counts for nothing", RULES, (UDP_OUT, MADE),
               (error(changed(UDP_OUT, 2, bytes(2))), TOLD), (error(changed(UDP_OUT, 2, b"\xff\xff")), TOLD))
    with_options = udp(H, 1000, P, 53, **OPTIONS)
    yield case("a quoted header with IP options", RULES, (UDP_OUT, MADE), (error(with_options[:31]), FILTERED),
               (error(with_options[:32]), TOLD))
    yield case("a quoted header that is none", RULES, (UDP_OUT, MADE), (error(changed(UDP_OUT, 0, b"\x65")), FILTERED),
               (error(changed(UDP_OUT, 0, b"\x44")), FILTERED), (error(changed(UDP_OUT, 0, b"\x46")), FILTERED))
    yield case("a quoted fragment", RULES, (UDP_OUT, MADE), (error(changed(UDP_OUT, 6, b"\x20\x00")), TOLD),
               (error(changed(UDP_OUT, 6, b"\x00\x01")), FILTERED), (error(changed(UDP_OUT, 6, b"\x20\x01")), FILTERED),
               (error(changed(UDP_OUT, 6, b"\x10\x00")), FILTERED),
               (error(changed(UDP_OUT, 6, DONT_FRAGMENT.to_bytes(2))), TOLD),
               (error(changed(UDP_OUT, 6, b"\x80\x00")), TOLD))
    # the ports that would stand at 16 and at 0 bytes, if so short a header were taken
    yield case("a quoted header that is too short and has ports in it", RULES,
               (udp(H, 0xC633, P, 0x6407), MADE), (error(changed(UDP_OUT, 0, b"\x44")), FILTERED),
               (udp(H, 0x4000, P, 0x1C), "out pass rule r=1 s=3; 0,1; made 3"),
               (error(changed(UDP_OUT, 0, b"\x40")), FILTERED))
    tunnel = ipv4(H, P, GRE, bytes(8))
    yield case("a quoted packet of another protocol", RULES, (tunnel, MADE), (error(tunnel), FILTERED))
    request = echo(H, P, True, 0, 0)
    yield case("a quoted message of ICMP that is no echo", RULES, (request, MADE),
               (error(changed(request, 20, bytes([UNREACHABLE]))), FILTERED),
               (error(changed(request, 20, b"\x0d")), FILTERED), (error(changed(request, 20, b"\x00")), TOLD))


def unknown_cases(case):
    yield case("an error of no connection makes no state", "pass in", (error(UDP_OUT), "in pass rule r=0 s=-; 0; -"),
               states="", counters="filter 0 1 1 56\ntotal 1 1 0 0 0\n")
    yield case("an error of no connection by default", "block out", (error(UDP_OUT), "in pass default r=- s=-; 0; -"))
    yield case("an error of no connection and a full table", "set limit states 1\npass",
               (SYN_OUT, "out pass rule r=0 s=1; 0; made 1"), (error(UDP_OUT), "in pass rule r=0 s=-; 0; -"))
    yield case("an error that quotes the packet of the other way", RULES, (UDP_OUT, MADE),
               (error(udp(P, 53, H, 1000)), FILTERED),
               (error(UDP_OUT, source=H, destination=P), "out pass rule r=1 s=-; 0,1; -"))
    neighbour = udp(H, 1, "10.0.0.6", 2)
    yield case("an error from the inside to the inside embeds a packet from the outside", RULES, (neighbour, MADE),
               (icmp_error("10.0.0.6", UNREACHABLE, 3, neighbour), "out pass rule r=1 s=-; 0,1; -"),
               (error(udp("10.0.0.6", 2, H, 1), source="10.0.0.6"), "out pass state-error r=1 s=1; -; -"))
    passing_by = udp(P, 1, ROUTER, 2)
    yield case("an error from the outside to the outside embeds a packet from the inside", "pass in",
               (passing_by, "in pass rule r=0 s=1; 0; made 1"),
               (icmp_error(ROUTER, UNREACHABLE, 3, passing_by), "in pass rule r=0 s=-; 0; -"))
    yield case("an error of other ports, addresses, protocols", RULES, (UDP_OUT, MADE),
               (error(udp(H, 1001, P, 53)), FILTERED), (error(udp(H, 1000, P, 54)), FILTERED),
               (error(udp("10.0.0.6", 1000, P, 53)), FILTERED), (error(udp(H, 1000, ROUTER, 53)), FILTERED),
               (error(tcp(H, 1000, P, 53, ACK, 1)), FILTERED))
    yield case("an error of an echo of another identifier", RULES, (echo(H, P, True, 7, 1), MADE),
               (error(echo(H, P, True, 8, 1)), FILTERED))


def option_cases(case):
    yield case("IP options of an error, and a state whose rule allows them", "block in\npass out allow-opts",
               (UDP_OUT, MADE), (error(UDP_OUT, **OPTIONS), TOLD))
    yield case("IP options of an error, and a state whose rule doesn't", "pass in allow-opts\npass out", (UDP_OUT, MADE),
               (error(UDP_OUT, **OPTIONS), "in block ip-option r=1 s=1; -; -"), states=STATE,
               counters="filter 0 1 0 0\nfilter 1 1 1 28\ntotal 2 1 1 0 0\n")
    yield case("IP options of what an error quotes", RULES, (UDP_OUT, MADE), (error(udp(H, 1000, P, 53, **OPTIONS)), TOLD))
    yield case("IP options of an error of no connection", "pass in",
               (error(UDP_OUT, **OPTIONS), "in block ip-option r=0 s=-; 0; -"))
    yield case("IP options of an error of no connection that a rule allows", "pass in allow-opts",
               (error(UDP_OUT, **OPTIONS), "in pass rule r=0 s=-; 0; -"))
    yield case("IP options of an error of no connection by default", "block out",
               (error(UDP_OUT, **OPTIONS), "in block ip-option r=- s=-; 0; -"))
    yield case("IP options of an error of no connection that is blocked", RULES, (error(UDP_OUT, **OPTIONS), FILTERED))


def cases(case):
    yield from known_cases(case)
    yield from quoted_cases(case)
    yield from unknown_cases(case)
    yield from option_cases(case)
