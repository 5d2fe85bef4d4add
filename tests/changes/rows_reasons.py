"""Rows of packets that come to something by other reasons than a rule or a state, and of packets without ports."""

from captures.packets import (ACK, ICMP, IGMP, LINKTYPE_ETHERNET, MORE_FRAGMENTS, RST, SYN, TCP, UDP, UNREACHABLE, echo,
                              ethernet, fragments, icmp_error, ipv4, summed_message, tcp, udp)
from changes.row import CAME, FLOW_CAME, FLOW_OUT, Row, capture_of, none, one_line, question_of, row, unjudged
from steps.translation_words import (ANSWERED, ASKED, GRE, H2, OPENING, OPTIONS, OTHER, SERVER, E, H, P)

SECOND = udp(H, 1001, P, 53)
FLOW_SECOND, FLOW_OPENING = "udp 10.0.0.5:1001 > 198.51.100.7:53", "tcp 10.0.0.5:1000 > 198.51.100.7:80"
SKIPPED = "set skip on em0\n"
ESP, AH = 50, 51
NO_IPV4 = bytes([0x60]) + bytes(39)


# Interfaces that aren't filtered, and packets that aren't either

def unfiltered():
    yield row("an interface that isn't filtered any more", "block", f"{SKIPPED}block", [ASKED, CAME, ANSWERED],
              f"{FLOW_OUT}  block L1 -> pass skip-on  1 packet, first 1, 1 follows",
              f"{FLOW_CAME}  block L1 -> pass skip-on  1 packet, first 2",
              "block L1 -> pass skip-on: 3 packets in 2 flows, 1 follows", "3 of 3 packets change: 2 causes")
    yield one_line("an interface that is filtered now", f"{SKIPPED}pass in", "pass in", [CAME], FLOW_CAME,
                   "pass skip-on -> pass L1")
    yield row("an interface that isn't filtered, and no rule", "", f"{SKIPPED}block", [CAME, ASKED],
              f"{FLOW_CAME}  pass default -> pass skip-on  1 packet, first 1",
              f"{FLOW_OUT}  pass default -> pass skip-on  1 packet, first 2",
              "pass default -> pass skip-on: 2 packets in 2 flows", "2 of 2 packets change: 2 causes")
    yield none("an interface that isn't filtered, and no rule, by the verdict", "", f"{SKIPPED}block", [CAME, ASKED],
               by_verdict=True)
    yield none("an interface that isn't filtered in both", f"{SKIPPED}block", f"{SKIPPED}pass", [CAME, ASKED[:27]])
    yield row("packets that are too short are one flow", "block", SKIPPED,
              [ASKED[:27], CAME, tcp(P, 1, E, 2, SYN, 1)[:39], ASKED[:20], ASKED[:3]],
              "short  block short -> pass skip-on  1 packet, first 1, 3 follow",
              f"{FLOW_CAME}  block L1 -> pass skip-on  1 packet, first 2",
              "block short -> pass skip-on: 4 packets in 1 flow, 3 follow",
              "block L1 -> pass skip-on: 1 packet in 1 flow", "5 of 5 packets change: 2 causes")
    yield one_line("a packet that is too short, by the verdict", SKIPPED, "pass", [CAME, CAME[:27]], "short",
                   "pass skip-on -> block short", 2, by_verdict=True)
    yield none("packets that are too short in both", "pass", "block", [CAME[:27]])
    yield unjudged("what is no IPv4 packet is skipped anyway", "block", f"{SKIPPED}pass", [NO_IPV4, b"", NO_IPV4],
                   "2 IPv6, 1 other frame")


# Packets that would pass, and are blocked

def with_options():
    came = udp(P, 9, E, 9, **OPTIONS)
    answer = udp(P, 53, H, 1000, **OPTIONS)
    yield one_line("IP options that the rule allows now", "pass in", "pass in allow-opts", [came], FLOW_CAME,
                   "block ip-option L1 -> pass L1")
    yield one_line("IP options without a rule", "", "pass in allow-opts", [came], FLOW_CAME,
                   "block ip-option -> pass L1")
    yield one_line("IP options of a packet that is blocked then", "pass in", "block in", [came], FLOW_CAME,
                   "block ip-option L1 -> block L1")
    yield row("IP options of a packet of a state", "pass out", "pass out allow-opts", [ASKED, answer],
              f"{FLOW_OUT}  pass L1 -> pass L1  1 packet, first 1, 1 follows",
              "block ip-option L1 -> pass L1: 1 packet in 1 flow, 1 follows", "pass L1 -> pass L1: 1 packet in 1 flow",
              "2 of 2 packets change: 1 cause")
    yield none("IP options that the rule never allows", "pass in\npass out", "pass out\npass in", [came])


def mismatched():
    late = tcp(H, 1000, P, 80, ACK, 2**31, 5001, payload=bytes(8))
    yield row("a segment that doesn't fit its connection", "pass out", "pass out flags any no state", [OPENING, late],
              f"{FLOW_OPENING}  pass L1 -> pass L1  1 packet, first 1, 1 follows",
              "block state-mismatch L1 -> pass L1: 1 packet in 1 flow, 1 follows",
              "pass L1 -> pass L1: 1 packet in 1 flow", "2 of 2 packets change: 1 cause")
    yield one_line("a segment that doesn't fit its connection, by the verdict", "pass out",
                   "pass out flags any no state", [OPENING, late], FLOW_OPENING,
                   "block state-mismatch L1 -> pass L1", 2, by_verdict=True)
    yield none("a segment that fits in neither", "pass out\nblock in", "block in\npass out", [OPENING, late])
    yield row("another reason for what the same rule comes to", "pass out flags any",
              "set limit states 1\npass out flags any", [ASKED, OPENING, late],
              f"{FLOW_OPENING}  pass L1 -> block state-limit L2  1 packet, first 2, 1 follows",
              "pass L1 -> block state-limit L2: 1 packet in 1 flow",
              "block state-mismatch L1 -> block state-limit L2: 1 packet in 1 flow, 1 follows", "not judged: 1 midway",
              "2 of 3 packets change: 1 cause")
    rejected = tcp(P, 80, H, 1000, RST | ACK, 0, 1001)
    yield one_line("a SYN that removes a state, and one that finds none", "pass out\nblock in",
                   "set timeout tcp.closed 1\npass out\nblock in", [OPENING, (1, rejected), (3, OPENING)], FLOW_OPENING,
                   "block state-mismatch L1 -> pass L2", 3)


def without_room():
    yield one_line("room for one state", "pass out", "set limit states 1\npass out", [ASKED, SECOND, ANSWERED],
                   FLOW_SECOND, "pass L1 -> block state-limit L2", 2)
    yield row("a rule for one state, and for two", "block\npass out keep state (max 1)",
              "block\npass out keep state (max 2)", [ASKED, SECOND],
              f"{FLOW_SECOND}  block L1 -> pass L2  1 packet, first 2",
              f"{FLOW_OUT}  pass L2 -> pass L2  1 packet, first 1", "block L1 -> pass L2: 1 packet in 1 flow",
              "pass L2 -> pass L2: 1 packet in 1 flow", "2 of 2 packets change: 2 causes")
    first, both = (f"rdr to em0 port {ports} -> {SERVER} port 80\npass" for ports in ("80", "{ 80, 8080 }"))
    yield one_line("a key that another state has", first, both, [udp(P, 9, E, 80), udp(P, 9, E, 8080)],
                   "udp 198.51.100.7:9 > 192.0.2.1:8080", "pass L2 -> block state-insert L2 rdr L1", 2)
    pool = "nat on em0 from 10.0.0.0/8 to any -> em0 port {}\npass"
    yield row("ports for two connections, and for one", pool.format("50001:50002"), pool.format("50001"),
              [ASKED, udp(H2, 1000, P, 53)], f"{FLOW_OUT}  pass L2 nat L1 -> pass L2 nat L1  1 packet, first 1",
              "udp 10.0.0.6:1000 > 198.51.100.7:53  pass L2 nat L1 -> block nat-exhausted nat L1  1 packet, first 2",
              "pass L2 nat L1 -> pass L2 nat L1: 1 packet in 1 flow",
              "pass L2 nat L1 -> block nat-exhausted nat L1: 1 packet in 1 flow", "2 of 2 packets change: 2 causes")


# Flows without ports

def parts():
    whole = udp(P, 4000, H, 53, bytes(32))
    first, last = fragments(whole, 16)
    yield row("parts of a datagram are a flow without ports", "block in",
              "block in\npass in proto udp from 198.51.100.7", [first, last, whole, udp(H, 53, P, 4000)],
              "udp 198.51.100.7 > 10.0.0.5  block L1 -> pass L2  1 packet, first 1, 1 follows",
              "udp 198.51.100.7:4000 > 10.0.0.5:53  block L1 -> pass L2  1 packet, first 3, 1 follows",
              "block L1 -> pass L2: 3 packets in 2 flows, 1 follows",
              # which goes out by default in one run, and by a state in the other
              "pass default -> pass L2: 1 packet in 1 flow, 1 follows", "not judged: 2 parts of packets",
              "4 of 4 packets change: 2 causes")
    yield row("a part of a datagram that a rule with ports doesn't hold for", "pass in",
              "pass in\nblock in proto udp to port 53", [first, whole],
              "udp 198.51.100.7:4000 > 10.0.0.5:53  pass L1 -> block L2  1 packet, first 2",
              "pass L1 -> block L2: 1 packet in 1 flow", "not judged: 1 part of a packet",
              "1 of 2 packets change: 1 cause")
    yield row("parts of segments both ways", "pass no state", "block",
              [ipv4(H, P, TCP, bytes(24), fragment=MORE_FRAGMENTS), ipv4(P, H, TCP, bytes(8), fragment=3),
               ipv4(P, H, UDP, bytes(8), fragment=3)],
              "tcp 10.0.0.5 > 198.51.100.7  pass L1 -> block L1  1 packet, first 1, 1 follows",
              "udp 198.51.100.7 > 10.0.0.5  pass L1 -> block L1  1 packet, first 3",
              "pass L1 -> block L1: 3 packets in 2 flows, 1 follows", "not judged: 3 parts of packets",
              "3 of 3 packets change: 2 causes")


def messages():
    """Messages of ICMP, which have no ports."""
    yield row("echoes of several identifiers are one flow", "pass", "block",
              [echo(H, P, True, 7, 1), echo(P, H, False, 7, 1), echo(H, P, True, 8, 1), echo(H2, P, True, 7, 1)],
              "icmp 10.0.0.5 > 198.51.100.7  pass L1 -> block L1  1 packet, first 1, 2 follow",
              "icmp 10.0.0.6 > 198.51.100.7  pass L1 -> block L1  1 packet, first 4",
              "pass L1 -> block L1: 4 packets in 2 flows, 2 follow", "4 of 4 packets change: 2 causes")
    error, stamp = icmp_error(P, UNREACHABLE, 3, ASKED), ipv4(P, H, ICMP, summed_message(13, 0, bytes(16)))
    yield row("errors and other messages between two hosts are one flow", "pass no state", "block",
              [error, stamp, echo(P, H, True, 7, 1)],
              "icmp 198.51.100.7 > 10.0.0.5  pass L1 -> block L1  1 packet, first 1, 2 follow",
              "pass L1 -> block L1: 3 packets in 1 flow, 2 follow", "3 of 3 packets change: 1 cause")
    yield row("an error about a packet that makes no state any more", "block in\npass out",
              "block in\npass out no state", [ASKED, icmp_error(OTHER, UNREACHABLE, 1, ASKED)],
              f"{FLOW_OUT}  pass L2 -> pass L2  1 packet, first 1, 1 follows", "pass L2 -> pass L2: 1 packet in 1 flow",
              "pass L2 -> block L1: 1 packet in 1 flow, 1 follows", "2 of 2 packets change: 1 cause")
    asking = "block in\npass in proto icmp icmp-type {}"
    yield one_line("a type of ICMP", asking.format("echoreq"), asking.format("13"), [stamp],
                   "icmp 198.51.100.7 > 10.0.0.5", "block L1 -> pass L2")


def protocols():
    names = {GRE: "gre", ESP: "esp", AH: "ah", IGMP: "igmp", 41: "41", 0: "0", 255: "255"}
    pair = "pass L1 -> block L1"
    yield row("other protocols", "pass no state", "block",
              [ipv4(*ends, protocol, bytes(8)) for protocol in names for ends in ((H, P), (P, H))],
              *(f"{name} 10.0.0.5 > 198.51.100.7  {pair}  1 packet, first {2 * place + 1}, 1 follows"
                for place, name in enumerate(names.values())),
              f"{pair}: 14 packets in 7 flows, 7 follow", "14 of 14 packets change: 7 causes")


# Other link types

def frames():
    tagged, plain = (ethernet(0x0800, CAME, tags) for tags in ((7,), ()))
    capture = capture_of([tagged, ethernet(0x0806, bytes(28)), plain, ethernet(0x0800, CAME, (1, 2))],
                         network=LINKTYPE_ETHERNET)
    yield Row("frames with a tag and without are one flow", question_of("pass in", "block in", capture),
              (f"{FLOW_CAME}  pass L1 -> block L1  1 packet, first 1, 1 follows",
               "pass L1 -> block L1: 2 packets in 1 flow, 1 follows", "not judged: 1 ARP, 1 with two VLAN tags",
               "2 of 4 packets change: 1 cause"))


def rows():
    for make in (unfiltered, with_options, mismatched, without_room, parts, messages, protocols, frames):
        yield from make()
