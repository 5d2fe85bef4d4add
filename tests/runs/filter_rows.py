"""Cases on rules and anchors with the words of lines written out: what each criterion holds of, and which rule decides.

The packets come in unless it is said otherwise, and most rulesets block what they don't name, so that a packet is `in`
by the verdict `pass` alone. What is written out of a packet holds where it comes alone, since some make states for others.
"""

from typing import NamedTuple

from captures.packets import ACK, FIN, MORE_FRAGMENTS, PSH, RST, SYN, TCP, UDP, echo, ipv4, summed_message, tcp, udp
from runs.case import INSIDE, Case, capture_of, refused
from runs.max_texts import MAX_FAULTS
from runs.translation_faults import TRANSLATION_FAULTS

OUTSIDE, HERE = "198.51.100.7", "192.0.2.1"
ICMP, GRE = 1, 47
URG, ECE, CWR = 0x20, 0x40, 0x80
# they make a header of 24 bytes
FOUR_OPTION_BYTES = bytes([1, 1, 1, 1])
BLOCKED = "in block rule r=0"


class Row(NamedTuple):
    """A case, and of each packet of its capture the words of its line, from the direction to the rule, where it comes
    alone."""
    case: Case
    judged: tuple

    def alone(self):
        """A case for each packet, with these words."""
        for packet, words in self.judged:
            yield self.case._replace(capture=capture_of([packet])), words


def row(name, rules, *judged, inside=INSIDE):
    return Row(Case(name, rules.encode(), inside, capture_of([packet for packet, _ in judged])), judged)


def passing(name, rule, *judged):
    """A row of packets that a rule alone lets in, or doesn't, by a truth beside each."""
    return row(name, f"block in\n{rule}\n", *((packet, "in pass rule r=1" if held else BLOCKED)
                                             for packet, held in judged))


def to_port(port, protocol=udp):
    if protocol == tcp:
        return tcp(OUTSIDE, 9, HERE, port, SYN, 1000)
    return protocol(OUTSIDE, 9, HERE, port)


def with_flags(flags):
    return tcp(OUTSIDE, 9, HERE, 80, flags, 1000)


def message(kind, code):
    return ipv4(OUTSIDE, HERE, ICMP, summed_message(kind, code, bytes(4)))


def first_part(protocol, payload):
    return ipv4(OUTSIDE, HERE, protocol, payload, fragment=MORE_FRAGMENTS)


def later_part(protocol):
    return ipv4(OUTSIDE, HERE, protocol, bytes(16), fragment=3)


UDP_NINE = udp(OUTSIDE, 9, HERE, 9)
SYN_PACKET = with_flags(SYN)
PING = echo(OUTSIDE, HERE, True, 7, 1)
TUNNEL = ipv4(OUTSIDE, HERE, GRE, bytes(12))
UDP_OPTIONS = udp(OUTSIDE, 9, HERE, 9, ip_options=FOUR_OPTION_BYTES)
SYN_OPTIONS = tcp(OUTSIDE, 9, HERE, 80, SYN, 1000, ip_options=FOUR_OPTION_BYTES)
OPTIONS_FRAGMENT = ipv4(OUTSIDE, HERE, UDP, bytes(8), ip_options=FOUR_OPTION_BYTES, fragment=1)
FRAGMENT = first_part(UDP, udp(OUTSIDE, 53, HERE, 53, bytes(16))[20:])
FRAGMENTS = (FRAGMENT, later_part(UDP), first_part(TCP, SYN_PACKET[20:] + bytes(4)), later_part(TCP),
             first_part(ICMP, PING[20:]), later_part(ICMP), later_part(GRE))


# Verdicts

def verdict_rows():
    yield row("a fragment and a rule with a port", "block in proto udp from any to any port 53",
              (FRAGMENT, "in pass default r=-"))
    yield row("IP options that no rule allows", "pass in", (SYN_OPTIONS, "in block ip-option r=0"))
    yield row("IP options that a rule allows", "pass in allow-opts", (SYN_OPTIONS, "in pass rule r=0"))
    yield row("IP options by default", "block out", (SYN_OPTIONS, "in block ip-option r=-"))
    yield row("IP options that an earlier rule allows", "pass in allow-opts\npass in proto udp",
              (SYN_OPTIONS, "in pass rule r=0"), (UDP_OPTIONS, "in block ip-option r=1"))
    yield row("IP options of a packet that is blocked anyway", "block in allow-opts\nblock return in proto udp",
              (SYN_OPTIONS, "in block rule r=0"), (UDP_OPTIONS, "in return rule r=1"))
    yield row("a packet that is answered", "block return in", (UDP_NINE, "in return rule r=0"))
    yield row("a policy of answering", "set block-policy return\nblock in\nblock drop in proto tcp",
              (UDP_NINE, "in return rule r=0"), (SYN_PACKET, "in block rule r=1"))
    yield row("a policy of dropping", "set block-policy drop\nblock in\nblock return in proto tcp",
              (UDP_NINE, "in block rule r=0"), (SYN_PACKET, "in return rule r=1"))
    yield row("a skipped interface", "set skip on em0\nblock in", (UDP_NINE, "- pass skip-on r=-"))
    yield row("directions", "block in\npass out", (UDP_NINE, "in block rule r=0"),
              (udp("10.0.0.5", 9, OUTSIDE, 9), "out pass rule r=1"))
    yield row("the last of several", "block\npass\nblock proto tcp\nblock proto icmp", (UDP_NINE, "in pass rule r=1"),
              (SYN_PACKET, "in block rule r=2"), (PING, "in block rule r=3"))
    yield row("a quick rule", "pass quick proto udp\nblock\nblock quick proto tcp\npass",
              (UDP_NINE, "in pass rule r=0"), (SYN_PACKET, "in block rule r=2"), (PING, "in pass rule r=3"))
    yield row("65536 rules", "pass\n" * 65535 + "block proto udp\n", (UDP_NINE, "in block rule r=65535"),
              (PING, "in pass rule r=65534"))
    # the rules that are visited have a gap at each anchor
    yield row("300 anchors that don't hold", "anchor proto tcp {\nblock quick\n}\npass in\n" * 300,
              (UDP_NINE, "in pass rule r=599"), (PING, "in pass rule r=599"))
    # after the first the second would be of its state
    yield row("an answer that nobody asked for", "block\npass out keep state",
              (udp("10.0.0.5", 9, OUTSIDE, 9), "out pass rule r=1"), (udp(OUTSIDE, 9, "10.0.0.5", 9), "in block rule r=0"))


# Criteria

PORTS = (79, 80, 81, 85, 89, 90, 91)
PORTS_HELD = (
    ("80", (80,)), ("= 80", (80,)), ("!= 80", (79, 81, 85, 89, 90, 91)), ("< 80", (79,)), ("<= 80", (79, 80)),
    ("> 90", (91,)), (">= 90", (90, 91)), ("80:90", (80, 81, 85, 89, 90)), ("80:80", (80,)),
    ("80 >< 90", (81, 85, 89)), ("80 <> 90", (79, 91)), ("90 >< 80", ()), ("90 <> 80", PORTS), ("80 >< 81", ()),
    ("85 <> 85", (79, 80, 81, 89, 90, 91)), ("http", (80,)),
)


def port_rows():
    for port, held in PORTS_HELD:
        for protocol in (udp, tcp):
            yield passing(f"to port {port} ({protocol.__name__})", f"pass in from any to any port {port}",
                          *((to_port(number, protocol), number in held) for number in PORTS))
    yield row("a list of ports", "block in\npass in proto udp to port { 79, 90:91 }", (to_port(79), "in pass rule r=1"),
              (to_port(80), BLOCKED), (to_port(90), "in pass rule r=2"), (to_port(91), "in pass rule r=2"))
    yield passing("a source port", "pass in from port 9", (to_port(80), True), (udp(OUTSIDE, 80, HERE, 9), False))
    yield passing("both ports", "pass in from port 9 to port 80", (to_port(80), True), (to_port(81), False),
                  (udp(OUTSIDE, 8, HERE, 80), False))
    yield passing("the least and the greatest port", "pass in from port 0 to port 65535",
                  (udp(OUTSIDE, 0, HERE, 65535), True), (udp(OUTSIDE, 1, HERE, 65535), False),
                  (udp(OUTSIDE, 0, HERE, 65534), False))
    yield passing("the least and the greatest port outside of a range", "pass in from port 80 <> 90 to port 80 <> 90",
                  (udp(OUTSIDE, 0, HERE, 65535), True), (udp(OUTSIDE, 65535, HERE, 0), True),
                  (udp(OUTSIDE, 0, HERE, 80), False), (udp(OUTSIDE, 90, HERE, 65535), False))
    # zeros where a TCP or UDP packet had its ports
    yield passing("a port and other protocols", "pass in to port != 1", (PING, False), (TUNNEL, False),
                  (UDP_NINE, True), (SYN_PACKET, True))


def flag_rows():
    yield passing("flags that are written", "pass in flags S/SA no state", (SYN_PACKET, True),
                  (with_flags(SYN | ACK), False), (with_flags(ACK), False), (with_flags(SYN | PSH | FIN), True),
                  (with_flags(0), False), (UDP_NINE, True), (PING, True), (TUNNEL, True))
    yield passing("default flags", "pass in", (SYN_PACKET, True), (with_flags(SYN | ACK), False),
                  (with_flags(ACK), False), (with_flags(FIN), False), (with_flags(SYN | RST), True), (UDP_NINE, True), (PING, True))
    yield passing("default flags beside other options", "pass in keep state (if-bound)", (SYN_PACKET, True),
                  (with_flags(ACK), False))
    yield passing("flags that no state asks for", "pass in no state", (with_flags(ACK), True), (with_flags(0), True))
    yield passing("any flags", "pass in flags any", (with_flags(ACK), True), (with_flags(0), True), (SYN_PACKET, True))
    yield row("a rule that blocks has no default flags", "pass in no state\nblock in proto tcp",
              (with_flags(ACK), "in block rule r=1"))
    yield passing("a flag that isn't looked at", "pass in flags S/A", (SYN_PACKET, False),
                  (with_flags(SYN | ACK), False), (with_flags(ACK), False))
    letters = (("F", FIN), ("S", SYN), ("R", RST), ("P", PSH), ("A", ACK), ("U", URG), ("E", ECE), ("W", CWR))
    for letter, flag in letters:
        yield passing(f"the flag {letter}", f"pass in flags {letter}/{letter}", (with_flags(flag), True),
                      (with_flags(0xFF), True), (with_flags(0xFF ^ flag), False))


def icmp_rows():
    yield passing("an ICMP type with its code", "pass in proto icmp icmp-type 3 code 1", (message(3, 1), True),
                  (message(3, 0), False), (message(8, 1), False))
    yield passing("an ICMP type with the code 0", "pass in icmp-type unreach code 0", (message(3, 0), True),
                  (message(3, 1), False))
    yield passing("an ICMP type with all codes", "pass in icmp-type unreach", (message(3, 0), True),
                  (message(3, 13), True), (message(0, 3), False))
    # the first two bytes after the header are those of type 3 and code 1 in each of these
    looks_alike = 3 << 8 | 1
    yield passing("an ICMP type and other protocols", "pass in icmp-type 3 code 1",
                  (udp(OUTSIDE, looks_alike, HERE, 9), False), (tcp(OUTSIDE, looks_alike, HERE, 9, SYN, 1), False),
                  (ipv4(OUTSIDE, HERE, GRE, bytes([3, 1]) + bytes(10)), False), (message(3, 1), True))
    yield passing("an ICMP type of another protocol", "pass in proto udp icmp-type 3", (message(3, 0), False),
                  (UDP_NINE, False))
    yield passing("types from 0 to 255", "pass in icmp-type 255 code 255", (message(255, 255), True),
                  (message(255, 254), False), (message(0, 255), False))


def protocol_rows():
    yield passing("a protocol", "pass in proto gre", (TUNNEL, True), (UDP_NINE, False), (SYN_PACKET, False))
    yield passing("the protocol 0", "pass in proto 0", (ipv4(OUTSIDE, HERE, 0, bytes(8)), True), (UDP_NINE, False))
    yield passing("the protocol 255", "pass in proto 255", (ipv4(OUTSIDE, HERE, 255), True), (UDP_NINE, False))


FROM_7, FROM_8, FROM_9 = (udp(f"198.51.100.{last}", 9, HERE, 9) for last in (7, 8, 9))
ELSEWHERE, OWN = udp("203.0.113.9", 9, HERE, 9), udp(HERE, 9, OUTSIDE, 9)
NEIGHBOUR = udp("192.0.2.77", 9, OUTSIDE, 9)
TABLE = "table <t> { 10.0.0.0/8, !10.1.0.0/16, 10.1.2.0/24 }\n"
# each set of sources with what it holds of FROM_7, FROM_8, FROM_9, ELSEWHERE, OWN and NEIGHBOUR
SOURCES_HELD = (
    ("any", (1, 1, 1, 1, 1, 1)), ("198.51.100.8", (0, 1, 0, 0, 0, 0)), ("198.51.100.8/31", (0, 1, 1, 0, 0, 0)),
    ("198.51.100.99/24", (1, 1, 1, 0, 0, 0)), ("0.0.0.0/0", (1, 1, 1, 1, 1, 1)),
    ("198.51.100.7 - 198.51.100.8", (1, 1, 0, 0, 0, 0)), ("198.51.100.9 - 198.51.100.9", (0, 0, 1, 0, 0, 0)),
    ("192.0.2.78 - 203.0.113.9", (1, 1, 1, 1, 0, 0)), ("self", (0, 0, 0, 0, 1, 0)), ("(em0)", (0, 0, 0, 0, 1, 0)),
    ("em0:network", (0, 0, 0, 0, 1, 1)), ("<few>", (0, 1, 0, 1, 0, 0)), ("<none>", (0, 0, 0, 0, 0, 0)),
)


def address_rows():
    tables = "table <few> { 198.51.100.8 203.0.113.0/24 !203.0.113.0/29 }\ntable <none>\n"
    packets = FROM_7, FROM_8, FROM_9, ELSEWHERE, OWN, NEIGHBOUR
    for source, held in SOURCES_HELD:
        yield passing(f"from {source}", f"{tables}pass in from {source}", *zip(packets, held))
        yield passing(f"from !{source}", f"{tables}pass in from !{source}", *zip(packets, (not one for one in held)))
    for negated, held in (("", True), ("!", False)):
        yield passing(f"to {negated}an address", f"pass in to {negated}192.0.2.1", (UDP_NINE, held),
                      (OWN, not held), (NEIGHBOUR, not held))
    yield row("both ends", "block in\npass in from 198.51.100.7 to 192.0.2.1", (UDP_NINE, "in pass rule r=1"),
              (FROM_8, BLOCKED), (udp(OUTSIDE, 9, "192.0.2.2", 9), BLOCKED))


def table_rows():
    from_ten = [udp(address, 9, HERE, 9) for address in ("10.1.2.3", "10.1.3.3", "10.2.0.1", "11.0.0.1")]
    yield row("a table", f"{TABLE}block in\npass in from <t>",
              *zip(from_ten, ("in pass rule r=1", BLOCKED, "in pass rule r=1", BLOCKED)), inside="172.16.0.0/12")
    yield row("a table with a not", f"{TABLE}block in\npass in from !<t>",
              *zip(from_ten, (BLOCKED, "in pass rule r=1", BLOCKED, "in pass rule r=1")), inside="172.16.0.0/12")
    yield row("a table of all but one", "table <t> { 0.0.0.0/0 !198.51.100.7 }\nblock in\npass in from <t>",
              (FROM_7, BLOCKED), (FROM_8, "in pass rule r=1"))


def interface_rows():
    for interface, held in (("em0", True), ("!em0", False), ("em1", False), ("!em1", True), ("em00", False),
                            ("em", False), ("EM0", False), ("em0:network", False)):
        yield passing(f"on {interface}", f"pass in on {interface}", (UDP_NINE, held))


# what a rule may write, with what it holds of FRAGMENTS: first and later parts of UDP, TCP and ICMP, and one of GRE
NOTHING, EVERYTHING = (False,) * 7, (True,) * 7
FRAGMENTS_HELD = (
    ("from port 53", NOTHING), ("to port 53", NOTHING), ("to port != 9", NOTHING), ("proto udp to port 53", NOTHING),
    ("flags S/SA no state", NOTHING), ("flags A/SA", NOTHING), ("icmp-type 8", NOTHING),
    ("icmp-type 8 code 0", NOTHING), ("proto icmp icmp-type 8", NOTHING), ("flags any", EVERYTHING), ("", EVERYTHING),
    ("no state", EVERYTHING), ("keep state", EVERYTHING), ("on em0", EVERYTHING),
    ("from 198.51.100.7 to 192.0.2.1", EVERYTHING),
    ("proto udp", (True, True, False, False, False, False, False)),
    ("proto tcp", (False, False, True, True, False, False, False)),
    ("proto icmp", (False, False, False, False, True, True, False)),
)


def fragment_rows():
    for words, held in FRAGMENTS_HELD:
        yield passing(f"fragments and '{words}'", f"pass in {words}", *zip(FRAGMENTS, held))
    yield row("fragments and an anchor with a port", "block in\nanchor to port 53 {\npass\n}", (FRAGMENT, BLOCKED),
              (udp(OUTSIDE, 53, HERE, 53), "in pass rule r=1"))
    yield row("a fragment with IP options", "pass in\n", (OPTIONS_FRAGMENT, "in block ip-option r=0"))


# Anchors

# rulesets with the words of what becomes of UDP_NINE
ANCHORS = (
    ("a quick rule in an anchor", 'block all\nanchor "a" {\npass quick all\n}\nblock quick all\n', "pass rule r=1"),
    ("an anchor that isn't quick", "anchor {\npass\n}\nblock", "block rule r=1"),
    ("an anchor that is last", "block\nanchor {\npass\n}", "pass rule r=1"),
    ("a quick anchor that is first", "anchor quick {\npass\n}\nblock", "pass rule r=0"),
    ("a quick anchor that is last", "block\nanchor quick {\npass\n}", "pass rule r=1"),
    ("a quick anchor between rules", "block\nanchor quick {\npass\n}\nblock", "pass rule r=1"),
    ("a quick anchor that doesn't hold", "anchor quick proto tcp {\npass\n}\nblock", "block rule r=1"),
    ("a quick anchor of the other direction", "anchor out quick {\npass\n}\nblock", "block rule r=1"),
    ("a quick anchor in which no rule hits", "anchor quick {\npass proto tcp\npass out\n}\nblock", "block rule r=2"),
    ("an empty quick anchor", "anchor quick\nanchor quick {\n}\nblock", "block rule r=0"),
    ("the last hit in a quick anchor", "anchor quick {\nblock\npass\nblock proto tcp\n}\nblock", "pass rule r=1"),
    ("a quick rule in a quick anchor", "anchor quick {\nblock\npass quick\nblock\n}\nblock", "pass rule r=1"),
    ("a quick anchor first in another", "anchor {\nanchor quick {\npass\n}\nblock\n}\nblock", "pass rule r=0"),
    ("a quick anchor last in another", "anchor {\nblock\nanchor quick {\npass\n}\n}\nblock", "pass rule r=1"),
    ("an anchor in a quick one", "anchor quick {\nanchor {\npass\n}\nblock proto tcp\n}\nblock", "pass rule r=0"),
    ("rules go on in a quick anchor", "anchor quick {\nanchor {\npass\n}\nblock\n}\npass", "block rule r=1"),
    ("quick anchors in one another", "anchor quick {\nanchor quick {\npass\n}\nblock\n}\nblock", "pass rule r=0"),
    ("a quick anchor three deep", "anchor {\nanchor {\nblock\nanchor quick {\npass\n}\nblock\n}\n}\nblock",
     "pass rule r=1"),
    ("a quick anchor in one that doesn't hold", "anchor proto tcp {\nanchor quick {\npass quick\n}\n}\nblock",
     "block rule r=1"),
    ("an anchor in which the inner one doesn't hold",
     "anchor quick {\nanchor proto tcp {\npass quick\n}\npass\n}\nblock", "pass rule r=1"),
    ("a quick anchor behind one of the other direction",
     "anchor out quick {\npass\n}\nanchor in quick {\nblock\n}\npass", "block rule r=1"),
    ("a quick anchor for each of a list", "anchor quick on { em1, em0 } {\nblock\npass\n}\nblock", "pass rule r=3"),
    ("an anchor with ports", "block\nanchor from any port 9 to any port 9 {\npass\n}", "pass rule r=1"),
    ("an anchor with a not", "block\nanchor from !198.51.100.7 {\npass\n}", "block rule r=0"),
    ("an anchor with a table", "table <t> { 198.51.100.0/24 }\nblock\nanchor from <t> {\npass\n}", "pass rule r=1"),
    ("sixteen anchors", "block\n" + "anchor {\n" * 16 + "pass\n" + "}\n" * 16, "pass rule r=1"),
)


# what a rule and an anchor may ask all at once, and packets of which each but the first lacks one of these
TO_WEB = "in on em0 proto tcp from !10.0.0.0/8 port > 1023 to <web> port 443"
WEB = "table <web> { 192.0.2.0/31 }\nblock in\n"


def to_web(source=OUTSIDE, port=50000, destination=HERE, service=443, flags=SYN):
    return tcp(source, port, destination, service, flags, 1000)


def all_criteria_rows():
    lacking = [to_web(source="10.9.9.9"), to_web(port=1023), to_web(destination="192.0.2.2"), to_web(service=444),
               udp(OUTSIDE, 50000, HERE, 443)]
    others = [(packet, BLOCKED) for packet in lacking]
    # 10.9.9.9 isn't inside
    inside = "172.16.0.0/12"
    yield row("all that a rule may ask", f"{WEB}pass {TO_WEB}", (to_web(), "in pass rule r=1"), (to_web(flags=ACK), BLOCKED),
              *others, inside=inside)
    # an anchor asks for no flags
    yield row("all that an anchor may ask", f"{WEB}anchor {TO_WEB} {{\npass no state\n}}", (to_web(), "in pass rule r=1"),
              (to_web(flags=ACK), "in pass rule r=1"), *others, inside=inside)
    yield row("all that a rule may ask, on another interface", f"{WEB}pass {TO_WEB.replace('em0', 'em1')}",
              (to_web(), BLOCKED), inside=inside)
    yield row("all that an anchor of the other direction may ask",
              f"{WEB}anchor {TO_WEB.replace('in', 'out', 1)} {{\npass\n}}", (to_web(), BLOCKED), inside=inside)


def anchor_rows():
    for name, rules, words in ANCHORS:
        yield row(name, rules, (UDP_NINE, f"in {words}"))


# Faults

FAULTS = (
    ("scrub in all", 1, "left out: scrub"),
    ("\n\nset limits 5", 3, "left out: set limits"),
    ("pass all\npass all \x01", 2, "bad byte"),
    ("pass all\n\npass label \"a", 3, "unterminated"),
    ("pass surplus", 1, "unknown word"),
    ("pass to port gopher", 1, "left out: service"),
    ("pass\npass to port 65536", 2, "bad number"),
    ("pass from { 10.0.0.1\n10.0.0.256 }", 2, "bad address"),
    ("pass\nset skip on lo0", 2, "out of order"),
    ("anchor {\n" * 17 + "pass\n" + "}\n" * 17, 17, "too deep"),
    ("a = \"em0\"\npass on $b", 2, "undefined macro"),
    ("pass from <t>\ntable <t>", 1, "undefined table"),
    ("pass\n" * 65537, 65537, "too many"),
    ("table <t> {\n10.0.0.1\n!10.0.0.1\n}", 3, "clash"),
    ("pass from gateway", 1, "left out: host name"),
    ("pass on $x\npass surplus", 2, "unknown word"),
    ("#" + "x" * 1048576, 1, "too many"),
    ("\x01" * 1048577, 1, "too many"),
)


def length_rows():
    yield row("a text of 1 MiB", "block in #".ljust(1048576, "x"), (UDP_NINE, BLOCKED))


def faults():
    """Rulesets with a fault, as the rows of `cases`."""
    capture = capture_of([UDP_NINE])
    for text, line, kind in FAULTS + TRANSLATION_FAULTS + MAX_FAULTS:
        yield refused(Case(f"{kind} on line {line} of {text[:30]!r}", text.encode("latin-1"), INSIDE, capture),
                      f"rules line {line}: {kind}".encode())


def rows():
    for make in (verdict_rows, port_rows, flag_rows, icmp_rows, protocol_rows, address_rows, table_rows, interface_rows,
                 fragment_rows, all_criteria_rows, anchor_rows, length_rows):
        yield from make()
