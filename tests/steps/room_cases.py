"""Cases of rules with `max`, with the outcomes written out: which packets ask a rule for room, which states count for it,
and what decides if it has none.
"""

from captures.packets import (ACK, ICMP, MORE_FRAGMENTS, RST, SYN, UDP, echo, icmp_error, ipv4, summed_message, tcp,
                              udp)
from steps.translation_words import E, GRE, H, H2, NAT, OPTIONS, P, P2, case, made

ROUTER = "203.0.113.1"
UDP_RULE = "pass out proto udp keep state (max 1)"
# datagrams from H
FIRST, SECOND, THIRD, FOURTH = (udp(H, port, P, 53) for port in (1000, 1001, 1002, 1003))
REPLY = udp(P, 53, H, 1000)
OPENING, RESET = tcp(H, 1000, P, 80, SYN, 1000), tcp(P, 80, H, 1000, RST | ACK, 0, 1001)
LATER = ipv4(P, E, UDP, bytes(8), fragment=1)


def of_state(number, rule, visited, direction="out"):
    """It makes the state of its number."""
    return f"{direction} pass rule r={rule} s={number}; {visited}; made {number}"


def blocked(rule, visited, direction="out"):
    return f"{direction} block rule r={rule} s=-; {visited}; -"


def by_default(visited, direction="out"):
    return f"{direction} pass default r=- s=-; {visited}; -"


def stateless(rule, visited, direction="out"):
    return f"{direction} pass rule r={rule} s=-; {visited}; -"


def touched(number, rule, direction="out"):
    return f"{direction} pass state r={rule} s={number}; -; touched {number}"


def deciding_cases():
    """What decides if a rule has no room."""
    yield case("a rule for one state", f"block out\n{UDP_RULE}",
               (FIRST, of_state(1, 1, "0,1")), (SECOND, blocked(0, "0,1")), (FIRST, touched(1, 1)),
               (REPLY, touched(1, 1, "in")), (SECOND, blocked(0, "0,1")),
               counters="filter 0 3 2 56\nfilter 1 3 3 84\ntotal 5 3 2 0 0\n")
    yield case("no other rule", UDP_RULE, (FIRST, of_state(1, 0, "0")), (SECOND, by_default("0")))
    yield case("a rule for one state and one for two", f"{UDP_RULE}\npass out keep state (max 2)",
               (FIRST, of_state(1, 1, "0,1")), (SECOND, of_state(2, 1, "0,1")), (THIRD, of_state(3, 0, "0,1")),
               (FOURTH, by_default("0,1")))
    yield case("the greatest number", "block out\npass out keep state (max 4294967295)",
               (FIRST, of_state(1, 1, "0,1")), (SECOND, of_state(2, 1, "0,1")))
    yield case("a rule that blocks", "pass out\nblock out proto udp keep state (max 1)",
               (FIRST, blocked(1, "0,1")), (SECOND, blocked(1, "0,1")))
    yield case("a quick rule without room", "pass out quick keep state (max 1)\nblock out",
               (FIRST, of_state(1, 0, "0")), (SECOND, blocked(1, "0,1")))
    yield case("no rule behind a quick one with room", "pass out quick keep state (max 2)\npass out keep state (max 1)",
               (FIRST, of_state(1, 0, "0")), (SECOND, of_state(2, 0, "0")), (THIRD, of_state(3, 1, "0,1")),
               (FOURTH, by_default("0,1")))
    yield case("a full table and a rule with room", "set limit states 1\npass out keep state (max 2)",
               (FIRST, of_state(1, 0, "0")), (SECOND, "out block state-limit r=0 s=-; 0; -"))
    yield case("a full table and a rule without room", "set limit states 1\npass out keep state (max 1)",
               (FIRST, of_state(1, 0, "0")), (SECOND, by_default("0")))
    yield case("IP options of a packet that makes no state", "block out\npass out keep state (max 1)",
               (udp(H, 1000, P, 53, **OPTIONS), "out block ip-option r=1 s=-; 0,1; -"),
               (SECOND, of_state(2, 1, "0,1")), (udp(H, 1000, P, 53, **OPTIONS), blocked(0, "0,1")))


def anchor_cases():
    one = "pass out keep state (max 1)"
    yield case("a quick anchor whose rule has no room", f"anchor quick {{\n{one}\n}}\nblock out",
               (FIRST, of_state(1, 0, "0")), (SECOND, blocked(1, "0,1")))
    yield case("a quick anchor in which another rule hits", f"anchor quick {{\npass out no state\n{one}\n}}\nblock out",
               (FIRST, of_state(1, 1, "0,1")), (SECOND, stateless(0, "0,1")))
    yield case("a quick anchor in another", f"anchor {{\nanchor quick proto udp {{\n{one}\n}}\nblock out\n}}",
               (FIRST, of_state(1, 0, "0")), (SECOND, blocked(1, "0,1")), (OPENING, blocked(1, "1")))
    yield case("a quick anchor with a rule behind the one without room", f"anchor quick {{\n{one}\n{one}\n}}\nblock out",
               (FIRST, of_state(1, 1, "0,1")), (SECOND, of_state(2, 0, "0,1")), (THIRD, blocked(2, "0,1,2")))
    yield case("an anchor that doesn't hold", f"block out\nanchor proto tcp {{\n{one}\n}}",
               (FIRST, blocked(0, "0")), (OPENING, of_state(2, 1, "0,1")), (SECOND, blocked(0, "0")))


def asked_cases():
    """Which packets ask a rule for room."""
    others = tuple(ipv4(P, E, ICMP, summed_message(kind, 0, bytes(4))) for kind in (3, 5, 11, 12, 13))
    first_part = ipv4(P, E, UDP, udp(P, 9, E, 9, bytes(8))[20:], fragment=MORE_FRAGMENTS)
    udp_in, ping = udp(P, 9, E, 9), echo(P, E, True, 7, 1)
    yield case("fragments aren't counted and don't count", "block in\npass in keep state (max 1)",
               (LATER, stateless(1, "0,1", "in")), (udp_in, of_state(2, 1, "0,1", "in")),
               (LATER, stateless(1, "0,1", "in")), (first_part, stateless(1, "0,1", "in")),
               (udp(P, 10, E, 9), blocked(0, "0,1", "in")))
    yield case("messages of ICMP that are no echo", "block in\npass in proto icmp keep state (max 1)",
               (ping, of_state(1, 1, "0,1", "in")), *((other, stateless(1, "0,1", "in")) for other in others),
               (echo(P, E, True, 8, 1), blocked(0, "0,1", "in")), (echo(P, E, False, 9, 1), blocked(0, "0,1", "in")),
               (ping, touched(1, 1, "in")))
    yield case("an error about a packet of a state", "block\npass keep state (max 1)", (FIRST, of_state(1, 1, "0,1")),
               (icmp_error(ROUTER, 3, 1, FIRST), "in pass state-error r=1 s=1; -; -"),
               (icmp_error(ROUTER, 3, 1, SECOND), stateless(1, "0,1", "in")))
    yield case("a segment that the rule doesn't hold for", "block out\npass out proto tcp keep state (max 1)",
               (tcp(H, 1000, P, 80, ACK, 1000, 1), blocked(0, "0,1")), (OPENING, of_state(2, 1, "0,1")),
               (tcp(H, 1001, P, 80, SYN, 1), blocked(0, "0,1")))
    yield case("another protocol", "block out\npass out proto gre keep state (max 1)",
               (ipv4(H, P, GRE, bytes(12)), of_state(1, 1, "0,1")), (ipv4(H, P2, GRE, bytes(12)), blocked(0, "0,1")),
               (ipv4(P, H, GRE, bytes(12)), touched(1, 1, "in")))


def counted_cases():
    """Which states count for a rule."""
    syn = tcp(H, 1001, P, 80, SYN, 1)
    yield case("each rule by itself", "block\npass out proto { udp, tcp } keep state (max 1)",
               (FIRST, of_state(1, 1, "0,1,2")), (OPENING, of_state(2, 2, "0,1,2")), (SECOND, blocked(0, "0,1,2")),
               (syn, blocked(0, "0,1,2")))
    yield case("both directions", "block\npass keep state (max 1)",
               (udp(P, 9, E, 9), of_state(1, 1, "0,1", "in")), (FIRST, blocked(0, "0,1")))
    yield case("states of any binding", "block\npass keep state (if-bound, max 2, no-sync)",
               (FIRST, of_state(1, 1, "0,1")), (SECOND, of_state(2, 1, "0,1")), (THIRD, blocked(0, "0,1")))
    yield case("a state that has run out", f"set timeout udp.first 10\nblock out\n{UDP_RULE}",
               (0, FIRST, of_state(1, 1, "0,1")), (9, SECOND, blocked(0, "0,1")), (10, THIRD, of_state(3, 1, "0,1")),
               (10, FIRST, blocked(0, "0,1")))
    yield case("a state that lives on", f"set timeout udp.first 10\nblock out\n{UDP_RULE}",
               (0, FIRST, of_state(1, 1, "0,1")), (9, FIRST, touched(1, 1)), (38, SECOND, blocked(0, "0,1")),
               (39, SECOND, of_state(4, 1, "0,1")))
    yield case("a state that is removed", "block out\npass out proto tcp keep state (max 1)",
               (0, OPENING, of_state(1, 1, "0,1")), (1, RESET, touched(1, 1, "in")), (2, syn, blocked(0, "0,1")),
               (2, OPENING, "out block state-mismatch r=1 s=1; -; removed 1"), (3, syn, of_state(5, 1, "0,1")),
               (3, OPENING, blocked(0, "0,1")))
    yield case("states that go together", "set timeout udp.first 5\nblock out\npass out proto udp keep state (max 2)",
               (0, FIRST, of_state(1, 1, "0,1")), (0, SECOND, of_state(2, 1, "0,1")), (4, THIRD, blocked(0, "0,1")),
               (5, THIRD, of_state(4, 1, "0,1")), (5, FOURTH, of_state(5, 1, "0,1")), (5, FIRST, blocked(0, "0,1")))


def translated_cases():
    """The filter is asked behind the translation, and a translated connection has a state whatever decides."""
    wire = udp(E, 50001, P, 53)
    one_port = f"{NAT} port 50001"
    yield case("a rule without room and a translation", f"{one_port}\npass out keep state (max 1)",
               (FIRST, made("out", "192.0.2.1:50001"), wire),
               (udp(H, 1000, P2, 53), made("out", "192.0.2.1:50001", 2, "-", reason="default"), udp(E, 50001, P2, 53)),
               (SECOND, "out block nat-exhausted r=- t=0 s=-; - 0; -; -"),
               counters="filter 0 2 1 28\ntranslation 0 3 1 28\ntotal 3 2 1 0 0\n")
    yield case("a rule for what is translated", f"{one_port}\nblock out\npass out from em0 keep state (max 1)",
               (FIRST, made("out", "192.0.2.1:50001", rule=1, visited="0,1 0"), wire),
               (udp(H2, 1000, P2, 53), "out block rule r=0 t=0 s=-; 0,1 0; -; -"))
    yield case("a translation that passes by itself", f"nat pass on em0 from any to {P} -> em0 port 50001\n"
               "block out\npass out keep state (max 1)",
               (FIRST, made("out", "192.0.2.1:50001", rule="-", visited="- 0", reason="nat-pass"), wire),
               (udp(H, 1000, P2, 53), "out pass rule r=1 t=- s=2; 0,1 0; made 2; -"),
               (udp(H, 1001, P2, 53), "out block rule r=0 t=- s=-; 0,1 0; -; -"))
    redirected = tcp(P, 9, "10.0.0.1", 80, SYN, 1)
    yield case("a rule for what is redirected",
               "rdr on em0 proto tcp from any to em0 port 8080 -> 10.0.0.1 port 80\nblock in\n"
               "pass in proto tcp from any to 10.0.0.1 port 80 keep state (max 1)",
               (tcp(P, 9, E, 8080, SYN, 1), made("in", "10.0.0.1:80", rule=1, visited="0,1 0"), redirected),
               (tcp(P, 10, E, 8080, SYN, 1), "in block rule r=0 t=0 s=-; 0,1 0; -; -"),
               (tcp(P, 10, E, 80, SYN, 1), "in block rule r=0 t=- s=-; 0,1 0; -; -"))


def cases():
    yield from deciding_cases()
    yield from anchor_cases()
    yield from asked_cases()
    yield from counted_cases()
    yield from translated_cases()
