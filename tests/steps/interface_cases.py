"""Cases of a gateway with several interfaces, with the outcomes written out: which rules hold on which interface, and
what forms of interfaces and `self` are, wherever a packet comes.

Each packet stands with the place of its interface.
"""

from captures.packets import UDP, ipv4, udp
from steps.cases import IPV6, NOT_IP, SHORT, SKIP_ON
from steps.place_cases import BOUND, REPLY, blocked, case, opened, touched, udp_state
from steps.run import EIGHT, INTERFACE, THREE
from steps.translation_words import (ASKED, H2, INSIDE_END, ONE_END, ONE_PORT, OWN_INSIDE, SERVER, WIRE, B, E, H, P,
                                     by_state, made, stopped, untranslated)

# the addresses of the other two, and further ones of the second one's network
E1, E2, B1, OTHER = "203.0.113.2", "198.18.0.1", "203.0.113.9", "203.0.113.77"
SECOND, THIRD = udp(H, 1001, P, 53), udp(H, 1002, P, 53)


def sent(destination, port=9, own=9):
    """A datagram from P."""
    return udp(P, own, destination, port)


def by_rule(verdict, rule, visited, direction="in"):
    """The filter alone decides."""
    return f"{direction} {verdict} rule r={rule} s=-; {visited}; -"


def out_by_rule(verdict, rule, visited):
    return by_rule(verdict, rule, visited, "out")


def on_each(name, rules, *words, packet=ASKED, **expected):
    """The same packet on each interface in turn."""
    return case(name, rules, *((place, packet, each) for place, each in enumerate(words)), bindings={}, **expected)


# Rules on interfaces

def on_cases():
    passed, stays = out_by_rule("pass", 1, "0,1"), out_by_rule("block", 0, "0,1")
    yield on_each("a rule on the other interfaces", "block all\npass out on ! em0 no state", stays, passed, passed,
                  counters="filter 0 3 1 28\nfilter 1 3 2 56\ntotal 3 2 1 0 0\n", passed=[2, 3])
    yield on_each("a rule on the second interface", "block all\npass on em1 no state", stays, passed, stays)
    yield on_each("a rule on the third interface", "block all\npass on em2 no state", stays, stays, passed)
    yield on_each("rules on two interfaces", "block all\npass on { em0, em2 } no state",
                  out_by_rule("pass", 1, "0,1,2"), out_by_rule("block", 0, "0,1,2"), out_by_rule("pass", 2, "0,1,2"))
    yield on_each("rules on others than each of two interfaces", "pass no state\nblock on { !em0 ! em1 }",
                  out_by_rule("block", 2, "0,1,2"), out_by_rule("block", 1, "0,1,2"), out_by_rule("block", 2, "0,1,2"))
    yield on_each("rules on no interface of the run", "block all\npass on { em em00 em3 lo0 } no state",
                  *[out_by_rule("block", 0, "0,1,2,3,4")] * 3)
    yield on_each("a rule on others than none of the run", "block all\npass on ! em3 no state", *[passed] * 3)
    yield on_each("a quick rule on one interface", "pass quick on em1 no state\nblock return all",
                  out_by_rule("return", 1, "0,1"), out_by_rule("pass", 0, "0"), out_by_rule("return", 1, "0,1"))
    yield on_each("anchors on interfaces", "block all\nanchor on em1 {\npass no state\npass on em0 no state\n}\n"
                  "anchor on ! em1 {\npass on em0 no state\n}", out_by_rule("pass", 3, "0,3"),
                  out_by_rule("pass", 1, "0,1,2"), out_by_rule("block", 0, "0,3"))
    yield on_each("a quick anchor on an interface", "anchor quick on em1 {\nblock\n}\npass no state",
                  out_by_rule("pass", 1, "1"), out_by_rule("block", 0, "0"), out_by_rule("pass", 1, "1"))
    yield case("packets behind the last interface", "block all\npass on ! em0 no state\npass on em0 no state\n"
               "pass in on em2 to self no state", (3, ASKED, out_by_rule("pass", 1, "0,1,2,3")),
               (0, ASKED, out_by_rule("pass", 2, "0,1,2,3")), (255, sent(E), by_rule("pass", 1, "0,1,2,3")),
               (2, sent(E), by_rule("pass", 3, "0,1,2,3")), bindings={})
    stays, passed = out_by_rule("block", 0, "0,1"), out_by_rule("pass", 1, "0,1")
    yield case("eight interfaces", "block all\npass on em7 no state", (7, ASKED, passed), (6, ASKED, stays),
               (0, ASKED, stays), (8, ASKED, stays), bindings={}, interfaces=EIGHT)
    yield case("one interface, and packets behind it",
               "block all\npass on em0 no state\npass on ! em0 to self no state",
               (0, ASKED, out_by_rule("pass", 1, "0,1,2")), (1, ASKED, out_by_rule("block", 0, "0,1,2")),
               (1, sent(E), by_rule("pass", 2, "0,1,2")), (1, sent(E1), by_rule("block", 0, "0,1,2")), bindings={},
               interfaces=(INTERFACE,))


def bound_cases():
    """Rules on interfaces whose states are bound, or not."""
    rules = "pass out on em0 keep state (if-bound)\npass out on em1 keep state (if-bound)\npass out on em2"
    yield case("a rule for states of one interface each, and for all", rules, (0, ASKED, opened(1, 0, "0,1,2")),
               (1, ASKED, opened(2, 1, "0,1,2")), (2, ASKED, blocked(2, "0,1,2", reason="state-insert")),
               bindings={1: "0/0", 2: "1/1"})
    by_default = "out pass default r=- s=-; 0,1; -"
    yield case("a rule for one state on each interface",
               "pass out on em0 keep state (max 1)\npass out on em1 keep state (max 1)",
               (0, ASKED, opened(1, 0, "0,1")), (0, SECOND, by_default), (1, SECOND, opened(3, 1, "0,1")), (1, THIRD, by_default),
               (0, SECOND, touched(3, "out", 1)), bindings={1: "0/-", 3: "1/-"})
    yield case("a state that only one interface makes", "block all\npass out on em1", (0, ASKED, blocked(0, "0,1")),
               (1, ASKED, opened(2)), (0, ASKED, touched(2, "out")), (2, REPLY, touched(2, "in")), bindings={2: "1/-"})


def skip_cases():
    yield case("one interface is skipped", "set skip on em1\nblock all", (0, ASKED, out_by_rule("block", 0, "0")),
               (1, ASKED, SKIP_ON), bindings={}, passed=[2], counters="filter 0 1 1 28\ntotal 2 1 1 0 0\n")
    yield case("two interfaces are skipped", "set skip on { em2, em0 }\nblock all", (0, ASKED, SKIP_ON),
               (1, ASKED, out_by_rule("block", 0, "0")), (2, ASKED, SKIP_ON), (3, ASKED, out_by_rule("block", 0, "0")),
               bindings={})
    yield case("short packets, and others than IPv4, where one interface is skipped", "set skip on em2\nblock all",
               (2, ASKED[:19], SKIP_ON), (1, ASKED[:19], SHORT), (2, IPV6, NOT_IP), (1, IPV6, NOT_IP),
               (2, ipv4(P, E, UDP, bytes(8), fragment=1), SKIP_ON), bindings={})
    yield case("names that no interface has are skipped", "set skip on { em em9 em11 }\nblock all",
               *((place, ASKED, out_by_rule("block", 0, "0")) for place in (0, 1, 2, 9)), bindings={})
    yield case("the reply to a packet is skipped", "set skip on em1\npass out\nblock in", (0, 0, ASKED, opened(1, 0)),
               (5, 1, REPLY, SKIP_ON), (6, 0, REPLY, touched(1, "in", 0)), bindings={1: "0/-"},
               states=udp_state(1, "2/0/0/0/- 1/0/0/0/- 0 36 1 28 1 28", 0),
               counters="filter 0 1 2 56\nfilter 1 1 0 0\ntotal 3 3 0 0 0\n")


# Addresses of several interfaces

def own_cases():
    rules = "block all\npass in from any to self no state\npass out from any to ! self no state"
    held, fails = by_rule("pass", 1, "0,1,2"), by_rule("block", 0, "0,1,2")
    yield case("own addresses on any interface", rules, (0, sent(E1), held), (1, 1, sent(E), held),
               (2, 0, sent(B1), fails), (3, 1, udp(H, 9, E, 9), out_by_rule("block", 0, "0,1,2")),
               (4, 1, ASKED, out_by_rule("pass", 2, "0,1,2")), (5, 0, sent(E2), held), (6, 3, sent(E1), held),
               (7, 2, udp(H, 9, E1, 9), out_by_rule("block", 0, "0,1,2")), bindings={},
               counters="filter 0 8 3 84\nfilter 1 8 4 112\nfilter 2 8 1 28\ntotal 8 5 3 0 0\n")
    yield case("the own address of one interface", rules, (0, sent(E), held), (0, sent(E1), fails),
               (0, udp(H, 9, E1, 9), out_by_rule("pass", 2, "0,1,2")), (1, sent(E), held), bindings={},
               interfaces=(INTERFACE,))
    yield case("two interfaces with one address", rules, (0, sent(E), held), (1, sent(E), held), (1, sent(E1), fails),
               bindings={}, interfaces=(INTERFACE, INTERFACE._replace(name="em1")))
    yield case("packets from own addresses", "block in\npass in from self to any no state",
               *((0, udp(own, 9, P, 9), by_rule("pass", 1, "0,1")) for own in (E, E1, E2)),
               (0, udp(B, 9, P, 9), by_rule("block", 0, "0,1")), bindings={})
    held, fails = by_rule("pass", 1, "0,1"), by_rule("block", 0, "0,1")
    yield case("own addresses in a table", "table <t> { self, !203.0.113.0/24 }\nblock in\npass in to <t> no state",
               (0, sent(E1), held), (0, sent(B1), fails), (1, sent(E), held), (1, sent(E2), held), (2, sent(B), fails),
               bindings={})
    yield case("a table without own addresses",
               'own = "self"\ntable <t> { 203.0.113.0/24, 192.0.2.0/24, !$own }\nblock in\npass in to <t> no state',
               (0, sent(E), fails), (0, sent(E1), fails), (1, sent(B), held), (2, sent(B1), held), (2, sent(E2), fails),
               bindings={})
    yield case("a table behind that of own addresses",
               "table <t> { 203.0.113.9 }\nblock in\npass in to { self <t> } no state",
               (0, sent(B1), by_rule("pass", 2, "0,1,2")), (0, sent(E2), by_rule("pass", 1, "0,1,2")),
               (1, sent(B), by_rule("block", 0, "0,1,2")), bindings={})


def form_cases():
    yield case("forms of other interfaces", "block in\npass in to em1 no state\npass in to (em2:network) no state",
               (0, sent(E1), by_rule("pass", 1, "0,1,2")), (1, sent("198.18.0.77"), by_rule("pass", 2, "0,1,2")),
               (1, sent(E), by_rule("block", 0, "0,1,2")), (2, sent("198.18.1.1"), by_rule("block", 0, "0,1,2")),
               (2, sent(E1), by_rule("pass", 1, "0,1,2")), bindings={})
    suffixed = (INTERFACE, THREE[1]._replace(name="em0:0"))
    yield case("an interface that is called as a form of another",
               "block in\npass in on em0:0 to em0:0 no state\npass in to em0:0:0 no state",
               (0, sent(E), by_rule("block", 0, "0,1,2")), (1, sent(E), by_rule("pass", 1, "0,1,2")),
               (0, sent(E1), by_rule("pass", 2, "0,1,2")), bindings={}, interfaces=suffixed)
    yield case("the same interfaces in another order",
               "block in\npass in on em0:0 to em0:0 no state\npass in to em0 no state",
               (0, sent(E1), by_rule("pass", 1, "0,1,2")), (1, sent(E1), by_rule("block", 0, "0,1,2")),
               (0, sent(E), by_rule("pass", 2, "0,1,2")), bindings={}, interfaces=suffixed[::-1])


# Translation on one interface

def nat_cases():
    rules = "nat on em0 proto udp from 10.0.0.0/8 to any -> 192.0.2.9 port 50001\nblock in\npass out"
    opening = made("out", "192.0.2.9:50001", rule=1, visited="0,1 0")
    wire, answer = udp(B, 50001, P, 53), udp(P, 53, B, 50001)
    yield case("an answer on another interface", BOUND + rules, (0, 0, ASKED, opening, wire),
               (1, 1, answer, "in block rule r=0 s=-; 0,1; -"),
               (2, 0, answer, by_state("in", INSIDE_END, rule=1), REPLY), bindings={1: "0/0"},
               states="1 17 out 198.51.100.7:53,192.0.2.9:50001 198.51.100.7:53,10.0.0.5:1000 r=1 t=0 2/0/0/0/- "
                      "1/0/0/0/- 0 32 1 28 1 28\n")
    yield case("a connection that one interface translates", BOUND + rules, (0, ASKED, opening, wire),
               (1, ASKED, "out pass rule r=1 t=- s=2; 0,1 0; made 2; -"),
               (0, ASKED, by_state("out", "192.0.2.9:50001", rule=1), wire), (1, REPLY, touched(2, "in")),
               bindings={1: "0/0", 2: "1/1"})
    yield case("a connection that is translated on all interfaces once it is", rules, (0, ASKED, opening, wire),
               (1, ASKED, by_state("out", "192.0.2.9:50001", rule=1), wire),
               (2, answer, by_state("in", INSIDE_END, rule=1), REPLY), bindings={1: "0/-"})
    yield case("a connection that isn't translated on any interface once it isn't", rules,
               (1, ASKED, "out pass rule r=1 t=- s=1; 0,1 0; made 1; -"), (0, ASKED, touched(1, "out")),
               (0, SECOND, made("out", "192.0.2.9:50001", 3, 1, visited="0,1 0"), udp(B, 50001, P, 53)),
               bindings={1: "1/-", 3: "0/-"})


def nat_address_cases():
    """The addresses that are given on several interfaces, and the rules of the filter behind them."""
    default = made("out", ONE_END, rule="-", visited="0 0", reason="default")
    yield case("a rule of the filter on another interface than that of the translation",
               f"{BOUND}{ONE_PORT}\npass out on em1", (0, ASKED, default, WIRE), (1, ASKED, untranslated("out", 2)),
               bindings={1: "0/0", 2: "1/1"})
    each = "nat on em0 from any to any -> em0 port 50001\nnat on em1 from any to any -> em1 port 50001\npass"
    yield case("each interface with its own address", each, (0, ASKED, made("out", ONE_END), WIRE),
               (1, SECOND, made("out", "203.0.113.2:50001", 2, translation=1, visited="0 0,1"), udp(E1, 50001, P, 53)),
               (2, THIRD, untranslated("out", 3, "0 0,1")), bindings={1: "0/-", 2: "1/-", 3: "2/-"})
    yield case("no translation on one interface", f"no nat on em1\n{ONE_PORT.replace('on em0 ', '')}\npass",
               (1, ASKED, untranslated("out", 1)),
               (0, SECOND, made("out", ONE_END, 2, translation=1, visited="0 0,1"), udp(E, 50001, P, 53)),
               bindings={1: "1/-", 2: "0/-"})
    # the address that is given is another interface's, and the filter asks for it
    behind = "nat on em0 from any to any -> em1 port 50001\nblock\npass out from self"
    yield case("an own address behind the translation", behind,
               (0, ASKED, made("out", "203.0.113.2:50001", rule=1, visited="0,1 0"), udp(E1, 50001, P, 53)),
               (1, SECOND, "out block rule r=0 t=- s=-; 0,1 0; -; -"), bindings={1: "0/-"})
    # own addresses are inside too
    yield case("only what hosts send is translated", "nat from ! self to any -> em2 port 50001\npass",
               (1, udp(E1, 1000, P, 53), untranslated("out", 1)), (0, udp(E, 1000, P, 53), untranslated("out", 2)),
               (2, ASKED, made("out", "198.18.0.1:50001", 3), udp(E2, 50001, P, 53)),
               bindings={1: "1/-", 2: "0/-", 3: "2/-"}, inside=(*OWN_INSIDE, THREE[1].own()))


def rdr_cases():
    rules, asked, direct = ("rdr on em0 proto udp from any to 192.0.2.1 port 53 -> em1\npass in", sent(E, 53),
                            sent(E1, 53))
    there = "203.0.113.2:53"
    yield case("a redirection on one interface to another's address", rules, (0, asked, made("in", there), direct),
               (1, asked, by_state("in", there), direct), bindings={1: "0/-"})
    yield case("a redirection on one interface alone", BOUND + rules, (0, asked, made("in", there), direct),
               (1, asked, untranslated("in", 2)), (0, asked, by_state("in", there), direct),
               bindings={1: "0/0", 2: "1/1"})
    rules = ("rdr on em1 proto udp from any to 203.0.113.2 port 53 -> 10.0.0.5 port 53\n"
             "pass in keep state (floating)")
    yield case("a redirection on one interface, and a state for all", BOUND + rules,
               (0, 0, sent(H, 53), untranslated("in", 1)), (1, 1, direct, stopped("in", "state-insert", 0)),
               bindings={1: "0/-"}, counters="filter 0 2 1 28\ntranslation 0 2 0 0\ntotal 2 1 1 0 0\n")
    to_server = made("in", "10.0.0.1:53")
    yield case("a redirection of what is sent to own addresses",
               "rdr proto udp from any to self port 53 -> 10.0.0.1\npass in",
               (0, direct, to_server, sent(SERVER, 53)),
               (1, sent(E2, 53, 10), made("in", "10.0.0.1:53", 2), sent(SERVER, 53, 10)),
               (0, sent(B1, 53), untranslated("in", 3)), bindings={1: "0/-", 2: "1/-", 3: "0/-"})
    yield case("a redirection of what isn't sent to own addresses",
               "rdr on em1 proto udp from any to ! self port 53 -> 10.0.0.1\npass in",
               (1, direct, untranslated("in", 1)), (1, asked, untranslated("in", 2)),
               (1, sent(B1, 53), made("in", "10.0.0.1:53", 3), sent(SERVER, 53)),
               (0, sent(OTHER, 53), untranslated("in", 4)), bindings={1: "1/-", 2: "1/-", 3: "1/-", 4: "0/-"})


def binat_cases():
    rules, came = f"binat on em1 from {H} to any -> {B1}\npass", sent(B1, 80)
    yield case("both ways on one interface", BOUND + rules, (0, ASKED, untranslated("out", 1)),
               (1, ASKED, made("out", "203.0.113.9:1000", 2), udp(B1, 1000, P, 53)),
               (1, came, made("in", "10.0.0.5:80", 3), sent(H, 80)), (0, came, untranslated("in", 4)),
               bindings={1: "0/0", 2: "1/1", 3: "1/1", 4: "0/0"})
    rules = f"no binat on ! em1 from {H}\nbinat from {H} to any -> em2\npass"
    yield case("no translation both ways on other interfaces", rules, (0, ASKED, untranslated("out", 1)),
               (1, SECOND, made("out", "198.18.0.1:1001", 2, translation=1, visited="0 0,1"), udp(E2, 1001, P, 53)),
               (0, udp(H2, 1000, P, 53), untranslated("out", 3, "0 0,1")), bindings={1: "0/-", 2: "1/-", 3: "0/-"})


def cases():
    for make in (on_cases, bound_cases, skip_cases, own_cases, form_cases, nat_cases, nat_address_cases, rdr_cases,
                 binat_cases):
        yield from make()
