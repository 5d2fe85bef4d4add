"""Cases of captures that are taken on the wire, with the outcomes written out: packets that go out behind their
translation, which find their states by the key on the wire, stay as they are and ask no rule of translation. Some have
the same packets at the stack beside them.

Unless it is said otherwise the interface's own address is inside, and the connection is one of UDP from port 9 of P to
port 53 of E, which is redirected to port 5353 of SERVER.
"""

from captures.packets import ACK, MORE_FRAGMENTS, SYN, UDP, UNREACHABLE, echo, icmp_error, ipv4, tcp, udp
from rulesets.tree import Network
from steps import place_cases
from steps.model import STACK, WIRE
from steps.place_cases import BOUND
from steps.run import INSIDE
from steps.translation_words import (ANSWER, ANSWERED, ASKED, GRE, H2, NAT, ONE_END, ONE_PORT, OPTIONS, OTHER,
                                     OWN_INSIDE, ROUTER, SERVER, B, E, H, P, by_state, case, made, stopped, told)
from steps.translation_words import WIRE as ASKED_ON_WIRE

# of the interface's network all is inside
NETWORK_INSIDE = (*INSIDE, Network(0xC0000200, 24))
RDR = "rdr proto udp from any to 192.0.2.1 port 53 -> 10.0.0.1 port 5353"
RULES = f"{RDR}\npass in\nblock out"
TO_SERVER = f"rdr to em0 -> {SERVER}\npass in\nblock out"
TO_PORT = f"rdr to em0 port 80 -> {SERVER} port 8080\npass in\nblock out"
# the first packet as it comes and as it goes on, and the answer as the stack has it and as it is on the wire
CAME, SENT_IN = udp(P, 9, E, 53), udp(P, 9, SERVER, 5353)
REPLY_AT_STACK, REPLY = udp(SERVER, 5353, P, 9), udp(E, 53, P, 9)
OPENED = made("in", "10.0.0.1:5353", visited="0,1 0")
FIRST = (CAME, OPENED, SENT_IN)
BY_STATE, BLOCKED = "out pass state r=0 t=0 s=1; - -; touched 1; -", "out block rule r=1 s=-; 0,1; -"
TOLD_OUT = "out pass state-error r=0 t=0 s=1; - -; -; -"
REDIRECTED_KEYS = "198.51.100.7:9,192.0.2.1:53 198.51.100.7:9,10.0.0.1:5353"
# a connection from the inside that was translated
OUT_RULES = f"{ONE_PORT}\nblock in\npass out"
OUT_KEYS = "198.51.100.7:53,192.0.2.1:50001 198.51.100.7:53,192.0.2.1:50001"
OUT_MADE, OUT_ANSWERED = "out pass rule r=1 s=1; 0,1; made 1", "in pass state r=1 s=1; -; touched 1"


def captured(tap, expected):
    """What is expected of a run whose packets are captured somewhere."""
    return expected._replace(run=expected.run._replace(tap=tap))


def on_wire(name, rules, *judged, inside=OWN_INSIDE, **expected):
    return captured(WIRE, case(name, rules, *judged, inside=inside, **expected))


def at_stack(name, rules, *judged, inside=OWN_INSIDE, **expected):
    return captured(STACK, case(name, rules, *judged, inside=inside, **expected))


# Connections that came in

def redirected_cases():
    yield on_wire("a reply of a redirected connection on the wire", RULES, FIRST, (REPLY, BY_STATE),
                  (REPLY_AT_STACK, BLOCKED), passed=[1, 2],
                  states=f"1 17 in {REDIRECTED_KEYS} r=0 t=0 2/0/0/0/- 1/0/0/0/- 0 30 1 28 1 28\n",
                  counters="filter 0 2 2 56\nfilter 1 2 1 28\ntranslation 0 1 2 56\ntotal 3 2 1 0 0\n",
                  verdicts="1 0 in pass rule r=0 t=0 s=1\n2 0 out pass state r=0 t=0 s=1\n"
                           "3 0 out block rule r=1 t=- s=-\n")
    yield at_stack("a reply of a redirected connection at the stack", RULES, FIRST, (REPLY, BLOCKED),
                   (REPLY_AT_STACK, by_state("out", "192.0.2.1:53"), REPLY), passed=[1, 3],
                   states=f"1 17 in {REDIRECTED_KEYS} r=0 t=0 2/0/0/0/- 1/0/0/0/- 0 30 1 28 1 28\n",
                   counters="filter 0 2 2 56\nfilter 1 2 1 28\ntranslation 0 1 2 56\ntotal 3 2 1 0 0\n")
    yield on_wire("both ways of a redirected connection on the wire", RULES, FIRST, (REPLY, BY_STATE),
                  (CAME, by_state("in", "10.0.0.1:5353"), SENT_IN), (REPLY, BY_STATE),
                  states=f"1 17 in {REDIRECTED_KEYS} r=0 t=0 2/0/0/0/- 2/0/0/0/- 0 60 2 56 2 56\n")
    yield on_wire("a redirection that passes, on the wire", f"{RDR.replace('rdr', 'rdr pass', 1)}\nblock",
                  (CAME, made("in", "10.0.0.1:5353", rule="-", visited="- 0", reason="nat-pass"), SENT_IN),
                  (REPLY, "out pass state r=- t=0 s=1; - -; touched 1; -"),
                  (REPLY_AT_STACK, "out block rule r=0 s=-; 0; -"))
    yield on_wire("a redirected connection whose state has run out", RULES, (0, *FIRST), (59, REPLY, BY_STATE),
                  (89, REPLY, BLOCKED), states="")


def protocol_cases():
    """Redirected connections of other protocols than UDP, and such as are redirected otherwise."""
    opening, reply = tcp(P, 9, E, 80, SYN, 1000), tcp(E, 80, P, 9, SYN | ACK, 5000, 1001)
    yield on_wire("a redirected connection of TCP on the wire", TO_PORT,
                  (opening, made("in", "10.0.0.1:8080", visited="0,1 0"), tcp(P, 9, SERVER, 8080, SYN, 1000)),
                  (tcp(SERVER, 8080, P, 9, SYN | ACK, 5000, 1001), BLOCKED), (reply, BY_STATE),
                  (tcp(P, 9, E, 80, ACK, 1001, 5001), by_state("in", "10.0.0.1:8080"),
                   tcp(P, 9, SERVER, 8080, ACK, 1001, 5001)),
                  (tcp(E, 80, P, 9, ACK, 2**31, 1001, payload=bytes(8)),
                   "out block state-mismatch r=0 t=0 s=1; - -; -; -"))
    yield on_wire("a redirected echo and its reply on the wire", TO_SERVER,
                  (echo(P, E, True, 7, 1), made("in", "10.0.0.1:7", visited="0,1 0"), echo(P, SERVER, True, 7, 1)),
                  (echo(SERVER, P, False, 7, 1), BLOCKED), (echo(E, P, False, 8, 1), BLOCKED),
                  (echo(E, P, False, 7, 1), BY_STATE))
    yield on_wire("a redirected packet without ports and its reply on the wire", TO_SERVER,
                  (ipv4(P, E, GRE, bytes(8)), made("in", "10.0.0.1:0", visited="0,1 0"),
                   ipv4(P, SERVER, GRE, bytes(8))),
                  (ipv4(SERVER, P, GRE, bytes(8)), BLOCKED), (ipv4(E, P, GRE, bytes(8)), BY_STATE))
    yield on_wire("one address for another, whose connection came in",
                  f"binat from {H} to any -> {B}\npass in\nblock out",
                  (udp(P, 9, B, 80), made("in", "10.0.0.5:80", visited="0,1 0"), udp(P, 9, H, 80)),
                  (udp(H, 80, P, 9), BLOCKED), (udp(B, 80, P, 9), BY_STATE), inside=NETWORK_INSIDE)
    # it comes in then, whatever the tap is
    for captured_there in (on_wire, at_stack):
        yield captured_there("a reply from an own address that isn't inside", RULES, FIRST,
                             (REPLY, "in pass rule r=0 t=- s=2; 0,1 0; made 2; -"), inside=INSIDE)


def key_cases():
    """Keys that the stack's form of a packet has in common with a state of a redirection."""
    rules = f"{RDR}\npass in\npass out"
    yield on_wire("the key on the stack of a redirected connection is taken", rules, FIRST,
                  (REPLY_AT_STACK, "out block state-insert r=1 s=-; 0,1; -"), (REPLY, BY_STATE),
                  counters="filter 0 2 2 56\nfilter 1 2 0 0\ntranslation 0 1 2 56\ntotal 3 2 1 0 0\n", passed=[1, 3])
    yield on_wire("a connection to a server whose packets were sent before", rules,
                  (REPLY_AT_STACK, "out pass rule r=1 s=1; 0,1; made 1"),
                  (CAME, stopped("in", "state-insert", 0, visited="0,1 0")),
                  (SENT_IN, "in pass state r=1 s=1; -; touched 1"))
    yield on_wire("the key on the wire of a redirected connection is taken", rules,
                  (REPLY, "out pass rule r=1 s=1; 0,1; made 1"), (CAME, "in pass state r=1 s=1; -; touched 1"))
    # what passes by the state of one key isn't redirected
    yield on_wire("a full table on the wire", f"set limit states 1\n{rules}", FIRST,
                  (udp(E, 50001, P, 53), "out block state-limit r=1 s=-; 0,1; -"), (REPLY, BY_STATE))


def option_cases():
    came, sent_in = udp(P, 9, E, 53, **OPTIONS), udp(P, 9, SERVER, 5353, **OPTIONS)
    reply = udp(E, 53, P, 9, **OPTIONS)
    yield on_wire("IP options of a reply on the wire", RULES, FIRST,
                  (reply, stopped("out", "ip-option", 0, 0, "- -", 1)), (REPLY, BY_STATE),
                  counters="filter 0 1 2 56\nfilter 1 1 0 0\ntranslation 0 1 2 56\ntotal 3 2 1 0 0\n")
    yield on_wire("IP options that are allowed, on the wire", f"{RDR}\npass in allow-opts\nblock out",
                  (came, OPENED, sent_in), (reply, BY_STATE))
    yield on_wire("IP options of a first packet on the wire", OUT_RULES,
                  (udp(E, 50001, P, 53, **OPTIONS), "out block ip-option r=1 s=-; 0,1; -"), states="")


# Connections that went out

def translated_cases():
    yield on_wire("a translated connection on the wire", OUT_RULES, (ASKED_ON_WIRE, OUT_MADE), (ANSWER, OUT_ANSWERED),
                  (ASKED_ON_WIRE, "out pass state r=1 s=1; -; touched 1"), passed=[1, 2, 3],
                  states=f"1 17 out {OUT_KEYS} r=1 t=- 2/0/0/0/- 2/0/0/0/- 0 60 2 56 1 28\n",
                  counters="filter 0 1 0 0\nfilter 1 1 3 84\ntranslation 0 0 0 0\ntotal 3 3 0 0 0\n",
                  verdicts="1 0 out pass rule r=1 t=- s=1\n2 0 in pass state r=1 t=- s=1\n"
                           "3 0 out pass state r=1 t=- s=1\n")
    yield at_stack("a translated connection at the stack", OUT_RULES,
                   (ASKED, made("out", ONE_END, rule=1, visited="0,1 0"), ASKED_ON_WIRE),
                   (ANSWER, by_state("in", "10.0.0.5:1000", rule=1), ANSWERED))
    yield at_stack("a translated packet at the stack", OUT_RULES,
                   (ASKED_ON_WIRE, "out pass rule r=1 t=- s=1; 0,1 0; made 1; -"), (ANSWER, OUT_ANSWERED),
                   states=f"1 17 out {OUT_KEYS} r=1 t=- 2/0/0/0/- 1/0/0/0/- 0 30 1 28 1 28\n")
    yield on_wire("a packet on the wire that a rule would translate", OUT_RULES, (ASKED, OUT_MADE),
                  (ANSWER, "in block rule r=0 s=-; 0,1; -"), (ANSWERED, OUT_ANSWERED),
                  counters="filter 0 2 1 28\nfilter 1 2 2 56\ntranslation 0 0 0 0\ntotal 3 2 1 0 0\n")
    yield on_wire("more packets on the wire than a rule has ports", OUT_RULES, (ASKED, OUT_MADE),
                  (udp(H2, 1000, P, 53), "out pass rule r=1 s=2; 0,1; made 2"),
                  (ASKED_ON_WIRE, "out pass rule r=1 s=3; 0,1; made 3"))
    yield on_wire("a translation that passes, on the wire", "nat pass on em0 from any to any -> em0\nblock out",
                  (ASKED_ON_WIRE, "out block rule r=0 s=-; 0; -"), (ASKED, "out block rule r=0 s=-; 0; -"), states="",
                  counters="filter 0 2 2 56\ntranslation 0 0 0 0\ntotal 2 0 2 0 0\n")
    yield on_wire("a packet on the wire that a rule of no translates", f"no nat all\n{OUT_RULES}", (ASKED, OUT_MADE),
                  counters="filter 0 1 0 0\nfilter 1 1 1 28\ntranslation 0 0 0 0\ntranslation 1 0 0 0\n"
                           "total 1 1 0 0 0\n")
    yield on_wire("one address for another, whose connection went out", f"binat from {H} to any -> {B}\npass",
                  (udp(B, 1000, P, 53), "out pass rule r=0 s=1; 0; made 1"),
                  (udp(P, 53, B, 1000), "in pass state r=0 s=1; -; touched 1"),
                  (udp(P, 54, B, 1000), made("in", "10.0.0.5:1000", 3), udp(P, 54, H, 1000)),
                  (udp(B, 1000, P, 54), "out pass state r=0 t=0 s=3; - -; touched 3; -"), inside=NETWORK_INSIDE)
    segment = tcp(E, 50001, P, 80, SYN, 1000)
    yield on_wire("a translated connection of TCP on the wire", OUT_RULES, (segment, OUT_MADE),
                  (tcp(P, 80, E, 50001, SYN | ACK, 5000, 1001), OUT_ANSWERED),
                  (tcp(P, 80, E, 50001, ACK, 2**31, 1001, payload=bytes(8)), "in block state-mismatch r=1 s=1; -; -"))
    yield on_wire("a translated echo on the wire", f"{NAT}\nblock in\npass out", (echo(E, P, True, 5840, 1), OUT_MADE),
                  (echo(P, E, False, 7, 1), "in block rule r=0 s=-; 0,1; -"),
                  (echo(P, E, False, 5840, 1), OUT_ANSWERED),
                  states="1 1 out 198.51.100.7:5840,192.0.2.1:5840 198.51.100.7:5840,192.0.2.1:5840 r=1 t=- 0/0/0/0/- "
                         "0/0/0/0/- 0 10 1 28 1 28\n")


def stateless_cases():
    yield on_wire("a translated packet on the wire and a rule without state",
                  f"{ONE_PORT}\nblock in\npass out no state", (ASKED_ON_WIRE, "out pass rule r=1 s=-; 0,1; -"),
                  (ANSWER, "in block rule r=0 s=-; 0,1; -"), states="",
                  counters="filter 0 2 1 28\nfilter 1 2 1 28\ntranslation 0 0 0 0\ntotal 2 1 1 0 0\n")
    yield on_wire("a translated packet on the wire and no rule", ONE_PORT,
                  (ASKED_ON_WIRE, "out pass default r=- s=-; -; -"), (ASKED, "out pass default r=- s=-; -; -"),
                  (ANSWER, "in pass default r=- s=-; -; -"), states="",
                  counters="translation 0 0 0 0\ntotal 3 3 0 0 0\n")
    yield on_wire("a translated fragment on the wire", OUT_RULES,
                  (ipv4(E, P, UDP, ASKED_ON_WIRE[20:] + bytes(8), fragment=MORE_FRAGMENTS),
                   "out pass rule r=1 s=-; 0,1; -"),
                  (ipv4(E, P, UDP, bytes(8), fragment=2), "out pass rule r=1 s=-; 0,1; -"), states="")
    yield on_wire("nothing is filtered on the wire", f"set skip on em0\n{RULES}",
                  (CAME, "- pass skip-on r=- s=-; -; -"), (REPLY, "- pass skip-on r=- s=-; -; -"), states="")
    yield on_wire("a rule for one state on the wire", f"{ONE_PORT}\nblock\npass out keep state (max 1)",
                  (ASKED_ON_WIRE, OUT_MADE), (udp(E, 50002, P, 53), "out block rule r=0 s=-; 0,1; -"),
                  (ASKED_ON_WIRE, "out pass state r=1 s=1; -; touched 1"))
    yield on_wire("a rule for one redirected state on the wire", f"{RDR}\nblock\npass in keep state (max 1)",
                  (CAME, made("in", "10.0.0.1:5353", rule=1, visited="0,1 0"), SENT_IN),
                  (udp(P, 10, E, 53), stopped("in", "rule", 0, visited="0,1 0")),
                  (REPLY, "out pass state r=1 t=0 s=1; - -; touched 1; -"))


# Errors

def error_cases():
    sent, in_error = icmp_error(E, UNREACHABLE, 3, CAME), icmp_error(OTHER, UNREACHABLE, 3, REPLY)
    yield on_wire("errors on the wire about a redirected packet", RULES, FIRST, (sent, TOLD_OUT),
                  (icmp_error(ROUTER, UNREACHABLE, 3, CAME), TOLD_OUT),
                  (icmp_error(E, UNREACHABLE, 3, SENT_IN), BLOCKED),
                  (icmp_error(SERVER, UNREACHABLE, 3, SENT_IN), BLOCKED),
                  (in_error, told("in", "10.0.0.1:5353"), icmp_error(OTHER, UNREACHABLE, 3, REPLY_AT_STACK)),
                  states=f"1 17 in {REDIRECTED_KEYS} r=0 t=0 1/0/0/0/- 0/0/0/0/- 0 60 1 28 0 0\n",
                  # errors have 56 bytes
                  counters="filter 0 3 4 196\nfilter 1 3 2 112\ntranslation 0 1 4 196\ntotal 6 4 2 0 0\n")
    yield at_stack("errors at the stack about a redirected packet", RULES, FIRST,
                   (icmp_error(SERVER, UNREACHABLE, 3, SENT_IN), told("out", "192.0.2.1:53"), sent), (sent, BLOCKED),
                   (in_error, told("in", "10.0.0.1:5353"), icmp_error(OTHER, UNREACHABLE, 3, REPLY_AT_STACK)))
    yield on_wire("errors on the wire about the answer to a translated packet", OUT_RULES, (ASKED_ON_WIRE, OUT_MADE),
                  (icmp_error(E, UNREACHABLE, 3, ANSWER), "out pass state-error r=1 s=1; -; -"),
                  (icmp_error(H, UNREACHABLE, 3, ANSWERED), "out pass rule r=1 s=-; 0,1; -"),
                  (icmp_error(OTHER, UNREACHABLE, 3, ASKED_ON_WIRE), "in pass state-error r=1 s=1; -; -"),
                  (icmp_error(OTHER, UNREACHABLE, 3, ASKED), "in block rule r=0 s=-; 0,1; -"))
    yield on_wire("an error with IP options on the wire", RULES, FIRST,
                  (icmp_error(E, UNREACHABLE, 3, CAME, **OPTIONS), stopped("out", "ip-option", 0, 0, "- -", 1)))
    opening, sent_in = tcp(P, 9, E, 80, SYN, 1), tcp(P, 9, SERVER, 8080, SYN, 1)
    yield on_wire("an error on the wire about a redirected segment", TO_PORT,
                  (opening, made("in", "10.0.0.1:8080", visited="0,1 0"), sent_in),
                  (icmp_error(E, UNREACHABLE, 3, opening), TOLD_OUT), (icmp_error(E, UNREACHABLE, 3, sent_in), BLOCKED))
    request, sent_in = echo(P, E, True, 7, 1), echo(P, SERVER, True, 7, 1)
    yield on_wire("an error on the wire about a redirected echo", TO_SERVER,
                  (request, made("in", "10.0.0.1:7", visited="0,1 0"), sent_in),
                  (icmp_error(E, UNREACHABLE, 1, request), TOLD_OUT), (icmp_error(E, UNREACHABLE, 1, sent_in), BLOCKED))


# Several interfaces

def placed(name, rules, *judged, **expected):
    return captured(WIRE, place_cases.case(name, rules, *judged, inside=OWN_INSIDE, **expected))


def placed_cases():
    opening = (0, CAME, OPENED, SENT_IN)
    yield placed("a reply on the wire on another interface", RULES, opening, (1, REPLY, BY_STATE),
                 (2, REPLY_AT_STACK, BLOCKED), bindings={1: "0/-"})
    yield placed("a reply on the wire on another interface than the state's", BOUND + RULES, opening,
                 (1, REPLY, BLOCKED), (0, REPLY, BY_STATE), bindings={1: "0/0"})
    yield placed("an error on the wire on another interface than the state's", BOUND + RULES, opening,
                 (1, icmp_error(E, UNREACHABLE, 3, CAME), BLOCKED), (0, icmp_error(E, UNREACHABLE, 3, CAME), TOLD_OUT),
                 bindings={1: "0/0"})
    both = f"{RDR}\npass in\npass out"
    yield placed("the stack's key on the wire on another interface", BOUND + both, opening,
                 (1, REPLY_AT_STACK, "out pass rule r=1 s=2; 0,1; made 2"),
                 (0, REPLY_AT_STACK, "out block state-insert r=1 s=-; 0,1; -"),
                 (1, SENT_IN, "in pass state r=1 s=2; -; touched 2"), bindings={1: "0/0", 2: "1/1"})
    yield placed("a translated connection on the wire on two interfaces", BOUND + OUT_RULES,
                 (0, ASKED_ON_WIRE, OUT_MADE), (1, ASKED_ON_WIRE, "out pass rule r=1 s=2; 0,1; made 2"),
                 (1, ANSWER, "in pass state r=1 s=2; -; touched 2"), (2, ANSWER, "in block rule r=0 s=-; 0,1; -"),
                 bindings={1: "0/0", 2: "1/1"})
    yield placed("a rule for a state of all interfaces on the wire",
                 f"{BOUND}{RDR}\npass in keep state (floating)\nblock out", opening, (2, REPLY, BY_STATE),
                 (255, REPLY, BY_STATE), bindings={1: "0/-"})


def cases():
    for make in (redirected_cases, protocol_cases, key_cases, option_cases, translated_cases, stateless_cases,
                 error_cases):
        yield from make()
