"""Cases of a gateway with several interfaces, with the outcomes written out: which states a packet finds on its own
interface, which ones are made beside others, and what counts over all interfaces.

Each packet stands with the place of its interface: em0, em1, em2, or none that the run has. The bindings say of each
state on which interface it was made, and to which one it is bound. Which rules hold on an interface stands in
interface_cases.py.
"""

from captures.packets import ACK, RST, SYN, UNREACHABLE, echo, icmp_error, tcp, udp
from steps.rows import FIRST_SYN, KEYS, OPENING, data, h_to_p, p_to_h
from steps.run import INSIDE, THREE, Expected, Run, seed_of
from steps.translation_words import (ANSWER, ANSWERED, ASKED, H2, INSIDE_END, NAT, ONE_END, OTHER, SERVER, WIRE, B, E,
                                     H, P, by_state, made, stopped, told, untranslated)

BOUND, RULES = "set state-policy if-bound\n", "block in\npass out"
# a rule that leaves no choice, on each interface
ONE_PORT = f"{NAT.replace(' on em0', '')} port 50001"
REPLY = udp(P, 53, H, 1000)
UDP_KEYS = "198.51.100.7:53,10.0.0.5:1000 198.51.100.7:53,10.0.0.5:1000"
BLOCKED = "in block rule r=0 s=-; 0,1; -"


def case(name, rules, *judged, bindings, seed=0, interfaces=THREE, inside=INSIDE, **expected):
    """A run whose packets each stand behind a place, with their words and, where they are written otherwise, with that
    frame; and maybe with a second before the place."""
    timed = [each if isinstance(each[1], int) else (0, *each) for each in judged]
    frames = {number: each[4] for number, each in enumerate(timed, 1) if len(each) == 5}
    run = Run(name, rules, [(second, packet) for second, _, packet, *_ in timed], interfaces=interfaces, inside=inside,
              seed=seed_of(seed), places=tuple(each[1] for each in timed))
    return Expected(run, [each[3] for each in timed], written=frames, bindings=bindings, **expected)


def opened(number, rule=1, visited="0,1", direction="out"):
    """A packet makes the state of its number."""
    return f"{direction} pass rule r={rule} s={number}; {visited}; made {number}"


def touched(number, direction, rule=1):
    """A packet passes by a state."""
    return f"{direction} pass state r={rule} s={number}; -; touched {number}"


def blocked(rule, visited, direction="out", reason="rule"):
    return f"{direction} block {reason} r={rule} s=-; {visited}; -"


def udp_state(number, rest, rule=1):
    """The line of the state that a datagram from H to P makes."""
    return f"{number} 17 out {UDP_KEYS} r={rule} t=- {rest}\n"


# Which states are found

def found_cases():
    yield case("states that are bound to their interfaces", BOUND + RULES, (0, 0, ASKED, opened(1)),
               (0, 1, ASKED, opened(2)), (1, 0, REPLY, touched(1, "in")), (2, 1, REPLY, touched(2, "in")),
               (3, 2, REPLY, BLOCKED), bindings={1: "0/0", 2: "1/1"},
               states=udp_state(1, "2/0/0/0/- 1/0/0/0/- 0 31 1 28 1 28")
               + udp_state(2, "2/0/0/0/- 1/0/0/0/- 0 32 1 28 1 28"),
               counters="filter 0 3 1 28\nfilter 1 3 4 112\ntotal 5 4 1 0 0\n")
    yield case("a state of all interfaces", RULES, (0, 0, ASKED, opened(1)), (1, 1, REPLY, touched(1, "in")),
               (2, 1, ASKED, touched(1, "out")), bindings={1: "0/-"},
               states=udp_state(1, "2/0/0/0/- 2/0/0/0/- 0 62 2 56 1 28"))
    yield case("a state of all interfaces that the third makes", f"set state-policy floating\n{RULES}",
               (2, ASKED, opened(1)), (0, REPLY, touched(1, "in")), (1, ASKED, touched(1, "out")), bindings={1: "2/-"})
    yield case("a rule for states of all interfaces", f"{BOUND}block in\npass out keep state (floating)",
               (0, ASKED, opened(1)), (1, REPLY, touched(1, "in")), bindings={1: "0/-"})
    yield case("a rule for states of one interface", "block in\npass out keep state (if-bound)",
               (0, ASKED, opened(1)), (1, ASKED, opened(2)), (2, REPLY, BLOCKED), (1, REPLY, touched(2, "in")),
               bindings={1: "0/0", 2: "1/1"})
    yield case("each rule with its own states", "pass in\npass out proto udp keep state (no-sync, if-bound)\n"
               "pass out proto icmp keep state (floating, max 3)", (1, ASKED, opened(1, 1, "0,1,2")),
               (1, echo(H, P, True, 7, 1), opened(2, 2, "0,1,2")),
               (0, echo(P, H, False, 7, 1), touched(2, "in", 2)), (0, udp(P, 9, E, 9), opened(4, 0, "0,1,2", "in")),
               bindings={1: "1/1", 2: "1/-", 4: "0/-"})
    yield case("great numbers of places", BOUND + RULES,
               *((place, ASKED, opened(number)) for number, place in enumerate((0, 63, 64, 127, 128, 254, 255), 1)),
               (255, REPLY, touched(7, "in")), (128, REPLY, touched(5, "in")), (253, REPLY, BLOCKED),
               bindings={1: "0/0", 2: "63/63", 3: "64/64", 4: "127/127", 5: "128/128", 6: "254/254", 7: "255/255"})
    yield case("a state with IP options on another interface", f"{BOUND}block in\npass out allow-opts",
               (0, ASKED, opened(1)), (1, udp(P, 53, H, 1000, ip_options=bytes([1] * 4)), BLOCKED),
               (0, udp(P, 53, H, 1000, ip_options=bytes([1] * 4)), touched(1, "in")), bindings={1: "0/0"})


def error_cases():
    """Errors that come on another interface than the packet that they are about."""
    error, told_in = icmp_error(OTHER, UNREACHABLE, 1, ASKED), "in pass state-error r=1 s={}; -; -"
    yield case("an error on another interface", RULES, (0, ASKED, opened(1)), (1, error, told_in.format(1)),
               bindings={1: "0/-"})
    yield case("an error on another interface than the state's", BOUND + RULES, (0, ASKED, opened(1)),
               (1, error, BLOCKED), (0, error, told_in.format(1)), bindings={1: "0/0"})
    yield case("an error about one of two states", BOUND + RULES, (0, ASKED, opened(1)), (1, ASKED, opened(2)),
               (1, error, told_in.format(2)), (2, error, BLOCKED), (0, error, told_in.format(1)),
               bindings={1: "0/0", 2: "1/1"}, counters="filter 0 3 1 56\nfilter 1 3 4 168\ntotal 5 4 1 0 0\n")
    error, inside = icmp_error(OTHER, UNREACHABLE, 1, WIRE), icmp_error(OTHER, UNREACHABLE, 1, ASKED)
    rules, opening = f"{ONE_PORT}\n{RULES}", (0, ASKED, made("out", ONE_END, rule=1, visited="0,1 0"), WIRE)
    yield case("an error about a translated packet", rules, opening, (1, error, told("in", INSIDE_END, rule=1), inside),
               bindings={1: "0/-"})
    yield case("an error about a packet that was translated on another interface", BOUND + rules, opening,
               (1, error, BLOCKED), (0, error, told("in", INSIDE_END, rule=1), inside), bindings={1: "0/0"})


def time_cases():
    short = "set timeout udp.first 10\n"
    yield case("a state of two that runs out", f"{BOUND}{short}{RULES}", (0, 0, ASKED, opened(1)),
               (5, 1, ASKED, opened(2)), (10, 1, REPLY, touched(2, "in")), (10, 0, REPLY, BLOCKED),
               bindings={1: "0/0", 2: "1/1"}, states=udp_state(2, "2/0/0/0/- 1/0/0/0/- 5 40 1 28 1 28"))
    yield case("the later of two states runs out", f"{BOUND}{short}{RULES}", (0, 0, ASKED, opened(1)),
               (5, 1, ASKED, opened(2)), (9, 0, ASKED, touched(1, "out")), (15, 1, REPLY, BLOCKED),
               (15, 0, REPLY, touched(1, "in")), bindings={1: "0/0", 2: "1/1"})


def connection_cases():
    """Connections of TCP with a state on each of two interfaces."""
    syn_ack, acknowledged = OPENING[1:]
    reset = p_to_h(RST | ACK, 0, 1001)
    yield case("a connection on two interfaces", f"{BOUND}pass", (0, FIRST_SYN, opened(1, 0, "0")),
               (1, FIRST_SYN, opened(2, 0, "0")), (0, syn_ack, touched(1, "in", 0)),
               (0, acknowledged, touched(1, "out", 0)), bindings={1: "0/0", 2: "1/1"},
               states=f"1 6 out {KEYS} r=0 t=- 4/1000/3001/1000/- 4/5001/6001/2000/- 0 86400 2 80 1 40\n"
                      f"2 6 out {KEYS} r=0 t=- 2/1000/1002/1000/- 0/0/1/1/- 0 120 1 40 0 0\n")
    yield case("a connection that has ended on one of two interfaces", f"{BOUND}pass",
               (0, FIRST_SYN, opened(1, 0, "0")), (1, FIRST_SYN, opened(2, 0, "0")), (1, reset, touched(2, "in", 0)),
               (0, syn_ack, touched(1, "in", 0)), (0, acknowledged, touched(1, "out", 0)),
               (1, FIRST_SYN, "out block state-mismatch r=0 s=2; -; removed 2"),
               (0, data(100), touched(1, "out", 0)), (1, FIRST_SYN, opened(8, 0, "0")),
               bindings={1: "0/0", 2: "1/1", 8: "1/1"},
               states=f"1 6 out {KEYS} r=0 t=- 4/1101/3001/1000/- 4/5001/6001/2000/- 0 86400 3 220 1 40\n"
                      f"8 6 out {KEYS} r=0 t=- 2/1000/1002/1000/- 0/0/1/1/- 0 120 1 40 0 0\n")
    yield case("a connection that one interface ends and another removes", "pass", (0, FIRST_SYN, opened(1, 0, "0")),
               (1, reset, touched(1, "in", 0)), (2, FIRST_SYN, "out block state-mismatch r=0 s=1; -; removed 1"),
               (1, FIRST_SYN, opened(4, 0, "0")), bindings={1: "0/-", 4: "1/-"})
    # what fits the state of one interface doesn't fit that of the other
    yield case("a segment that fits one of two states", f"{BOUND}pass", (0, FIRST_SYN, opened(1, 0, "0")),
               (0, syn_ack, touched(1, "in", 0)), (0, acknowledged, touched(1, "out", 0)),
               (1, h_to_p(SYN, 2**30), opened(4, 0, "0")), (0, data(2000), touched(1, "out", 0)),
               (1, syn_ack, "in block state-mismatch r=0 s=4; -; -"),
               (1, p_to_h(SYN | ACK, 5000, 2**30 + 1), touched(4, "in", 0)), bindings={1: "0/0", 4: "1/1"})


# Which states are made beside others

def taken_cases():
    """States of one key, of which one is for all interfaces, or both."""
    by_way = "pass out keep state (if-bound)\npass in keep state (floating)"
    taken_in = "in block state-insert r=1 s=-; 0,1; -"
    yield case("a state for all beside one that is bound elsewhere", by_way, (0, ASKED, opened(1, 0)),
               (1, REPLY, taken_in), (0, REPLY, touched(1, "in", 0)), bindings={1: "0/0"},
               counters="filter 0 2 2 56\nfilter 1 2 0 0\ntotal 3 2 1 0 0\n")
    yield case("a state for all beside two that are bound elsewhere", by_way, (0, ASKED, opened(1, 0)),
               (1, ASKED, opened(2, 0)), (2, REPLY, taken_in), bindings={1: "0/0", 2: "1/1"})
    yield case("a state for all once the one that is bound elsewhere has run out",
               f"set timeout udp.first 10\n{by_way}", (0, 0, ASKED, opened(1, 0)), (9, 1, REPLY, taken_in),
               (10, 1, REPLY, opened(3, 1, "0,1", "in")), (10, 0, ASKED, touched(3, "out", 1)),
               bindings={1: "0/0", 3: "1/-"})
    redirected = "rdr proto udp from any to 192.0.2.1 port 53 -> 10.0.0.5 port 53\n"
    direct, sent, same = udp(P, 9, H, 53), udp(P, 9, E, 53), made("in", "10.0.0.5:53", 2)
    yield case("two states for all by a redirection", f"{BOUND}{redirected}pass in keep state (floating)",
               (0, direct, untranslated("in", 1)), (1, sent, stopped("in", "state-insert", 0)), bindings={1: "0/-"})
    yield case("two bound states by a redirection", f"{BOUND}{redirected}pass in",
               (0, direct, untranslated("in", 1)), (1, sent, same, direct), (0, sent, stopped("in", "state-insert", 0)),
               bindings={1: "0/0", 2: "1/1"})
    by_flags = ("rdr from any to 192.0.2.1 -> 10.0.0.5\npass in flags S/SA keep state (floating)\n"
                "pass in flags A/A keep state (if-bound)")
    opening, other = tcp(P, 9, H, 80, SYN, 1), tcp(P, 9, E, 80, ACK, 2, 1)
    yield case("a bound state beside one for all", by_flags,
               (0, opening, "in pass rule r=0 t=- s=1; 0,1 0; made 1; -"),
               (1, other, stopped("in", "state-insert", 1, visited="0,1 0")), bindings={1: "0/-"})
    opening, other = tcp(P, 9, H, 80, ACK, 2, 1), tcp(P, 9, E, 80, SYN, 1)
    yield case("a state for all beside a bound one by a redirection", by_flags,
               (0, opening, "in pass rule r=1 t=- s=1; 0,1 0; made 1; -"),
               (1, other, stopped("in", "state-insert", 0, visited="0,1 0")), bindings={1: "0/0"})
    by_room = "pass in keep state (if-bound)\npass in keep state (floating, max 1)"
    yield case("a bound state beside one for all, by room", redirected + by_room,
               (0, direct, "in pass rule r=1 t=- s=1; 0,1 0; made 1; -"),
               (1, sent, stopped("in", "state-insert", 0, visited="0,1 0")), bindings={1: "0/-"})


def shared_cases():
    """Packets of one source that are sent to one server."""
    rules = "rdr to em0 port { 80, 8080 } -> 10.0.0.1 port 80\npass in"
    first, second, sent = udp(P, 9, E, 80), udp(P, 9, E, 8080), udp(P, 9, SERVER, 80)
    answer, opening = udp(SERVER, 80, P, 9), (0, first, made("in", "10.0.0.1:80"), sent)
    yield case("one key behind the gateway on two interfaces", BOUND + rules, opening,
               (1, second, made("in", "10.0.0.1:80", 2, translation=1, visited="0 0,1"), sent),
               (0, answer, by_state("out", "192.0.2.1:80"), udp(E, 80, P, 9)),
               (1, answer, by_state("out", "192.0.2.1:8080", 2, translation=1), udp(E, 8080, P, 9)),
               (2, answer, "out pass default r=- s=-; 0; -"), bindings={1: "0/0", 2: "1/1"})
    yield case("one key behind the gateway on all interfaces", rules, opening,
               (1, second, stopped("in", "state-insert", 0, 1, "0 0,1")),
               (2, answer, by_state("out", "192.0.2.1:80"), udp(E, 80, P, 9)), bindings={1: "0/-"})
    # on the wire both have the key of the other address, and behind it keys of their own
    rules = f"binat from {H} to any -> {B}\nbinat from {H2} to any -> {B}\npass"
    second, wire, answer = udp(H2, 1000, P, 53), udp(B, 1000, P, 53), udp(P, 53, B, 1000)
    yield case("one key on the wire on two interfaces", BOUND + rules, (0, ASKED, made("out", "192.0.2.9:1000"), wire),
               (1, second, made("out", "192.0.2.9:1000", 2, translation=1, visited="0 0,1"), wire),
               (0, answer, by_state("in", INSIDE_END), REPLY),
               (1, answer, by_state("in", "10.0.0.6:1000", 2, translation=1), udp(P, 53, H2, 1000)),
               (0, second, stopped("out", "state-insert", 0, 1, "0 0,1")), bindings={1: "0/0", 2: "1/1"})


# What counts over all interfaces

def port_cases():
    """A port that a state has is free on no interface."""
    nat = "nat proto udp from 10.0.0.0/8 to any -> 192.0.2.9 port {}\npass out"
    one, second, wire = BOUND + nat.format("50001"), udp(H, 1001, P, 53), udp(B, 50001, P, 53)
    opening, taken = (0, ASKED, made("out", "192.0.2.9:50001"), wire), stopped("out", "nat-exhausted", visited="- 0")
    yield case("one port for two interfaces", one, opening, (1, second, taken), (1, ASKED, taken),
               (0, ASKED, by_state("out", "192.0.2.9:50001"), wire), bindings={1: "0/0"})
    yield case("a port that comes free for another interface", f"set timeout udp.first 5\n{one}", (0, *opening),
               (4, 1, second, taken), (5, 1, second, made("out", "192.0.2.9:50001", 3), wire),
               (5, 0, ASKED, taken), bindings={1: "0/0", 3: "1/1"})
    # by this seed the first two packets have the second port as their cut
    two, first_port = BOUND + nat.format("50001:50002"), udp(B, 50002, P, 53)
    opening = (0, ASKED, made("out", "192.0.2.9:50002"), first_port)
    yield case("a further port on another interface", two, opening,
               (1, second, made("out", "192.0.2.9:50001", 2), wire), (2, udp(H, 1002, P, 53), taken),
               bindings={1: "0/0", 2: "1/1"}, seed=7)
    yield case("a further port for the same connection on another interface", two, opening,
               (1, ASKED, made("out", "192.0.2.9:50001", 2), wire),
               (1, ASKED, by_state("out", "192.0.2.9:50001", 2), wire),
               (0, udp(P, 53, B, 50001), "in pass default r=- s=-; 0; -"),
               (1, udp(P, 53, B, 50001), by_state("in", INSIDE_END, 2), REPLY), bindings={1: "0/0", 2: "1/1"}, seed=7)
    came = udp(P, 53, B, 50001)
    opening = "in pass rule r=1 s={0}; 0,1; made {0}"
    yield case("a port that untranslated states have on other interfaces", f"{one}\npass in",
               (1, came, opening.format(1)), (2, came, opening.format(2)),
               (0, ASKED, taken), bindings={1: "1/1", 2: "2/2"})
    yield case("a port of a state for all interfaces", f"{one} keep state (floating)",
               (0, ASKED, made("out", "192.0.2.9:50001"), wire), (1, second, taken), bindings={1: "0/-"})


def room_cases():
    one = "pass out quick proto udp keep state (max 1, if-bound)\nblock out all"
    yield case("a rule for one state of all interfaces together", one, (0, ASKED, opened(1, 0, "0")),
               (1, ASKED, blocked(1, "0,1")), (0, ASKED, touched(1, "out", 0)), bindings={1: "0/0"})
    yield case("a rule for two states of all interfaces together", one.replace("max 1", "max 2"),
               (0, ASKED, opened(1, 0, "0")), (1, ASKED, opened(2, 0, "0")), (2, ASKED, blocked(1, "0,1")),
               bindings={1: "0/0", 2: "1/1"})
    yield case("room for two states of all interfaces together", f"{BOUND}set limit states 2\npass",
               (0, ASKED, opened(1, 0, "0")), (1, ASKED, opened(2, 0, "0")),
               (2, ASKED, blocked(0, "0", reason="state-limit")), bindings={1: "0/0", 2: "1/1"})
    yield case("a key that is taken on another interface and a full table",
               "set limit states 1\npass out keep state (if-bound)\npass in keep state (floating)",
               (0, ASKED, opened(1, 0)), (1, REPLY, "in block state-insert r=1 s=-; 0,1; -"),
               (1, udp(P, 54, H, 1000), "in block state-limit r=1 s=-; 0,1; -"), bindings={1: "0/0"})


# States without a stateful rule

def policy_cases():
    """Translated connections whose states no rule keeps are bound as the ruleset says."""
    passing, filtered = f"{ONE_PORT.replace('nat', 'nat pass')}\nblock", "in block rule r=0 s=-; 0; -"
    for_rules = made("out", ONE_END, rule="-", visited="- 0", reason="nat-pass")
    back = by_state("in", INSIDE_END, rule="-")
    yield case("a translation that passes, bound", BOUND + passing, (1, ASKED, for_rules, WIRE), (0, ANSWER, filtered),
               (1, ANSWER, back, ANSWERED), bindings={1: "1/1"})
    yield case("a translation that passes, for all", passing, (1, ASKED, for_rules, WIRE), (0, ANSWER, back, ANSWERED),
               bindings={1: "1/-"})
    default = made("out", ONE_END, rule="-", visited="- 0", reason="default")
    by_default = "in pass default r=- s=-; -; -"
    yield case("a translation by default, bound", BOUND + ONE_PORT, (1, ASKED, default, WIRE), (0, ANSWER, by_default),
               (1, ANSWER, back, ANSWERED), bindings={1: "1/1"})
    yield case("a translation by default, for all", ONE_PORT, (1, ASKED, default, WIRE), (0, ANSWER, back, ANSWERED),
               bindings={1: "1/-"})
    stateless = made("out", ONE_END, rule=1, visited="0,1 0")
    rules, by_rule = f"{ONE_PORT}\nblock in\npass out", by_state("in", INSIDE_END, rule=1)
    yield case("a translation and a rule without state, bound", f"{BOUND}{rules} no state",
               (1, ASKED, stateless, WIRE), (0, ANSWER, BLOCKED), (1, ANSWER, by_rule, ANSWERED), bindings={1: "1/1"})
    yield case("a translation and a rule without state, for all", f"{rules} no state", (1, ASKED, stateless, WIRE),
               (0, ANSWER, by_rule, ANSWERED), bindings={1: "1/-"})
    yield case("a translation and a rule for states of all interfaces", f"{BOUND}{rules} keep state (floating)",
               (1, ASKED, stateless, WIRE), (0, ANSWER, by_rule, ANSWERED), bindings={1: "1/-"})
    yield case("a translation and a rule for states of one interface", f"{rules} keep state (if-bound)",
               (1, ASKED, stateless, WIRE), (0, ANSWER, BLOCKED), (1, ANSWER, by_rule, ANSWERED), bindings={1: "1/1"})
    passed_in = made("in", "10.0.0.5:53", rule="-", visited="- 0", reason="nat-pass")
    redirected = "rdr pass proto udp from any to 192.0.2.1 port 53 -> 10.0.0.5 port 53\npass in keep state (floating)"
    direct, sent = udp(P, 9, H, 53), udp(P, 9, E, 53)
    yield case("a redirection that passes, bound, beside a state for all", BOUND + redirected,
               (0, direct, untranslated("in", 1)), (1, sent, stopped("in", "state-insert", visited="- 0")),
               bindings={1: "0/-"})
    yield case("a state for all beside a redirection that passes, bound", BOUND + redirected,
               (0, sent, passed_in, direct), (1, direct, "in block state-insert r=0 t=- s=-; 0 0; -; -"),
               bindings={1: "0/0"})


def cases():
    for make in (found_cases, error_cases, time_cases, connection_cases, taken_cases, shared_cases, port_cases,
                 room_cases, policy_cases):
        yield from make()
