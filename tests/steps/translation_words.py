"""The ends, packets and words of lines that the cases of translation share, and their form.

Most ranges have one port or two, so that few picks depend on the words of the seed.
"""

from captures.packets import LINKTYPE_RAW, SYN, tcp, udp
from rulesets.tree import Network
from steps.run import INSIDE, Expected, Run, seed_of

H, H2, P, P2, OTHER = "10.0.0.5", "10.0.0.6", "198.51.100.7", "198.51.100.8", "203.0.113.9"
# the interface's address, another one of its network, a host that packets are redirected to, and a router inside
E, B, SERVER, ROUTER = "192.0.2.1", "192.0.2.9", "10.0.0.1", "10.9.9.9"
GRE = 47
OPTIONS = {"ip_options": bytes([1, 1, 1, 1])}
# the interface's own address is inside too
OWN_INSIDE = (*INSIDE, Network(0xC0000201, 32))

NAT = "nat on em0 from 10.0.0.0/8 to any -> em0"
# a rule that leaves no choice, and packets that it translates with what they are then
ONE_PORT = f"{NAT} port 50001"
ASKED, WIRE = udp(H, 1000, P, 53), udp(E, 50001, P, 53)
ANSWER, ANSWERED = udp(P, 53, E, 50001), udp(P, 53, H, 1000)
OPENING, OPENING_WIRE = tcp(H, 1000, P, 80, SYN, 1000), tcp(E, 50001, P, 80, SYN, 1000)


def case(name, rules, *judged, link=LINKTYPE_RAW, inside=INSIDE, seed=0, **expected):
    """A run whose packets each stand with their words and, where they are written otherwise, with that frame; and maybe
    with a second before them."""
    timed = [each if isinstance(each[0], int) else (0, *each) for each in judged]
    frames = {number: each[3] for number, each in enumerate(timed, 1) if len(each) == 4}
    run = Run(name, rules, [each[:2] for each in timed], link, inside=inside, seed=seed_of(seed))
    return Expected(run, [each[2] for each in timed], written=frames, **expected)


# Words of a packet that is translated

SIDES = {"in": "destination", "out": "source"}


def made(direction, end, number=1, rule=0, translation=0, visited="0 0", reason="rule"):
    """It makes the state of its number, and this end is written into it."""
    return (f"{direction} pass {reason} r={rule} t={translation} s={number}; {visited}; made {number}; "
            f"{SIDES[direction]} {end}")


def by_state(direction, end, number=1, rule=0, reason="state", translation=0):
    """It passes by a state, and this end is written into it."""
    change = f"touched {number}" if reason == "state" else "-"
    return (f"{direction} pass {reason} r={rule} t={translation} s={number}; - -; {change}; "
            f"{SIDES[direction]} {end}")


def told(direction, end, number=1, rule=0):
    """It is an error about a packet of a state."""
    return by_state(direction, end, number, rule, "state-error")


def untranslated(direction, number, visited="0 0"):
    """It makes a state, and no rule of translation of those that are visited translates it."""
    return f"{direction} pass rule r=0 t=- s={number}; {visited}; made {number}; -"


def stopped(direction, reason, rule="-", translation=0, visited="0 0", state="-"):
    """It is blocked."""
    return f"{direction} block {reason} r={rule} t={translation} s={state}; {visited}; -; -"


ONE_END, INSIDE_END = "192.0.2.1:50001", "10.0.0.5:1000"
MADE, TOUCHED_OUT, TOUCHED_IN = made("out", ONE_END), by_state("out", ONE_END), by_state("in", INSIDE_END)
TOLD_IN = told("in", INSIDE_END)
EXHAUSTED = stopped("out", "nat-exhausted", visited="- 0")
