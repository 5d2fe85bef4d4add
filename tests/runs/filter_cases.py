"""Modelled cases on rules and anchors: random rulesets of the filter language, and texts of the stored rulesets, each
over a capture with packets of every kind that a rule can ask for."""

import random
from pathlib import Path

from captures.packets import ACK, FIN, ICMP, IGMP, MORE_FRAGMENTS, PSH, RST, SYN, ipv4, summed_message, tcp, udp
from runs.case import INSIDE, Case, capture_of
from steps.filter_texts import HOSTS, INSIDE_HOSTS, OUTSIDE_HOSTS, PORTS, some_ruleset

TESTS = Path(__file__).resolve().parent.parent
GRE = 47
RANDOM_RULESETS = 400
# of the stored texts each such one
STORED_STEP = {"rulesets": 17, "expansions": 6}
# how names of texts begin that make more rules than a model of so few packets should go over
MANY_RULES = ("too_many", "many_of")
NO_OPERATIONS = bytes([1, 1, 1, 1])
TCP_FLAGS = (SYN, SYN, SYN, SYN | ACK, ACK, ACK, PSH | ACK, FIN | ACK, FIN, RST, RST | ACK, 0, 0xFF, SYN | 0xC0,
             SYN | FIN, 0x28)
ICMP_MESSAGES = ((8, 0), (8, 0), (0, 0), (3, 0), (3, 1), (3, 3), (11, 0), (11, 1), (5, 1), (13, 0))


def ends(chance):
    """A packet's source and destination: it goes out, comes in, or has any two addresses."""
    if chance.random() < 0.2:
        return chance.choice(HOSTS), chance.choice(HOSTS)
    pair = [chance.choice(INSIDE_HOSTS), chance.choice(OUTSIDE_HOSTS)]
    chance.shuffle(pair)
    return pair


def segment(chance, **header):
    source, destination = ends(chance)
    flags = header.pop("flags", None)
    return tcp(source, chance.choice(PORTS), destination, chance.choice(PORTS),
               chance.choice(TCP_FLAGS) if flags is None else flags, 1000, **header)


def datagram(chance, **header):
    source, destination = ends(chance)
    return udp(source, chance.choice(PORTS), destination, chance.choice(PORTS), b"text", **header)


def message(chance, **header):
    kind, code = header.pop("kind", None) or chance.choice(ICMP_MESSAGES)
    return ipv4(*ends(chance), ICMP, summed_message(kind, code, bytes(20)), **header)


def fragments_of(chance):
    """First and later fragments of each transport and of another protocol."""
    for build in (segment, datagram, message):
        yield build(chance, fragment=MORE_FRAGMENTS)
        yield build(chance, fragment=chance.choice([1, 185, MORE_FRAGMENTS | 2]))
    yield ipv4(*ends(chance), GRE, bytes(16), fragment=chance.choice([MORE_FRAGMENTS, 3]))


def packets(chance):
    """Some sixty packets in any order: all kinds with ends, ports, flags and types of the few that rules name."""
    made = [segment(chance, flags=flags) for flags in TCP_FLAGS]
    made += [datagram(chance) for _ in range(10)]
    made += [message(chance, kind=kind) for kind in ICMP_MESSAGES]
    made += [ipv4(*ends(chance), protocol, bytes(12)) for protocol in (GRE, GRE, IGMP, 50, 0)]
    made += [*fragments_of(chance), *fragments_of(chance)]
    made += [build(chance, ip_options=NO_OPERATIONS) for build in (segment, segment, datagram, datagram, message)]
    made += [datagram(chance, ip_options=NO_OPERATIONS, fragment=1), datagram(chance)[:24], b"\x60" + bytes(39)]
    chance.shuffle(made)
    return made


def random_rulesets():
    for number in range(RANDOM_RULESETS):
        chance = random.Random(f"ruleset {number}")
        yield Case(f"random ruleset {number}", some_ruleset(chance), INSIDE, capture_of(packets(chance)))


def stored(folder):
    """The files of the stored texts of a comparison."""
    return sorted((TESTS / folder / "texts").glob("*.conf"))


def stored_rulesets():
    for folder, step in STORED_STEP.items():
        few = [path for path in stored(folder) if not path.name.startswith(MANY_RULES)]
        for path in few[::step]:
            chance = random.Random(path.name)
            yield Case(f"{folder}/{path.name}", path.read_bytes(), INSIDE, capture_of(packets(chance)))


def all_cases():
    yield from random_rulesets()
    yield from stored_rulesets()
