"""Cases of which way a packet goes, with the outcomes written out: by the link-level address of its interface, and by
networks that are excepted from the inside.

The interface's address is 02:00:00:00:00:01 if it is known, and that of the next hop 02:00:00:00:00:11.
"""

from captures.packets import (ETHER_ARP, ETHER_IPV4, LINKTYPE_ETHERNET, LINKTYPE_LOOPBACK, LINKTYPE_RAW, UNREACHABLE,
                              ethernet, icmp_error, loopback, udp)
from rulesets.tree import Network
from steps import place_cases
from steps.model import WIRE
from steps.run import INSIDE
from steps.translation_words import (ANSWER, ANSWERED, ASKED, H2, INSIDE_END, ONE_END, ONE_PORT, OTHER, SERVER, E, H, P,
                                     by_state, case, made)
from steps.translation_words import WIRE as ASKED_ON_WIRE

OWN, HOP = bytes([2, 0, 0, 0, 0, 1]), bytes([2, 0, 0, 0, 0, 17])
# of the second and of the third interface
OWN1, OWN2 = bytes([2, 0, 0, 0, 0, 2]), bytes([2, 0, 0, 0, 0, 3])
RULES = "block in no state\npass out no state"
OUT, IN = "out pass rule r=1 s=-; 0,1; -", "in block rule r=0 s=-; 0,1; -"
KEEPING = "block in\npass out"
FROM_P = udp(P, 9, E, 9)


def framed(packet, sender, destination=HOP, tags=()):
    return ethernet(ETHER_IPV4, packet, tags, sender, destination)


def sent(packet, tags=()):
    """A frame from the interface to the next hop."""
    return framed(packet, OWN, HOP, tags)


def received(packet, tags=()):
    """A frame from the next hop to the interface."""
    return framed(packet, HOP, OWN, tags)


def settled(expected, **settings):
    """What is expected of a run with some settings."""
    return expected._replace(run=expected.run._replace(**settings))


def with_address(name, rules, *judged, address=OWN, link=LINKTYPE_ETHERNET, excepted=(), tap="stack", **expected):
    """A run whose interface has a link-level address."""
    return settled(case(name, rules, *judged, link=link, **expected), addresses=(address,), excepted=excepted, tap=tap)


# Link-level addresses

def address_cases():
    yield with_address("a frame from the interface goes out, and every other comes in", RULES, (sent(ASKED), OUT),
                       (sent(FROM_P), OUT), (sent(udp(E, 9, P, 9)), OUT), (received(ASKED), IN), (received(FROM_P), IN),
                       counters="filter 0 5 2 56\nfilter 1 5 3 84\ntotal 5 3 2 0 0\n", passed=[1, 2, 3], states="",
                       verdicts="".join(f"{number} 0 {line}\n" for number, line in enumerate(
                           (*["out pass rule r=1 t=- s=-"] * 3, *["in block rule r=0 t=- s=-"] * 2), 1)))
    others = [OWN[:place] + bytes([OWN[place] ^ 1 << bit]) + OWN[place + 1:] for place in range(6) for bit in (0, 7)]
    yield with_address("frames from addresses that differ in one bit", RULES,
                       *((framed(ASKED, other), IN) for other in (*others, OWN[::-1])), (sent(ASKED), OUT))
    yield with_address("a frame to the interface from itself", RULES, (framed(FROM_P, OWN, OWN), OUT),
                       (framed(ASKED, b"\xff" * 6, OWN), IN), (framed(ASKED, bytes(6), OWN), IN))
    yield with_address("tagged frames", RULES, (sent(FROM_P, [7]), OUT), (received(ASKED, [7]), IN))
    for address in (bytes(6), b"\xff" * 6, b"\x80" + bytes(5), bytes(5) + b"\1", b"\0\0\xff\xff\xff\xff"):
        yield with_address(f"the address {address.hex(':')}", RULES, (framed(FROM_P, address), OUT), (sent(FROM_P), IN),
                           (framed(FROM_P, address[::-1]), OUT if address == address[::-1] else IN), address=address)
    yield with_address("frames that carry no IPv4 packet, from the interface", "block", passed=[1],
                       *((ethernet(ETHER_ARP, bytes(28), (), OWN), "- skip not-ip r=- s=-; -; -"),
                         (sent(ASKED[:19]), "- block short r=- s=-; -; -")))
    yield with_address("a forged source on a frame from outside", KEEPING,
                       (sent(ASKED), "out pass rule r=1 s=1; 0,1; made 1"),
                       (received(ASKED), "in block rule r=0 s=-; 0,1; -"),
                       (received(ANSWERED), "in pass state r=1 s=1; -; touched 1"),
                       (sent(ANSWERED), "out pass rule r=1 s=4; 0,1; made 4"),
                       states="1 17 out 198.51.100.7:53,10.0.0.5:1000 198.51.100.7:53,10.0.0.5:1000 r=1 t=- "
                              "2/0/0/0/- 1/0/0/0/- 0 30 1 28 1 28\n"
                              "4 17 out 10.0.0.5:1000,198.51.100.7:53 10.0.0.5:1000,198.51.100.7:53 r=1 t=- "
                              "1/0/0/0/- 0/0/0/0/- 0 60 1 28 0 0\n")
    for link, frames in ((LINKTYPE_RAW, (ASKED, FROM_P)), (LINKTYPE_LOOPBACK, (loopback(ASKED), loopback(FROM_P)))):
        yield with_address(f"an address and frames of link type {link}", RULES, *((frame, IN) for frame in frames),
                           link=link)
    yield with_address("nothing is filtered at an interface with an address", "set skip on em0\nblock",
                       (sent(ASKED), "- pass skip-on r=- s=-; -; -"), (received(ASKED), "- pass skip-on r=- s=-; -; -"))


def translated_cases():
    rules = f"{ONE_PORT}\nblock in\npass out"
    yield with_address("a translated connection of an interface with an address", rules,
                       (sent(ASKED), made("out", ONE_END, rule=1, visited="0,1 0"), sent(ASKED_ON_WIRE)),
                       (received(ANSWER, [7]), by_state("in", INSIDE_END, rule=1), received(ANSWERED, [7])), inside=())
    yield with_address("a packet that comes in with an inside source is redirected",
                       f"{ONE_PORT}\nrdr to em0 -> {SERVER}\npass",
                       (received(udp(H, 9, E, 9)), made("in", "10.0.0.1:9", translation=1, visited="0 1"),
                        received(udp(H, 9, SERVER, 9))))
    yield with_address("a translated connection of an interface with an address on the wire", rules,
                       (sent(ASKED_ON_WIRE), "out pass rule r=1 s=1; 0,1; made 1"),
                       (received(ANSWER), "in pass state r=1 s=1; -; touched 1"),
                       (received(ASKED_ON_WIRE), "in block rule r=0 s=-; 0,1; -"), tap=WIRE, inside=())
    came, sent_in, reply = udp(P, 9, E, 53), udp(P, 9, SERVER, 53), udp(E, 53, P, 9)
    opening = received(came), made("in", "10.0.0.1:53", visited="0,1 0"), received(sent_in)
    yield with_address("a redirected connection of an interface with an address on the wire",
                       f"rdr to em0 -> {SERVER}\npass in\nblock out", opening,
                       (sent(reply), "out pass state r=0 t=0 s=1; - -; touched 1; -"),
                       (sent(icmp_error(E, UNREACHABLE, 3, came)), "out pass state-error r=0 t=0 s=1; - -; -; -"),
                       (sent(icmp_error(E, UNREACHABLE, 3, sent_in)), "out block rule r=1 s=-; 0,1; -"),
                       (sent(udp(SERVER, 53, P, 9)), "out block rule r=1 s=-; 0,1; -"), tap=WIRE, inside=())
    yield with_address("an error about a translated packet at an interface with an address", rules,
                       (sent(ASKED), made("out", ONE_END, rule=1, visited="0,1 0"), sent(ASKED_ON_WIRE)),
                       (sent(icmp_error(OTHER, UNREACHABLE, 3, ASKED_ON_WIRE)), "out pass rule r=1 s=-; 0,1; -"),
                       (received(icmp_error(OTHER, UNREACHABLE, 3, ASKED_ON_WIRE)),
                        by_state("in", INSIDE_END, rule=1, reason="state-error"),
                        received(icmp_error(OTHER, UNREACHABLE, 3, ASKED))), inside=())


def placed_cases():
    """Interfaces with addresses beside one without, where the inside decides."""
    def placed(name, *judged, addresses, **expected):
        return settled(place_cases.case(name, RULES, *judged, bindings={}, **expected), addresses=addresses,
                       link=LINKTYPE_ETHERNET)

    yield placed("addresses of three interfaces", (0, framed(FROM_P, OWN), OUT), (1, framed(FROM_P, OWN1), OUT),
                 (2, framed(FROM_P, OWN2), OUT), (0, framed(ASKED, OWN1), IN), (1, framed(ASKED, OWN), IN),
                 (2, framed(ASKED, OWN), IN), addresses=(OWN, OWN1, OWN2))
    yield placed("an interface without an address", (0, framed(ASKED, HOP), IN), (1, framed(ASKED, HOP), OUT),
                 (1, framed(FROM_P, OWN), IN), (2, framed(ASKED, OWN1), IN), (2, framed(FROM_P, OWN2), OUT),
                 (3, framed(ASKED, HOP), OUT), (255, framed(FROM_P, OWN), IN), addresses=(OWN, None, OWN2))
    yield placed("the first interface without an address", (0, framed(ASKED, HOP), OUT), (0, framed(FROM_P, OWN1), IN),
                 (1, framed(ASKED, HOP), IN), (2, framed(ASKED, HOP), OUT), addresses=(None, OWN1))
    yield placed("one address of two interfaces", (0, framed(FROM_P, OWN), OUT), (1, framed(FROM_P, OWN), OUT),
                 (2, framed(FROM_P, OWN), IN), addresses=(OWN, OWN, OWN2))


# Excepted networks

def net(address, bits):
    return Network(int.from_bytes(map(int, address.split("."))), bits)


def by_networks(name, inside, excepted, out=(), into=()):
    """A run with networks, and the sources whose packets go out and whose packets come in."""
    judged = [(udp(source, 9, OTHER, 9), words) for sources, words in ((out, OUT), (into, IN)) for source in sources]
    return settled(case(f"networks, {name}", RULES, *judged, inside=tuple(net(*each) for each in inside)),
                   excepted=tuple(net(*each) for each in excepted))


TEN, NESTED, DEEP, DEEPEST = ("10.0.0.0", 8), ("10.1.0.0", 16), ("10.1.2.0", 24), ("10.1.2.128", 25)
ALL = ("0.0.0.0", 0)


def network_cases():
    yield by_networks("an excepted address", [TEN], [("10.0.0.6", 32)], [H, "10.0.0.7", "10.0.0.4"], [H2, P])
    yield by_networks("an excepted network in one of the inside", [TEN], [NESTED], [H, "10.0.255.255", "10.2.0.0"],
                      ["10.1.0.0", "10.1.2.3", "10.1.255.255", P])
    yield by_networks("a network of the inside in an excepted one", [DEEP], [TEN], ["10.1.2.0", "10.1.2.255"],
                      [H, "10.1.1.255", "10.1.3.0", P])
    sources = [H, "10.1.2.1", "10.1.2.127", "10.2.0.1"], ["10.1.0.1", "10.1.3.1", "10.1.2.128", "10.1.2.255", P]
    for name, inside, excepted in (("from the short ones", [TEN, DEEP], [NESTED, DEEPEST]),
                                   ("from the long ones", [DEEP, TEN], [DEEPEST, NESTED])):
        yield by_networks(f"four in one another, {name}", inside, excepted, *sources)
    yield by_networks("all but one is inside", [ALL], [("198.51.100.0", 24)], [H, OTHER, "255.255.255.255", "0.0.0.0"],
                      [P, "198.51.100.0", "198.51.100.255"])
    yield by_networks("all but one is excepted", [TEN], [ALL], [H, "10.255.255.255"], [P, "11.0.0.0", "9.255.255.255"])
    yield by_networks("bits of an address behind its network", [("10.9.9.9", 8)], [("10.1.77.77", 16)],
                      [H, "10.2.1.77"], ["10.1.0.0", "10.1.255.255", "11.9.9.9"])
    yield by_networks("one apart from the inside", [TEN], [("198.51.100.0", 24)], [H], [P, OTHER])
    yield by_networks("one bit longer, and one shorter", [("10.0.0.4", 31)], [("10.0.0.5", 32), ("10.0.0.4", 30)],
                      ["10.0.0.4"], [H, H2, "10.0.0.7"])
    yield by_networks("none of the inside", [], [TEN], (), [H, P])
    yield by_networks("some twice", [TEN, TEN], [NESTED, NESTED], [H], ["10.1.2.3"])
    rules = f"{ONE_PORT}\nblock in\npass out"
    yield settled(case("a translation and an excepted host", rules,
                       (udp(H2, 1000, P, 53), "in block rule r=0 s=-; 0,1; -"),
                       (ASKED, made("out", ONE_END, 2, rule=1, visited="0,1 0"), ASKED_ON_WIRE)),
                  excepted=(net(H2, 32),))
    yield settled(case("an excepted host on the wire", rules,
                       (udp(E, 50001, P, 53), "out pass rule r=1 s=1; 0,1; made 1"),
                       (udp("192.0.2.77", 50001, P, 53), "in block rule r=0 s=-; 0,1; -"),
                       inside=(*INSIDE, net("192.0.2.0", 24))), excepted=(net("192.0.2.64", 26),), tap=WIRE)
    yield with_address("excepted networks and an interface with an address", RULES, (sent(ASKED), OUT),
                       (sent(udp(H2, 9, P, 9)), OUT), (received(ASKED), IN), (received(udp(H2, 9, P, 9)), IN),
                       excepted=(net(H2, 32),))


def cases():
    for make in (address_cases, translated_cases, network_cases):
        yield from make()
