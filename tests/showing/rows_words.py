"""Rows of packets that are asked for by their ports and their protocols, and of words that mean the same.

Most rows count the packets of the same capture, of which each is of another kind.
"""

from itertools import count

from captures.packets import (ETHER_ARP, ETHER_IPV4, LINKTYPE_ETHERNET, MORE_FRAGMENTS, SYN, echo, ethernet, icmp_error,
                              ipv4, tcp, udp)
from rulesets.words import PROTOCOLS, SERVICES
from showing.model import COUNT, JSON, PFLOG, TEXT
from showing.row import (ASKED_WORDS, BLOCKED, KNOCK, KNOCK_WORDS, Row, capture_of, line_of, question_of, several,
                         text_of, verdicts_of)
from showing.rows_asked import counted, network
from showing.rows_json import OBJECT
from showing.rows_pflog import HEADER, IN_BLOCKED, fields, octets
from showing.rows_text import SHORT, SKIPPED
from steps.translation_words import ASKED, H, P

UNREACHABLE = 3
# two ends of 12 and 34, which stand where ports would
LIKE_PORTS = bytes((0, 12, 0, 34, *bytes(20)))
# packets, in the order of their numbers; what isn't IPv4 and what is too short are the last
FRAMES = (tcp(P, 4000, H, 22, SYN, 1), tcp(P, 22, H, 65535, SYN, 1), udp(P, 22, H, 53), udp(P, 0, H, 80),
          udp(P, 53, H, 53), echo(P, H, True, 22, 80), icmp_error(P, UNREACHABLE, 1, ASKED), ipv4(P, H, 47, LIKE_PORTS),
          ipv4(P, H, 17, LIKE_PORTS, fragment=MORE_FRAGMENTS), ipv4(P, H, 6, LIKE_PORTS, fragment=2),
          ipv4(P, H, 0, LIKE_PORTS), ipv4(P, H, 255, LIKE_PORTS), ipv4(P, H, 50), ipv4(P, H, 51), ipv4(P, H, 2),
          b"\x60" + KNOCK[1:], KNOCK[:24], KNOCK[:19])
VERDICTS = (*[BLOCKED] * 15, SKIPPED, SHORT, SHORT)
# ports as they are asked for, and the numbers of the packets that have them at either end
PORTS = {"22": (1, 2, 3), "022": (1, 2, 3), "000000000022": (1, 2, 3), "ssh": (1, 2, 3), "4000": (1,), "65535": (2,),
         "0000065535": (2,), "53": (3, 5), "domain": (3, 5), "0": (4,), "00": (4,), "0000000": (4,), "80": (4,),
         "http": (4,), "www": (4,), "1": (), "23": (), "telnet": (), "65534": (),
         # they stand where ports would in a part, and in what has none; and identifiers of ICMP are no ports
         "12": (), "34": (), "7": ()}
# protocols, and the numbers of their packets
TCPS, UDPS, ICMPS = (1, 2, 10), (3, 4, 5, 9), (6, 7)
PROTOCOL_WORDS = {"tcp": TCPS, "6": TCPS, "06": TCPS, "0000000006": TCPS, "udp": UDPS, "17": UDPS, "017": UDPS,
                  "icmp": ICMPS, "1": ICMPS, "001": ICMPS, "gre": (8,), "47": (8,), "0": (11,), "000": (11,),
                  "255": (12,), "0255": (12,), "esp": (13,), "50": (13,), "ah": (14,), "51": (14,), "igmp": (15,),
                  "2": (15,), "4": (), "254": (), "132": ()}


def asked_of(form=COUNT, **asked):
    """A question about all of the packets."""
    return question_of("block in", capture_of(*FRAMES), verdicts_of(*VERDICTS), form, **asked)


def of_words():
    for flag, words in (("port", PORTS), ("proto", PROTOCOL_WORDS)):
        for word, numbers in words.items():
            yield Row(f"--{flag} {word}", asked_of(**{flag: word}), text_of(f"{len(numbers)} of 18 packets"))
    for word, port in SERVICES.items():
        frames = [tcp(P, port, H, 1, SYN, 1), udp(P, 1, H, port), udp(P, 1, H, port + 1),
                  tcp(P, 1, H, port - 1, SYN, 1)]
        yield counted(f"the service {word}", "block", frames, [BLOCKED] * 4, 2, port=word)
    for word, number in PROTOCOLS.items():
        frames = [ipv4(P, H, each, bytes(8), fragment=1) for each in (number, number + 1, number - 1, number)]
        yield counted(f"the protocol {word}", "block", frames, [BLOCKED] * 4, 2, proto=word)


def joined():
    """Several flags together."""
    for asked, numbers in (({"port": "22", "proto": "tcp"}, (1, 2)), ({"port": "22", "proto": "17"}, (3,)),
                           ({"port": "22", "proto": "icmp"}, ()), ({"port": "80", "proto": "udp"}, (4,)),
                           ({"port": "ssh", "host": network(H)}, (1, 2, 3)), ({"port": "ssh", "rule": 1}, ()),
                           ({"port": "ssh", "host": network("10.0.0.6")}, ()), ({"proto": "tcp", "line": 1}, TCPS),
                           ({"proto": "tcp", "line": 2}, ()), ({"proto": "tcp", "only": ("block",)}, TCPS),
                           ({"proto": "tcp", "only": ("skip",)}, ()), ({"proto": "0", "only": ("skip",)}, ()),
                           ({"proto": "tcp", "logged": True}, ()), ({"logged": True}, (17, 18)),
                           ({"port": "0", "proto": "0"}, ())):
        yield Row(f"asked for {asked}", asked_of(**asked), text_of(f"{len(numbers)} of 18 packets"))


RULES = "block in\npass out"
THREE = (KNOCK, ASKED, b"\x60")
THREE_LINES = tuple(line_of(words, number) for words, number in zip((
    f"rule 0 L1 (rule): block in on em0: {KNOCK_WORDS}", f"rule 1 L2 (rule, state 2): pass out on em0: {ASKED_WORDS}",
    "no rule (not-ip): skip on em0: not-ip"), count(1)))


def shown():
    """What is printed, in each form."""
    packets = capture_of(*THREE), verdicts_of(BLOCKED, "out pass rule r=1 t=- s=2", SKIPPED)
    for asked, numbers in (({"port": "ssh"}, (1,)), ({"port": "4000"}, (1,)), ({"port": "1000"}, (2,)),
                           ({"port": "53"}, (2,)), ({"port": "0"}, ()), ({"proto": "tcp"}, (1,)),
                           ({"proto": "17"}, (2,)), ({"proto": "0"}, ()), ({"port": "53", "proto": "tcp"}, ()),
                           ({}, (1, 2, 3))):
        yield Row(f"shown by {asked}", question_of(RULES, *packets, TEXT, **asked),
                  text_of(*(THREE_LINES[number - 1] for number in numbers)))
    for asked in ({"port": "022"}, {"proto": "06"}, {"port": "4000", "proto": "tcp"}):
        yield Row(f"JSON, by {asked}", question_of(RULES, *packets, JSON, **asked), text_of(OBJECT))
        yield Row(f"pflog, by {asked}", question_of(RULES, *packets, PFLOG, **asked),
                  octets(HEADER, fields(0, 0, 104, 104), IN_BLOCKED, KNOCK))


def as_captured():
    """Ports are those that the packet was captured with, whatever its link and whatever is translated."""
    frames = capture_of(ethernet(ETHER_IPV4, KNOCK, [22]), ethernet(ETHER_ARP, bytes(28)), link=LINKTYPE_ETHERNET)
    for asked, found in (({"port": "22"}, 1), ({"proto": "6"}, 1), ({"port": "23"}, 0), ({"proto": "0"}, 0)):
        yield Row(f"Ethernet, by {asked}", question_of("block", frames, verdicts_of(BLOCKED, SKIPPED), COUNT, **asked),
                  text_of(f"{found} of 2 packets"))
    options = udp(P, 9, H, 22, ip_options=bytes([1, 1, 1, 1]))
    yield counted("the port behind IP options", "block", [options], [BLOCKED], 1, port="22")
    translated = "rdr on em0 proto tcp to port 22 -> 10.0.0.1 port 2222\nblock in"
    for port, found in (("22", 1), ("2222", 0)):
        yield counted(f"the port {port} of what is translated", translated, [KNOCK], ["in block rule r=0 t=0 s=-"],
                      found, port=port)
    # the interface isn't filtered, so the packet passes, though it is too short
    for asked in ({"port": "22"}, {"proto": "tcp"}):
        yield counted(f"too short, where the interface isn't filtered, by {asked}", "set skip on em0", [KNOCK[:30]],
                      ["- pass skip-on r=- t=- s=-"], 0, **asked)
    captures = [capture_of((1, KNOCK)), capture_of((2, ASKED))]
    lines = text_of(f"1 1 {BLOCKED} i=em0", "2 2 out pass default r=- t=- s=- i=em1")
    for asked, found in (({"port": "22"}, 1), ({"port": "53"}, 1), ({"proto": "udp"}, 1), ({"proto": "icmp"}, 0)):
        yield Row(f"two interfaces, by {asked}", several("block in", captures, lines, COUNT, **asked),
                  text_of(f"{found} of 2 packets"))


def rows():
    for make in (of_words, joined, shown, as_captured):
        yield from make()
