"""Whole runs with translation that are written out in full: the line of each packet, what is written into it, the
states and the counters.

H and H2 are inside, P and OTHER outside, and E is the interface's address. UDP datagrams have 28 bytes and TCP packets
no options, unless it is said otherwise. A packet that is written is one of the same kind with the other end, since all
of its checksums are right.
"""

from captures.packets import MORE_FRAGMENTS, SYN, TIME_EXCEEDED, UDP, UNREACHABLE, echo, icmp_error, ipv4, tcp, udp
from steps.run import Expected, Run, seed_of
from steps.translation_words import (ASKED, EXHAUSTED, GRE, H2, INSIDE_END, NAT, OPTIONS, OTHER, ROUTER, SERVER, B, E,
                                     H, P, by_state, made, stopped, told)

TWO_PORTS = "nat on em0 proto udp from 10.0.0.0/8 to any -> 192.0.2.1 port 50001:50002\npass out"
# bytes of seeds, with the two ports in the order in which the first two packets of a run get them
SEEDS = ((0, 50002, 50001), (1, 50001, 50002), (2, 50001, 50002), (7, 50002, 50001), (255, 50002, 50001))
# a datagram as it is captured and as it is written, and an error about the written one in both forms, each before the
# datagram that it tells of
ERROR_RULES = "nat on em0 proto udp from 10.0.0.0/8 to any -> 192.0.2.1 port 50001\npass out"
CAPTURED, ON_THE_WIRE, ERROR, ERROR_INSIDE = (bytes.fromhex(octets) for octets in (
    "4500001c00010000401146910a000005c633640703e800350008c781",
    "4500001c0001000040118e94c0000201c6336407c35100350008501b",
    "450000380002000040017cb8cb007109c00002010303e95200000000",
    "4500003800020000400134b5cb0071090a0000050303315600000000"))


def verdict_lines(words):
    """The lines of packets at second 0 with these words."""
    heads = (line.partition(";")[0] for line in words)
    return "".join(f"{number} 0 {head if ' t=' in head else head.replace(' s=', ' t=- s=')}\n"
                   for number, head in enumerate(heads, 1))


def row(name, rules, packets, words, seed=0, **expected):
    """A run of packets at second 0, with the words of each."""
    run = Run(name, rules, [(0, packet) for packet in packets], seed=seed_of(seed))
    return Expected(run, words, verdicts=verdict_lines(words), **expected)


def two_port_rows():
    """Three packets, and ports for two of them, by any seed."""
    packets = [udp(H, port, P, 53) for port in (1000, 1001, 1002)]
    for seed, first, second in SEEDS:
        yield row(f"ports for two of three, seed {seed}", TWO_PORTS, packets,
                  [made("out", f"192.0.2.1:{first}"), made("out", f"192.0.2.1:{second}", 2), EXHAUSTED], seed,
                  counters="filter 0 2 2 56\ntranslation 0 3 2 56\ntotal 3 2 1 0 0\n", passed=[1, 2],
                  written={1: udp(E, first, P, 53), 2: udp(E, second, P, 53)})


def nat_rows():
    packets = [ASKED, udp(H2, 1000, P, 53), udp(P, 53, E, 61765), udp(P, 53, E, 62769)]
    first = bytes.fromhex("4500001c0000000040118e95c0000201c6336407f145003500082227")
    yield row("two hosts behind one address", f"{NAT}\npass out", packets,
              [made("out", "192.0.2.1:61765"), made("out", "192.0.2.1:62769", 2),
               by_state("in", INSIDE_END), by_state("in", "10.0.0.6:1000", 2)],
              states="1 17 out 198.51.100.7:53,192.0.2.1:61765 198.51.100.7:53,10.0.0.5:1000 r=0 t=0 2/0/0/0/- "
                     "1/0/0/0/- 0 30 1 28 1 28\n"
                     "2 17 out 198.51.100.7:53,192.0.2.1:62769 198.51.100.7:53,10.0.0.6:1000 r=0 t=0 2/0/0/0/- "
                     "1/0/0/0/- 0 30 1 28 1 28\n",
              counters="filter 0 2 4 112\ntranslation 0 2 4 112\ntotal 4 4 0 0 0\n", passed=[1, 2, 3, 4],
              written={1: first, 2: udp(E, 62769, P, 53), 3: udp(P, 53, H, 1000), 4: udp(P, 53, H2, 1000)})
    request, on_the_wire = echo(H, P, True, 7, 1), echo(E, P, True, 5840, 1)
    yield row("an echo, its reply and an error about it", f"{NAT}\npass out",
              [request, echo(P, E, False, 5840, 1), icmp_error(OTHER, TIME_EXCEEDED, 0, on_the_wire)],
              [made("out", "192.0.2.1:5840"), by_state("in", "10.0.0.5:7"), told("in", "10.0.0.5:7")],
              states="1 1 out 198.51.100.7:5840,192.0.2.1:5840 198.51.100.7:7,10.0.0.5:7 r=0 t=0 0/0/0/0/- 0/0/0/0/- "
                     "0 10 1 28 1 28\n",
              counters="filter 0 1 3 112\ntranslation 0 1 3 112\ntotal 3 3 0 0 0\n", passed=[1, 2, 3],
              written={1: on_the_wire, 2: echo(P, H, False, 7, 1), 3: icmp_error(OTHER, TIME_EXCEEDED, 0, request)})
    yield row("a protocol without ports", f"{NAT}\npass out", [ipv4(H, P, GRE, bytes(8)), ipv4(H2, P, GRE, bytes(8))],
              [made("out", "192.0.2.1:0"), EXHAUSTED],
              states="1 47 out 198.51.100.7:0,192.0.2.1:0 198.51.100.7:0,10.0.0.5:0 r=0 t=0 1/0/0/0/- 0/0/0/0/- "
                     "0 60 1 28 0 0\n",
              counters="filter 0 1 1 28\ntranslation 0 2 1 28\ntotal 2 1 1 0 0\n", passed=[1],
              written={1: ipv4(E, P, GRE, bytes(8))})
    yield row("ports that stay", "nat on em0 proto udp from 10.0.0.0/8 to any -> 192.0.2.1 static-port\npass out",
              [ASKED, udp(H2, 1000, P, 53)], [made("out", "192.0.2.1:1000"), EXHAUSTED], passed=[1],
              written={1: udp(E, 1000, P, 53)})
    fragment = ipv4(H, P, UDP, ASKED[20:] + bytes(8), fragment=MORE_FRAGMENTS)
    yield row("a first fragment", f"{NAT}\npass out", [fragment], ["out pass rule r=0 s=-; 0; -"], states="",
              counters="filter 0 1 1 36\ntranslation 0 0 0 0\ntotal 1 1 0 0 0\n", passed=[1], written={})


def error_rows():
    yield row("a datagram and an error about it, byte for byte", ERROR_RULES, [CAPTURED, ERROR + ON_THE_WIRE],
              [made("out", "192.0.2.1:50001"), told("in", INSIDE_END)],
              counters="filter 0 1 2 84\ntranslation 0 1 2 84\ntotal 2 2 0 0 0\n", passed=[1, 2],
              written={1: ON_THE_WIRE, 2: ERROR_INSIDE + CAPTURED})
    came, sent_in = udp(P, 9, E, 53), udp(P, 9, SERVER, 5353)
    errors = [(SERVER, UNREACHABLE, 3), (ROUTER, TIME_EXCEEDED, 0)]
    yield row("errors from the inside about a redirected datagram",
              "rdr on em0 proto udp from any to em0 port 53 -> 10.0.0.1 port 5353\npass in",
              [came, *(icmp_error(*error, sent_in) for error in errors)],
              [made("in", "10.0.0.1:5353"), told("out", "192.0.2.1:53"), told("out", "192.0.2.1:53")],
              states="1 17 in 198.51.100.7:9,192.0.2.1:53 198.51.100.7:9,10.0.0.1:5353 r=0 t=0 1/0/0/0/- 0/0/0/0/- "
                     "0 60 1 28 0 0\n",
              counters="filter 0 1 3 140\ntranslation 0 1 3 140\ntotal 3 3 0 0 0\n", passed=[1, 2, 3],
              written={1: sent_in, 2: icmp_error(E, UNREACHABLE, 3, came),
                       3: icmp_error(ROUTER, TIME_EXCEEDED, 0, came)})


def redirection_rows():
    yield row("ports moved by one distance",
              "rdr on em0 proto tcp from any to 192.0.2.1 port 2000:2999 -> 10.0.0.1 port 4000:*\n"
              "pass in proto tcp from any to 10.0.0.1 port 4999",
              [tcp(P, 5555, E, 2999, SYN, 1000)], [made("in", "10.0.0.1:4999")], passed=[1],
              written={1: tcp(P, 5555, SERVER, 4999, SYN, 1000)})
    yield row("two ports to one server",
              "rdr on em0 proto tcp from any to em0 port { 80, 8080 } -> 10.0.0.1 port 80\npass in",
              [tcp(P, 5555, E, port, SYN, 1000) for port in (80, 8080)],
              [made("in", "10.0.0.1:80"), stopped("in", "state-insert", 0, 1, "0 0,1")],
              counters="filter 0 2 1 40\ntranslation 0 2 1 40\ntranslation 1 1 0 0\ntotal 2 1 1 0 0\n", passed=[1],
              written={1: tcp(P, 5555, SERVER, 80, SYN, 1000)})
    yield row("a redirection that passes",
              "rdr pass on em0 proto udp from any to 192.0.2.1 port 53 -> 10.0.0.1\nblock all",
              [udp(P, 5353, E, 53)], [made("in", "10.0.0.1:53", rule="-", visited="- 0", reason="nat-pass")],
              counters="filter 0 0 0 0\ntranslation 0 1 1 28\ntotal 1 1 0 0 0\n", passed=[1],
              written={1: udp(P, 5353, SERVER, 53)})


def binat_rows():
    yield row("one address for another, both ways", "binat on em0 from 10.0.0.5 to any -> 192.0.2.9\npass all",
              [ASKED, udp(OTHER, 7, B, 9)], [made("out", "192.0.2.9:1000"), made("in", "10.0.0.5:9", 2)],
              states="1 17 out 198.51.100.7:53,192.0.2.9:1000 198.51.100.7:53,10.0.0.5:1000 r=0 t=0 1/0/0/0/- "
                     "0/0/0/0/- 0 60 1 28 0 0\n"
                     "2 17 in 203.0.113.9:7,192.0.2.9:9 203.0.113.9:7,10.0.0.5:9 r=0 t=0 1/0/0/0/- 0/0/0/0/- "
                     "0 60 1 28 0 0\n",
              passed=[1, 2], written={1: udp(B, 1000, P, 53), 2: udp(OTHER, 7, H, 9)})
    yield row("a kind that is ended, and the next one",
              "no binat on em0 from 10.0.0.5 to any port 53\nbinat on em0 from 10.0.0.5 to any -> 192.0.2.9\n"
              "nat on em0 from 10.0.0.5 to any -> em0 static-port\npass",
              [ASKED, udp(H, 1000, P, 54), udp(P, 54, B, 7)],
              [made("out", "192.0.2.1:1000", translation=2, visited="0 0,2"),
               made("out", "192.0.2.9:1000", 2, translation=1, visited="0 0,1"),
               made("in", "10.0.0.5:7", 3, translation=1, visited="0 0,1")],
              counters="filter 0 3 3 84\ntranslation 0 3 0 0\ntranslation 1 2 2 56\ntranslation 2 1 1 28\n"
                       "total 3 3 0 0 0\n",
              passed=[1, 2, 3], written={1: udp(E, 1000, P, 53), 2: udp(B, 1000, P, 54), 3: udp(P, 54, H, 7)})
    yield row("a rule that says no", f"no nat on em0 proto udp from 10.0.0.5 to any\n{TWO_PORTS}", [ASKED],
              ["out pass rule r=0 t=- s=1; 0 0; made 1; -"],
              counters="filter 0 1 1 28\ntranslation 0 1 0 0\ntranslation 1 0 0 0\ntotal 1 1 0 0 0\n", passed=[1],
              written={})


def filter_rows():
    wire, end = udp(E, 61765, P, 53), "192.0.2.1:61765"
    yield row("a translation and no rule of the filter", NAT, [ASKED],
              [made("out", end, rule="-", visited="- 0", reason="default")],
              states="1 17 out 198.51.100.7:53,192.0.2.1:61765 198.51.100.7:53,10.0.0.5:1000 r=- t=0 1/0/0/0/- "
                     "0/0/0/0/- 0 60 1 28 0 0\n",
              counters="translation 0 1 0 0\ntotal 1 1 0 0 0\n", passed=[1], written={1: wire})
    yield row("a translation and a rule that blocks", f"{NAT}\nblock all", [ASKED], [stopped("out", "rule", 0)],
              states="", counters="filter 0 1 1 28\ntranslation 0 1 1 28\ntotal 1 0 1 0 0\n", passed=[], written={})
    yield row("a translation and a rule without state", f"{NAT}\npass out no state", [ASKED, udp(P, 53, E, 61765)],
              [made("out", end), by_state("in", INSIDE_END)], passed=[1, 2],
              written={1: wire, 2: udp(P, 53, H, 1000)})
    # by its number the second packet of a run gets another port than the first
    yield row("a translation that passes, and IP options",
              "nat pass on em0 from 10.0.0.0/8 to any -> em0\npass out", [udp(H, 1000, P, 53, **OPTIONS), ASKED],
              [stopped("out", "ip-option", visited="- 0"),
               made("out", "192.0.2.1:62769", 2, rule="-", visited="- 0", reason="nat-pass")],
              counters="filter 0 0 0 0\ntranslation 0 2 1 28\ntotal 2 1 1 0 0\n", passed=[2],
              written={2: udp(E, 62769, P, 53)})


def rows():
    for make in (two_port_rows, nat_rows, error_rows, redirection_rows, binat_rows, filter_rows):
        yield from make()
