"""Rows of the flows that are blocked most."""

from captures.packets import SYN, TCP, UDP, echo, fragments, icmp_error, ipv4, tcp, udp
from reporting.row import BLOCK, BLOCKED, KNOCK, capture_of, of_captures, text_of, timed
from reporting.rows_summary import PASSED, RETURNED, SKIP_ON
from showing.rows_text import SHORT, SKIPPED
from steps.translation_words import ANSWERED, ASKED, H, P

KNOCKED = "tcp 198.51.100.7:4000 > 10.0.0.5:22"
OUT, BACK = "udp 10.0.0.5:1000 > 198.51.100.7:53", "udp 198.51.100.7:53 > 10.0.0.5:1000"
ENDS = "198.51.100.7 > 10.0.0.5"


def blocked(name, told, *flows, rules=BLOCK, more=""):
    """A row of packets, each a frame and what its line says, with the flows that are told."""
    return timed(name, rules, *((0, *each) for each in told), blocked=flows, more=more)


def flow(packets, octets, words, first, rule="1", reason="rule", name="em0"):
    return str(packets), str(octets), words, name, rule, reason, str(first)


def of_packets():
    yield blocked("no packet is blocked", [(ASKED, PASSED.format(1)), (b"", SKIPPED), (KNOCK, SKIP_ON)])
    yield blocked("a packet that is blocked", [(ASKED, PASSED.format(1)), (KNOCK, BLOCKED)], flow(1, 40, KNOCKED, 2))
    yield blocked("packets that are blocked and refused", [(KNOCK, RETURNED), (KNOCK, BLOCKED)],
                  flow(2, 80, KNOCKED, 1))
    yield blocked("a packet of a flow passes", [(KNOCK, "in pass rule r=1 t=- s=1"), (KNOCK, BLOCKED),
                                                (KNOCK, SKIP_ON)], flow(1, 40, KNOCKED, 2))
    for name, frame, octets, words in (
            ("TCP", tcp(P, 65535, H, 0, SYN, 1), 40, "tcp 198.51.100.7:65535 > 10.0.0.5:0"),
            ("UDP", udp(P, 9, H, 9, bytes(4)), 32, "udp 198.51.100.7:9 > 10.0.0.5:9"),
            ("an echo", echo(P, H, True, 7, 1), 28, f"icmp {ENDS}"),
            ("an ICMP error", icmp_error(P, 3, 13, ASKED), 56, f"icmp {ENDS}"),
            ("GRE", ipv4(P, H, 47, bytes(5)), 25, f"gre {ENDS}"), ("protocol 200", ipv4(P, H, 200), 20, f"200 {ENDS}"),
            ("a part of TCP", ipv4(P, H, TCP, bytes(3), fragment=1), 23, f"tcp {ENDS}"),
            ("the first part of UDP", fragments(udp(P, 9, H, 9, bytes(24)), 16)[0], 36, f"udp {ENDS}")):
        yield blocked(f"a packet of {name}", [(frame, BLOCKED)], flow(1, octets, words, 1))
    parts = fragments(udp(P, 9, H, 9, bytes(24)), 16)
    yield blocked("parts of a packet, and a whole one", [(parts[0], BLOCKED), (udp(P, 9, H, 9), BLOCKED),
                                                         (parts[1], BLOCKED), (ipv4(P, H, UDP, fragment=9), BLOCKED)],
                  flow(3, 92, f"udp {ENDS}", 1), flow(1, 28, "udp 198.51.100.7:9 > 10.0.0.5:9", 2))


def of_ways():
    """Each direction is a flow of its own."""
    other = "out block rule r=1 t=- s=-"
    rules = "block in\nblock out"
    yield blocked("both ways of a flow", [(ASKED, other), (ANSWERED, BLOCKED), (ASKED, other)],
                  flow(2, 56, OUT, 1, "2"), flow(1, 28, BACK, 2), rules=rules)
    same = udp(H, 9, P, 9), udp(P, 9, H, 9)
    yield blocked("ports that are the same", [(same[0], other), (same[1], BLOCKED)],
                  flow(1, 28, "udp 10.0.0.5:9 > 198.51.100.7:9", 1, "2"),
                  flow(1, 28, "udp 198.51.100.7:9 > 10.0.0.5:9", 2), rules=rules)


def of_rules():
    """The rule and the reason of the first packet of a flow."""
    rules = "\n\nblock in from { 10.0.0.0/8, 198.51.100.0/24 }\npass in\nblock out"
    for said, rule, reason in (("in block rule r=0 t=- s=-", "3", "rule"), ("in block rule r=1 t=- s=-", "3", "rule"),
                               ("in return rule r=2 t=- s=-", "4", "rule"), ("out block rule r=3 t=- s=-", "5", "rule"),
                               ("in block state-limit r=2 t=- s=-", "4", "state-limit"),
                               ("in block state-insert r=2 t=- s=-", "4", "state-insert"),
                               ("in block ip-option r=2 t=- s=-", "4", "ip-option"),
                               ("in block ip-option r=- t=- s=-", "", "ip-option")):
        yield blocked(f"blocked by {said}", [(KNOCK, said)], flow(1, 40, KNOCKED, 1, rule, reason), rules=rules)
    yield blocked("two rules of a flow", [(KNOCK, "in block rule r=2 t=- s=-"), *[(KNOCK, BLOCKED)] * 3],
                  flow(4, 160, KNOCKED, 1, "4"), rules=rules)
    yield blocked("two reasons of a flow", [(KNOCK, "in block ip-option r=- t=- s=-"), *[(KNOCK, BLOCKED)] * 3],
                  flow(4, 160, KNOCKED, 1, "", "ip-option"), rules=rules)
    yield blocked("two reasons of a flow, the other way round", [
        (KNOCK, BLOCKED), (KNOCK, "in block state-limit r=2 t=- s=-"), (KNOCK, "in block ip-option r=- t=- s=-")],
                  flow(3, 120, KNOCKED, 1, "3"), rules=rules)
    translated = "rdr on em0 all -> 10.0.0.1\nnat on em0 all -> em0\nblock in"
    for said, rule, reason in (("in block rule r=0 t=0 s=-", "3", "rule"),
                               ("in block state-limit r=0 t=0 s=-", "3", "state-limit"),
                               ("in block ip-option r=- t=0 s=-", "", "ip-option"),
                               ("in block state-limit r=- t=0 s=-", "", "state-limit"),
                               ("in block state-insert r=- t=0 s=-", "", "state-insert"),
                               ("out block nat-exhausted r=- t=1 s=-", "", "nat-exhausted")):
        yield blocked(f"translated and blocked by {said}", [(KNOCK, said)], flow(1, 40, KNOCKED, 1, rule, reason),
                      rules=translated)
    mismatch = [(KNOCK, "in pass rule r=2 t=- s=1"), (KNOCK, "in block state-mismatch r=2 t=- s=1")]
    yield blocked("a packet that doesn't fit its state", mismatch, flow(1, 40, KNOCKED, 2, "4", "state-mismatch"),
                  rules=rules)
    nobody = [(KNOCK, "in pass nat-pass r=- t=0 s=1"), (KNOCK, "in block state-mismatch r=- t=0 s=1")]
    yield blocked("a packet that doesn't fit the state of a translation", nobody,
                  flow(1, 40, KNOCKED, 2, "", "state-mismatch"), rules="rdr pass on em0 all -> 10.0.0.1\nblock")


def of_short():
    short = KNOCK[:30]
    yield blocked("packets that are too short", [(short, SHORT), (KNOCK, BLOCKED), (KNOCK[:9], SHORT), (b"", SKIPPED)],
                  flow(2, 0, "short", 1, "", "short"), flow(1, 40, KNOCKED, 2))
    captures = [capture_of((1, short), (3, short)), capture_of((2, short))]
    lines = text_of(*(f"{number} {number} {SHORT} i=em{place}" for number, place in ((1, 0), (2, 1), (3, 0))))
    yield of_captures("short packets of two interfaces", BLOCK, captures, lines, parts={
        "blocked": (flow(2, 0, "short", 1, "", "short"), flow(1, 0, "short", 2, "", "short", "em1"))})


def of_interfaces():
    """Packets on another interface are another flow, in both directions."""
    captures = [capture_of((1, KNOCK), (3, KNOCK), (5, KNOCK)), capture_of((2, KNOCK), (4, KNOCK))]
    lines = text_of(*(f"{number} {number} {BLOCKED} i=em{(number + 1) % 2}" for number in range(1, 6)))
    yield of_captures("a flow on two interfaces", BLOCK, captures, lines, parts={
        "blocked": (flow(3, 120, KNOCKED, 1), flow(2, 80, KNOCKED, 2, name="em1"))})


# Many flows

def knock(port):
    return tcp(P, port, H, 22, SYN, 1)


def words(port):
    return f"tcp 198.51.100.7:{port} > 10.0.0.5:22"


def many(name, ports, *shown, more=""):
    """Packets from ports, in their order, and the ports that are told, each with its packets and the first of them."""
    return blocked(name, [(knock(port), BLOCKED) for port in ports],
                   *(flow(count, 40 * count, words(port), first) for port, count, first in shown), more=more)


def of_many():
    for count in (19, 20):
        yield many(f"{count} flows", range(1, count + 1), *((port, 1, port) for port in range(1, count + 1)))
    first = [(port, 1, port) for port in range(1, 21)]
    yield many("21 flows", range(1, 22), *first, more="1 flows more with 1 packets.")
    yield many("22 flows", range(1, 23), *first, more="2 flows more with 2 packets.")
    yield many("21 flows, of which the last one has two packets", [*range(1, 22), 21], (21, 2, 21), *first[:19],
               more="1 flows more with 1 packets.")
    twice = [*range(1, 31), *range(1, 31)]
    yield many("30 flows of two packets", twice, *((port, 2, port) for port in range(1, 21)),
               more="10 flows more with 20 packets.")
    yield many("ties", [5, 4, 3, 3, 4, 9, 9, 9], (9, 3, 6), (4, 2, 2), (3, 2, 3), (5, 1, 1))
    yield many("flows in the order of their first packets", [7, 1, 8, 2, 9, 3], *(
        (port, 1, first) for first, port in enumerate((7, 1, 8, 2, 9, 3), 1)))
    yield many("a flow of many packets behind others", [*range(100, 150), *[7] * 300], (7, 300, 51), *(
        (port, 1, port - 99) for port in range(100, 119)), more="31 flows more with 31 packets.")


def rows():
    for make in (of_packets, of_ways, of_rules, of_short, of_interfaces, of_many):
        yield from make()
