"""Rows of causes and of the packets that follow them: by their flow, by a state that they met, and in which order the
lines stand.

ASKED goes from port 1000 of H to port 53 of P, and ANSWERED comes back. ANSWER comes to port 50001 of the firewall's
address E, which ONE_PORT gives to ASKED.
"""

from captures.packets import ACK, PSH, UNREACHABLE, icmp_error, tcp, udp
from changes.row import CAME, FLOW_BACK, FLOW_CAME, FLOW_KNOCK, FLOW_OUT, KNOCK, capture_of, row
from changes.rows_runs import several
from changes.rows_verdicts import CONNECTION, FLOW_TO_WEB
from steps.place_cases import BOUND
from steps.translation_words import ANSWER, ANSWERED, ASKED, H2, ONE_PORT, OPTIONS, OTHER, H, P

BASE = "block in\npass out"
FLOW_ANSWER = "udp 198.51.100.7:53 > 192.0.2.1:50001"
SECOND, FLOW_SECOND = udp(H, 1001, P, 53), "udp 10.0.0.5:1001 > 198.51.100.7:53"
ERROR, FLOW_ERROR = icmp_error(OTHER, UNREACHABLE, 1, ASKED), "icmp 203.0.113.9 > 10.0.0.5"


# By the flow

def of_flows():
    data = (tcp(P, 4000, H, 80, PSH | ACK, 1001, 5001, payload=b"GET /"),
            tcp(H, 80, P, 4000, PSH | ACK, 5001, 1006, payload=b"200"))
    opened, pair = "block\npass in proto tcp to port 80", "pass L2 -> block L1"
    lines = (f"{FLOW_TO_WEB}  {pair}  1 packet, first 1, 4 follow", f"{pair}: 5 packets in 1 flow, 4 follow",
             "not judged: 4 midway", "5 of 5 packets change: 1 cause")
    yield row("a connection whose first segment is blocked now", opened, "block", [*CONNECTION, *data], *lines)
    yield row("a connection whose first segment is blocked now, by the verdict", opened, "block", [*CONNECTION, *data],
              *lines, by_verdict=True)
    yield row("a segment that is blocked now among others", "pass no state",
              "pass no state\nblock proto tcp flags A/A no state", [KNOCK, *CONNECTION, CONNECTION[2]],
              "tcp 10.0.0.5:80 > 198.51.100.7:4000  pass L1 -> block L2  1 packet, first 3, 2 follow",
              "pass L1 -> block L2: 3 packets in 1 flow, 2 follow", "not judged: 3 midway",
              "3 of 5 packets change: 1 cause")
    yield row("a cause that isn't the first of its flow, and whose state a packet made that doesn't change",
              f"set timeout udp.first 10\n{BASE}", BASE, [(0, ASKED), (20, ANSWERED), (21, ANSWERED)],
              f"{FLOW_BACK}  block L2 -> pass L2  1 packet, first 2, 1 follows",
              "block L2 -> pass L2: 2 packets in 1 flow, 1 follows", "2 of 3 packets change: 1 cause")
    yield row("a flow whose packets come to three pairs", "block in\npass out no state",
              "pass in from any port 53 no state\npass out allow-opts no state",
              [ASKED, ANSWERED, udp(H, 1000, P, 53, **OPTIONS)],
              f"{FLOW_OUT}  pass L2 -> pass L2  1 packet, first 1, 2 follow",
              "block L1 -> pass L1: 1 packet in 1 flow, 1 follows",
              "block ip-option L2 -> pass L2: 1 packet in 1 flow, 1 follows", "pass L2 -> pass L2: 1 packet in 1 flow",
              "3 of 3 packets change: 1 cause")


# By a state

def of_states():
    yield row("nat comes, and answers to its address follow", BASE, f"{ONE_PORT}\n{BASE}",
              [ASKED, ANSWER, ASKED, ANSWER], f"{FLOW_OUT}  pass L2 -> pass L3 nat L1  1 packet, first 1, 3 follow",
              "block L1 -> pass L3 nat L1: 2 packets in 1 flow, 2 follow",
              "pass L2 -> pass L3 nat L1: 2 packets in 1 flow, 1 follows", "4 of 4 packets change: 1 cause")
    yield row("a translated flow that is blocked, and its answer by the verdict", f"{ONE_PORT}\npass out",
              f"{ONE_PORT}\nblock", [ASKED, ANSWER],
              f"{FLOW_OUT}  pass L2 nat L1 -> block L2 nat L1  1 packet, first 1, 1 follows",
              "pass L2 nat L1 -> block L2 nat L1: 1 packet in 1 flow",
              "pass L2 nat L1 -> block L2: 1 packet in 1 flow, 1 follows", "2 of 2 packets change: 1 cause",
              by_verdict=True)
    yield row("answers to a packet that is translated now, and doesn't change by the verdict", BASE,
              f"{ONE_PORT}\n{BASE}", [ASKED, ANSWER, ANSWER],
              f"{FLOW_ANSWER}  block L1 -> pass L3 nat L1  1 packet, first 2, 1 follows",
              "block L1 -> pass L3 nat L1: 2 packets in 1 flow, 1 follows", "2 of 3 packets change: 1 cause",
              by_verdict=True)
    for name, old, new, pair in (("old", "block\npass out", "block", "pass L2 -> block L1"),
                                 ("new", "block", "block\npass out", "block L1 -> pass L2")):
        yield row(f"an error for a state of the {name} ruleset", old, new, [ASKED, ERROR],
                  f"{FLOW_OUT}  {pair}  1 packet, first 1, 1 follows", f"{pair}: 2 packets in 2 flows, 1 follows",
                  "2 of 2 packets change: 1 cause")
    yield row("an error for no state", "pass no state", "block", [ASKED, ERROR],
              f"{FLOW_OUT}  pass L1 -> block L1  1 packet, first 1",
              f"{FLOW_ERROR}  pass L1 -> block L1  1 packet, first 2", "pass L1 -> block L1: 2 packets in 2 flows",
              "2 of 2 packets change: 2 causes")


def of_several():
    """Packets for which there are several causes, or one that is far behind."""
    nat = "nat on em0 from {} to any -> em0 port 50001\n" + BASE
    yield row("a state of each ruleset, of which the old one counts", nat.format(H), nat.format(H2),
              [ASKED, udp(H2, 1000, P, 53), ANSWER],
              f"{FLOW_OUT}  pass L3 nat L1 -> pass L3  1 packet, first 1, 1 follows",
              "udp 10.0.0.6:1000 > 198.51.100.7:53  pass L3 -> pass L3 nat L1  1 packet, first 2",
              "pass L3 nat L1 -> pass L3: 1 packet in 1 flow", "pass L3 -> pass L3 nat L1: 1 packet in 1 flow",
              "pass L3 nat L1 -> pass L3 nat L1: 1 packet in 1 flow, 1 follows", "3 of 3 packets change: 2 causes")
    yield row("a flow and a state, of which the flow counts", f"{ONE_PORT}\n{BASE}",
              f"{ONE_PORT}\nblock return in\npass out allow-opts", [ANSWER, ASKED, ANSWER],
              f"{FLOW_ANSWER}  block L2 -> return L2  1 packet, first 1, 1 follows",
              f"{FLOW_OUT}  pass L3 nat L1 -> pass L3 nat L1  1 packet, first 2",
              "block L2 -> return L2: 1 packet in 1 flow",
              "pass L3 nat L1 -> pass L3 nat L1: 2 packets in 2 flows, 1 follows", "3 of 3 packets change: 2 causes")
    pair = "pass L1 -> pass L1"
    yield row("a state whose maker follows", "pass out", "pass out allow-opts",
              [(0, ASKED), (100, ASKED), (101, ERROR)], f"{FLOW_OUT}  {pair}  1 packet, first 1, 2 follow",
              f"{pair}: 3 packets in 2 flows, 2 follow", "3 of 3 packets change: 1 cause")
    yield row("a flow that follows a state", "block\npass out", "block", [ASKED, ERROR, ERROR, SECOND, ANSWERED],
              f"{FLOW_OUT}  pass L2 -> block L1  1 packet, first 1, 3 follow",
              f"{FLOW_SECOND}  pass L2 -> block L1  1 packet, first 4",
              "pass L2 -> block L1: 5 packets in 3 flows, 3 follow", "5 of 5 packets change: 2 causes")


def on_two_interfaces():
    """Packets of the same ends on the other interface are another flow."""
    captures = [capture_of([(1, ASKED)]), capture_of([(2, ASKED), (3, ANSWERED)])]
    yield several("a state that is met on the other interface", "block\npass out", "block", captures,
                  f"{FLOW_OUT} on em0  pass L2 -> block L1  1 packet, first 1, 2 follow",
                  "pass L2 -> block L1: 3 packets in 2 flows, 2 follow", "3 of 3 packets change: 1 cause")
    yield several("a state on each interface", f"{BOUND}block\npass out", f"{BOUND}block", captures,
                  f"{FLOW_OUT} on em0  pass L3 -> block L2  1 packet, first 1",
                  f"{FLOW_OUT} on em1  pass L3 -> block L2  1 packet, first 2, 1 follows",
                  "pass L3 -> block L2: 3 packets in 2 flows, 1 follows", "3 of 3 packets change: 2 causes")


# Orders

def let_in_first(name, old, new, let_in, other):
    """A segment and then a datagram, which is newly let in and stands first, with what each comes to."""
    return row(name, old, new, [KNOCK, CAME], f"{FLOW_CAME}  {let_in}  1 packet, first 2",
               f"{FLOW_KNOCK}  {other}  1 packet, first 1", f"{let_in}: 1 packet in 1 flow",
               f"{other}: 1 packet in 1 flow", "2 of 2 packets change: 2 causes")


def orders():
    yield row("what is newly let in comes first", BASE, "block out\npass in", [ASKED, CAME, SECOND, KNOCK],
              f"{FLOW_CAME}  block L1 -> pass L2  1 packet, first 2",
              f"{FLOW_KNOCK}  block L1 -> pass L2  1 packet, first 4",
              f"{FLOW_OUT}  pass L2 -> block L1  1 packet, first 1",
              f"{FLOW_SECOND}  pass L2 -> block L1  1 packet, first 3", "block L1 -> pass L2: 2 packets in 2 flows",
              "pass L2 -> block L1: 2 packets in 2 flows", "4 of 4 packets change: 4 causes")
    yield let_in_first("what is answered no more is newly let in", "block return in\npass in proto tcp",
                       "pass in\nblock return in proto tcp", "return L1 -> pass L1", "pass L2 -> return L2")
    yield let_in_first("what is answered now isn't let in", "block in", "block return in\npass in proto udp",
                       "block L1 -> pass L2", "block L1 -> return L1")
    yield let_in_first("what passes by another rule isn't newly let in", "pass in proto tcp\nblock in proto udp",
                       "pass in proto tcp allow-opts\npass in proto udp", "block L2 -> pass L2", "pass L1 -> pass L1")


def rows():
    for make in (of_flows, of_states, of_several, on_two_interfaces, orders):
        yield from make()
