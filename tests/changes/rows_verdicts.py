"""Rows in which packets come to another verdict, or to another rule: flows, pairs of decisions, and their orders.

A packet of FLOW_OUT goes out, and those of all other flows come in.
"""

from captures.packets import ACK, SYN, tcp, udp
from changes.row import (CAME, FLOW_BACK, FLOW_CAME, FLOW_KNOCK, FLOW_OUT, KNOCK, TRAFFIC, none, one_line, row)
from steps.translation_words import ANSWERED, ASKED, E, H, P

TO_WEB, FLOW_TO_WEB = tcp(P, 4000, H, 80, SYN, 1000), "tcp 198.51.100.7:4000 > 10.0.0.5:80"
CONNECTION = (TO_WEB, tcp(H, 80, P, 4000, SYN | ACK, 5000, 1001), tcp(P, 4000, H, 80, ACK, 1001, 5001))
EMPTY = ""


# One pair of decisions

def one_pair():
    query = udp(P, 4000, H, 53)
    yield row("pass becomes block, also by state", "block in\npass in proto udp to port 53\npass out",
              "block in\npass out", [query, query, ASKED],
              "udp 198.51.100.7:4000 > 10.0.0.5:53  pass L2 -> block L1  1 packet, first 1, 1 follows",
              "pass L2 -> block L1: 2 packets in 1 flow, 1 follows", "2 of 3 packets change: 1 cause")
    yield one_line("pass becomes return", "pass in", "block return in", [CAME], FLOW_CAME, "pass L1 -> return L1")
    yield one_line("return becomes drop", "block return in", "block in", [CAME], FLOW_CAME, "return L1 -> block L1")
    yield one_line("drop becomes return by the policy", "block in", "set block-policy return\nblock in", [CAME],
                   FLOW_CAME, "block L1 -> return L2")
    yield row("block becomes pass, and the later packets pass by state", "block",
              "block\npass in proto tcp to port 80", CONNECTION,
              f"{FLOW_TO_WEB}  block L1 -> pass L2  1 packet, first 1, 2 follow",
              "block L1 -> pass L2: 3 packets in 1 flow, 2 follow", "not judged: 2 midway",
              "3 of 3 packets change: 1 cause")
    yield one_line("the answer alone changes", "pass out no state\npass in no state", "pass out no state\nblock in",
                   [ASKED, ANSWERED, ASKED], FLOW_BACK, "pass L2 -> block L2", 2)
    yield row("both ways are one flow", "pass no state", "block", [ASKED, ANSWERED, ASKED],
              f"{FLOW_OUT}  pass L1 -> block L1  1 packet, first 1, 2 follow",
              "pass L1 -> block L1: 3 packets in 1 flow, 2 follow", "3 of 3 packets change: 1 cause")
    yield row("the same way as the packet that is the cause, which isn't the first of its flow",
              "pass out no state\npass in no state", "pass out no state\nblock in", [ASKED, ANSWERED, ASKED, ANSWERED],
              f"{FLOW_BACK}  pass L2 -> block L2  1 packet, first 2, 1 follows",
              "pass L2 -> block L2: 2 packets in 1 flow, 1 follows", "2 of 4 packets change: 1 cause")
    yield one_line("from an end to itself", "pass out no state", "block out", [udp(H, 7, H, 7)],
                   "udp 10.0.0.5:7 > 10.0.0.5:7", "pass L1 -> block L1")


# Several pairs and flows

def several():
    pairs = ("pass L1 -> block L1", "pass L1 -> return L2")
    yield row("two pairs in one flow", "pass no state", "block in\nblock return out", [ANSWERED, ASKED, ANSWERED],
              f"{FLOW_BACK}  {pairs[0]}  1 packet, first 1, 2 follow", f"{pairs[0]}: 2 packets in 1 flow, 1 follows",
              f"{pairs[1]}: 1 packet in 1 flow, 1 follows", "3 of 3 packets change: 1 cause")
    first, second, third = ASKED, udp(H, 1001, P, 53), tcp(H, 1000, P, 53, SYN, 1)
    yield row("flows by turns", "pass no state", "block", [first, second, first, third, second],
              f"{FLOW_OUT}  {pairs[0]}  1 packet, first 1, 1 follows",
              f"udp 10.0.0.5:1001 > 198.51.100.7:53  {pairs[0]}  1 packet, first 2, 1 follows",
              f"tcp 10.0.0.5:1000 > 198.51.100.7:53  {pairs[0]}  1 packet, first 4",
              f"{pairs[0]}: 5 packets in 3 flows, 2 follow", "5 of 5 packets change: 3 causes")
    yield row("pairs by their first packets", "pass no state", "block\nblock return proto tcp",
              [third, first, KNOCK, third],
              f"tcp 10.0.0.5:1000 > 198.51.100.7:53  {pairs[1]}  1 packet, first 1, 1 follows",
              f"{FLOW_OUT}  {pairs[0]}  1 packet, first 2", f"{FLOW_KNOCK}  {pairs[1]}  1 packet, first 3",
              f"{pairs[1]}: 3 packets in 2 flows, 1 follows", f"{pairs[0]}: 1 packet in 1 flow",
              "4 of 4 packets change: 3 causes")
    yield row("some packets among others", "block in\npass out", "block in\npass out\npass in proto udp to port 9",
              [ASKED, CAME, KNOCK, ANSWERED, CAME, KNOCK],
              f"{FLOW_CAME}  block L1 -> pass L3  1 packet, first 2, 1 follows",
              "block L1 -> pass L3: 2 packets in 1 flow, 1 follows", "2 of 6 packets change: 1 cause")
    yield row("two pairs of one flow, and another flow between them", "pass no state",
              "block in\nblock return out\nblock return in proto tcp", [ASKED, KNOCK, ANSWERED],
              f"{FLOW_OUT}  {pairs[1]}  1 packet, first 1, 1 follows",
              f"{FLOW_KNOCK}  pass L1 -> return L3  1 packet, first 2", f"{pairs[1]}: 1 packet in 1 flow",
              "pass L1 -> return L3: 1 packet in 1 flow", f"{pairs[0]}: 1 packet in 1 flow, 1 follows",
              "3 of 3 packets change: 2 causes")
    yield row("ten flows and ten packets", "pass no state", "block", [udp(H, port, P, 53) for port in range(10)],
              *(f"udp 10.0.0.5:{port} > 198.51.100.7:53  {pairs[0]}  1 packet, first {port + 1}" for port in range(10)),
              f"{pairs[0]}: 10 packets in 10 flows", "10 of 10 packets change: 10 causes")


# No rule

def by_default():
    yield one_line("a rule in the place of none", EMPTY, "pass in", [CAME], FLOW_CAME, "pass default -> pass L1")
    yield one_line("none in the place of a rule", "pass in", EMPTY, [CAME], FLOW_CAME, "pass L1 -> pass default")
    yield one_line("a rule that blocks in the place of none", EMPTY, "block in", [CAME, ASKED], FLOW_CAME,
                   "pass default -> block L1")
    yield none("a rule in the place of none, by the verdict", EMPTY, "pass in", [CAME, CAME], by_verdict=True)
    yield none("no rule in both", "pass in proto gre", "block in proto gre", [CAME, ASKED])


# Lines of rules

def places():
    """Where rules stand: a statement with lists has one line, and so has one that is continued."""
    yield one_line("the line of a rule that is continued",
                   "block in\npass in \\\n  proto udp \\\n  to port 9\npass out", 'in_port = "9"\n\n# all\nblock in',
                   [CAME], FLOW_CAME, "pass L2 -> block L4")
    yield one_line("the line of a rule in an anchor", 'anchor "a" {\n\nanchor in {\npass in\n}\n}', "block in", [CAME],
                   FLOW_CAME, "pass L4 -> block L1")
    yield row("two rules of one line decide", "pass no state", "block from any to any port { 53, 1000 }",
              [ASKED, ANSWERED], f"{FLOW_OUT}  pass L1 -> block L1  1 packet, first 1, 1 follows",
              "pass L1 -> block L1: 2 packets in 1 flow, 1 follows", "2 of 2 packets change: 1 cause")
    yield row("two rules of two lines decide", "pass no state", "block from any to any port 53\nblock to port 1000",
              [ASKED, ANSWERED], f"{FLOW_OUT}  pass L1 -> block L1  1 packet, first 1, 1 follows",
              "pass L1 -> block L1: 1 packet in 1 flow", "pass L1 -> block L2: 1 packet in 1 flow, 1 follows",
              "2 of 2 packets change: 1 cause")
    yield row("a list that loses one of its elements", "block\npass in proto { tcp, udp } no state",
              "block\npass in proto tcp no state", [CAME, KNOCK],
              f"{FLOW_CAME}  pass L2 -> block L1  1 packet, first 1", "pass L2 -> block L1: 1 packet in 1 flow",
              "1 of 2 packets change: 1 cause")
    yield none("a list whose other element changes", "block\npass in proto { tcp, gre } no state",
               "block\npass in proto { esp, tcp } no state", [KNOCK, CAME])
    lines = "# \n" * 9999
    yield one_line("the line of a rule far behind", f"{lines}pass in", f"{lines}{lines}block in", [CAME], FLOW_CAME,
                   "pass L10000 -> block L19999")


# Verdicts alone

def by_verdict():
    old, new = "block in\npass out\npass in proto udp to port 9", "block in\npass out allow-opts"
    yield one_line("verdicts alone", old, new, TRAFFIC, FLOW_CAME, "pass L3 -> block L1", 3, by_verdict=True)
    yield row("verdicts and rules", old, new, TRAFFIC,
              f"{FLOW_OUT}  pass L2 -> pass L2  1 packet, first 1, 1 follows",
              f"{FLOW_CAME}  pass L3 -> block L1  1 packet, first 3",
              "pass L2 -> pass L2: 2 packets in 1 flow, 1 follows", "pass L3 -> block L1: 1 packet in 1 flow",
              "3 of 4 packets change: 2 causes")
    yield none("other rules that come to the same verdict", "block in proto udp\npass out",
               "block in from 198.51.100.7", [CAME, ASKED], by_verdict=True)
    yield row("the words of decisions stay", EMPTY, f"block return in to {E}", [CAME, CAME],
              f"{FLOW_CAME}  pass default -> return L1  1 packet, first 1, 1 follows",
              "pass default -> return L1: 2 packets in 1 flow, 1 follows", "2 of 2 packets change: 1 cause",
              by_verdict=True)


def rows():
    for make in (one_pair, several, by_default, places, by_verdict):
        yield from make()
