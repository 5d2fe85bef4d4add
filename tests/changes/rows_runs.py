"""Rows of runs on several interfaces, with settings, and of captures of each form and end.

Packets of em0 come first if they have the time of those of em1.
"""

from captures.packets import (ETHER_ARP, ETHER_IPV4, LINKTYPE_ETHERNET, LINKTYPE_LOOPBACK, NANOSECONDS, ethernet,
                              loopback, record, udp)
from changes.model import Question
from changes.printed import TEXT
from changes.row import (CAME, FLOW_BACK, FLOW_CAME, FLOW_OUT, Row, capture_of, none, one_line, question_of, row,
                         unjudged)
from runs import interface_rows
from runs.case import INSIDE
from steps.model import WIRE
from steps.place_cases import BOUND
from steps.run import THREE
from steps.tap_cases import CAME as ASKED_OF_SERVER
from steps.tap_cases import RDR, REPLY, REPLY_AT_STACK
from steps.translation_words import ANSWERED, ASKED, H2, SERVER, E, H, P
from steps.way_cases import OWN, received, sent

TWO = THREE[:2]
OPEN, CLOSED = "pass no state", "block"
PAIR = "pass L1 -> block L1"
# of which one goes out and one comes in
BOTH_WAYS = "block in no state\npass out no state"
ADDRESSED = {"addresses": (("em0", OWN.hex(":")),)}
OWN_INSIDE = f"{INSIDE},{E}"


# Several interfaces

def several(name, old, new, captures, *lines, interfaces=TWO, by_verdict=False, form=TEXT):
    """A row over the bytes of captures, one for each interface."""
    case = interface_rows.case_of("", old, captures, interfaces)
    return Row(name, Question(case, new.encode(), by_verdict, form=form), lines)


def on_two_interfaces():
    captures = [capture_of([(1, ASKED), (3, ASKED)]), capture_of([(2, ASKED), (4, ANSWERED)])]
    yield several("a rule for the second interface", OPEN, f"{OPEN}\nblock on em1", captures,
                  f"{FLOW_OUT} on em1  pass L1 -> block L2  1 packet, first 2, 1 follows",
                  "pass L1 -> block L2: 2 packets in 1 flow, 1 follows", "2 of 4 packets change: 1 cause")
    yield several("a rule for the first interface", OPEN, "block on em0\npass on !em0 no state", captures,
                  f"{FLOW_OUT} on em0  pass L1 -> block L1  1 packet, first 1, 1 follows",
                  f"{FLOW_OUT} on em1  pass L1 -> pass L2  1 packet, first 2, 1 follows",
                  f"{PAIR}: 2 packets in 1 flow, 1 follows", "pass L1 -> pass L2: 2 packets in 1 flow, 1 follows",
                  "4 of 4 packets change: 2 causes")
    yield several("a flow on each interface", OPEN, CLOSED, captures,
                  f"{FLOW_OUT} on em0  {PAIR}  1 packet, first 1, 1 follows",
                  f"{FLOW_OUT} on em1  {PAIR}  1 packet, first 2, 1 follows",
                  f"{PAIR}: 4 packets in 2 flows, 2 follow", "4 of 4 packets change: 2 causes")
    yield several("nothing on two interfaces", "block in\npass out", "pass out\nblock in", captures,
                  "0 of 4 packets change")
    yield several("the second interface isn't filtered", CLOSED, f"set skip on em1\n{CLOSED}", captures,
                  f"{FLOW_OUT} on em1  block L1 -> pass skip-on  1 packet, first 2, 1 follows",
                  "block L1 -> pass skip-on: 2 packets in 1 flow, 1 follows", "2 of 4 packets change: 1 cause")
    yield several("one of two captures has no packet", OPEN, CLOSED, [capture_of([]), capture_of([ASKED])],
                  f"{FLOW_OUT} on em1  {PAIR}  1 packet, first 1", f"{PAIR}: 1 packet in 1 flow",
                  "1 of 1 packet change: 1 cause")
    yield several("two empty captures", OPEN, CLOSED, [capture_of([])] * 2,
                  "0 of 0 packets change")._replace(is_unjudged=True)


def states_on_two_interfaces():
    """The answer comes on the other interface, by a state that is met there or isn't."""
    captures = [capture_of([(0, ASKED)]), capture_of([(0, ANSWERED)])]
    by_state = "block in\npass out on em0"
    yield several("a state that is bound now", by_state, BOUND + by_state, captures,
                  f"{FLOW_OUT} on em0  pass L2 -> pass L3  1 packet, first 1, 1 follows",
                  "pass L2 -> pass L3: 1 packet in 1 flow", "pass L2 -> block L2: 1 packet in 1 flow, 1 follows",
                  "2 of 2 packets change: 1 cause")
    yield several("a state that is bound now, by the verdict", by_state, BOUND + by_state, captures,
                  f"{FLOW_BACK} on em1  pass L2 -> block L2  1 packet, first 2",
                  "pass L2 -> block L2: 1 packet in 1 flow", "1 of 2 packets change: 1 cause", by_verdict=True)
    yield several("a rule for its interface, and a state that was made on the other one",
                  "pass out on em0\npass out on em1 no state", "pass out on em0 no state\npass out on em1 no state",
                  [capture_of([ASKED])] * 2,
                  # the same ends on the other interface are another flow, which follows by the state
                  f"{FLOW_OUT} on em0  pass L1 -> pass L1  1 packet, first 1, 1 follows",
                  "pass L1 -> pass L1: 1 packet in 1 flow", "pass L1 -> pass L2: 1 packet in 1 flow, 1 follows",
                  "2 of 2 packets change: 1 cause")


def on_more_interfaces():
    captures = [capture_of([(second, ASKED)]) for second in (3, 1, 2)]
    yield several("three interfaces", OPEN, f"{OPEN}\nblock on em2\nblock on em0", captures,
                  f"{FLOW_OUT} on em2  pass L1 -> block L2  1 packet, first 2",
                  f"{FLOW_OUT} on em0  pass L1 -> block L3  1 packet, first 3",
                  "pass L1 -> block L2: 1 packet in 1 flow", "pass L1 -> block L3: 1 packet in 1 flow",
                  "2 of 3 packets change: 2 causes", interfaces=THREE)
    links = [capture_of([loopback(ASKED)], network=LINKTYPE_LOOPBACK),
             capture_of([ethernet(ETHER_IPV4, ASKED)], network=LINKTYPE_ETHERNET),
             capture_of([ASKED], order=">", magic=NANOSECONDS)]
    yield several("three interfaces of all link types", OPEN, CLOSED, links,
                  *(f"{FLOW_OUT} on em{place}  {PAIR}  1 packet, first {place + 1}" for place in range(3)),
                  f"{PAIR}: 3 packets in 3 flows", "3 of 3 packets change: 3 causes", interfaces=THREE)
    own = "pass in to {} no state"
    to_em1 = [capture_of([udp(P, 9, "203.0.113.2", 9)]), capture_of([CAME])]
    yield several("the addresses of all interfaces", own.format("self"), own.format("em0"), to_em1,
                  "udp 198.51.100.7:9 > 203.0.113.2:9 on em0  pass L1 -> pass default  1 packet, first 1",
                  f"{FLOW_CAME} on em1  pass L1 -> pass L1  1 packet, first 2",
                  "pass L1 -> pass default: 1 packet in 1 flow", "pass L1 -> pass L1: 1 packet in 1 flow",
                  "2 of 2 packets change: 2 causes")
    yield several("an address of each interface", own.format("{ em0, em1 }"), own.format("{ em1, em0 }"), to_em1,
                  "0 of 2 packets change")


# Captures

def captures():
    frames = [(5, ASKED), (3, CAME), (9, ASKED)]
    for order, magic in (("<", NANOSECONDS), (">", NANOSECONDS)):
        yield Row(f"a capture of nanoseconds, {order}",
                  question_of(OPEN, CLOSED, capture_of(frames, order=order, magic=magic)),
                  (f"{FLOW_OUT}  {PAIR}  1 packet, first 1, 1 follows", f"{FLOW_CAME}  {PAIR}  1 packet, first 2",
                   f"{PAIR}: 3 packets in 2 flows, 1 follows", "3 of 3 packets change: 2 causes"))
    yield unjudged("an empty capture", OPEN, CLOSED, [])
    yield unjudged("an empty capture and no rule", "", "", [])
    framed = capture_of([loopback(ASKED), loopback(ASKED, 30), loopback(ANSWERED)], network=LINKTYPE_LOOPBACK)
    yield Row("a capture of BSD loopback", question_of(OPEN, CLOSED, framed),
              (f"{FLOW_OUT}  {PAIR}  1 packet, first 1, 1 follows", f"{PAIR}: 2 packets in 1 flow, 1 follows",
               "not judged: 1 IPv6", "2 of 3 packets change: 1 cause"))
    many = capture_of([CAME] * 1000 + [ASKED] * 1000)
    yield Row("many packets", question_of("pass in no state\npass out", "block in\npass out", many),
              (f"{FLOW_CAME}  {PAIR}  1 packet, first 1, 999 follow",
               f"{PAIR}: 1000 packets in 1 flow, 999 follow", "1000 of 2000 packets change: 1 cause"))


def cut_captures():
    """What is there of a capture that is cut is replayed."""
    whole = capture_of([ASKED])
    for length in (1, 15, 16, 43):
        cut = whole + record(1, 0, CAME)[:length]
        yield Row(f"a capture that is cut behind {length} bytes of a record",
                  question_of(OPEN, "pass out no state", cut),
                  (f"{FLOW_OUT}  pass L1 -> pass L1  1 packet, first 1", "pass L1 -> pass L1: 1 packet in 1 flow",
                   "1 of 1 packet change: 1 cause, cut"))
    yield Row("a capture that is cut, and nothing changes", question_of(OPEN, OPEN, whole[:-1]),
              ("0 of 0 packets change, cut",), is_unjudged=True)
    yield several("the second capture is cut", OPEN, f"{OPEN}\nblock on em1",
                  [capture_of([(1, ASKED), (3, ASKED)]), capture_of([(2, ASKED), (2, ASKED)])[:-1]],
                  f"{FLOW_OUT} on em1  pass L1 -> block L2  1 packet, first 2",
                  "pass L1 -> block L2: 1 packet in 1 flow", "1 of 3 packets change: 1 cause, cut")


# Settings

def on_the_wire():
    nat = "nat on em0 from any to any -> em0 port 50001\npass out"
    sent_out = udp(E, 50001, P, 53)
    yield none("nat isn't seen on the wire", nat, "pass out", [sent_out], tap=WIRE, inside=OWN_INSIDE)
    yield one_line("nat is seen at the stack", nat, "pass out", [sent_out], "udp 192.0.2.1:50001 > 198.51.100.7:53",
                   "pass L2 nat L1 -> pass L1", inside=OWN_INSIDE)
    rules = f"{RDR}\npass in\nblock out"
    yield row("a redirected connection on the wire", rules, "pass in\nblock out",
              [ASKED_OF_SERVER, REPLY, REPLY_AT_STACK],
              "udp 198.51.100.7:9 > 192.0.2.1:53  pass L2 rdr L1 -> pass L1  1 packet, first 1, 1 follows",
              "pass L2 rdr L1 -> pass L1: 2 packets in 1 flow, 1 follows", "2 of 3 packets change: 1 cause", tap=WIRE,
              inside=OWN_INSIDE)
    yield row("a redirected connection at the stack", rules, "pass in\nblock out",
              [ASKED_OF_SERVER, REPLY, REPLY_AT_STACK],
              "udp 198.51.100.7:9 > 192.0.2.1:53  pass L2 rdr L1 -> pass L1  1 packet, first 1, 2 follow",
              "block L3 -> pass L1: 1 packet in 1 flow, 1 follows", "pass L2 rdr L1 -> pass L1: 1 packet in 1 flow",
              "pass L2 rdr L1 -> block L2: 1 packet in 1 flow, 1 follows", "3 of 3 packets change: 1 cause",
              tap="stack", inside=OWN_INSIDE)


def ways():
    """Which way packets go by link-level addresses, and by networks that are excepted."""
    frames = capture_of([sent(CAME), received(ASKED), sent(ASKED), ethernet(ETHER_ARP, bytes(28), source=OWN)],
                        network=LINKTYPE_ETHERNET)
    pair = "pass L2 -> block L2"
    lines = (f"{FLOW_CAME}  {pair}  1 packet, first 1", f"{FLOW_OUT}  {pair}  1 packet, first 3",
             f"{pair}: 2 packets in 2 flows", "not judged: 1 ARP", "2 of 4 packets change: 2 causes")
    for inside in (None, INSIDE):
        yield Row(f"frames from the interface go out, inside {inside}",
                  question_of(BOTH_WAYS, "block in no state\nblock out", frames, inside, **ADDRESSED), lines)
    hosts = [ASKED, udp(H2, 1000, P, 53), udp(SERVER, 1000, P, 53)]
    yield one_line("a host that is excepted from the inside", BOTH_WAYS, "block return in\npass out no state", hosts,
                   "udp 10.0.0.6:1000 > 198.51.100.7:53", "block L1 -> return L1", 2, inside=f"!{H2},10.0.0.0/8")
    yield one_line("a network that is excepted, and a host in it that isn't", BOTH_WAYS,
                   "block in no state\nblock return out", hosts, FLOW_OUT, "pass L2 -> return L2",
                   inside=f"10.0.0.0/8,!10.0.0.0/24,{H}")


def seeds():
    """The answer comes to the port that the seed tells, or to another one."""
    nat = "nat on em0 from 10.0.0.0/8 to any -> em0\nblock in\npass out"
    answering, answer = nat.replace("block", "block return"), udp(P, 53, E, 61765)
    packets = [ASKED, answer, (90, answer)]
    flow, pair = "udp 198.51.100.7:53 > 192.0.2.1:61765", "block L2 -> return L2"
    yield one_line("an answer to the port of the seed", nat, answering, packets, flow, pair, 3)
    yield row("an answer to the port of another seed", nat, answering, packets,
              f"{flow}  {pair}  1 packet, first 2, 1 follows", f"{pair}: 2 packets in 1 flow, 1 follows",
              "2 of 3 packets change: 1 cause", seed="ff" * 32)


def rows():
    for make in (on_two_interfaces, states_on_two_interfaces, on_more_interfaces, captures, cut_captures, on_the_wire,
                 ways, seeds):
        yield from make()
