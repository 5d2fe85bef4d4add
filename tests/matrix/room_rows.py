"""The scenes of rules with `max`, each under the name of its function.

The packets are of raw IP. H is inside, P and Q are outside, and HERE is the interface's address. All packets have 28
bytes but those of TCP, which have 40.
"""

from captures.packets import ACK, ICMP, RST, SYN, UDP, echo, ipv4, summed_message, tcp, udp
from matrix.scene import capture_of, scene
from messages.rows import flow, flows, reply
from steps.rows import HERE, H, P

Q = "198.51.100.8"
UDP_RULE, ICMP_RULE, TCP_RULE = ("pass out proto udp all keep state (max 1)", "pass in proto icmp all keep state (max 1)",
                                 "pass out proto tcp all keep state (max 1)")
MADE, BLOCKED = "{} {} out pass rule r={} t=- s={}", "{} {} out block rule r={} t=- s=-"


def states_of(rule, made):
    """The lines of states of a flow each: by the number, the place of the flow and the second in which it is made."""
    for number, place, second in made:
        key = f"198.51.100.7:53,10.0.0.5:{1000 + place}"
        yield f"{number} 17 out {key} {key} r={rule} t=- 1/0/0/0/- 0/0/0/0/- {second} {second + 60} 1 28 0 0"


def a_quick_rule_for_one_state():
    """The rule holds again once its state has run out."""
    yield scene("pass out quick proto udp all keep state (max 1)\nblock out all",
                [flow(0), (30, flow(1)), (60, flow(2))],
                [MADE.format(1, 0, 0, 1), BLOCKED.format(2, 30, 1), MADE.format(3, 60, 0, 3)],
                ["filter 0 3 2 56", "filter 1 1 1 28", "total 3 2 1 0 0"], list(states_of(0, [(3, 2, 60)])),
                sizes=[290, 306], last=({"INS": [1]}, {"INS": [3], "DEL_C": [1]}))


def a_list_makes_rules_with_a_limit_each():
    yield scene("block out all\npass out proto udp from any to { 198.51.100.7, 198.51.100.8 } keep state (max 1)",
                [flow(0), udp(H, 1001, Q, 53), flow(2), udp(H, 1003, Q, 53)],
                [MADE.format(1, 0, 1, 1), MADE.format(2, 0, 2, 2), BLOCKED.format(3, 0, 0), BLOCKED.format(4, 0, 0)],
                ["filter 0 4 2 56", "filter 1 4 1 28", "filter 2 4 1 28", "total 4 2 2 0 0"], sizes=[532],
                last=({"INS": [1, 2]},))


def a_rule_for_one_state_and_one_for_two():
    """The rule before the one without room decides, and none if both have no room."""
    yield scene(f"{UDP_RULE}\npass out proto udp all keep state (max 2)", flows(4),
                [MADE.format(1, 0, 1, 1), MADE.format(2, 0, 1, 2), MADE.format(3, 0, 0, 3),
                 "4 0 out pass default r=- t=- s=-"],
                ["filter 0 4 1 28", "filter 1 4 2 56", "total 4 4 0 0 0"],
                [*states_of(1, [(1, 0, 0), (2, 1, 0)]), *states_of(0, [(3, 2, 0)])], sizes=[774])


def a_quick_anchor_without_room():
    """It doesn't end the walk, as no rule in it hits."""
    yield scene(f'anchor "a" quick {{\n{UDP_RULE}\n}}\nblock out all', flows(2),
                [MADE.format(1, 0, 0, 1), BLOCKED.format(2, 0, 1)],
                ["filter 0 2 1 28", "filter 1 1 1 28", "total 2 1 1 0 0"], list(states_of(0, [(1, 0, 0)])), sizes=[290])


def a_rule_without_room_and_a_translation():
    """A translated connection gets a state by default, which counts for no rule."""
    ports = ((50001, 50002), (50002, 50001))
    yield scene("nat proto udp from 10.0.0.0/8 to any -> 192.0.2.9 port 50001:50002\npass out keep state (max 1)", flows(3),
                ["1 0 out pass rule r=0 t=0 s=1", "2 0 out pass default r=- t=0 s=2",
                 "3 0 out block nat-exhausted r=- t=0 s=-"],
                ["filter 0 2 1 28", "translation 0 3 1 28", "total 3 2 1 0 0"],
                packets=tuple(capture_of([udp("192.0.2.9", port, P, 53) for port in pair]) for pair in ports), sizes=[532])


def a_fragment_asks_for_no_room():
    yield scene("block in\npass in proto udp all keep state (max 1)",
                [udp(P, 9, HERE, 9), ipv4(P, HERE, UDP, bytes(8), fragment=1), udp(P, 10, HERE, 9)],
                ["1 0 in pass rule r=1 t=- s=1", "2 0 in pass rule r=1 t=- s=-", "3 0 in block rule r=0 t=- s=-"],
                ["filter 0 3 1 28", "filter 1 3 2 56", "total 3 2 1 0 0"], sizes=[290])


def a_full_table_and_a_rule_for_few():
    """A rule without room doesn't hold; one with room does, and then the table is full."""
    for most, line, packets in ((1, "2 0 out pass default r=- t=- s=-", 2), (2, "2 0 out block state-limit r=0 t=- s=-", 1)):
        yield scene(f"set limit states 1\npass out keep state (max {most})", flows(2), [MADE.format(1, 0, 0, 1), line],
                    ["filter 0 2 1 28", f"total 2 {packets} {2 - packets} 0 0"], list(states_of(0, [(1, 0, 0)])),
                    sizes=[290])


def a_state_that_runs_out():
    """It counts for its rule up to the second before its deadline."""
    yield scene(f"set timeout udp.first 10\nblock out all\n{UDP_RULE}", [flow(0), (9, flow(1)), (10, flow(2))],
                [MADE.format(1, 0, 1, 1), BLOCKED.format(2, 9, 0), MADE.format(3, 10, 1, 3)],
                ["filter 0 3 1 28", "filter 1 3 2 56", "total 3 2 1 0 0"], sizes=[290, 306],
                last=({"INS": [1]}, {"INS": [3], "DEL_C": [1]}))


def packets_of_a_state_ask_no_rule():
    yield scene(f"block all\n{UDP_RULE}", [flow(0), (1, reply(0)), (2, flow(0)), (3, flow(1))],
                [MADE.format(1, 0, 1, 1), "2 1 in pass state r=1 t=- s=1", "3 2 out pass state r=1 t=- s=1",
                 BLOCKED.format(4, 3, 0)],
                ["filter 0 2 1 28", "filter 1 2 3 84", "total 4 3 1 0 0"], sizes=[290, 132, 132],
                last=({"INS": [1]}, {"UPD_C": [1]}, {"UPD_C": [1]}))


def messages_of_icmp():
    """Only an echo could make a state."""
    redirect = ipv4(P, HERE, ICMP, summed_message(5, 0, bytes(4)))
    yield scene(f"block all\n{ICMP_RULE}",
                [echo(P, HERE, True, 7, 1), echo(P, HERE, True, 8, 1), redirect, echo(P, HERE, False, 9, 1)],
                ["1 0 in pass rule r=1 t=- s=1", "2 0 in block rule r=0 t=- s=-", "3 0 in pass rule r=1 t=- s=-",
                 "4 0 in block rule r=0 t=- s=-"],
                ["filter 0 4 2 56", "filter 1 4 2 56", "total 4 2 2 0 0"], sizes=[290])


def a_state_that_is_removed():
    """A SYN removes the state of a connection that was rejected, and the rule has room again."""
    opening, other = tcp(H, 1000, P, 80, SYN, 1000), tcp(H, 1001, P, 80, SYN, 1000)
    yield scene(f"block all\n{TCP_RULE}", [opening, (1, tcp(P, 80, H, 1000, RST | ACK, 0, 1001)), (2, opening), (3, other)],
                [MADE.format(1, 0, 1, 1), "2 1 in pass state r=1 t=- s=1", "3 2 out block state-mismatch r=1 t=- s=1",
                 MADE.format(4, 3, 1, 4)],
                ["filter 0 2 0 0", "filter 1 2 3 120", "total 4 3 1 0 0"], sizes=[290, 132, 60, 290],
                last=({"INS": [1]}, {"UPD_C": [1]}, {"DEL_C": [1]}, {"INS": [4]}))


SCENES = (a_quick_rule_for_one_state, a_list_makes_rules_with_a_limit_each, a_rule_for_one_state_and_one_for_two,
          a_quick_anchor_without_room, a_rule_without_room_and_a_translation, a_fragment_asks_for_no_room,
          a_full_table_and_a_rule_for_few, a_state_that_runs_out, packets_of_a_state_ask_no_rule, messages_of_icmp,
          a_state_that_is_removed)
