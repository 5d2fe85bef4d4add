"""The scenes, each under the name of its function: rules, packets and what comes of them, worked out by hand.

The packets are of raw IP. H is inside and P outside, and HERE is the interface's address. UDP datagrams have 28 bytes
and TCP packets no options, unless it is said otherwise.
"""

from captures.packets import ACK, MORE_FRAGMENTS, SYN, TCP, UDP, ipv4, record, tcp, udp
from matrix import place_rows, room_rows
from matrix.scene import Failing, Scene, capture_of, scene, text_of
from messages.rows import SYN_HEADER, flow, flows, reply
from runs.case import EMPTIED, INSIDE, Case, refused
from steps.rows import (FIRST_SYN, FOUR_OPTION_BYTES, HERE, KEYS, LATE, LATE_OPENING, OPENING, OTHER, P, data, h_to_p,
                        p_to_h, scale)
from steps.translation_rows import CAPTURED, ERROR, ERROR_INSIDE, ERROR_RULES, ON_THE_WIRE, TWO_PORTS

# the line of a packet that makes a state, and of one that passes by the state of the first packet
MADE, TOUCHED = "{} 0 out pass rule r=0 t=- s={}", "{} 0 {} pass state r=0 t=- s=1"
OPENED_LINES = [MADE.format(1, 1), TOUCHED.format(2, "in"), TOUCHED.format(3, "out")]
TOUCHED_BY_DATA, REFUSED_DATA = TOUCHED.format(4, "out"), "4 0 out block state-mismatch r=0 t=- s=1"
FLOW_KEYS = "198.51.100.7:53,10.0.0.5:{0} 198.51.100.7:53,10.0.0.5:{0}"
# zeros, ones, the bytes from 0 on, and those from 255 down
SEEDS = ("00" * 32, "ff" * 32, bytes(range(32)).hex(), bytes(range(255, 223, -1)).hex())


# Connections

def no_packet():
    yield scene("pass out", [], [], ["filter 0 0 0 0", "total 0 0 0 0 0"], [], sizes=[])


def one_syn():
    yield scene("pass out", [FIRST_SYN], [MADE.format(1, 1)], ["filter 0 1 1 40", "total 1 1 0 0 0"],
                [f"1 6 out {KEYS} r=0 t=- 2/1000/1002/1000/- 0/0/1/1/- 0 120 1 40 0 0"],
                sizes=[290], octets=((0, 0, SYN_HEADER),))


def a_syn_twice():
    """One message with one INS, 30 seconds left and the code of a timeout that is 1."""
    yield scene("pass out", [FIRST_SYN, FIRST_SYN], [MADE.format(1, 1), TOUCHED.format(2, "out")],
                states=[f"1 6 out {KEYS} r=0 t=- 2/1001/1002/1000/- 0/0/1000/1/- 0 30 2 80 0 0"],
                sizes=[290], last=({"INS": [1]},), octets=((0, 236, "0000001e"), (0, 283, "01")))


def a_connection_and_data():
    yield scene("pass out", [*OPENING, data(100)], [*OPENED_LINES, TOUCHED_BY_DATA],
                states=[f"1 6 out {KEYS} r=0 t=- 4/1101/3001/1000/- 4/5001/6001/2000/- 0 86400 3 220 1 40"])


def data_within_the_window():
    yield scene("pass out", [*OPENING, data(2000)], [*OPENED_LINES, TOUCHED_BY_DATA],
                states=[f"1 6 out {KEYS} r=0 t=- 4/3001/3001/1000/- 4/5001/6001/2000/- 0 86400 3 2120 1 40"])
    yield scene("pass out", [*LATE_OPENING, data(2000, LATE + 1)], [*OPENED_LINES, TOUCHED_BY_DATA],
                states=[f"1 6 out {KEYS} r=0 t=- 4/1705/1705/1000/- 4/5001/6001/2000/- 0 86400 3 2120 1 40"])


def data_past_the_window():
    """The state is as the three packets before have left it."""
    yield scene("pass out", [*OPENING, data(2001)], [*OPENED_LINES, REFUSED_DATA],
                states=[f"1 6 out {KEYS} r=0 t=- 4/1000/3001/1000/- 4/5001/6001/2000/- 0 86400 2 80 1 40"])
    yield scene("pass out", [*LATE_OPENING, data(2001, LATE + 1)], [*OPENED_LINES, REFUSED_DATA],
                states=[f"1 6 out {KEYS} r=0 t=- 4/4294967000/1705/1000/- 4/5001/6001/2000/- 0 86400 2 80 1 40"])


def a_connection_with_window_scales():
    opening = [h_to_p(SYN, 1000, options=scale(2)), p_to_h(SYN | ACK, 5000, 1001, options=scale(3)),
               h_to_p(ACK, 1001, 5001)]
    yield scene("pass out", [*opening, data(100)], [*OPENED_LINES, TOUCHED_BY_DATA],
                states=[f"1 6 out {KEYS} r=0 t=- 4/1101/3001/1000/2 4/5001/9001/250/3 0 86400 3 224 1 44"])


# Time and room

def a_reply_in_time():
    yield scene("block in\npass out", [flow(0), (59, reply(0))],
                ["1 0 out pass rule r=1 t=- s=1", "2 59 in pass state r=1 t=- s=1"],
                states=[f"1 17 out {FLOW_KEYS.format(1000)} r=1 t=- 2/0/0/0/- 1/0/0/0/- 0 89 1 28 1 28"],
                sizes=[290, 132])


def a_reply_too_late():
    yield scene("block in\npass out", [flow(0), (60, reply(0))],
                ["1 0 out pass rule r=1 t=- s=1", "2 60 in block rule r=0 t=- s=-"], states=[],
                sizes=[290, 60], last=({"INS": [1]}, {"DEL_C": [1]}))


def seconds_that_go_back():
    stranger = udp(P, 9, HERE, 9)
    yield scene("block in", [(10, stranger), (5, stranger), (11, stranger)],
                ["1 10 in block rule r=0 t=- s=-", "2 10 in block rule r=0 t=- s=-", "3 11 in block rule r=0 t=- s=-"],
                states=[], sizes=[])


def room_for_one_state():
    yield scene("set limit states 1\npass out", [flow(0), (30, flow(1)), (60, flow(2))],
                ["1 0 out pass rule r=0 t=- s=1", "2 30 out block state-limit r=0 t=- s=-",
                 "3 60 out pass rule r=0 t=- s=3"],
                states=[f"3 17 out {FLOW_KEYS.format(1002)} r=0 t=- 1/0/0/0/- 0/0/0/0/- 60 120 1 28 0 0"],
                sizes=[290, 306], last=({"INS": [1]}, {"INS": [3], "DEL_C": [1]}))


def a_state_for_no_time():
    yield scene("set timeout udp.first 0\npass out\nblock in", [flow(0), udp(OTHER, 9, HERE, 9)],
                ["1 0 out pass rule r=0 t=- s=1", "2 0 in block rule r=1 t=- s=-"], states=[], sizes=[])


def six_flows_in_one_message():
    yield scene("pass out", flows(6), [MADE.format(number, number) for number in range(1, 7)], sizes=[1500])


def seven_flows_in_two_messages():
    yield scene("pass out", flows(7), [MADE.format(number, number) for number in range(1, 8)], sizes=[1500, 290])


# Rules

def a_quick_rule_in_an_anchor():
    yield scene('block all\nanchor "a" {\npass quick all\n}\nblock quick all', [udp(P, 9, HERE, 9)],
                ["1 0 in pass rule r=1 t=- s=1"],
                ["filter 0 1 0 0", "filter 1 1 1 28", "filter 2 0 0 0", "total 1 1 0 0 0"])


def addresses_of_a_table():
    """The longest network of the table that holds an address decides."""
    rules = "table <some> { 10.0.0.0/8, !10.1.0.0/16, 10.1.2.0/24 }\nblock\npass to <some> no state"
    addresses = ("10.1.2.3", "10.1.3.3", "10.2.0.1", "11.0.0.1")
    yield scene(rules, [udp(P, 9, address, 9) for address in addresses],
                ["1 0 in pass rule r=1 t=- s=-", "2 0 in block rule r=0 t=- s=-", "3 0 in pass rule r=1 t=- s=-",
                 "4 0 in block rule r=0 t=- s=-"],
                ["filter 0 4 2 56", "filter 1 4 2 56", "total 4 2 2 0 0"], [])


def a_fragment_and_a_rule_with_a_port():
    fragment = ipv4(P, HERE, UDP, udp(P, 53, HERE, 53)[20:], fragment=MORE_FRAGMENTS)
    yield scene("block in proto udp from any to any port 53", [fragment], ["1 0 in pass default r=- t=- s=-"])


def options_that_no_rule_allows():
    syn = ipv4(P, HERE, TCP, tcp(P, 9, HERE, 80, SYN, 1)[20:], ip_options=FOUR_OPTION_BYTES)
    yield scene("pass in", [syn], ["1 0 in block ip-option r=0 t=- s=-"], states=[])


def a_packet_that_is_answered():
    yield scene("block return in", [udp(P, 9, HERE, 9)], ["1 0 in return rule r=0 t=- s=-"],
                ["filter 0 1 1 28", "total 1 0 0 1 0"])


# Translation

def three_flows_and_two_ports():
    """Two flows get a port each, in the order that the seed says."""
    for seed in SEEDS:
        yield scene(TWO_PORTS, flows(3),
                    ["1 0 out pass rule r=0 t=0 s=1", "2 0 out pass rule r=0 t=0 s=2",
                     "3 0 out block nat-exhausted r=- t=0 s=-"],
                    ["filter 0 2 2 56", "translation 0 3 2 56", "total 3 2 1 0 0"], seed=seed,
                    packets=tuple(capture_of([udp(HERE, first, P, 53), udp(HERE, second, P, 53)])
                                  for first, second in ((50001, 50002), (50002, 50001))))


def a_redirected_range_of_ports():
    rules = ("rdr on em0 proto tcp from any to 192.0.2.1 port 2000:2999 -> 10.0.0.1 port 4000:*\n"
             "pass in proto tcp from any to 10.0.0.1 port 4999")
    yield scene(rules, [tcp(P, 5555, HERE, 2999, SYN, 1000)], ["1 0 in pass rule r=0 t=0 s=1"],
                written={1: tcp(P, 5555, "10.0.0.1", 4999, SYN, 1000)})


def a_translated_datagram_and_an_error_about_it():
    yield scene(ERROR_RULES, [CAPTURED, ERROR + ON_THE_WIRE],
                ["1 0 out pass rule r=0 t=0 s=1", "2 0 in pass state-error r=0 t=0 s=1"],
                written={1: ON_THE_WIRE, 2: ERROR_INSIDE + CAPTURED})


def a_sum_that_mends_to_zero():
    """One word of the source is changed, from 0x5555 to 0x3285, and both sums are 0xdd2f. A sum of 0 would say 'no
    checksum' in a UDP header, so all ones are written there."""
    captured, on_the_wire = (bytes.fromhex(octets) for octets in (
        "4500001c000100004011dd2f0a005555c633640703e800350008dd2f",
        "4500001c00010000401100000a003285c633640703e800350008ffff"))
    yield scene("nat on em0 proto udp from 10.0.85.85 to any -> 10.0.50.133 static-port\npass out", [captured],
                ["1 0 out pass rule r=0 t=0 s=1"], written={1: on_the_wire})


# Ends

def the_third_record_cut():
    """The run is closed as at a clean end."""
    whole = scene("pass out", flows(2), [MADE.format(1, 1), MADE.format(2, 2)], ["filter 0 2 2 56", "total 2 2 0 0 0"],
                  [f"{number} 17 out {FLOW_KEYS.format(999 + number)} r=0 t=- 1/0/0/0/- 0/0/0/0/- 0 60 1 28 0 0"
                   for number in (1, 2)], sizes=[532], last=({"INS": [1, 2]},))
    cut = record(0, 0, flow(2))
    for length in (1, 15, 16, len(cut) - 1):
        yield whole._replace(case=whole.case._replace(capture=whole.case.capture + cut[:length]),
                             parts=whole.parts | {"out": b"committed 2, cut\n", "status": 2})


def a_rule_that_is_left_out():
    """No output is opened."""
    yield Scene(*refused(Case("", b"scrub in all", INSIDE, capture_of([FIRST_SYN])),
                         b"rules line 1: left out: scrub"))


def headers_that_are_refused():
    yield Scene(*refused(Case("", b"pass out", INSIDE, capture_of([])[:23]), b"capture: header cut", **EMPTIED))
    yield Scene(*refused(Case("", b"pass out", INSIDE, bytes.fromhex("0a0d0d0a") + capture_of([FIRST_SYN])[4:]),
                         b"capture: bad magic", **EMPTIED))


# Calls that fail

def left_after_two(count, error):
    """What is left of a run of flows that stops after two of them: their lines and packets, and no message, as the one
    that tells of them is open."""
    case = Case("", b"pass out", INSIDE, capture_of(flows(count)))
    return Scene(case, {"out": b"", "err": f"pfreplay: {error}, committed 2\n".encode(), "status": 3,
                        "verdicts": text_of([MADE.format(1, 1), MADE.format(2, 2)]), "packets": capture_of(flows(2)),
                        "counters": b"", "states": b"", "messages": b""})


def a_read_fails_in_the_third_record():
    """The first read gives all bytes that there are."""
    left = left_after_two(2, "read failed")
    cut = left.case.capture + record(0, 0, flow(2))[:-1]
    yield Failing(left._replace(case=left.case._replace(capture=cut)), "capture", 2, (1, 2, 256))


def the_second_write_of_lines_fails():
    yield Failing(left_after_two(5, "write failed: verdicts"), "verdicts", 2, (2,))


SCENES = (no_packet, one_syn, a_syn_twice, three_flows_and_two_ports, a_connection_and_data, a_reply_in_time,
          a_reply_too_late, seconds_that_go_back, room_for_one_state, a_quick_rule_in_an_anchor,
          a_redirected_range_of_ports, addresses_of_a_table, data_within_the_window, data_past_the_window,
          a_connection_with_window_scales, six_flows_in_one_message, seven_flows_in_two_messages, a_state_for_no_time,
          the_third_record_cut, a_fragment_and_a_rule_with_a_port, options_that_no_rule_allows,
          a_translated_datagram_and_an_error_about_it, a_sum_that_mends_to_zero, a_rule_that_is_left_out,
          a_packet_that_is_answered, headers_that_are_refused, *room_rows.SCENES, *place_rows.SCENES)
FAILING_SCENES = (a_read_fails_in_the_third_record, the_second_write_of_lines_fails, *place_rows.FAILING_SCENES)
# the ruleset of the command `check`, and its answer
EMPTY_RULESET = b"", b"0 filter, 0 translation, d41d8cd98f00b204e9800998ecf8427e\n"


def named(makers):
    """What the functions make, each with the function's name, and its own if it has one."""
    return [(": ".join(filter(None, (maker.__name__, name_of(made)))), made) for maker in makers for made in maker()]


def name_of(made):
    return (made.scene if isinstance(made, Failing) else made).case.name
