"""Cases of what one packet comes to, with the outcomes written out.

They have each thing that can become of a packet, and for each two that come after one another which of them goes first.
All packets are of one interface; those of several stand in place_cases.py. Those of rules with `max` stand in
room_cases.py, and those of translation in translation_cases.py and written_cases.py.
The reason `state-insert` is among those of translation and of several interfaces alone. Without these both keys of a
state are one. The key that a packet would make a state with was just looked for in vain, so no state has it on either
side.
"""

from captures.packets import (ACK, ETHER_ARP, ETHER_IPV4, ETHER_IPV6, FIN, ICMP, LINKTYPE_ETHERNET, LINKTYPE_LOOPBACK,
                              LINKTYPE_RAW, MORE_FRAGMENTS, RST, SYN, TCP, UDP, echo, ethernet, ipv4, loopback,
                              summed_message, tcp, udp)
from steps import error_cases, room_cases, translation_cases, written_cases
from steps.run import Expected, Run

H, SECOND_HOST, P, HERE = "10.0.0.5", "10.0.0.6", "198.51.100.7", "192.0.2.1"
GRE, IGMP = 47, 2
FOUR_OPTION_BYTES = bytes([1, 1, 1, 1])
OPTIONS = {"ip_options": FOUR_OPTION_BYTES}

# both keys of the states that packets from H make
UDP_KEYS = "198.51.100.7:53,10.0.0.5:1000 198.51.100.7:53,10.0.0.5:1000"
TCP_KEYS = "198.51.100.7:80,10.0.0.5:1000 198.51.100.7:80,10.0.0.5:1000"
# what is asked, and the answer to it
UDP_OUT, UDP_BACK = udp(H, 1000, P, 53), udp(P, 53, H, 1000)
UDP_OUT_OPTIONS, UDP_BACK_OPTIONS = udp(H, 1000, P, 53, **OPTIONS), udp(P, 53, H, 1000, **OPTIONS)
UDP_IN = udp(P, 9, HERE, 9)
UDP_IN_OPTIONS = udp(P, 9, HERE, 9, **OPTIONS)
SYN_OUT = tcp(H, 1000, P, 80, SYN, 1000)
SYN_IN = tcp(P, 9, HERE, 80, SYN, 1000)
RST_BACK = tcp(P, 80, H, 1000, RST | ACK, 0, 1001)
SYN_OPTIONS = tcp(H, 1000, P, 80, SYN, 1000, **OPTIONS)
IPV6 = bytes([0x60]) + bytes(39)

NOT_IP, SKIP_ON, SHORT = ("- skip not-ip r=- s=-; -; -", "- pass skip-on r=- s=-; -; -", "- block short r=- s=-; -; -")
MADE = "out pass rule r=0 s=1; 0; made 1"
TOUCHED_OUT, TOUCHED_IN = "out pass state r=0 s=1; -; touched 1", "in pass state r=0 s=1; -; touched 1"
MISMATCH_OUT, MISMATCH_IN = "out block state-mismatch r=0 s=1; -; -", "in block state-mismatch r=0 s=1; -; -"
REMOVED_OUT, REMOVED_IN = ("out block state-mismatch r=0 s=1; -; removed 1",
                           "in block state-mismatch r=0 s=1; -; removed 1")


def case(name, rules, *judged, link=LINKTYPE_RAW, **expected):
    """A run whose packets each stand with their words, and maybe with a second before them."""
    records = [(0, each[0]) if len(each) == 2 else each[:2] for each in judged]
    return Expected(Run(name, rules, records, link), [each[-1] for each in judged], **expected)


def unseen_cases():
    yield case("no IPv4 packet", "block all", (IPV6, NOT_IP), (b"", NOT_IP), passed=[1, 2],
               counters="filter 0 0 0 0\ntotal 2 0 0 0 2\n")
    yield case("no IPv4 packet where nothing is filtered", "set skip on em0\nblock all", (IPV6, NOT_IP), passed=[1])
    yield case("too short", "pass all", (UDP_IN[:19], SHORT), (UDP_IN[:27], SHORT), (UDP_IN[:1], SHORT), passed=[],
               counters="filter 0 0 0 0\ntotal 3 0 3 0 0\n")
    yield case("too short where nothing is filtered", "set skip on em0\nblock all", (UDP_IN[:19], SKIP_ON), passed=[1])
    yield case("nothing is filtered", "set skip on { lo0, em0 }\npass out\nblock in",
               (SYN_OUT, SKIP_ON), (SYN_OPTIONS, SKIP_ON), (UDP_IN, SKIP_ON),
               (ipv4(P, HERE, UDP, bytes(8), fragment=1), SKIP_ON), states="",
               counters="filter 0 0 0 0\nfilter 1 0 0 0\ntotal 4 4 0 0 0\n")
    yield case("another interface isn't filtered", "set skip on { em1, em, em00 }\nblock in",
               (UDP_IN, "in block rule r=0 s=-; 0; -"))
    yield case("a total length below the headers", "pass all",
               (UDP_IN[:2] + bytes(2) + UDP_IN[4:], SHORT), (UDP_IN[:2] + bytes([0, 19]) + UDP_IN[4:], SHORT),
               (UDP_IN[:2] + bytes([0, 27]) + UDP_IN[4:], SHORT))
    yield case("a data offset below 5", "pass all", (SYN_IN[:32] + b"\x40" + SYN_IN[33:], SHORT))
    yield case("frames of Ethernet", "block all",
               (ethernet(ETHER_ARP, bytes(28)), NOT_IP), (ethernet(ETHER_IPV6, IPV6), NOT_IP),
               (ethernet(ETHER_IPV4, IPV6), SHORT), (ethernet(ETHER_IPV4, UDP_IN), "in block rule r=0 s=-; 0; -"),
               (ethernet(ETHER_IPV4, UDP_IN, [7]), "in block rule r=0 s=-; 0; -"),
               (ethernet(ETHER_IPV4, UDP_IN, [7, 8]), NOT_IP), link=LINKTYPE_ETHERNET)
    yield case("frames of a loopback device", "block all",
               (loopback(UDP_IN), "in block rule r=0 s=-; 0; -"),
               (loopback(UDP_IN, order=">"), "in block rule r=0 s=-; 0; -"),
               (loopback(IPV6, 30), NOT_IP), (loopback(b""), SHORT), link=LINKTYPE_LOOPBACK)
    yield case("too short a packet of a connection", "pass out",
               (UDP_OUT, MADE), (UDP_BACK[:27], SHORT), (UDP_BACK, TOUCHED_IN))


def fragment_cases():
    first = ipv4(P, H, UDP, UDP_BACK[20:] + bytes(8), fragment=MORE_FRAGMENTS)
    later = ipv4(P, HERE, UDP, bytes(4), fragment=3)
    of_tcp = ipv4(P, HERE, TCP, bytes(8), fragment=1)
    in_by_first = "in pass rule r=0 s=-; 0; -"
    yield case("a fragment holds no header of its transport", "block out", (later, "in pass default r=- s=-; 0; -"))
    yield case("a fragment without a whole header of IPv4", "pass all", (later[:19], SHORT))
    yield case("a fragment of a connection is no packet of it", "block in\npass out",
               (UDP_OUT, "out pass rule r=1 s=1; 0,1; made 1"), (first, "in block rule r=0 s=-; 0,1; -"))
    yield case("a fragment makes no state", "pass in", (first, in_by_first), (later, in_by_first), (of_tcp, in_by_first),
               states="", counters="filter 0 3 3 88\ntotal 3 3 0 0 0\n")
    yield case("a fragment and a full table", "set limit states 1\npass", (UDP_OUT, MADE), (later, in_by_first))
    yield case("a fragment and flags", "block in\npass in proto tcp flags S/SA\npass in proto tcp flags any",
               (of_tcp, "in pass rule r=2 s=-; 0,1,2; -"))
    yield case("a fragment and written flags", "pass in proto tcp flags S/SA", (of_tcp, "in pass default r=- s=-; 0; -"))
    with_options = ipv4(P, HERE, UDP, bytes(8), fragment=1, **OPTIONS)
    yield case("a fragment with IP options that are allowed", "pass in allow-opts", (with_options, in_by_first))
    yield case("a fragment with IP options", "pass in", (with_options, "in block ip-option r=0 s=-; 0; -"))
    yield case("a fragment with IP options by default", "block out",
               (with_options, "in block ip-option r=- s=-; 0; -"))
    yield case("a blocked fragment with IP options", "block return in",
               (with_options, "in return rule r=0 s=-; 0; -"))


def tracked_cases():
    far = tcp(H, 1000, P, 80, ACK, 70000, 1)
    syn_ack = tcp(P, 80, H, 1000, SYN | ACK, 5000, 1001)
    yield case("a connection goes before the rules", "block in\npass out",
               (SYN_OUT, "out pass rule r=1 s=1; 0,1; made 1"), (syn_ack, "in pass state r=1 s=1; -; touched 1"),
               counters="filter 0 1 0 0\nfilter 1 1 2 80\ntotal 2 2 0 0 0\n")
    yield case("a packet that doesn't fit", "pass",
               (SYN_OUT, MADE), (syn_ack, TOUCHED_IN),
               (tcp(H, 1000, P, 80, ACK, 2**31, 5001, payload=bytes(8)), MISMATCH_OUT),
               (tcp(P, 80, H, 1000, ACK, 5001, 2**30, payload=bytes(8)), MISMATCH_IN),
               counters="filter 0 1 2 80\ntotal 4 2 2 0 0\n", passed=[1, 2])
    yield case("a SYN behind an ended connection removes it, and the next makes one", "pass out",
               (SYN_OUT, MADE), (RST_BACK, TOUCHED_IN), (SYN_OUT, REMOVED_OUT),
               (SYN_OUT, "out pass rule r=0 s=4; 0; made 4"),
               counters="filter 0 2 3 120\ntotal 4 3 1 0 0\n")
    yield case("a SYN of the other end removes it too", "pass out",
               (SYN_OUT, MADE), (RST_BACK, TOUCHED_IN), (tcp(P, 80, H, 1000, SYN, 7), REMOVED_IN), states="")
    yield case("a SYN of one end alone that has ended", "pass out",
               (SYN_OUT, MADE), (tcp(P, 80, H, 1000, FIN | ACK, 5000, 1001), TOUCHED_IN), (SYN_OUT, TOUCHED_OUT))
    yield case("a SYN with ACK removes nothing", "pass out",
               (SYN_OUT, MADE), (RST_BACK, TOUCHED_IN), (tcp(H, 1000, P, 80, SYN | ACK, 1000, 1), TOUCHED_OUT))
    yield case("a first packet that is no SYN", "pass out", (far, "out pass default r=- s=-; 0; -"), states="")
    yield case("a first packet that is no SYN, by a rule for any flags", "pass out flags any", (far, MADE))


def key_cases():
    yield case("UDP and TCP of the same ends", "block in\npass out",
               (SYN_OUT, "out pass rule r=1 s=1; 0,1; made 1"), (udp(P, 80, H, 1000), "in block rule r=0 s=-; 0,1; -"),
               (udp(H, 1000, P, 80), "out pass rule r=1 s=3; 0,1; made 3"))
    yield case("other ports, another address", "block in\npass out",
               (UDP_OUT, "out pass rule r=1 s=1; 0,1; made 1"), (udp(P, 53, H, 1001), "in block rule r=0 s=-; 0,1; -"),
               (udp(P, 54, H, 1000), "in block rule r=0 s=-; 0,1; -"),
               (udp("198.51.100.8", 53, H, 1000), "in block rule r=0 s=-; 0,1; -"),
               (udp(P, 53, SECOND_HOST, 1000), "in block rule r=0 s=-; 0,1; -"))
    yield case("echoes are told apart by their identifiers", "block in\npass out",
               (echo(H, P, True, 7, 1), "out pass rule r=1 s=1; 0,1; made 1"),
               (echo(P, H, False, 7, 1), "in pass state r=1 s=1; -; touched 1"),
               (echo(P, H, False, 8, 1), "in block rule r=0 s=-; 0,1; -"),
               (echo(H, P, False, 7, 2), "out pass state r=1 s=1; -; touched 1"))
    yield case("an echo reply can be a first packet", "pass out", (echo(H, P, False, 7, 1), MADE))
    yield case("other messages of ICMP have no state", "pass",
               (ipv4(H, P, ICMP, summed_message(13, 0, bytes(16))), "out pass rule r=0 s=-; 0; -"), states="")
    yield case("other protocols have states by their addresses", "block in\npass out",
               (ipv4(H, P, GRE, b""), "out pass rule r=1 s=1; 0,1; made 1"),
               (ipv4(P, H, GRE, bytes(8)), "in pass state r=1 s=1; -; touched 1"),
               (ipv4(P, H, IGMP, bytes(8)), "in block rule r=0 s=-; 0,1; -"),
               states="1 47 out 198.51.100.7:0,10.0.0.5:0 198.51.100.7:0,10.0.0.5:0 r=1 t=- 2/0/0/0/- 1/0/0/0/- 0 30 1 20 "
                      "1 28\n")
    yield case("from the inside to the inside all packets go out", "pass out",
               (udp(H, 1, SECOND_HOST, 2), MADE), (udp(SECOND_HOST, 2, H, 1), "out pass rule r=0 s=2; 0; made 2"),
               (udp(H, 1, SECOND_HOST, 2), TOUCHED_OUT))
    yield case("from the outside to the outside all packets come in", "pass in",
               (UDP_IN, "in pass rule r=0 s=1; 0; made 1"), (udp(HERE, 9, P, 9), "in pass rule r=0 s=2; 0; made 2"))


def first_segment(options, window, offer, flags=SYN, reach=1002, length=None, payload=b""):
    """A case of the connection that a TCP packet with these options begins; its line has the window and the offer."""
    octets = bytes(options)
    segment = tcp(H, 1000, P, 80, flags, 1000, 0, 1000, octets, payload)
    length = length or len(segment)
    return case(f"a first packet with the TCP options {octets.hex()}", "pass out flags any",
                (segment[:2] + length.to_bytes(2) + segment[4:], MADE),
                states=f"1 6 out {TCP_KEYS} r=0 t=- 2/1000/{reach}/{window}/{offer} 0/0/1/1/- 0 120 1 {length} 0 0\n")


def segment_cases():
    yield first_segment([3, 3, 2, 0], 250, 2)
    yield first_segment([1, 3, 3, 2], 250, 2)
    yield first_segment([2, 4, 5, 180, 3, 3, 0, 0], 1000, 0)
    yield first_segment([3, 3, 3, 0], 125, 3)
    yield first_segment([3, 3, 4, 0], 63, 4)
    yield first_segment([3, 3, 14, 0], 1, 14)
    yield first_segment([3, 3, 15, 0], 1, 14)
    yield first_segment([3, 3, 255, 0], 1, 14)
    yield first_segment([3, 4, 7, 7, 3, 3, 2, 0], 250, 2)
    yield first_segment([3, 3, 2, 3, 3, 5, 0, 0], 250, 2)
    yield first_segment([0, 2, 3, 3, 2, 0, 0, 0], 1000, "-")
    yield first_segment([1, 0, 3, 3, 2, 0, 0, 0], 1000, "-")
    yield first_segment([2, 1, 3, 3, 2, 0, 0, 0], 1000, "-")
    yield first_segment([2, 0, 3, 3, 2, 0, 0, 0], 1000, "-")
    yield first_segment([5, 9, 3, 3, 2, 0, 0, 0], 1000, "-")
    yield first_segment([1, 1, 1, 3], 1000, "-")
    yield first_segment([1, 1, 3, 3], 1000, "-")
    yield first_segment([3, 3, 2, 0], 1000, "-", flags=ACK, reach=1001)
    # what it carries goes by the total length, whatever was captured
    yield first_segment([], 1000, "-", reach=1102, payload=bytes(100))
    yield first_segment([], 1000, "-", reach=1102, length=140)
    yield first_segment([], 1000, "-", reach=1002, length=40, payload=bytes(6))
    yield first_segment([], 1000, "-", flags=SYN | FIN, reach=1003)
    yield case("a total length that isn't that of a datagram counts as it stands", "pass out",
               (UDP_OUT[:2] + (1500).to_bytes(2) + UDP_OUT[4:], MADE), counters="filter 0 1 1 1500\ntotal 1 1 0 0 0\n",
               states=f"1 17 out {UDP_KEYS} r=0 t=- 1/0/0/0/- 0/0/0/0/- 0 60 1 1500 0 0\n")


def filter_cases():
    yield case("no rule", "", (UDP_IN, "in pass default r=- s=-; -; -"), counters="total 1 1 0 0 0\n", states="")
    yield case("no rule that holds", "block out\nblock in proto tcp", (UDP_IN, "in pass default r=- s=-; 0,1; -"),
               counters="filter 0 1 0 0\nfilter 1 1 0 0\ntotal 1 1 0 0 0\n")
    yield case("a rule without state", "pass no state", (UDP_OUT, "out pass rule r=0 s=-; 0; -"),
               (UDP_OUT, "out pass rule r=0 s=-; 0; -"), states="", counters="filter 0 2 2 56\ntotal 2 2 0 0 0\n")
    yield case("the last rule that holds", "pass\nblock in\npass in proto udp\npass in proto tcp",
               (UDP_IN, "in pass rule r=2 s=1; 0,1,2,3; made 1"))
    yield case("state on a block rule", "block in keep state", (UDP_IN, "in block rule r=0 s=-; 0; -"), states="")
    yield case("a policy of answers", "set block-policy return\nblock in proto udp\nblock drop in proto tcp",
               (UDP_IN, "in return rule r=0 s=-; 0,1; -"), (SYN_IN, "in block rule r=1 s=-; 0,1; -"),
               counters="filter 0 2 1 28\nfilter 1 2 1 40\ntotal 2 0 1 1 0\n")
    yield case("a quick rule", "pass in quick proto udp\nblock in quick\npass in",
               (UDP_IN, "in pass rule r=0 s=1; 0; made 1"), (SYN_IN, "in block rule r=1 s=-; 0,1; -"))
    yield case("an anchor that doesn't hold", 'block in\nanchor "a" proto tcp {\npass in quick\n}\npass in proto udp',
               (UDP_IN, "in pass rule r=2 s=1; 0,2; made 1"), (SYN_IN, "in pass rule r=1 s=2; 0,1; made 2"))
    quick_anchor = 'anchor "a" in quick {\npass proto udp\nblock proto tcp to port 81\n}\nblock in'
    yield case("a quick anchor ends behind its last rule", quick_anchor,
               (UDP_IN, "in pass rule r=0 s=1; 0,1; made 1"), (SYN_IN, "in block rule r=2 s=-; 0,1,2; -"),
               (UDP_OUT, "out pass default r=- s=-; 2; -"))
    nested = 'anchor "a" in {\nblock\nanchor "b" quick proto udp {\npass to port 9\n}\npass proto gre\n}\npass proto tcp'
    yield case("an anchor in an anchor", nested,
               (UDP_IN, "in pass rule r=1 s=1; 0,1; made 1"), (udp(P, 9, HERE, 8), "in block rule r=0 s=-; 0,1,2,3; -"),
               (SYN_IN, "in pass rule r=3 s=3; 0,2,3; made 3"), (SYN_OUT, "out pass rule r=3 s=4; 3; made 4"))


def option_cases():
    option_in = "in block ip-option r=0 s=-; 0; -"
    yield case("IP options and a rule that allows them", "pass allow-opts", (SYN_OPTIONS, MADE))
    yield case("IP options and a rule that doesn't", "pass", (UDP_IN_OPTIONS, option_in), states="",
               counters="filter 0 1 0 0\ntotal 1 0 1 0 0\n", passed=[])
    yield case("IP options and a rule that doesn't keep state", "pass in proto tcp no state\n"
               "pass in proto udp no state allow-opts", (UDP_IN_OPTIONS, "in pass rule r=1 s=-; 0,1; -"),
               (tcp(P, 9, HERE, 80, SYN, 1, **OPTIONS), "in block ip-option r=0 s=-; 0,1; -"))
    yield case("IP options by default", "block out", (UDP_IN_OPTIONS, "in block ip-option r=- s=-; 0; -"))
    yield case("an earlier rule that allows IP options", "pass allow-opts\npass in",
               (UDP_IN_OPTIONS, "in block ip-option r=1 s=-; 0,1; -"))
    yield case("IP options of a blocked packet", "block in proto udp\nblock return in proto tcp",
               (UDP_IN_OPTIONS, "in block rule r=0 s=-; 0,1; -"),
               (tcp(P, 9, HERE, 80, SYN, 1, **OPTIONS), "in return rule r=1 s=-; 0,1; -"))
    yield case("IP options in a connection whose rule allows them", "block in\npass out allow-opts",
               (UDP_OUT, "out pass rule r=1 s=1; 0,1; made 1"), (UDP_BACK_OPTIONS, "in pass state r=1 s=1; -; touched 1"),
               (UDP_OUT_OPTIONS, "out pass state r=1 s=1; -; touched 1"))
    yield case("IP options in a connection whose rule doesn't", "pass in allow-opts\npass out",
               (UDP_OUT, "out pass rule r=1 s=1; 0,1; made 1"), (UDP_BACK_OPTIONS, "in block ip-option r=1 s=1; -; -"),
               (UDP_OUT_OPTIONS, "out block ip-option r=1 s=1; -; -"),
               states=f"1 17 out {UDP_KEYS} r=1 t=- 1/0/0/0/- 0/0/0/0/- 0 60 1 28 0 0\n",
               counters="filter 0 1 0 0\nfilter 1 1 1 28\ntotal 3 1 2 0 0\n")
    yield case("IP options of a packet that doesn't fit", "pass",
               (SYN_OUT, MADE), (tcp(P, 80, H, 1000, SYN | ACK, 5000, 1001), TOUCHED_IN),
               (tcp(H, 1000, P, 80, ACK, 2**31, 5001, payload=bytes(8), **OPTIONS), MISMATCH_OUT))
    yield case("IP options of a SYN that removes a state", "pass",
               (SYN_OUT, MADE), (RST_BACK, TOUCHED_IN), (SYN_OPTIONS, REMOVED_OUT), states="")
    yield case("a packet with IP options leaves no state behind", "pass",
               (SYN_OPTIONS, "out block ip-option r=0 s=-; 0; -"), (SYN_OUT, "out pass rule r=0 s=2; 0; made 2"))


def limit_cases():
    full = "out block state-limit r=0 s=-; 0; -"
    second = udp(H, 1001, P, 53)
    limited = "set limit states 1\npass"
    yield case("a full table", limited, (UDP_OUT, MADE), (second, full), (UDP_IN, "in block state-limit r=0 s=-; 0; -"),
               (UDP_OUT, TOUCHED_OUT), (UDP_BACK, TOUCHED_IN), passed=[1, 4, 5],
               counters="filter 0 3 3 84\ntotal 5 3 2 0 0\n")
    yield case("a table of two", "set limit states 2\npass",
               (UDP_OUT, MADE), (second, "out pass rule r=0 s=2; 0; made 2"),
               (UDP_IN, "in block state-limit r=0 s=-; 0; -"))
    yield case("IP options and a full table", limited + "\npass out proto tcp allow-opts",
               (UDP_OUT, "out pass rule r=0 s=1; 0,1; made 1"), (UDP_IN_OPTIONS, "in block ip-option r=0 s=-; 0,1; -"),
               (SYN_OPTIONS, "out block state-limit r=1 s=-; 0,1; -"))
    yield case("a rule without state and a full table", limited + "\npass in no state\nblock out proto tcp",
               (UDP_OUT, "out pass rule r=0 s=1; 0,1,2; made 1"), (UDP_IN, "in pass rule r=1 s=-; 0,1,2; -"),
               (SYN_OUT, "out block rule r=2 s=-; 0,1,2; -"))
    yield case("by default and a full table", "set limit states 1\npass out",
               (UDP_OUT, MADE), (UDP_IN, "in pass default r=- s=-; 0; -"))
    yield case("the second before the deadline", limited, (0, UDP_OUT, MADE), (59, second, full))
    yield case("the second of the deadline", limited, (0, UDP_OUT, MADE),
               (60, second, "out pass rule r=0 s=2; 0; made 2"))
    yield case("a state that is gone is no state of its connection", limited, (0, UDP_OUT, MADE),
               (60, UDP_BACK, "in pass rule r=0 s=2; 0; made 2"), (60, UDP_OUT, "out pass state r=0 s=2; -; touched 2"))
    yield case("several states that are gone", "set limit states 2\nset timeout { udp.first 5, tcp.first 9 }\npass",
               (0, SYN_OUT, MADE), (4, UDP_OUT, "out pass rule r=0 s=2; 0; made 2"), (8, second, full),
               (9, second, "out pass rule r=0 s=4; 0; made 4"), (9, UDP_IN, "in pass rule r=0 s=5; 0; made 5"),
               (9, SYN_OUT, full))
    yield case("room behind a SYN that removes a state", limited,
               (SYN_OUT, MADE), (RST_BACK, TOUCHED_IN), (second, full), (SYN_OUT, REMOVED_OUT),
               (second, "out pass rule r=0 s=5; 0; made 5"), (SYN_OUT, full))
    yield case("a timeout of no seconds behind an answer", "set timeout udp.single 0\npass",
               (UDP_OUT, MADE), (UDP_BACK, TOUCHED_IN), (UDP_BACK, "in pass rule r=0 s=3; 0; made 3"))


def cases():
    yield from unseen_cases()
    yield from fragment_cases()
    yield from error_cases.cases(case)
    yield from tracked_cases()
    yield from key_cases()
    yield from segment_cases()
    yield from filter_cases()
    yield from option_cases()
    yield from limit_cases()
    yield from room_cases.cases()
    yield from translation_cases.cases()
    yield from written_cases.cases()
