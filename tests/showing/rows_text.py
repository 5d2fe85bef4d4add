"""Rows of each part of a line of text."""

from captures.packets import (ACK, DONT_FRAGMENT, ETHER_ARP, ETHER_IPV4, ETHER_IPV6, FIN, LINKTYPE_ETHERNET,
                              LINKTYPE_LOOPBACK, MICROSECONDS, MORE_FRAGMENTS, NANOSECONDS, PSH, RST, SYN, TCP, UDP,
                              UNREACHABLE, echo, ethernet, fragments, group_report, icmp_error, ipv4, loopback, tcp,
                              udp)
from showing.row import (ASKED_WORDS, BLOCK, BLOCKED, KNOCK, KNOCK_WORDS, PASSED, Row, capture_of, line_of, one,
                         question_of, text_of, verdicts_of)
from steps.translation_words import ASKED, H, P

# seconds, fractions and what they are: microseconds, or nanoseconds
TIMES = ((0, 1, MICROSECONDS, "1970-01-01 00:00:00.000001"), (59, 999999, MICROSECONDS, "1970-01-01 00:00:59.999999"),
         (1767261634, 250000, MICROSECONDS, "2026-01-01 10:00:34.250000"),
         (951827696, 20, MICROSECONDS, "2000-02-29 12:34:56.000020"),
         (1709164800, 0, MICROSECONDS, "2024-02-29 00:00:00.000000"),
         (2**31, 0, MICROSECONDS, "2038-01-19 03:14:08.000000"),
         (4294967295, 999999, MICROSECONDS, "2106-02-07 06:28:15.999999"),
         # a fraction of a second or more is carried
         (59, 1000000, MICROSECONDS, "1970-01-01 00:01:00.000000"),
         (59, 2000001, MICROSECONDS, "1970-01-01 00:01:01.000001"),
         (1767311999, 1500000, MICROSECONDS, "2026-01-02 00:00:00.500000"),
         (0, 4294967295, MICROSECONDS, "1970-01-01 01:11:34.967295"),
         (5, 1, NANOSECONDS, "1970-01-01 00:00:05.000000001"),
         (5, 250000, NANOSECONDS, "1970-01-01 00:00:05.000250000"),
         (5, 999999999, NANOSECONDS, "1970-01-01 00:00:05.999999999"),
         (5, 1000000000, NANOSECONDS, "1970-01-01 00:00:06.000000000"),
         (5, 4294967295, NANOSECONDS, "1970-01-01 00:00:09.294967295"))
# what stands behind the reason of a blocked packet
IN_BLOCKED = "rule 0 L1 (rule): block in on em0: "


def times():
    for second, fraction, magic, time in TIMES:
        for order in "<>":
            capture = capture_of((second, fraction, KNOCK), magic=magic, order=order)
            yield Row(f"the time {second} and {fraction}, {magic:x}, {order}",
                      question_of(BLOCK, capture, verdicts_of(BLOCKED, clock=second)),
                      text_of(line_of(IN_BLOCKED + KNOCK_WORDS, time=time)))
    back = capture_of((9, 5, KNOCK), (7, 6, KNOCK), (8, KNOCK))
    yield Row("times that go back", question_of(BLOCK, back, verdicts_of(BLOCKED, BLOCKED, BLOCKED, clock=9)),
              text_of(*(line_of(IN_BLOCKED + KNOCK_WORDS, number, f"1970-01-01 00:00:{time}")
                        for number, time in enumerate(("09.000005", "07.000006", "08.000000"), 1))))


# Rules, reasons and states

NAT = "nat on em0 from 10.0.0.0/8 to any -> em0\n\nrdr on em0 from any to em0 -> 10.0.0.1\n"
KINDS = f"{NAT}binat from 10.0.0.9 to any -> 192.0.2.9\n# more\nblock in\npass out"
# what a line says of a packet that comes in, and what is printed of that before its words
SAID = (("in pass rule r=1 t=- s=1", "rule 1 L7 (rule, state 1): pass in"),
        ("in pass rule r=1 t=- s=-", "rule 1 L7 (rule): pass in"),
        ("in return rule r=0 t=- s=-", "rule 0 L6 (rule): return in"),
        ("in pass default r=- t=- s=-", "no rule (default): pass in"),
        ("in pass default r=- t=1 s=1", "no rule, rdr 1 L3 (default, state 1): pass in"),
        ("in pass rule r=1 t=1 s=1", "rule 1 L7, rdr 1 L3 (rule, state 1): pass in"),
        ("in block rule r=0 t=1 s=-", "rule 0 L6, rdr 1 L3 (rule): block in"),
        ("in pass nat-pass r=- t=1 s=1", "no rule, rdr 1 L3 (nat-pass, state 1): pass in"),
        ("in block nat-exhausted r=- t=0 s=-", "no rule, nat 0 L1 (nat-exhausted): block in"),
        ("in block ip-option r=1 t=2 s=-", "rule 1 L7, binat 2 L4 (ip-option): block in"),
        ("in block ip-option r=- t=- s=-", "no rule (ip-option): block in"),
        ("in block state-insert r=1 t=- s=-", "rule 1 L7 (state-insert): block in"),
        ("in block state-limit r=0 t=- s=-", "rule 0 L6 (state-limit): block in"),
        ("- pass skip-on r=- t=- s=-", "no rule (skip-on): pass"))
# the same of a second packet, which has met the state of the first one
MET = (("in pass state r=1 t=- s=1", "rule 1 L7 (state, state 1): pass in"),
       ("out pass state r=1 t=2 s=1", "rule 1 L7, binat 2 L4 (state, state 1): pass out"),
       ("out pass state r=- t=0 s=1", "no rule, nat 0 L1 (state, state 1): pass out"),
       ("in pass state-error r=1 t=- s=1", "rule 1 L7 (state-error, state 1): pass in"),
       ("in block state-mismatch r=1 t=- s=1", "rule 1 L7 (state-mismatch, state 1): block in"),
       ("out block ip-option r=1 t=- s=1", "rule 1 L7 (ip-option, state 1): block out"),
       ("out pass rule r=1 t=0 s=2", "rule 1 L7, nat 0 L1 (rule, state 2): pass out"))


def reasons():
    for said, words in SAID:
        yield one(f"the line {said}", KINDS, KNOCK, said, f"{words} on em0: {KNOCK_WORDS}")
    made, made_words = SAID[0]
    for said, words in MET:
        yield Row(f"the line {said} behind another",
                  question_of(KINDS, capture_of(KNOCK, KNOCK), verdicts_of(made, said)),
                  text_of(line_of(f"{made_words} on em0: {KNOCK_WORDS}"), line_of(f"{words} on em0: {KNOCK_WORDS}", 2)))


def lines_of_rules():
    """On which lines rules stand: lists, anchors, labels, and statements that are continued."""
    rules = ("table <t> { 10.0.0.0/8 }\nx = \"{ tcp, udp }\"\npass in proto $x to port { 22, 53 } label \"a\"\n"
             "anchor \"b\" on { em0 em1 } {\n# c\nblock \\\n in log\nanchor out {\npass\n}\n}\nblock")
    lines = (3, 3, 3, 3, 6, 9, 6, 9, 12)
    for number, line in enumerate(lines):
        yield one(f"rule {number} of lists and anchors", rules, KNOCK, f"in block rule r={number} t=- s=-",
                  f"rule {number} L{line} (rule): block in on em0: {KNOCK_WORDS}")
    listed = 'rdr on em0 from any to em0 port { 80, 81 } -> 10.0.0.1\nno nat on em0 all\nnat pass on em0 all -> em0'
    for number, words in enumerate(("rdr 0 L1", "rdr 1 L1", "nat 2 L2", "nat 3 L3")):
        yield one(f"translation rule {number}", listed, KNOCK, f"in pass nat-pass r=- t={number} s=1",
                  f"no rule, {words} (nat-pass, state 1): pass in on em0: {KNOCK_WORDS}")
    far = "#\n" * 99999 + BLOCK
    yield one("a rule far behind", far, KNOCK, BLOCKED,
              f"rule 0 L100000 (rule): block in on em0: {KNOCK_WORDS}")


# What packets show

URG, ECE, CWR = 0x20, 0x40, 0x80
FLAGS = ((0, "none"), (FIN, "F"), (SYN, "S"), (RST, "R"), (PSH, "P"), (ACK, "A"), (URG, "U"), (ECE, "E"), (CWR, "W"),
         (SYN | ACK, "SA"), (FIN | PSH | ACK, "FPA"), (RST | ACK, "RA"), (SYN | ECE | CWR, "SEW"), (0xFF, "FSRPAUEW"))
PROTOCOLS = ((2, "igmp"), (47, "gre"), (50, "esp"), (51, "ah"), (89, "ospf"), (103, "pim"), (112, "carp"),
             (132, "sctp"), (0, "0"), (4, "4"), (41, "41"), (58, "58"), (255, "255"))
ENDS = "198.51.100.7 > 10.0.0.5"


def transports():
    for flags, letters in FLAGS:
        yield one(f"the flags {letters}", BLOCK, tcp(P, 4000, H, 22, flags, 1), BLOCKED,
                  IN_BLOCKED + f"tcp 198.51.100.7:4000 > 10.0.0.5:22 flags {letters} length 40")
    for protocol, word in PROTOCOLS:
        yield one(f"protocol {protocol}", BLOCK, ipv4(P, H, protocol, bytes(5)), BLOCKED,
                  IN_BLOCKED + f"{word} {ENDS} length 25")
    yield one("UDP with ports at their limits", BLOCK, udp(P, 65535, H, 0, b"some"), BLOCKED,
              IN_BLOCKED + "udp 198.51.100.7:65535 > 10.0.0.5:0 length 32")
    yield one("TCP with options", BLOCK, tcp(P, 4000, H, 22, SYN, 1, options=bytes(4), payload=b"x"), BLOCKED,
              IN_BLOCKED + "tcp 198.51.100.7:4000 > 10.0.0.5:22 flags S length 45")
    yield one("IP options", BLOCK, udp(P, 9, H, 9, ip_options=bytes([1, 1, 1, 1])), BLOCKED,
              IN_BLOCKED + "udp 198.51.100.7:9 > 10.0.0.5:9 length 32")
    yield one("a report to a group", BLOCK, group_report(P, "224.0.0.9"), BLOCKED,
              IN_BLOCKED + "igmp 198.51.100.7 > 224.0.0.9 length 32")


def of_icmp():
    for request, number in ((True, 8), (False, 0)):
        yield one(f"an echo of type {number}", BLOCK, echo(P, H, request, 7, 1, b"abc"), BLOCKED,
                  IN_BLOCKED + f"icmp {ENDS} type {number} code 0 length 31")
    yield one("an ICMP error", BLOCK, icmp_error(P, UNREACHABLE, 13, ASKED), BLOCKED,
              IN_BLOCKED + f"icmp {ENDS} type 3 code 13 length 56")
    yield one("an ICMP message of any type and code", BLOCK, ipv4(P, H, 1, bytes([255, 254, *bytes(6)])), BLOCKED,
              IN_BLOCKED + f"icmp {ENDS} type 255 code 254 length 28")


def of_parts():
    """Of a part of a packet nothing more is looked at."""
    first, last = fragments(udp(P, 9, H, 9, bytes(24)), 16)
    yield one("the first part of a packet", BLOCK, first, BLOCKED, IN_BLOCKED + f"udp {ENDS} fragment length 36")
    yield one("the last part of a packet", BLOCK, last, BLOCKED, IN_BLOCKED + f"udp {ENDS} fragment length 36")
    for protocol, word in ((TCP, "tcp"), (1, "icmp"), (47, "gre"), (200, "200")):
        yield one(f"a part of protocol {protocol}", BLOCK, ipv4(P, H, protocol, bytes(3), fragment=1), BLOCKED,
                  IN_BLOCKED + f"{word} {ENDS} fragment length 23")
    yield one("a part without a byte", BLOCK, ipv4(P, H, TCP, fragment=MORE_FRAGMENTS), BLOCKED,
              IN_BLOCKED + f"tcp {ENDS} fragment length 20")
    yield one("a whole packet that isn't to be cut", BLOCK, udp(P, 9, H, 9, fragment=DONT_FRAGMENT), BLOCKED,
              IN_BLOCKED + "udp 198.51.100.7:9 > 10.0.0.5:9 length 28")


SHORT, SKIPPED = "- block short r=- t=- s=-", "- skip not-ip r=- t=- s=-"


def without_ends():
    for name, frame in (("no transport header", ipv4(P, H, UDP, bytes(7))), ("half an IP header", KNOCK[:12]),
                        ("one byte", b"\x45"), ("a TCP header that is cut", KNOCK[:-1])):
        yield one(f"{name}, too short", BLOCK, frame, SHORT, "no rule (short): block on em0: short")
    yield one("too short, where the interface isn't filtered", BLOCK, KNOCK[:30], "- pass skip-on r=- t=- s=-",
              "no rule (skip-on): pass on em0: short")
    for name, frame, link in (("no byte", b"", 101), ("IPv6", b"\x60" + bytes(39), 101),
                              ("ARP", ethernet(ETHER_ARP, bytes(28)), LINKTYPE_ETHERNET),
                              ("IPv6 in Ethernet", ethernet(ETHER_IPV6, bytes(40)), LINKTYPE_ETHERNET),
                              ("two tags", ethernet(ETHER_IPV4, KNOCK, [20, 20]), LINKTYPE_ETHERNET),
                              ("half a frame", ethernet(ETHER_IPV4, b"")[:13], LINKTYPE_ETHERNET),
                              ("another family", loopback(KNOCK, 30), LINKTYPE_LOOPBACK)):
        yield one(f"{name}, no IPv4", BLOCK, frame, SKIPPED, "no rule (not-ip): skip on em0: not-ip", link=link)


def links():
    for name, frame, link in (("Ethernet", ethernet(ETHER_IPV4, KNOCK), LINKTYPE_ETHERNET),
                              ("Ethernet with a tag", ethernet(ETHER_IPV4, KNOCK, [20]), LINKTYPE_ETHERNET),
                              ("loopback", loopback(KNOCK), LINKTYPE_LOOPBACK),
                              ("loopback of the other order", loopback(KNOCK, order=">"), LINKTYPE_LOOPBACK),
                              ("raw IP with bits above the link type", KNOCK, 0x10000000 | 101),
                              ("raw IP with bytes behind the packet", KNOCK + bytes(9), 101)):
        yield one(name, BLOCK, frame, BLOCKED, IN_BLOCKED + KNOCK_WORDS, link=link)


def captures():
    yield Row("no packet", question_of(BLOCK, capture_of(), b""))
    packets = capture_of(KNOCK, ASKED, ASKED)
    yield Row("three packets", question_of(BLOCK, packets, verdicts_of(
        BLOCKED, PASSED.format(2), "out pass state r=1 t=- s=2")), text_of(
            line_of(IN_BLOCKED + KNOCK_WORDS), line_of(f"rule 1 L2 (rule, state 2): pass out on em0: {ASKED_WORDS}", 2),
            line_of(f"rule 1 L2 (state, state 2): pass out on em0: {ASKED_WORDS}", 3)))
    many = capture_of(*[KNOCK] * 1000)
    yield Row("a thousand packets", question_of(BLOCK, many, verdicts_of(*[BLOCKED] * 1000)),
              text_of(*(line_of(IN_BLOCKED + KNOCK_WORDS, number) for number in range(1, 1001))))
    for length in (1, 15, 16, 55):
        cut = capture_of(KNOCK, behind=capture_of(KNOCK)[24:24 + length])
        yield Row(f"a capture that is cut behind {length} bytes of a record",
                  question_of(BLOCK, cut, verdicts_of(BLOCKED)), text_of(line_of(IN_BLOCKED + KNOCK_WORDS)))


# Names

NAMES = ("e", "a_name_of_15_by", "igb1.20", "--", "em 0", "i=em0", "é\"\\~")


def names():
    for name in NAMES:
        yield Row(f"an interface called {name!r}",
                  question_of("block in", capture_of(KNOCK), verdicts_of(BLOCKED), interface=name),
                  text_of(line_of(f"rule 0 L1 (rule): block in on {name}: {KNOCK_WORDS}")))


def rows():
    for make in (times, reasons, lines_of_rules, transports, of_icmp, of_parts, without_ends, links, captures, names):
        yield from make()
