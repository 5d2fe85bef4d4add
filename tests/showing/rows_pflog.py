"""Rows of a capture of pflog: its header, and each byte before and behind a packet."""

from captures.packets import (ETHER_ARP, ETHER_IPV4, LINKTYPE_ETHERNET, LINKTYPE_LOOPBACK, NANOSECONDS, ethernet, ipv4,
                              loopback, record, udp)
from runs.interface_rows import Taken
from showing.model import PFLOG
from showing.row import BLOCK, BLOCKED, KNOCK, Row, capture_of, question_of, several, verdicts_of
from showing.rows_text import KINDS, SHORT, SKIPPED
from steps.run import THREE
from steps.translation_words import ASKED, H, P

HEADER = "d4c3b2a1 0200 0400 00000000 00000000 40000400 75000000"
FINE_HEADER = HEADER.replace("d4c3b2a1", "4d3cb2a1")
# what stands before a packet: length, family, action and reason, then the name, the rule's number and the direction
BEFORE = "3d02{} {} 00000000000000000000000000000000 {} ffffffff ffffffff a0860100 0000000000000000 {}000000"
EM0, EM1 = "656d30" + "00" * 13, "656d31" + "00" * 13
NO_RULE = "ffffffff"
IN_BLOCKED = BEFORE.format("0100", EM0, "00000000", "01")


def octets(*parts):
    """Bytes that are written in hexadecimal digits, or as they are."""
    return b"".join(bytes.fromhex(part) if isinstance(part, str) else part for part in parts)


def fields(*numbers):
    """Four fields of a record's header."""
    return b"".join(number.to_bytes(4, "little") for number in numbers)


def pflog(name, frame, before, packet, verdict=BLOCKED, rules=BLOCK, interface="em0", **how):
    """A row of one packet of second 0: what stands before it, and what is left of it."""
    length = len(packet) + 64
    return Row(f"pflog, {name}", question_of(rules, capture_of(frame, **how), verdicts_of(verdict), PFLOG,
                                             interface=interface),
               octets(HEADER, fields(0, 0, length, length), before, packet))


# an action and a reason of a packet that comes in
REASONS = (("in pass rule r=1 t=- s=1", "0000", "00000001"), ("in return rule r=0 t=- s=-", "0100", "00000000"),
           ("in pass default r=- t=- s=-", "0000", NO_RULE), ("in pass nat-pass r=- t=1 s=1", "0000", NO_RULE),
           ("in block nat-exhausted r=- t=0 s=-", "010f", NO_RULE),
           ("in block ip-option r=1 t=- s=-", "0108", "00000001"),
           ("in block ip-option r=- t=- s=-", "0108", NO_RULE),
           ("in block state-insert r=1 t=- s=-", "010b", "00000001"),
           ("in block state-limit r=0 t=- s=-", "010c", "00000000"))
MET = (("in pass state r=1 t=- s=1", "0000", "01"), ("out pass state-error r=1 t=- s=1", "0000", "02"),
       ("out block state-mismatch r=1 t=- s=1", "010a", "02"))


def reasons():
    for verdict, action, rule in REASONS:
        yield pflog(verdict, KNOCK, BEFORE.format(action, EM0, rule, "01"), KNOCK, verdict, KINDS)
    for verdict, action, direction in MET:
        made = "in pass rule r=1 t=- s=1"
        yield Row(f"pflog, {verdict}", question_of(KINDS, capture_of(KNOCK, ASKED), verdicts_of(made, verdict), PFLOG),
                  octets(HEADER, fields(0, 0, 104, 104), BEFORE.format("0000", EM0, "00000001", "01"), KNOCK,
                         fields(0, 0, 92, 92), BEFORE.format(action, EM0, "00000001", direction), ASKED))
    yield pflog("out", ASKED, BEFORE.format("0000", EM0, "00000001", "02"), ASKED, "out pass rule r=1 t=- s=1")
    yield pflog("an interface that isn't filtered", KNOCK, BEFORE.format("0000", EM0, NO_RULE, "00"), KNOCK,
                "- pass skip-on r=- t=- s=-")
    many = "block\n" * 258
    yield pflog("rule 257", KNOCK, BEFORE.format("0100", EM0, "00000101", "01"), KNOCK, "in block rule r=257 t=- s=-",
                many)


def names():
    for name, digits in (("e", "65" + "00" * 15), ("a_name_of_15_by", "615f6e616d655f6f665f31355f6279" + "00"),
                         ("é\"", "c3a922" + "00" * 13)):
        yield pflog(f"an interface called {name!r}", KNOCK, BEFORE.format("0100", digits, "00000000", "01"), KNOCK,
                    interface=name)


def links():
    """The packet stands there without its link's header, and without bytes behind it."""
    for name, frame, link in (("Ethernet", ethernet(ETHER_IPV4, KNOCK), LINKTYPE_ETHERNET),
                              ("Ethernet with a tag", ethernet(ETHER_IPV4, KNOCK, [20]), LINKTYPE_ETHERNET),
                              ("a padded frame", ethernet(ETHER_IPV4, KNOCK).ljust(60, b"\0"), LINKTYPE_ETHERNET),
                              ("a padded frame with a tag", ethernet(ETHER_IPV4, KNOCK, [20]).ljust(64, b"\xff"),
                               LINKTYPE_ETHERNET),
                              ("loopback", loopback(KNOCK, order=">"), LINKTYPE_LOOPBACK),
                              ("raw IP with bytes behind the packet", KNOCK + b"more", 101)):
        yield pflog(name, frame, IN_BLOCKED, KNOCK, link=link)
    part = ipv4(P, H, 6, bytes(3), fragment=1)
    yield pflog("a padded part", ethernet(ETHER_IPV4, part).ljust(60, b"\0"), IN_BLOCKED, part, link=LINKTYPE_ETHERNET)


def too_short():
    """A packet that is too short keeps all bytes."""
    before = BEFORE.format("0103", EM0, NO_RULE, "00")
    for name, packet in (("one byte", b"\x45"), ("half an IP header", KNOCK[:12]), ("a cut TCP header", KNOCK[:-1]),
                         ("a total length of 0", udp(P, 9, H, 9)[:2] + bytes(2) + udp(P, 9, H, 9)[4:])):
        yield pflog(f"{name}, too short", packet, before, packet, SHORT)
    for name, packet in (("an IP header of 16 bytes", b"\x44" + KNOCK[1:]),
                         ("a total length of 19", KNOCK[:2] + b"\0\x13" + KNOCK[4:])):
        yield pflog(f"{name}, too short, in a padded frame", ethernet(ETHER_IPV4, packet + bytes(9)), before,
                    packet + bytes(9), SHORT, link=LINKTYPE_ETHERNET)
    yield pflog("no byte behind the link's header", ethernet(ETHER_IPV4, b""), before, b"", SHORT,
                link=LINKTYPE_ETHERNET)
    yield pflog("too short, where the interface isn't filtered", KNOCK[:30], BEFORE.format("0000", EM0, NO_RULE, "00"),
                KNOCK[:30], "- pass skip-on r=- t=- s=-")


def lengths():
    """Packets of which a part was captured, with their original lengths."""
    whole = udp(P, 9, H, 9, bytes(500))
    for name, frame, link, original in (("raw IP", whole[:50], 101, 528),
                                        ("Ethernet", ethernet(ETHER_IPV4, whole)[:64], LINKTYPE_ETHERNET, 542),
                                        ("a frame with a tag", ethernet(ETHER_IPV4, whole, [9])[:68], LINKTYPE_ETHERNET,
                                         546)):
        capture = capture_of(link=link) + record(0, 0, frame, original=original)
        yield Row(f"pflog, a part of a packet of {name}", question_of(BLOCK, capture, verdicts_of(BLOCKED), PFLOG),
                  octets(HEADER, fields(0, 0, 114, 592), IN_BLOCKED, whole[:50]))
    most = udp(P, 9, H, 9, bytes(65507))
    yield pflog("the longest packet", most, IN_BLOCKED, most)
    yield pflog("the longest record", (most + bytes(262144 - 65535)), IN_BLOCKED, most)


def times():
    for second, fraction, magic, header in ((1767261634, 250000, 0xA1B2C3D4, HEADER), (4294967295, 999999, 0xA1B2C3D4,
                                                                                      HEADER),
                                            (5, 250000, NANOSECONDS, FINE_HEADER),
                                            (5, 999999999, NANOSECONDS, FINE_HEADER)):
        for order in "<>":
            capture = capture_of((second, fraction, KNOCK), magic=magic, order=order)
            yield Row(f"pflog, the time {second} and {fraction}, {magic:x}, {order}",
                      question_of(BLOCK, capture, verdicts_of(BLOCKED, clock=second), PFLOG),
                      octets(header, fields(second, fraction, 104, 104), IN_BLOCKED, KNOCK))


def on_several():
    """Of several captures one may count nanoseconds; then all do."""
    small = Taken(((5, 7, KNOCK),))
    fine = Taken(((5, 7001, KNOCK),), magic=NANOSECONDS, order=">")
    first, second = BEFORE.format("0100", EM0, "00000000", "01"), BEFORE.format("0100", EM1, "00000000", "01")
    lines = verdicts_of(f"{BLOCKED} i=em0", f"{BLOCKED} i=em1", clock=5)
    yield Row("pflog, microseconds and nanoseconds", several(BLOCK, [small.bytes(), fine.bytes()], lines, PFLOG),
              octets(FINE_HEADER, fields(5, 7000, 104, 104), first, KNOCK, fields(5, 7001, 104, 104), second, KNOCK))
    yield Row("pflog, two captures of microseconds", several(BLOCK, [small.bytes()] * 2, lines, PFLOG), octets(
        HEADER, fields(5, 7, 104, 104), first, KNOCK, fields(5, 7, 104, 104), second, KNOCK))
    empty = Taken((), magic=NANOSECONDS)
    captures = [small.bytes(), capture_of(), empty.bytes()]
    yield Row("pflog, a capture of nanoseconds without a packet",
              several(BLOCK, captures, verdicts_of(f"{BLOCKED} i=em0", clock=5), PFLOG, THREE),
              octets(FINE_HEADER, fields(5, 7000, 104, 104), first, KNOCK))


def left_out():
    """What isn't IPv4, and what isn't asked for. The header is there all the same."""
    yield Row("pflog, no packet", question_of(BLOCK, capture_of(), b"", PFLOG), octets(HEADER))
    yield Row("pflog, no packet of nanoseconds", question_of(BLOCK, capture_of(magic=NANOSECONDS), b"", PFLOG),
              octets(FINE_HEADER))
    frames = capture_of(ethernet(ETHER_ARP, bytes(28)), ethernet(ETHER_IPV4, KNOCK), b"", link=LINKTYPE_ETHERNET)
    lines = verdicts_of(SKIPPED, BLOCKED, SKIPPED)
    knocking = octets(HEADER, fields(0, 0, 104, 104), IN_BLOCKED, KNOCK)
    yield Row("pflog, no IPv4", question_of(BLOCK, frames, lines, PFLOG), knocking)
    yield Row("pflog, no IPv4 alone", question_of(BLOCK, frames, lines, PFLOG, only=("skip",)), octets(HEADER))
    lines = verdicts_of("out pass rule r=1 t=- s=1", BLOCKED)
    mixed = question_of(BLOCK, capture_of(ASKED, KNOCK), lines, PFLOG, rule=0)
    yield Row("pflog, packets of a rule", mixed, knocking)


def rows():
    for make in (reasons, names, links, too_short, lengths, times, on_several, left_out):
        yield from make()
