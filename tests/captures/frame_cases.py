"""The cases on links, tags, transports, fragments and options, the same ones on every run."""

import random
import struct

from captures.packets import (ACK, DONT_FRAGMENT, ETHER_ARP, ETHER_IPV4, ETHER_IPV6, ETHER_VLAN, LINKTYPE_ETHERNET,
                              LINKTYPE_LOOPBACK, LINKTYPE_RAW, MORE_FRAGMENTS, SYN, TCP, UDP, UNREACHABLE,
                              capture_header, echo, ethernet, icmp_error, ipv4, loopback, record, tcp, udp)
from runs.case import EMPTIED, FORMS, INSIDE, Case, capture_of, refused, wholly

PASS_IN = b"pass in all no state\n"
# packets that are blocked by a rule, let in by a rule, and that no rule matches
RULES = b"block in from 203.0.113.0/24 to any\npass in from 198.51.100.0/24 to any no state\n"
THERE = ("198.51.100.7", 80, "192.0.2.1", 49152)
ENDS = THERE[::2]
PROBE = udp("192.0.2.1", 40000, "198.51.100.7", 33434, b"probe")
NO_OPERATIONS = bytes([1, 1, 1, 1])
MAXIMUM_SEGMENT = bytes([2, 4, 5, 180])
LINKS = (LINKTYPE_LOOPBACK, LINKTYPE_ETHERNET, LINKTYPE_RAW)

KINDS = {
    "TCP with options": tcp(*THERE, SYN, 1000, options=MAXIMUM_SEGMENT + NO_OPERATIONS),
    "TCP": tcp(*THERE, ACK, 1000, 2000, payload=b"some text"),
    "UDP": udp(*THERE, b"some text"),
    "ICMP echo": echo(*ENDS, True, 7, 1, b"abcdefgh"),
    "ICMP error": icmp_error("198.51.100.7", UNREACHABLE, 3, PROBE),
    "another protocol": ipv4(*ENDS, 47, bytes(12)),
    "the first fragment": ipv4(*ENDS, UDP, bytes(16), fragment=MORE_FRAGMENTS),
    "the last fragment": ipv4(*ENDS, TCP, bytes(4), fragment=2),
    "IP options with TCP": tcp(*THERE, ACK, 1000, 2000, payload=b"some text", ip_options=NO_OPERATIONS),
    "IP options with a fragment": ipv4(*ENDS, TCP, bytes(8), ip_options=NO_OPERATIONS * 10, fragment=2),
}


def framed(link, packet):
    """The ways in which a link carries an IPv4 packet."""
    if link == LINKTYPE_LOOPBACK:
        return [loopback(packet, order=order) for order in "<>"]
    if link == LINKTYPE_ETHERNET:
        return [ethernet(ETHER_IPV4, packet), ethernet(ETHER_IPV4, packet, [20])]
    return [packet]


def link_capture(link, frames, order="<", **header):
    return capture_of(frames, order, network=link, **header)


def one_frame(name, link, frame, line, is_written, rules=b""):
    """A row of a single frame: its line, and whether it is written."""
    capture = link_capture(link, [frame])
    return wholly(Case(name, rules, INSIDE, capture), line,
                  capture_header(network=link) + (record(0, 0, frame) if is_written else b""), 1)


def frame_rows():
    """What is seen of a frame of each link. What no rule matches makes no state."""
    for count in (2, 3):
        yield one_frame(f"{count} tags", LINKTYPE_ETHERNET, ethernet(ETHER_IPV4, KINDS["TCP"], [20] * count),
                        b"1 0 - skip not-ip r=- t=- s=-\n", True)
    yield one_frame("one tag", LINKTYPE_ETHERNET, ethernet(ETHER_IPV4, KINDS["TCP"], [20]),
                    b"1 0 in pass rule r=0 t=- s=-\n", True, PASS_IN)
    yield one_frame("a tag of a provider", LINKTYPE_ETHERNET, ethernet(0x88A8, b"\0\x14\x08\0" + KINDS["TCP"]),
                    b"1 0 - skip not-ip r=- t=- s=-\n", True)
    yield one_frame("an ARP request", LINKTYPE_ETHERNET, ethernet(ETHER_ARP, bytes(28)),
                    b"1 0 - skip not-ip r=- t=- s=-\n", True, b"block all\n")
    for family in ("02000000", "00000002"):
        yield one_frame(f"family {family}", LINKTYPE_LOOPBACK, bytes.fromhex(family) + KINDS["UDP"],
                        b"1 0 in pass default r=- t=- s=-\n", True)
    yield one_frame("family 18000000", LINKTYPE_LOOPBACK, bytes.fromhex("18000000") + KINDS["UDP"],
                    b"1 0 - skip not-ip r=- t=- s=-\n", True)


def packet_rows():
    """What is said of a packet's headers."""
    yield one_frame("TCP of 12 bytes", LINKTYPE_RAW, KINDS["TCP"][:32], b"1 0 - block short r=- t=- s=-\n", False)
    yield one_frame("a fragment of 8 bytes of TCP", LINKTYPE_RAW, ipv4(*ENDS, TCP, bytes(8), fragment=MORE_FRAGMENTS),
                    b"1 0 in pass default r=- t=- s=-\n", True)
    syn = tcp("198.51.100.7", 80, "192.0.2.1", 49152, SYN, 1000, ip_options=NO_OPERATIONS)
    yield one_frame("IP options that a rule would pass", LINKTYPE_RAW, syn,
                    b"1 0 in block ip-option r=0 t=- s=-\n", False, PASS_IN)
    yield one_frame("IP options that no rule matches", LINKTYPE_RAW, syn,
                    b"1 0 in block ip-option r=- t=- s=-\n", False, b"block out all\n")
    yield one_frame("IP options that a rule blocks", LINKTYPE_RAW, syn,
                    b"1 0 in block rule r=1 t=- s=-\n", False, PASS_IN + b"block in all\n")


def rows():
    """Cases of which something is written out, as those of `cases`."""
    yield from frame_rows()
    yield from packet_rows()
    for link in LINKS:
        opening = capture_header(network=link)
        yield wholly(Case(f"24 bytes of link type {link}", b"block all\n", INSIDE, opening), b"", opening, 0)
        yield one_frame(f"no bytes of link type {link}", link, b"", b"1 0 - skip not-ip r=- t=- s=-\n", True)
    yield refused(Case("link type 12", b"", INSIDE, link_capture(12, [KINDS["TCP"]])), b"capture: link type 12", **EMPTIED)


def truncations():
    """Each kind on each link in each form, of every captured length."""
    for kind, packet in KINDS.items():
        for link in LINKS:
            for number, frame in enumerate(framed(link, packet)):
                cut = [frame[:length] for length in range(len(frame) + 1)]
                yield Case(f"{kind} on {link}, way {number}, cut", RULES, INSIDE, link_capture(link, cut))
        # what a frame is padded with is captured, but not a part of the packet
        padded = [frame.ljust(100, b"\0") for frame in framed(LINKTYPE_ETHERNET, packet)]
        yield Case(f"{kind} padded", RULES, INSIDE, link_capture(LINKTYPE_ETHERNET, padded))


def total_lengths():
    """Each kind with each total length up to a little more than its own."""
    for kind, packet in KINDS.items():
        for link in LINKS:
            lengths = [*range(len(packet) + 10), 255, 256, 0x1400, 65535]
            changed = [packet[:2] + struct.pack(">H", length) + packet[4:] for length in lengths]
            yield Case(f"{kind} on {link}, total lengths", RULES, INSIDE, link_capture(
                link, [frame for each in changed for frame in framed(link, each)]))


def fields():
    """One field of the headers with each of its values."""
    for kind, packet in KINDS.items():
        # behind the IP header stand fewer bytes than any transport's header has
        short = 4 * (packet[0] & 15) + 7
        firsts = [bytes([first]) + packet[1:] for first in range(256)]
        protocols = [packet[:9] + bytes([protocol]) + packet[10:] for protocol in range(256)]
        words = [packet[:6] + struct.pack(">H", word) + packet[8:]
                 for word in (0, 1, 2, 185, 255, 256, 0x1FFF, MORE_FRAGMENTS, 0x2001, 0x3FFF, DONT_FRAGMENT, 0x4001,
                              0x6000, 0x7FFF, 0x8000, 0x8001, 0xA000, 0xC000, 0xDFFF, 0xE000, 0xFFFF)]
        for name, changed in (("first bytes", firsts), ("protocols", protocols), ("fragment words", words)):
            for link in LINKS:
                yield Case(f"{kind} on {link}, {name}", RULES, INSIDE, link_capture(
                    link, [framed(link, each)[0] for each in changed]))
                yield Case(f"{kind} on {link}, {name}, cut", RULES, INSIDE, link_capture(
                    link, [framed(link, each[:short])[0] for each in changed]))


def data_offsets():
    """Every data offset in a TCP header with every captured length, and with every total length."""
    for options in (b"", NO_OPERATIONS):
        whole = tcp(*THERE, ACK, 1000, 2000, payload=bytes(44), ip_options=options)
        place = 20 + len(options) + 12
        for offset in range(16):
            changed = whole[:place] + bytes([offset << 4 | 15]) + whole[place + 1:]
            cut = [changed[:length] for length in range(len(changed) + 1)]
            said = [changed[:2] + struct.pack(">H", length) + changed[4:] for length in range(len(changed) + 2)]
            for name, packets in (("cut", cut), ("total lengths", said)):
                yield Case(f"data offset {offset} behind {len(options)} bytes of options, {name}", RULES, INSIDE,
                           link_capture(LINKTYPE_RAW, packets))


def families():
    """Families of the loopback link."""
    for order in "<>":
        frames = [loopback(KINDS["TCP"], family, order)
                  for family in [*range(40), 0x102, 0x200, 0x0202, 0x20000, 0x2000002, 0x80000002, 0xFFFFFFFF]]
        yield Case(f"families {order}", RULES, INSIDE, link_capture(LINKTYPE_LOOPBACK, frames))
        whole = loopback(KINDS["TCP"], order=order)
        yield Case(f"short loopback frames {order}", RULES, INSIDE,
                   link_capture(LINKTYPE_LOOPBACK, [whole[:length] for length in range(7)]))
        flipped = [bytes(whole[place] ^ (1 << bit if place == at else 0) for place in range(4)) + whole[4:]
                   for at in range(4) for bit in range(8)]
        yield Case(f"families with a bit flipped {order}", RULES, INSIDE, link_capture(LINKTYPE_LOOPBACK, flipped))


def types():
    """Types of the Ethernet link, outside and behind tags."""
    packet = KINDS["TCP"]
    kinds = [ETHER_IPV4, ETHER_ARP, ETHER_VLAN, ETHER_IPV6, 0, 46, 8, 0x81, 0x0801, 0x0900, 0x8000, 0x8101, 0x88A8,
             0x9100, 0x8864, 0x0008, 0xFFFF]
    for tags in ([], [0], [20], [0xFFFF], [20, 20], [0x0800], [ETHER_VLAN]):
        frames = [ethernet(kind, packet, tags) for kind in kinds]
        yield Case(f"types behind the tags {tags}", RULES, INSIDE, link_capture(LINKTYPE_ETHERNET, frames))
    # a tag, or what would be one, of each type before the type of IPv4
    yield Case("types of tags", RULES, INSIDE, link_capture(LINKTYPE_ETHERNET, [
        ethernet(kind, struct.pack(">HH", 20, ETHER_IPV4) + packet) for kind in kinds]))
    for kind in kinds:
        for tags in ([], [20], [20, 20]):
            whole = ethernet(kind, packet, tags)
            yield Case(f"short frames of type {kind:x} behind {len(tags)} tags", RULES, INSIDE,
                       link_capture(LINKTYPE_ETHERNET, [whole[:length] for length in range(21)]))
    # the link of the capture counts, not what a frame looks like
    for link in LINKS:
        for other in LINKS:
            yield Case(f"frames of link type {other} on {link}", RULES, INSIDE,
                       link_capture(link, framed(other, packet)))


def forms():
    """Each link in each form of a capture: what is written keeps the form."""
    for order, magic in FORMS:
        for link in LINKS:
            frames = [frame for packet in KINDS.values() for frame in framed(link, packet)]
            for number in (link, 0xFC000000 | link):
                yield Case(f"{order}{magic:x} link type {number:x}", RULES, INSIDE,
                           link_capture(number, frames, order, magic=magic))
            capture = link_capture(link, frames, order, magic=magic)
            yield Case(f"{order}{magic:x} link type {link}, cut", RULES, INSIDE, capture[:-1])
            yield Case(f"{order}{magic:x} link type {link}, record too long", RULES, INSIDE,
                       capture + record(0, 0, b"", captured=262145, order=order))
    # the fields of a record that no line shows are written as they were read
    records = [record(second, 0xFFFFFFFF, KINDS["TCP"], original=length)
               for second, length in ((7, 0), (5, 10), (0xFFFFFFFF, 0xFFFFFFFF), (6, 49))]
    yield Case("clocks and original lengths", b"", INSIDE, capture_header(minor=65535) + b"".join(records))


def some_packet(chance):
    """A packet of one of the kinds, now and then with a few bytes changed or of another length."""
    packet = bytearray(chance.choice(list(KINDS.values())))
    packet[12:16] = chance.choice([bytes([10, 0, 0, 5]), bytes([198, 51, 100, 7]), bytes([203, 0, 113, 9])])
    for _ in range(chance.choice([0, 0, 1, 3])):
        place = chance.choice([0, 2, 3, 6, 7, 9, 32, 36, chance.randrange(len(packet))])
        value = chance.choice([0, 1, 0x20, 0x40, 0x45, 0x46, 0x50, 0x60, chance.randrange(256)])
        if place < len(packet):
            packet[place] = value
    if chance.random() < 0.3:
        del packet[chance.randint(0, len(packet)):]
    return bytes(packet)


def some_frame(chance, link):
    """A frame of this link or, now and then, of another, with bytes changed, or of bytes without any sense."""
    kind = chance.random()
    if kind < 0.05:
        return chance.randbytes(chance.randint(0, 80))
    frame = bytearray(chance.choice(framed(chance.choice(LINKS) if kind < 0.1 else link, some_packet(chance))))
    if frame and kind < 0.25:
        frame[chance.randrange(min(len(frame), 40))] = chance.choice([0, 2, 8, 0x81, chance.randrange(256)])
    if kind > 0.9:
        frame += bytes(chance.randint(1, 20))
    return bytes(frame)


def random_frames(count):
    rulesets = [b"", PASS_IN, RULES, b"block all\n" + RULES, b"pass out quick all no state\nblock all\n" + RULES]
    for number in range(count):
        chance = random.Random(number)
        link = chance.choice(LINKS)
        order, magic = chance.choice(FORMS)
        frames = [some_frame(chance, link) for _ in range(chance.randint(1, 60))]
        yield Case(f"random frames {number}", chance.choice(rulesets), INSIDE,
                   link_capture(link, frames, order, magic=magic))


def all_cases():
    for make in (truncations, total_lengths, fields, data_offsets, families, types, forms):
        yield from make()
    yield from random_frames(200)
