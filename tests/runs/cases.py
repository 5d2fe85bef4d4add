"""The cases of the command `run` on which the program is compared with the model, the same ones on every run: the examples,
captures and packets, single lines of rulesets, and random ones."""

import random
import struct

import captures.cases
from captures.packets import capture_header, ipv4, record, udp
from runs.case import (EXAMPLE_INSIDES, EXAMPLES, FIRST_RULES, FORMS, INSIDE, NO_SEED, OFFICE_INSIDE, PACKETS, Also, Case,
                       capture_of)


def examples():
    """Every ruleset of the examples on every capture, with the networks that belong to one of both and with others."""
    for rules in sorted(EXAMPLES.glob("*.conf")):
        for capture in sorted(EXAMPLES.glob("*.pcap")):
            insides = {EXAMPLE_INSIDES.get(rules.stem, INSIDE), EXAMPLE_INSIDES.get(capture.stem, INSIDE), "0.0.0.0/0"}
            for inside in sorted(insides):
                yield Case(f"{rules.name} {inside} {capture.name}", rules.read_bytes(), inside,
                           capture.read_bytes())


def examples_of_two():
    """Every ruleset of the examples on the captures of two interfaces, with states bound to them or not."""
    captures = [(EXAMPLES / f"{name}.pcap").read_bytes() for name in ("office_em0", "office_em1")]
    for rules in sorted(EXAMPLES.glob("*.conf")):
        for policy in (b"", b"set state-policy if-bound\n"):
            yield Case(f"{policy.decode()}{rules.name}, two captures", policy + rules.read_bytes(), OFFICE_INSIDE, captures[0],
                       also=(Also("em1", "203.0.113.2/24", captures[1]),))


def edges():
    """Outputs that end at, before and after whole numbers of the 64 KiB that are written at once."""
    for length in (65535, 65536, 65537, 131072):
        # the capture's header and two records, so that the second one ends there
        rest = length - 24 - 16 - len(PACKETS[0]) - 16
        filled = ipv4("10.0.0.5", "198.51.100.7", 17, bytes(1000)).ljust(rest, b"\0")
        for count in (2, 3):
            yield Case(f"{count} packets, {length} bytes", b"", INSIDE,
                       capture_of([PACKETS[0], filled, PACKETS[2]][:count]))
    # 2082 lines have 65517 bytes, and one more for each packet at a second of two digits
    for late in (18, 19, 20):
        for more in (0, 1):
            seconds = [0] * (2082 - late) + [10] * (late + more)
            yield Case(f"2082 lines, {late} of them late, and {more}", FIRST_RULES, INSIDE, capture_header() + b"".join(
                record(second, 0, PACKETS[0]) for second in seconds))
    yield Case("many packets", FIRST_RULES, INSIDE, capture_of(PACKETS * 3000))
    yield Case("many blocked packets", b"block all\n", INSIDE, capture_of(PACKETS * 3000))


# rules, slips in them, and odd bytes
LINES = [
    b"block all", b"pass all no state", b"block in all", b"block out all", b"pass in all no state",
    b"block quick all", b"block in quick all", b"pass out quick all no state", b"block from any to any",
    b"pass quick from any to 192.0.2.1 no state", b"block from 0.0.0.0/0 to 255.255.255.255/32",
    b"block from 010.0.0.05 to 192.000.002.0001", b"block from 10.0.0.0/08 to any",
    b"block from 203.0.113.9/0000000000000000000000000000024 to any", b"block from 203.0.113.255/24 to any",
    b"block from 0000000000000000000000000000000000203.0.113.9 to any", b"block from any to 192.0.2.1/31",
    b" ", b"  ", b" block all", b"block all ", b"block  all", b"block\tall", b"block all\t", b"block all\r",
    b"\r", b"\0", b"block all\0", b"# block all", b"block all # all", b"Block all", b"BLOCK ALL", b"block",
    b"pass", b"all", b"in all", b"block in", b"block quick", b"block all all", b"block all block all",
    b"pass all", b"pass in all", b"block all no state", b"pass all no", b"pass all no state no state",
    b"pass all state", b"pass no state all", b"pass no state", b"pass all keep state", b"passall no state",
    b"block out in all", b"block in in all", b"block quick in all", b"block quick quick all", b"block to any",
    b"block from any", b"block from any to", b"block from any from any", b"block from to any",
    b"block to any from any", b"block from any to any all", b"block all from any to any",
    b"block from all to any", b"block from Any to any", b"block from any/0 to any",
    b"block from 10.0.0 to any", b"block from 10.0.0.0.0 to any", b"block from 10/8 to any",
    b"block from 10.0.0.256 to any", b"block from 256.0.0.0 to any", b"block from 10.0.0.1000 to any",
    b"block from 10.0.0.0/33 to any", b"block from 10.0.0.0/ to any", b"block from 10.0.0.0/8/8 to any",
    b"block from 10.0.0.0/256 to any", b"block from 10.0.0.0/-1 to any", b"block from /8 to any",
    b"block from 10..0.0 to any", b"block from .10.0.0 to any", b"block from 10.0.0. to any",
    b"block from +10.0.0.0 to any", b"block from -10.0.0.0 to any", b"block from 0x0a.0.0.0 to any",
    b"block from 10.0.0.a to any", b"block from 10.0.0.0 /8 to any", b"block from 1_0.0.0.0 to any",
    b"block from 4294967306.0.0.0 to any", b"block from 18446744073709551626.0.0.0 to any",
    b"block from 10.0.0.0/4294967304 to any", b"block from 10.0.0.0/18446744073709551624 to any",
    b"block from 10.0.0.0/" + b"9" * 5000 + b" to any", b"block from \xb2.0.0.0 to any", b"block \xff all",
    b"block from 10,0,0,0 to any", b"block from ! 10.0.0.0 to any", b"block from !10.0.0.0 to any",
    b"return all", b"block drop all", b"set skip on lo0", b"block all\x0bblock all", b"blockall", b"x" * 70000,
]


def lines():
    capture = capture_of(PACKETS)
    for line in LINES:
        yield Case(f"line {line[:80]!r}", line + b"\n", INSIDE, capture)
        yield Case(f"line 4 {line[:80]!r} without newline", b"\nblock all\n\n" + line, INSIDE, capture)
    for text in (b"", b"\n", b"\n\n\n", b"block all\n" * 3000, b"\n" * 3000 + b"bad", b"bad\nworse\n"):
        yield Case(f"text {text[:20]!r} of {len(text)} bytes", text, INSIDE, capture)
    for text in (b"block all\r\nblock all\r\n", b"block all\rblock all\r"):
        yield Case(f"carriage returns {text!r}", text, INSIDE, capture)


POOL = ["10.0.0.5", "10.0.0.6", "10.1.0.10", "192.0.2.1", "198.51.100.7", "198.51.100.8", "203.0.113.9",
        "0.0.0.0", "255.255.255.255", "127.255.255.255", "128.0.0.0"]


def some_address(chance):
    word = chance.choice(POOL)
    if chance.random() < 0.1:
        word = ".".join(octet.zfill(chance.randint(1, 4)) for octet in word.split("."))
    return chance.choice([word, "any", f"{word}/{chance.choice([0, 1, 8, 16, 24, 30, 31, 32])}",
                          f"{word}/{chance.randint(0, 32)}"])


def some_rule(chance):
    words = [chance.choice(["pass", "block"])] + chance.choice([[], ["in"], ["out"]])
    words += ["quick"] if chance.random() < 0.2 else []
    words += ["all"] if chance.random() < 0.2 else ["from", some_address(chance), "to", some_address(chance)]
    return " ".join(words + (["no", "state"] if words[0] == "pass" and chance.random() < 0.8 else []))


def some_rules(chance):
    """A ruleset, now and then with an empty line, no last newline or one byte changed."""
    made = ["" if chance.random() < 0.1 else some_rule(chance) for _ in range(chance.randint(0, 9))]
    text = "\n".join(made + [""] * chance.randint(0, 1)).encode()
    if text and chance.random() < 0.15:
        place = chance.randrange(len(text))
        text = text[:place] + chance.choice([b"", b"  ", b"\n", b"0", b".", b"x"]) + text[place + chance.randint(0, 1):]
    return text


def some_packet(chance):
    """A packet, now and then with a first byte or total length of another kind, or cut."""
    packet = bytearray(ipv4(chance.choice(POOL), chance.choice(POOL), chance.choice([1, 6, 17, 47]),
                            bytes(chance.randint(0, 60))))
    if packet[9] == 6 and len(packet) > 32:
        # the data offset of a TCP header, without which every such packet were short
        packet[32] = 0x50
    kind = chance.random()
    if kind < 0.1:
        packet[0] = chance.choice([0x40, 0x44, 0x46, 0x4F, 0x60, 0x55, 0x00, chance.randrange(256)])
    elif kind < 0.2:
        packet[2:4] = struct.pack(">H", chance.choice([0, 19, 20, 21, 59, 60, 65535]))
    elif kind < 0.3:
        del packet[chance.randint(0, 24):]
    return bytes(packet)


def some_capture(chance):
    """A capture in one of the four forms, now and then cut or with a record too long."""
    order, magic = chance.choice(FORMS)
    start, parts = chance.choice([0, 1767261600, 0xFFFFFF00]), [capture_header(order, magic)]
    for _ in range(chance.randint(0, 12)):
        parts.append(record(start + chance.randint(0, 200), chance.randrange(1000000), some_packet(chance),
                            order=order))
    kind = chance.random()
    if kind < 0.1:
        parts.append(record(0, 0, bytes(chance.randint(0, 30)), captured=262145, order=order))
    capture = b"".join(parts)
    return capture[:chance.randint(0, len(capture))] if kind > 0.85 else capture


def random_cases(count):
    for number in range(count):
        chance = random.Random(number)
        nets = [f"{chance.choice(POOL)}{chance.choice(['', '/8', '/16', '/24', '/31', '/1', '/0'])}"
                for _ in range(chance.randint(1, 3))]
        yield Case(f"random {number}", some_rules(chance), ",".join(nets), some_capture(chance))


def ranges():
    """More connections than there are ports for, over more than a batch of packets."""
    flows = capture_of(udp("10.0.0.5", 1000 + number, "198.51.100.7", 53) for number in range(310))
    for seed in (NO_SEED, "0123456789abcdef" * 4):
        for first, last in ((50001, 50300), (0, 255), (65280, 65535)):
            yield Case(f"ports from {first} to {last}, seed {seed}",
                       f"nat on em0 from any to any -> em0 port {first}:{last}\npass out".encode(), INSIDE, flows,
                       seed=seed)


def all_cases():
    for make in (examples, examples_of_two, captures.cases.all_cases, edges, lines, ranges):
        yield from make()
    yield from random_cases(300)
