"""Rows of each name of JSON."""

from captures.packets import (ETHER_IPV4, LINKTYPE_ETHERNET, LINKTYPE_LOOPBACK, MICROSECONDS, NANOSECONDS, SYN, echo,
                              ethernet, ipv4, loopback, record, tcp, udp)
from showing.model import JSON
from showing.row import BLOCK, BLOCKED, KNOCK, Row, capture_of, question_of, text_of, verdicts_of
from showing.rows_text import KINDS, SHORT, SKIPPED
from steps.translation_words import ASKED, H, P

# the object of KNOCK where nothing else is written, in pieces before which something may stand in the place of another
OBJECT = ('{"number":1,"seconds":0,"nanoseconds":0,"interface":"em0","direction":"in","verdict":"block",'
          '"reason":"rule","rule":0,"line":1,"translation":null,"translation_line":null,"state":null,"protocol":6,'
          '"source":{"address":"198.51.100.7","port":4000},"destination":{"address":"10.0.0.5","port":22},'
          '"flags":"S","icmp_type":null,"icmp_code":null,"fragment":false,"length":40,"captured":40}')
NOTHING = ('"protocol":null,"source":null,"destination":null,"flags":null,"icmp_type":null,"icmp_code":null,'
           '"fragment":null,"length":null,')
WITHOUT_RULE = ('{"number":1,"seconds":0,"nanoseconds":0,"interface":"em0","direction":null,"verdict":"%s",'
                '"reason":"%s","rule":null,"line":null,"translation":null,"translation_line":null,"state":null,')


def with_pieces(*pieces):
    """The object with other pieces, each in the place of one that stands there once."""
    found = OBJECT
    for old, new in pieces:
        before, behind = found.split(old)
        found = before + new + behind
    return found


def json(name, frame, *pieces, verdict=BLOCKED, rules=BLOCK, clock=0, interface="em0", **how):
    """A row of one packet, whose object has other pieces than that of KNOCK."""
    record = frame if isinstance(frame, tuple) else (frame,)
    question = question_of(rules, capture_of(record, **how), verdicts_of(verdict, clock=clock), JSON,
                           interface=interface)
    return Row(f"JSON, {name}", question, text_of(with_pieces(*pieces)))


def times():
    for second, fraction, magic, nanoseconds in (
            (1767261634, 250000, MICROSECONDS, 250000000), (4294967295, 999999, MICROSECONDS, 999999000),
            (5, 1, NANOSECONDS, 1), (5, 999999999, NANOSECONDS, 999999999),
            # nothing is carried
            (5, 1000000, MICROSECONDS, 1000000000), (5, 4294967295, MICROSECONDS, 4294967295000),
            (5, 4294967295, NANOSECONDS, 4294967295)):
        yield json(f"the time {second} and {fraction}, {magic:x}", (second, fraction, KNOCK),
                   ('"seconds":0,"nanoseconds":0', f'"seconds":{second},"nanoseconds":{nanoseconds}'), clock=second,
                   magic=magic)
    yield Row("JSON, times that go back", question_of(BLOCK, capture_of((9, KNOCK), (7, KNOCK)),
                                                      verdicts_of(BLOCKED, BLOCKED, clock=9), JSON),
              text_of(with_pieces(('"seconds":0', '"seconds":9')),
                      with_pieces(('"number":1,"seconds":0', '"number":2,"seconds":7'))))


WORDS = '"direction":"in","verdict":"block","reason":"rule","rule":0,"line":1'
TRANSLATED = '"translation":null,"translation_line":null,"state":null'


def said():
    """What the line of verdicts says."""
    for verdict, direction, words, rule, line, rest in (
            ("in pass rule r=1 t=- s=1", '"in"', '"pass","reason":"rule"', 1, 7,
             '"translation":null,"translation_line":null,"state":1'),
            ("out return rule r=0 t=- s=-", '"out"', '"return","reason":"rule"', 0, 6, TRANSLATED),
            ("out pass default r=- t=- s=-", '"out"', '"pass","reason":"default"', "null", "null", TRANSLATED),
            ("out pass nat-pass r=- t=0 s=1", '"out"', '"pass","reason":"nat-pass"', "null", "null",
             '"translation":0,"translation_line":1,"state":1'),
            ("out pass rule r=1 t=2 s=1", '"out"', '"pass","reason":"rule"', 1, 7,
             '"translation":2,"translation_line":4,"state":1'),
            ("in block ip-option r=1 t=1 s=-", '"in"', '"block","reason":"ip-option"', 1, 7,
             '"translation":1,"translation_line":3,"state":null'),
            ("in block nat-exhausted r=- t=0 s=-", '"in"', '"block","reason":"nat-exhausted"', "null", "null",
             '"translation":0,"translation_line":1,"state":null'),
            ("- pass skip-on r=- t=- s=-", "null", '"pass","reason":"skip-on"', "null", "null", TRANSLATED)):
        yield json(f"the line {verdict}", KNOCK,
                   (WORDS, f'"direction":{direction},"verdict":{words},"rule":{rule},"line":{line}'),
                   (TRANSLATED, rest), verdict=verdict, rules=KINDS)


TRANSPORT = ('"protocol":6,"source":{"address":"198.51.100.7","port":4000},"destination":{"address":"10.0.0.5",'
             '"port":22},"flags":"S","icmp_type":null,"icmp_code":null,"fragment":false,"length":40,"captured":40')
WITHOUT_PORTS = '"source":{"address":"198.51.100.7","port":null},"destination":{"address":"10.0.0.5","port":null}'


def transports():
    for flags, letters in ((0, ""), (18, "SA"), (0xFF, "FSRPAUEW"), (0xC2, "SEW")):
        yield json(f"the flags {letters}", tcp(P, 4000, H, 22, flags, 1), ('"flags":"S"', f'"flags":"{letters}"'))
    yield json("UDP", udp(P, 65535, H, 0, b"x"), (TRANSPORT, (
        '"protocol":17,"source":{"address":"198.51.100.7","port":65535},"destination":{"address":"10.0.0.5","port":0},'
        '"flags":null,"icmp_type":null,"icmp_code":null,"fragment":false,"length":29,"captured":29')))
    for request, number in ((True, 8), (False, 0)):
        yield json(f"an echo of type {number}", echo(P, H, request, 7, 1), (TRANSPORT, (
            f'"protocol":1,{WITHOUT_PORTS},"flags":null,"icmp_type":{number},"icmp_code":0,"fragment":false,'
            '"length":28,"captured":28')))
    yield json("an ICMP message of any type and code", ipv4(P, H, 1, bytes([255, 254, *bytes(6)])), (TRANSPORT, (
        f'"protocol":1,{WITHOUT_PORTS},"flags":null,"icmp_type":255,"icmp_code":254,"fragment":false,"length":28,'
        '"captured":28')))
    for protocol in (47, 0, 255):
        yield json(f"protocol {protocol}", ipv4(P, H, protocol, bytes(5)), (TRANSPORT, (
            f'"protocol":{protocol},{WITHOUT_PORTS},"flags":null,"icmp_type":null,"icmp_code":null,"fragment":false,'
            '"length":25,"captured":25')))
    for protocol in (1, 6, 17, 47):
        yield json(f"a part of protocol {protocol}", ipv4(P, H, protocol, bytes(9), fragment=1), (TRANSPORT, (
            f'"protocol":{protocol},{WITHOUT_PORTS},"flags":null,"icmp_type":null,"icmp_code":null,"fragment":true,'
            '"length":29,"captured":29')))


def captured():
    """The bytes that were captured, with the header of the link."""
    for name, frame, link, count in (("Ethernet", ethernet(ETHER_IPV4, KNOCK), LINKTYPE_ETHERNET, 54),
                                     ("Ethernet with a tag", ethernet(ETHER_IPV4, KNOCK, [7]), LINKTYPE_ETHERNET, 58),
                                     ("a padded frame", ethernet(ETHER_IPV4, KNOCK).ljust(60, b"\0"), LINKTYPE_ETHERNET,
                                      60),
                                     ("loopback", loopback(KNOCK), LINKTYPE_LOOPBACK, 44),
                                     ("bytes behind the packet", KNOCK + bytes(3), 101, 43)):
        yield json(name, frame, ('"captured":40', f'"captured":{count}'), link=link)
    yield json("a packet of which a part was captured", tcp(P, 4000, H, 22, SYN, 1, payload=bytes(500))[:45],
               ('"length":40,"captured":40', '"length":540,"captured":45'))
    for original in (0, 40, 1500, 2**32 - 1):
        capture = capture_of() + record(0, 0, KNOCK, original=original)
        yield Row(f"JSON, an original length of {original}",
                  question_of(BLOCK, capture, verdicts_of(BLOCKED), JSON), text_of(OBJECT))


def without_ends():
    for name, frame, verdict, words in (("too short", KNOCK[:30], SHORT, ("block", "short")),
                                        ("one byte", b"\x45", SHORT, ("block", "short")),
                                        ("no IPv4", b"\x60" + bytes(39), SKIPPED, ("skip", "not-ip")),
                                        ("no byte", b"", SKIPPED, ("skip", "not-ip"))):
        yield Row(f"JSON, {name}", question_of(BLOCK, capture_of(frame), verdicts_of(verdict), JSON),
                  text_of(f'{WITHOUT_RULE % words}{NOTHING}"captured":{len(frame)}}}'))


NAMES = (("a_name_of_15_by", "a_name_of_15_by"), ('"', "\\u0022"), ("\\", "\\u005c"), ("a\"b\\c", "a\\u0022b\\u005cc"),
         ("é", "\\u00c3\\u00a9"), ("\u20ac~/", "\\u00e2\\u0082\\u00ac~/"), ("\t", "\\u0009"), ("\x7f", "\\u007f"),
         ("\x1b[m", "\\u001b[m"), ("a b", "a b"), ("\U0001f600", "\\u00f0\\u009f\\u0098\\u0080"))


def names():
    for name, escaped in NAMES:
        yield json(f"an interface called {name!r}", KNOCK, ('"em0"', f'"{escaped}"'), interface=name)


def several():
    packets = question_of(BLOCK, capture_of(KNOCK, b"\x60", KNOCK), verdicts_of(BLOCKED, SKIPPED, BLOCKED), JSON)
    skipped = (WITHOUT_RULE % ("skip", "not-ip")).replace('"number":1', '"number":2')
    yield Row("JSON, three packets", packets, text_of(OBJECT, f'{skipped}{NOTHING}"captured":1}}',
                                                      with_pieces(('"number":1', '"number":3'))))
    yield Row("JSON, no packet", question_of(BLOCK, capture_of(), b"", JSON))
    yield Row("JSON, no packet that is asked for", question_of(BLOCK, capture_of(ASKED), verdicts_of(
        "out pass rule r=1 t=- s=1"), JSON, rule=0))


def rows():
    for make in (times, said, transports, captured, without_ends, names, several):
        yield from make()
