"""What comes up with the random questions to the command `show`, and what has to."""

from collections import Counter

from captures.frames import ICMP, TCP, UDP, Packet
from captures.model import Refused
from showing.damage import KINDS
from showing.model import COUNT, FORMS, PFLOG, has_port, has_protocol, is_asked_for, is_logged
from showing.verdicts import REASONS, verdict_in
from standby.many import told

# how many questions there are at most for each time that a thing comes up
EACH = 300
JOINED, CUT, NO_LINE, NOT_OF_CAPTURE, NOT_OF_RULESET, TOO_LONG, BAD_RULESET = ENDINGS = (
    "joined", "joined and cut", "no line of verdicts", "not of this capture", "not of this ruleset", "record too long",
    "ruleset refused")
FLAGS = ("only", "rule", "line", "host", "logged", "port", "proto")
# how ports and protocols are given, and what is shown by them
WORDS = ("a service's name", "a port's number", "a protocol's name", "a protocol's number", "zeros before a number")
BY_WORDS = ("a packet by its port", "a packet by its protocol", "a packet without that port",
            "a packet of another protocol")
SHOWN = ("all shown", "some shown", "none shown", "a logged packet", "a packet by two flags")
PACKETS = ("TCP", "UDP", "ICMP", "another protocol", "a part", "translated", "without a direction", "with a state",
           "carried", "nanoseconds", "padded", "pflog of nanoseconds")
PLACES = ("several interfaces", "raw IP", "Ethernet", "loopback")
PROMISED = (*ENDINGS[:3], NOT_OF_CAPTURE, *FORMS, *FLAGS, *WORDS, *BY_WORDS, *SHOWN, *PACKETS,
            *PLACES, "no damage", *sorted(KINDS))
# each of these comes up once at least
ONCE = (NOT_OF_RULESET, TOO_LONG, BAD_RULESET, *sorted(REASONS), "return", "several answers are right")
LINKS = {0: "loopback", 1: "Ethernet", 101: "raw IP"}
PROTOCOLS = {ICMP: "ICMP", TCP: "TCP", UDP: "UDP"}


def ending_of(question, expected):
    """How the command ends."""
    for words, ending in ((NO_LINE, NO_LINE), (NOT_OF_CAPTURE, NOT_OF_CAPTURE), (NOT_OF_RULESET, NOT_OF_RULESET),
                          ("too long", TOO_LONG), ("rules", BAD_RULESET)):
        if words.encode() in expected.err:
            return ending
    return CUT if question.joined().is_cut() else JOINED


def flags_of(asked):
    """The names of the flags that ask for packets."""
    return [name for name in FLAGS if getattr(asked, name) is not None and getattr(asked, name) is not False]


def words_of(asked):
    """How ports and protocols are given."""
    for word, name, number in ((asked.port, *WORDS[:2]), (asked.proto, *WORDS[2:4])):
        if word is not None:
            yield number if word.isdigit() else name
            yield from ["zeros before a number"] if word.startswith("0") and word != "0" else []


def by_words(asked, packets, shown):
    """Whether something is shown by its port or its protocol, and whether there are packets of others."""
    by_port, by_protocol = asked.port is not None, asked.proto is not None
    held = {"a packet by its port": by_port and shown, "a packet by its protocol": by_protocol and shown,
            "a packet without that port": by_port and not all(has_port(asked.port, each) for each in packets),
            "a packet of another protocol": by_protocol and not all(has_protocol(asked.proto, each)
                                                                    for each in packets)}
    yield from (name for name, is_so in held.items() if is_so)


def of_packet(packet, said, rules):
    """What comes up with a packet that is shown."""
    seen, (fraction, *_) = packet.seen(), packet.fields()
    yield said.reason
    yield said.verdict
    yield LINKS[packet.header.link]
    if isinstance(seen, Packet):
        yield PROTOCOLS.get(seen.protocol, "another protocol")
        held = {"a part": seen.is_fragment, "padded": len(packet.octets()) > packet.total()}
        yield from (name for name, is_so in held.items() if is_so)
    held = {"translated": said.translation is not None, "without a direction": said.direction == "-",
            "with a state": said.state is not None, "nanoseconds": packet.has_nanoseconds(),
            "carried": fraction >= (10**9 if packet.has_nanoseconds() else 10**6),
            "a logged packet": is_logged(said, rules)}
    yield from (name for name, is_so in held.items() if is_so)


def of_packets(question):
    """What comes up with the packets of a question that is joined to its end."""
    packets, rules = question.joined().packets, question.rules()
    said = list(map(verdict_in, question.verdicts.splitlines()))
    shown = [pair for pair in zip(packets, said, strict=True) if is_asked_for(question.asked, *pair, rules)]
    yield from (thing for pair in shown for thing in of_packet(*pair, rules))
    if packets:
        yield "all shown" if len(shown) == len(packets) else "some shown" if shown else "none shown"
    yield from by_words(question.asked, packets, shown)
    yield from ["a packet by two flags"] if shown and len(flags_of(question.asked)) > 1 else []
    if question.form == PFLOG and any(packet.has_nanoseconds() for packet in packets):
        yield "pflog of nanoseconds"


def of_question(drawn, question, allowed):
    """What comes up with a question and the answers that are right."""
    ending = ending_of(question, allowed[0])
    yield ending
    yield question.form
    yield drawn.damage or "no damage"
    yield from flags_of(question.asked)
    yield from words_of(question.asked)
    yield from ["several interfaces"] if question.case.also else []
    yield from ["several answers are right"] if len(allowed) > 1 and question.form in (COUNT, *FORMS[:2]) else []
    yield from of_packets(question) if ending in (JOINED, CUT) else []


def counts_of(drawn, question, allowed):
    """How often each thing comes up with a question, once at most."""
    try:
        return Counter({*of_question(drawn, question, allowed)})
    except Refused:
        return Counter()


def told_drawn(title, found):
    """Prints how the random questions went, and whether something of them is wrong or comes up too seldom."""
    return told(title, found, PROMISED, EACH, ONCE)
