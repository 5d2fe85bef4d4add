"""Streams whose answer is written out by hand.

Most come in both forms. Many hold the messages of a run, whose ruleset and packets are named. H is inside and P
outside, and the flows are UDP datagrams from H to port 53 of P, from port 1000 on. Others are changed at one place, or
made of records that no run writes in this way.
"""

from typing import NamedTuple

import messages.rows
import steps.rows
from captures.packets import ACK, SYN, echo, ipv4
from matrix.cases import FLOW_KEYS
from messages.answers import answers, file_answers, first_answers
from messages.message import Delete, Message
from messages.rows import flow
from messages.run import told
from messages.samples import SUM, VECTOR, insert, update
from messages.spelling import bare
from runs.model import FILE, PEER, Outcome
from standby.streams import spelled
from steps.rows import KEYS, H, P, h_to_p, p_to_h, scale
from steps.run import Run

BOTH = (FILE, PEER)
GRE = 47
# of refusals, by their names
NUMBERS = {"short": 1, "version": 2, "length": 3, "action": 4, "count": 5, "no end": 6, "trailing": 7, "fixed": 10}
# the runs that are written out elsewhere, by their names; of two with one name that of the messages
RUNS = {row.run.name: row.run for row in (*steps.rows.rows(), *messages.rows.rows())}
ECHO_AND_GRE = Run("an echo and a packet without ports behind an address",
                   "nat on em0 from 10.0.0.0/8 to any -> em0 static-port\npass out",
                   [(0, echo(H, P, True, 7, 1)), (0, ipv4(H, P, GRE, bytes(8)))])
NAT_PASS = Run("a translation that passes", "nat pass on em0 from 10.0.0.0/8 to any -> em0 static-port\nblock all",
               [(0, flow(0))])
SHIFTS = Run("a SYN and its answer, with shifts", "pass out",
             [(0, h_to_p(SYN, 1000, options=scale(2))), (0, p_to_h(SYN | ACK, 5000, 1001, options=scale(3)))])


class Row(NamedTuple):
    """Streams by their forms, and what is answered to each: the lines, and what is said besides. The source of a row
    that fails can't be read behind these bytes. A run is named if the streams are all that it writes."""
    name: str
    streams: dict
    lines: tuple = ()
    said: str = ""
    fails: bool = False
    run: Run | None = None

    def outcome(self):
        out = "".join(f"{line}\n" for line in self.lines).encode()
        if not self.said:
            return Outcome(out, b"", 0)
        return Outcome(out, f"pfreplay: {self.said}\n".encode(), 3 if self.said.startswith("read") else 1)


def refused(number, code):
    return f"message {number} refused: {code}"


def texts_of(run):
    """The messages of a run, bare."""
    return list(map(bare, told(run).whole()))


def row(name, texts, *lines, said="", forms=BOTH, **more):
    """A row of bare messages."""
    return Row(name, {form: spelled(texts, form) for form in forms}, lines, said, **more)


def octets_row(name, form, octets, *lines, said="", **more):
    """A row of the bytes of one form."""
    return Row(f"{name}, {form}", {form: octets}, lines, said, **more)


def run_row(run, *lines):
    return row(run.name, texts_of(run), *lines, run=run)


def flow_line(number, port, rule=0, peers="1/0/0/0/- 0/0/0/0/-", timeout=6):
    return f"{number} 17 out {FLOW_KEYS.format(port)} r={rule} {peers} {timeout}"


# Runs

SYN_LINE = f"1 6 out {KEYS} r=0 2/1000/1002/1000/- 0/0/1/1/- 0"
SIX_FLOWS = [flow_line(number, 999 + number) for number in range(1, 7)]
FIRST_FLOW, THIRD_FLOW = flow_line(1, 1000), flow_line(3, 1002)


def run_rows():
    yield run_row(RUNS["no packet"])
    yield run_row(RUNS["one SYN"], SYN_LINE)
    yield run_row(RUNS["a SYN sent twice"], f"1 6 out {KEYS} r=0 2/1001/1002/1000/- 0/0/1000/1/- 1")
    yield run_row(RUNS["a connection and 100 bytes"], f"1 6 out {KEYS} r=0 4/1101/3001/1000/- 4/5001/6001/2000/- 2")
    yield run_row(RUNS["a connection and 100 bytes, with shifts"],
                  f"1 6 out {KEYS} r=0 4/1101/3001/1000/2 4/5001/9001/250/3 2")
    yield run_row(SHIFTS, f"1 6 out {KEYS} r=0 4/1000/3001/250/2 2/5001/6001/250/3 1")
    yield run_row(RUNS["a reply in time"], flow_line(1, 1000, 1, "2/0/0/0/- 1/0/0/0/-", 7))
    yield run_row(RUNS["a reply too late"])
    yield run_row(RUNS["room for one state"], THIRD_FLOW)
    yield run_row(RUNS["a state for no time"])
    yield run_row(RUNS["a state for no time, made by the last packet"], FIRST_FLOW)
    yield run_row(RUNS["six flows"], *SIX_FLOWS)
    yield run_row(RUNS["seven flows"], *SIX_FLOWS, flow_line(7, 1006))
    yield run_row(RUNS["130 flows that go before another one"], flow_line(131, 1130))
    yield run_row(RUNS["a SYN that removes its state later"])


def rule_rows():
    """Rules with `no-sync`, and translation."""
    yield run_row(RUNS["one SYN and no-sync"])
    yield run_row(RUNS["no-sync by the last rule"], f"2 6 out {KEYS} r=0 2/1000/1002/1000/- 0/0/1/1/- 0")
    yield run_row(RUNS["a translation and no-sync"])
    yield run_row(RUNS["a translation without a rule of the filter"],
                  "1 17 out 198.51.100.7:53,192.0.2.1:7 198.51.100.7:53,10.0.0.5:1000 r=- 1/0/0/0/- 0/0/0/0/- 6")
    yield run_row(RUNS["a translation and a rule without state"],
                  "1 17 out 198.51.100.7:53,192.0.2.1:7 198.51.100.7:53,10.0.0.5:1000 r=0 1/0/0/0/- 0/0/0/0/- 6")
    yield run_row(NAT_PASS, "1 17 out 198.51.100.7:53,192.0.2.1:1000 198.51.100.7:53,10.0.0.5:1000 r=- "
                            "1/0/0/0/- 0/0/0/0/- 6")
    yield run_row(ECHO_AND_GRE,
                  "1 1 out 198.51.100.7:7,192.0.2.1:7 198.51.100.7:7,10.0.0.5:7 r=0 0/0/0/0/- 0/0/0/0/- 9",
                  "2 47 out 198.51.100.7:0,192.0.2.1:0 198.51.100.7:0,10.0.0.5:0 r=0 1/0/0/0/- 0/0/0/0/- 11")


# Messages of runs, of which some are missing or come again

def order_rows():
    first, second = texts_of(RUNS["room for one state"])
    _, reply = texts_of(RUNS["a reply in time"])
    yield row("a deletion of a state that isn't held", [second], said=refused(1, 8))
    yield row("a run's messages twice", [first, second] * 2, FIRST_FLOW, THIRD_FLOW, said=refused(4, 8))
    yield row("a message twice", [first, first], FIRST_FLOW, said=refused(2, 8))
    yield row("an update of a state that isn't held", [reply], said=refused(1, 8))
    yield row("a state that is held again", [first, second, first], FIRST_FLOW, THIRD_FLOW)
    yield octets_row("the vector", PEER, VECTOR, said=refused(1, 8))


# Streams that end early, or are of the other form

def cut_rows():
    seven = texts_of(RUNS["seven flows"])
    for form, ends in ((FILE, (1500, 1600)), (PEER, (1480, 1580))):
        octets = spelled(seven, form)
        yield octets_row("six flows of seven", form, octets[:ends[0]], *SIX_FLOWS)
        yield octets_row("six flows of seven, and some bytes", form, octets[:ends[1]], *SIX_FLOWS, said=refused(2, 1))
        yield octets_row("six flows of seven, and a byte", form, octets[:ends[0] + 1], *SIX_FLOWS, said=refused(2, 1))
        yield octets_row("seven flows but for a byte", form, octets[:-1], *SIX_FLOWS, said=refused(2, 1))
    syn = spelled(texts_of(RUNS["one SYN"]), FILE)
    for length in (1, 23, 24, 39, 40, 289):
        yield octets_row(f"{length} bytes of 290", FILE, syn[:length], said=refused(1, 1))
    yield octets_row("a message and a byte", FILE, syn + b"\x45", SYN_LINE, said=refused(2, 1))
    two = texts_of(RUNS["room for one state"])
    yield octets_row("two messages and 19 bytes", PEER, spelled(two, PEER) + bytes(19), THIRD_FLOW, said=refused(3, 1))
    yield octets_row("two messages and 20 bytes", PEER, spelled(two, PEER) + bytes(20), THIRD_FLOW, said=refused(3, 2))
    yield octets_row("two messages and 23 bytes", FILE, spelled(two, FILE) + bytes(23), THIRD_FLOW, said=refused(3, 1))
    yield octets_row("two messages and 24 bytes", FILE, spelled(two, FILE) + bytes(24), THIRD_FLOW, said=refused(3, 2))
    yield octets_row("bare messages", FILE, spelled(two, PEER), said=refused(1, 2))
    yield octets_row("messages with IP headers", PEER, spelled(two, FILE), said=refused(1, 2))


def failing_rows():
    """A source that fails behind some bytes. What stands in them comes first."""
    texts = texts_of(RUNS["one SYN"])
    for form, before in ((FILE, 20), (PEER, 0)):
        syn = spelled(texts, form)
        version, behind = (b"\x46", 23) if form == FILE else (b"\6", 19)

        def failing(name, octets, *lines, said):
            return octets_row(name, form, octets, *lines, said=said, fails=True)

        yield failing("no byte", b"", said="read failed, after 0 messages")
        yield failing("a message", syn, SYN_LINE, said="read failed, after 1 messages")
        yield failing("a message and a part of the next one", syn + syn[:before + 100], SYN_LINE,
                      said="read failed, after 1 messages")
        yield failing("a message and a wrong byte", syn + version, SYN_LINE, said="read failed, after 1 messages")
        yield failing("a message and wrong bytes that are too few", syn + (version + syn[1:])[:behind], SYN_LINE,
                      said="read failed, after 1 messages")
        yield failing("a message and a wrong header", syn + version + bytes(30), SYN_LINE, said=refused(2, 2))
        yield failing("a message twice", syn + syn, SYN_LINE, said=refused(2, 8))
        yield failing("a message twice but for a byte", syn + syn[:-1], SYN_LINE, said="read failed, after 1 messages")


# Changes at one place of a message with one INS, which has 270 bytes, and 290 with its IP header

def with_octets(text, place, digits):
    """A text with other bytes from a place on."""
    octets = bytes.fromhex(digits)
    return text[:place] + octets + text[place + len(octets):]


# each with what is changed: a place, the bytes there, and the code of the refusal or the line
WRONG_HEADERS = (
    ("another first byte", 0, "46", 2), ("a first byte as the version is", 0, "05", 2),
    ("another protocol", 9, "11", 2), ("a total length above", 2, "0123", 3), ("a total length below", 2, "0121", 3),
    ("the message's own length", 2, "010e", 3),
)
OTHER_HEADERS = (
    ("another service", 1, "00"), ("an identification and a fragment", 4, "12342001"), ("a time to live", 8, "01"),
    ("a wrong checksum", 10, "0000"), ("another source", 12, "cb007109"), ("another destination", 16, "c0000202"),
)
WRONG_MESSAGES = (
    ("the version 6", 0, "06", 2), ("a byte behind the version", 1, "01", 10), ("the action 3", 20, "03", 4),
    ("the count 2", 22, "0002", 5), ("a byte behind the name's end", 36, "30", 10),
    ("the peer's code 11", 144, "0b", 10), ("the family 10", 256, "0a", 10), ("the direction 0", 258, "00", 10),
    ("the timeout 14", 263, "0e", 10), ("another action at the end", 266, "01", 4),
)
# in a file the length isn't that of the IP header then
WRONG_LENGTHS = (("39", "0027", 3), ("1481", "05c9", 3), ("one less", "010d", 6), ("one more", "010f", 1))
OTHER_MESSAGES = (
    ("another checksum of the ruleset", 4, "00" * 16, SYN_LINE), ("another name", 32, "78" * 15, SYN_LINE),
    ("no name", 32, "00" * 16, SYN_LINE), ("another creator", 252, "ffffffff", SYN_LINE),
    ("another age and no second left", 212, "ffffffff00000000", SYN_LINE),
    ("the number 0", 24, "00" * 8, SYN_LINE.replace("1 ", "0 ", 1)),
    ("the greatest number", 24, "ff" * 8, SYN_LINE.replace("1 ", "18446744073709551615 ", 1)),
    ("no rule", 200, "ffffffff", SYN_LINE.replace("r=0", "r=-")),
    ("the greatest rule", 200, "fffffffe", SYN_LINE.replace("r=0", "r=4294967294")),
    ("a way in and the protocol 255", 257, "ff01", SYN_LINE.replace("6 out", "255 in")),
)


def header_rows():
    """Of the IP header."""
    syn = spelled(texts_of(RUNS["one SYN"]), FILE)
    for name, place, octets, code in WRONG_HEADERS:
        yield octets_row(name, FILE, with_octets(syn, place, octets), said=refused(1, code))
    for name, place, octets in OTHER_HEADERS:
        yield octets_row(name, FILE, with_octets(syn, place, octets), SYN_LINE)


def message_rows():
    """Of the message, by its places without the IP header."""
    (syn,) = texts_of(RUNS["one SYN"])
    for name, place, octets, code in WRONG_MESSAGES:
        yield row(name, [with_octets(syn, place, octets)], said=refused(1, code))
    for name, length, code in WRONG_LENGTHS:
        yield octets_row(f"the length is {name}", PEER, with_octets(syn, 2, length), said=refused(1, code))
    for name, place, octets, line in OTHER_MESSAGES:
        yield row(name, [with_octets(syn, place, octets)], line)


# Records that are made up

def made(inserts=(), updates=(), deletes=(), creator=7):
    """A bare message with records of these numbers."""
    return bare(Message(SUM, tuple(map(insert, inserts)), tuple(map(update, updates)),
                        tuple(Delete(number, creator) for number in deletes)))


MADE_KEYS = "198.51.100.7:443,192.0.2.1:50001 198.51.100.7:443,10.0.0.5:1000"
OPEN, BEGUN = "4/555885348/623257384/12594/-", "2/16909060/84281096/4370/14"


def inserted(number):
    return f"{number} 6 out {MADE_KEYS} r=7 {BEGUN} {OPEN} 2"


def updated(number):
    return f"{number} 6 out {MADE_KEYS} r=7 {OPEN} {BEGUN} 3"


def record_rows():
    yield row("two states with one key", [made([1, 2])], inserted(1), inserted(2))
    yield row("an update", [made([1]), made(updates=[1])], updated(1))
    yield row("states by number", [made([5]), made([2, 9]), made([3], deletes=[9])], *map(inserted, (2, 3, 5)))
    yield row("a deletion by another creator", [made([1, 2]), made(deletes=[1], creator=0)], inserted(2))
    yield row("a deletion of a state that isn't held behind an insertion", [made([1]), made([2], deletes=[9])],
              inserted(1), said=refused(2, 8))
    yield row("an update of a state that isn't held behind an insertion", [made([1]), made([2], [9])],
              inserted(1), said=refused(2, 8))
    yield row("an insertion of a state that is held before a deletion", [made([1]), made([1, 2], deletes=[1])],
              inserted(1), said=refused(2, 8))
    yield row("a deletion twice", [made([1, 2]), made(deletes=[1]), made(deletes=[1])], inserted(2),
              said=refused(3, 8))
    yield row("an insertion again behind a deletion", [made([1]), made(deletes=[1]), made([1])], inserted(1))


def several_kinds_rows():
    """One number in several kinds of a message."""
    yield row("an insertion and an update", [made([1, 2], [1])], updated(1), inserted(2))
    yield row("an insertion and a deletion", [made([1, 2], deletes=[1])], inserted(2))
    yield row("an insertion, an update and a deletion", [made([1], [1], [1])])
    yield row("an update and a deletion", [made([1, 2]), made(updates=[1], deletes=[1])], inserted(2))
    yield row("a state that comes and goes in a message, and comes again", [made([1], deletes=[1]), made([1])],
              inserted(1))
    yield row("a state that comes and goes in a message, and moves on", [made([1], deletes=[1]), made(updates=[1])],
              said=refused(2, 8))


def reader_rows():
    """Texts that a reader refuses. What is about states is asked behind that."""
    first = bare(Message(SUM, (insert(1),), (), ()))
    written = [(PEER, *each) for each in (*answers(), *first_answers(first)) if each[0]]
    written += [(FILE, *each) for each in file_answers()]
    for form, octets, wanted in written:
        code = next((code for name, code in NUMBERS.items() if wanted.startswith(name)), 8)
        yield octets_row(f"{octets.hex()} ({wanted.partition(' checksum')[0]})", form, octets, said=refused(1, code))
    unknown = made(deletes=[9])
    yield row("a mistake behind a state that isn't held", [made([1]), unknown[:37] + b"\1" + unknown[38:]], inserted(1),
              said=refused(2, 10))
    yield row("a mistake in the message behind a refused one", [made([1]), unknown, b"\6" + unknown[1:]], inserted(1),
              said=refused(2, 8))


def rows():
    for make in (run_rows, rule_rows, order_rows, cut_rows, failing_rows, header_rows, message_rows, record_rows,
                 several_kinds_rows, reader_rows):
        yield from make()


def many_states(count):
    """A row of `count` states, six in a message: more than a pipe takes the lines of at once."""
    numbers = range(1, count + 1)
    texts = [made(numbers[place:place + 6]) for place in range(0, count, 6)]
    return row(f"{count} states", texts, *map(inserted, numbers))
