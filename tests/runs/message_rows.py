"""Runs of which messages are written out, those of messages.rows, in both forms; and messages as packets of a
capture."""

import messages.rows
from captures.packets import capture_header, record
from messages.message import IP_HEADER
from messages.reading import read, read_in_file
from runs.case import INSIDE, Case
from runs.model import FILE
from runs.rows import case_of

# a rule for each message that comes in as a packet, and the lines that it gets
PACKET_RULES = b"block\npass in proto 240 no state\n"
PACKET_LINE = b"%d 0 in pass rule r=1 t=- s=-\n"
# the same with a state, which the first one makes
STATEFUL_RULES = b"block\npass in proto 240\n"
STATEFUL_LINES = b"1 0 in pass rule r=1 t=- s=1\n", b"%d 0 in pass state r=1 t=- s=1\n"


def cases():
    """Each row with its case."""
    return [(row, case_of(row.run)) for row in messages.rows.rows()]


def pieces(stream):
    """The messages of an output, each by its bytes. In both forms their length stands at the same place, in a file that
    of the packet."""
    found = []
    while stream:
        length = int.from_bytes(stream[2:4], "big")
        if length < IP_HEADER:
            return [*found, stream]
        found.append(stream[:length])
        stream = stream[length:]
    return found


def numbers_of(piece, form):
    """The numbers in the records of each kind of a message."""
    message, length = (read_in_file if form == FILE else read)(piece)
    return message.numbers() if length == len(piece) else f"{length} bytes of {len(piece)}"


def facts(row, outcome, form):
    """What is written out of a row and what an outcome has of it, each pair with a title."""
    before = 0 if form == FILE else IP_HEADER
    found = pieces(outcome.files.messages or b"")
    yield "the end", (b"committed %d\n" % len(row.run.records), b"", 0), outcome[:3]
    yield "sizes", row.sizes, [len(piece) + before for piece in found]
    yield "last", list(row.last), [numbers_of(piece, form) for piece in found[len(found) - len(row.last):]]
    for place, offset, digits in row.bytes:
        octets = bytes.fromhex(digits)
        # a peer gets nothing of an IP header
        octets, start = octets[max(before - offset, 0):], max(offset - before, 0)
        piece = b"".join(found[place:place + 1])
        yield f"message {place} at {offset}", octets.hex(), piece[start:start + len(octets)].hex()
    lines = (outcome.files.verdicts or b"").decode().splitlines()
    for number, line in row.lines.items():
        yield f"packet {number}", line, "".join(lines[number - 1:number])
    if row.states is not None:
        states = (outcome.files.states or b"").decode().splitlines()
        yield "states", row.states, [int(line.split(" ")[0]) for line in states]


def as_packets(streams):
    """The messages of files as the packets of a capture."""
    packets = [piece for stream in streams for piece in pieces(stream)]
    capture = capture_header() + b"".join(record(0, 0, packet) for packet in packets)
    numbers = range(1, len(packets) + 1)
    first, later = STATEFUL_LINES
    for rules, lines in ((PACKET_RULES, [PACKET_LINE % number for number in numbers]),
                         (STATEFUL_RULES, [first, *(later % number for number in numbers[1:])])):
        yield Case("messages as packets", rules, INSIDE, capture), b"".join(lines)
