"""Texts with what a reader makes of them, written out, as texts.answer words it."""

from messages.message import DEL_C, INS, UPD_C
from messages.samples import EMPTY_SUM, VECTOR

SECOND_RECORD, LAST_SUBHEADER = bytes.fromhex("0000000000000002 00000001"), VECTOR[36:]


def changed(*changes):
    """The vector with other bytes at some places."""
    text = bytearray(VECTOR)
    for place, octets in changes:
        text[place:place + len(octets)] = octets
    return bytes(text)


def named_answers():
    """The vector with one change, by that."""
    yield "the first 19 bytes alone", VECTOR[:19], "short"
    yield "the first 39 bytes alone", VECTOR[:39], "short"
    yield "byte 0 is 06", changed((0, b"\6")), "version"
    yield "byte 1 is 01", changed((1, b"\1")), "fixed 1"
    yield "length 39", changed((2, b"\0\x27")), "length"
    yield "length 1481", changed((2, b"\x05\xc9")), "length"
    yield "byte 20 is 03", changed((20, b"\3")), "action 3"
    yield "byte 20 is 0c", changed((20, b"\x0c")), "action 12"
    yield "byte 21 is 01", changed((21, b"\1")), "fixed 21"
    yield "count 0", changed((22, b"\0\0")), "count"
    yield "count 2", changed((22, b"\0\2")), "count"
    yield "byte 36 is 07", changed((36, b"\7")), "action 7"
    yield "length 44 and 4 bytes more", changed((2, b"\0\x2c")) + bytes(4), "trailing"
    two = changed((2, b"\0\x30"), (22, b"\0\2"))[:36]
    yield "length 48, count 2, states 1 and 2, no EOF", two + SECOND_RECORD, "no end"
    twice = changed((2, b"\0\x34"), (22, b"\0\2"))[:36]
    yield "length 52, count 2, state 1 twice, EOF", twice + VECTOR[24:36] + LAST_SUBHEADER, "fixed 36"


# of texts that have one
NAMES = {text: name for name, text, _ in named_answers()}


def answers():
    """Texts of a peer."""
    message = f"ok 40 checksum={EMPTY_SUM}; DEL_C number=1 creator=1"
    yield VECTOR, message
    yield VECTOR + b"\5", message
    yield from ((text, wanted) for _, text, wanted in named_answers())
    # what comes first is told
    yield changed((0, b"\6"))[:19], "short"
    yield changed((0, b"\6"), (1, b"\1"), (2, b"\0\0")), "version"
    yield changed((1, b"\1"), (2, b"\0\0")), "fixed 1"
    yield changed((2, b"\x05\xc8")), "short"
    yield changed((20, b"\0")), "action 0"
    yield changed((20, b"\3"), (21, b"\1"), (22, b"\0\0")), "action 3"
    yield changed((21, b"\1"), (22, b"\0\0")), "fixed 21"
    yield changed((37, b"\1")), "fixed 37"
    yield changed((38, b"\0\0")), "count"
    yield changed((38, b"\0\2")), "count"
    yield changed((2, b"\0\x2b"), (36, b"\0\0\0\0")) + bytes(3), "action 0"
    yield changed((2, b"\0\x2b")) + bytes(3), "trailing"
    # three bytes are left behind the records
    yield changed((2, b"\0\x2f"), (22, b"\0\2"))[:36] + SECOND_RECORD, "count"
    yield changed((2, b"\0\x33"), (22, b"\0\2"))[:36] + SECOND_RECORD + LAST_SUBHEADER[:3], "no end"
    yield b"", "short"


def file_answers():
    """Texts of a file: the vector behind an IP header from 192.0.2.1, and changes of it."""
    header = bytes.fromhex("4510003c 00004000 fff0d7cf c0000201 e00000f0")
    whole = header + VECTOR
    yield whole, f"ok 60 checksum={EMPTY_SUM}; DEL_C number=1 creator=1"
    # what isn't asked
    yield whole[:1] + b"\0" + whole[2:4] + bytes(5) + whole[9:10] + bytes(10) + VECTOR, \
        f"ok 60 checksum={EMPTY_SUM}; DEL_C number=1 creator=1"
    yield whole[:23], "short"
    yield b"\x46" + whole[1:], "version"
    yield whole[:9] + b"\xef" + whole[10:], "version"
    yield whole[:3] + b"\x3d" + whole[4:], "length"
    yield whole[:23] + b"\x29" + whole[24:], "length"
    # an IP header that fits goes before the message's own tests
    yield b"\x46" + whole[1:20] + b"\6" + whole[21:], "version"
    yield whole[:20] + b"\6" + whole[21:], "version"
    yield whole[:20] + b"\6" + whole[21:39], "short"
    yield whole[:41] + b"\1" + whole[42:], "fixed 21"
    yield whole[:59], "short"


# The first three of the five messages, by their bytes: how many bytes in a row, and how many of
# the 256 values each of them may have while all others stay

ANY = 256
PEER = [(8, 1), (8, ANY), (4, 1), (2, ANY), (2, 1), (1, 11), (1, 16), (6, 1)]
KEY = [(4, ANY), (12, 1), (4, ANY), (12, 1), (4, ANY)]
HEADER, SUBHEADER = [(4, 1), (16, ANY)], [(4, 1)]
# the interface's name is em0: its first two bytes may not be 0, and one more may follow it
INTERFACE, NAME_BEFORE_LAST = [(2, 255), (2, ANY), (12, 1)], (32, 33)
VALUES = {
    INS: [*HEADER, *SUBHEADER, (8, ANY), *INTERFACE, *KEY, *KEY, *PEER, *PEER, (16, 1), (4, ANY), (4, 1), (44, ANY),
          (4, ANY), (1, 1), (1, ANY), (1, 2), (4, 1), (1, 14), (2, 1), *SUBHEADER],
    UPD_C: [*HEADER, *SUBHEADER, (8, ANY), *PEER, *PEER, (8, ANY), (1, 14), (3, 1), *SUBHEADER],
    DEL_C: [*HEADER, *SUBHEADER, (12, ANY), *SUBHEADER],
}


def interface_answers(insert):
    """Names of the interface in a message of one INS."""
    for name, wanted in ((b"", "ok"), (b"a2345678901234.", "ok"), (b"\xff" * 15, "ok"), (b"\0m0", "fixed 33"),
                         (b"e\0" + b"0" * 13, "fixed 34"), (b"em0\0\0\0\0\0\0\0\0\0\0\0\0.", "fixed 47"),
                         (b"a" * 16, "fixed 47")):
        yield insert[:32] + name.ljust(16, b"\0") + insert[48:], wanted


def first_answers(insert):
    """Two mistakes in a message of one INS, of which the first is told."""
    mistakes = ((36, 1), (52, 1), (79, 1), (88, 9), (120, 1), (137, 1), (143, 1), (144, 11), (145, 1), (146, 1),
                (152, 1), (176, 255), (177, 0x8F), (183, 1), (184, 1), (199, 1), (204, 0), (207, 0xFE), (256, 30),
                (258, 0), (258, 3), (259, 1), (263, 14), (264, 1), (265, 1))
    for (first, octet), (second, other) in zip(mistakes, mistakes[1:]):
        text = bytearray(insert)
        text[first], text[second] = octet, other
        yield bytes(text), f"fixed {first}"
