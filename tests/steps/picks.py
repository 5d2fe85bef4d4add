"""Which port a translation picks, in a model of the run.

A range of ports is entered at a place that a random word says. From this cut its ports are tried up to the last, and
then from below the cut down to the first. The first of them that is free is picked.

The word is the first of the key stream of ChaCha20 (RFC 8439, section 2.3) with the run's seed as the key, block 0, and
the packet's number as the stream. A stream has 64 bits, the last two words of the nonce, the lower one first. The word
before them is 0, since a block's number has 64 bits too.
"""

import struct
from functools import lru_cache
from itertools import chain

from captures.frames import ICMP, TCP, UDP
from steps.states import ALL

CONSTANTS = struct.unpack("<4I", b"expand 32-byte k")
# the words of the four quarter rounds over columns, and of the four over diagonals
COLUMNS = ((0, 4, 8, 12), (1, 5, 9, 13), (2, 6, 10, 14), (3, 7, 11, 15))
DIAGONALS = ((0, 5, 10, 15), (1, 6, 11, 12), (2, 7, 8, 13), (3, 4, 9, 14))
DOUBLE_ROUNDS = 10
# where a rule names no ports, and for the identifiers of ICMP echoes, whatever it names
PORTS, IDENTIFIERS = (50001, 65535), (1, 65535)
ZERO_SEED = bytes(32)
# words under this seed by their streams. Test vectors 1 and 5 of the RFC (appendix A.1) tell the first and the last.
KNOWN_WORDS = {0: 0xADE0B876, 1: 0xD6DF3FEF, 2: 0xB7B9C5D0, 2**56: 0x7BBA9CDE, 2**57: 0x374DC6C2}


# The word

def rotated(number, places):
    return (number << places | number >> (32 - places)) % 2**32


def quarter_round(words, a, b, c, d):
    for sum_place, added, turned, places in ((a, b, d, 16), (c, d, b, 12), (a, b, d, 8), (c, d, b, 7)):
        words[sum_place] = (words[sum_place] + words[added]) % 2**32
        words[turned] = rotated(words[turned] ^ words[sum_place], places)


@lru_cache(maxsize=2**16)
def word(seed, number):
    """The word of 32 bits for the packet of a number, under a seed of 32 bytes."""
    start = [*CONSTANTS, *struct.unpack("<8I", seed), 0, 0, *struct.unpack("<2I", number.to_bytes(8, "little"))]
    words = list(start)
    for _ in range(DOUBLE_ROUNDS):
        for places in COLUMNS + DIAGONALS:
            quarter_round(words, *places)
    return (words[0] + start[0]) % 2**32


for stream, known in KNOWN_WORDS.items():
    assert word(ZERO_SEED, stream) == known, f"the word of stream {stream} isn't {known:08x}, so no pick would be right"


# The pick

def cut_of(low, high, drawn):
    """The port at which a range is entered."""
    return low + drawn % (1 + high - low)


def try_list(low, high, drawn):
    """The ports of a range in the order in which they are tried."""
    cut = cut_of(low, high, drawn)
    return chain(range(cut, high + 1), range(cut - 1, low - 1, -1))


def range_of(rule, protocol):
    """The first and the last of the ports, or identifiers, that a `nat` rule picks from."""
    if protocol == ICMP:
        return IDENTIFIERS
    if rule.ports is None:
        return PORTS
    low, high = rule.ports
    return low, low if high is None else high


def walks_range(rule, protocol):
    """Whether a `nat` rule picks from a range. The word is drawn only then: `static-port` keeps a port or identifier,
    and a protocol without them has 0."""
    return protocol in (TCP, UDP, ICMP) and not rule.keeps_port


def tried_ports(rule, key, seed, number):
    """What a `nat` rule tries in the place of the inside port of a packet's key, in order."""
    if not walks_range(rule, key.protocol):
        return (key.inside[1],)
    return try_list(*range_of(rule, key.protocol), word(seed, number))


def picked(wires, table):
    """Of the keys that a connection may have on the wire the first that no state has, wherever that is bound; None where
    each is taken."""
    return next((wire for wire in wires if table.at("in", wire, ALL) is None), None)
