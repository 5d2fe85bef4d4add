"""Files of states that are drawn by a seed, with any values that a line may have, and with damage. They are the same
every time."""

import random
from typing import NamedTuple

SEED = 20261205
MOST_LINES = 6
# how often a file has no damage, or more than one kind
DAMAGES = (0, 1, 1, 1, 1, 1, 2, 3)
PROTOCOLS = (1, 6, 6, 6, 17, 17, 47, 50, 0, 2, 41, 255)
ICMP, TCP = 1, 6
ADDRESSES = ("0.0.0.0", "9.255.0.10", "10.0.0.5", "10.0.0.50", "192.0.2.1", "198.51.100.7", "255.255.255.255")
PORTS = (0, 1, 7, 53, 443, 50001, 65535)
COUNTS = {bits: (0, 0, 1, 9, 10, 99, 100, 2**bits - 1) for bits in (8, 16, 32, 64)}
NUMBERS = (*range(1, 13), 99, 100, 2**64 - 1)
# a file of a run with one interface has no names, another one has a name or `-` in each line
NAMES = ("-", "-", "em0", "em1", "igb1.20", "\xe9\"\\", "\x80\xff", "i=")
# bytes that are put in place of others
LIKELY = b"0123456789 \n-/,:.ri=t\0\xff"


# Lines

def some_end(draw):
    return f"{draw.choice(ADDRESSES)}:{draw.choice(PORTS)}"


def some_keys(draw):
    """The key on the wire and the one behind, which mostly have the same end outside."""
    outside, inside, other = (some_end(draw) for _ in range(3))
    way = draw.random()
    if way < 0.5:
        other = inside
    elif way > 0.95:
        return f"{outside},{inside}", f"{other},{inside}"
    return f"{outside},{inside}", f"{outside},{other}"


def some_peer(draw, protocol):
    if protocol == ICMP:
        return "0/0/0/0/-"
    if protocol != TCP:
        return f"{draw.randrange(3)}/0/0/0/-"
    low, high = (draw.choice(COUNTS[32]) for _ in range(2))
    return f"{draw.randrange(11)}/{low}/{high}/{draw.choice(COUNTS[16])}/{draw.choice(('-', 0, 7, 14, 255))}"


def some_line(draw, names):
    """The line of a state, without its newline."""
    protocol = draw.choice(PROTOCOLS)
    wire, stack = some_keys(draw)
    rules = (draw.choice(("-", *COUNTS[64])) for _ in range(2))
    words = [draw.choice(NUMBERS), protocol, draw.choice(("in", "out")), wire, stack,
             *(f"{letter}={rule}" for letter, rule in zip("rt", rules)),
             *(some_peer(draw, protocol) for _ in range(2)), draw.choice(COUNTS[32]),
             *(draw.choice(COUNTS[64]) for _ in range(5))]
    name = draw.choice(names)
    return " ".join(map(str, words)) + (f" i={name}" if name else "")


def some_text(draw, most=MOST_LINES):
    """A file of states without damage."""
    names = draw.choice((("",), NAMES))
    return "".join(f"{some_line(draw, names)}\n" for _ in range(draw.randint(1, most))).encode("latin-1")


# Damage

def place_in(draw, octets):
    return draw.randrange(len(octets)) if octets else 0


def changed_byte(draw, octets):
    place = place_in(draw, octets)
    return octets[:place] + bytes([draw.choice(LIKELY)]) + octets[place + 1:]


def changed_digit(draw, octets):
    """A digit is another one, so that most lines stay those of states."""
    places = [place for place, byte in enumerate(octets) if byte in b"0123456789"]
    if not places:
        return octets
    place = draw.choice(places)
    return octets[:place] + bytes([draw.choice(b"0123456789")]) + octets[place + 1:]


def byte_left_out(draw, octets):
    place = place_in(draw, octets)
    return octets[:place] + octets[place + 1:]


def byte_doubled(draw, octets):
    place = place_in(draw, octets)
    return octets[:place + 1] + octets[place:]


def with_words(draw, octets, change):
    """A file of which a function changes the words of one line."""
    lines = octets.split(b"\n")
    place = place_in(draw, lines)
    words = lines[place].split(b" ")
    change(words, *(place_in(draw, words) for _ in range(2)))
    return b"\n".join([*lines[:place], b" ".join(words), *lines[place + 1:]])


def swap(parts, first, second):
    parts[first], parts[second] = parts[second], parts[first]


def words_swapped(draw, octets):
    return with_words(draw, octets, swap)


def word_left_out(draw, octets):
    return with_words(draw, octets, lambda words, first, _: words.pop(first))


def word_doubled(draw, octets):
    return with_words(draw, octets, lambda words, first, second: words.insert(second, words[first]))


def lines_swapped(draw, octets):
    lines = octets.splitlines(keepends=True)
    if lines:
        swap(lines, place_in(draw, lines), place_in(draw, lines))
    return b"".join(lines)


def line_doubled(draw, octets):
    lines = octets.splitlines(keepends=True)
    if lines:
        lines.insert(place_in(draw, lines), draw.choice(lines))
    return b"".join(lines)


def cut_off(draw, octets):
    return octets[:draw.choice((draw.randint(0, len(octets)), max(len(octets) - draw.randint(1, 3), 0)))]


KINDS = (changed_byte, changed_digit, byte_left_out, byte_doubled, words_swapped, word_left_out, word_doubled,
         lines_swapped, line_doubled, cut_off)


class Drawn(NamedTuple):
    """A file with the names of its damage."""
    octets: bytes
    damage: tuple


def some_file(draw, most=MOST_LINES):
    """A file of states with damage of some kinds, or of none."""
    octets, kinds = some_text(draw, most), draw.choices(KINDS, k=draw.choice(DAMAGES))
    for kind in kinds:
        octets = kind(draw, octets)
    return Drawn(octets, tuple(kind.__name__ for kind in kinds))


def file_at(number):
    """The file of a number from 0 on."""
    return some_file(random.Random(f"{SEED} {number}"))
