"""What a command says of how far it has come: the lines on standard error, and what stands on a terminal."""

import re
from typing import NamedTuple

NUMBER = rb"(0|[1-9]\d*)"
LINE = re.compile(rb"pfreplay: %(n)s packets, %(n)s a second(?:, %(n)s %%)?, %(n)s states made" % {b"n": NUMBER})
CLEAR = b"\x1b[K"
# lines a second on a terminal, and seconds between two lines elsewhere
TWICE, EVERY = 2, 10


class Said(NamedTuple):
    """The numbers of a line. The share is None if it isn't there."""
    packets: int
    rate: int
    share: int | None
    states: int


def said_in(line):
    """The numbers of a line without its end; None if it isn't one."""
    found = LINE.fullmatch(line)
    return found and Said(*(None if number is None else int(number) for number in found.groups()))


def lines_in(octets):
    """The lines of progress at the beginning of what was said, and the rest of it."""
    lines = []
    while octets:
        line, newline, rest = octets.partition(b"\n")
        said = said_in(line)
        if said is None or not newline:
            break
        lines.append(said)
        octets = rest
    return lines, octets


# On a terminal

class Row:
    """A row of a terminal on which a line is written over the one before."""

    def __init__(self):
        self.cells, self.column = bytearray(), 0

    def put(self, byte):
        self.cells[self.column:self.column + 1] = bytes([byte])
        self.column += 1

    def clear(self):
        del self.cells[self.column:]

    def shown(self):
        return bytes(self.cells).rstrip(b" ")


def rows_on(octets):
    """All that a terminal's row showed, one after the other, up to its end; and what was said behind that. The rest is
    None if the row has no end."""
    row, shown, place = Row(), [], 0
    while place < len(octets):
        if octets.startswith(CLEAR, place):
            row.clear()
            place += len(CLEAR)
            continue
        byte = octets[place:place + 1]
        place += 1
        if byte in (b"\r", b"\n"):
            if row.shown() and (not shown or shown[-1] != row.shown()):
                shown.append(row.shown())
            row.column = 0
            if byte == b"\n":
                return shown, octets[place:]
        else:
            row.put(byte[0])
    return [*shown, row.shown()], None


def terminal_lines(octets):
    """The lines of progress on a terminal, and what was said besides. Without any all of it was said besides."""
    shown, rest = rows_on(octets) if octets else ([], b"")
    if shown and rest is not None and all(map(said_in, shown)):
        return list(map(said_in, shown)), rest
    return [], octets


def are_in_order(lines):
    """Whether no number but the rate goes back, and no share is above the whole."""
    shares = [line.share or 0 for line in lines]
    grows = all(sorted(numbers) == numbers for numbers in ([line.packets for line in lines], shares,
                                                           [line.states for line in lines]))
    return grows and max(shares, default=0) <= 100
