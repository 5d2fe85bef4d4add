"""What is run of a ruleset's file: its text, or what that becomes with `--adapt`. Its lines are those of the file."""

from typing import NamedTuple

from adapt.faults import fault_of
from adapt.model import adapt, rewritten, said_of


class Read(NamedTuple):
    """What is run of a file, the line of the file for each of its lines, and what is said of the file, without the
    reasons."""
    text: bytes
    lines: tuple
    said: tuple = ()


def line_at(text, place):
    return text.count(b"\n", 0, place) + 1


def starts_of(text):
    """The places at which the lines of a text begin."""
    return [0, *(place + 1 for place, byte in enumerate(text) if byte == ord("\n"))]


def as_it_is(text):
    return Read(text, tuple(range(1, len(starts_of(text)) + 1)))


def rewritten_lines(text, surroundings):
    """The line of a text for each line of what it becomes."""
    new, rewriter, _ = rewritten(text, surroundings)
    old_of = rewriter.old_of if rewriter else int
    return tuple(line_at(text, old_of(place)) for place in starts_of(new))


def read(text, surroundings=None):
    """What is run of the bytes of a file, adapted if there are surroundings."""
    if surroundings is None:
        return as_it_is(text)
    adapted = adapt(text, surroundings)
    said = tuple(map(said_of, adapted.told()))
    if fault_of(text) is None:
        return as_it_is(text)._replace(said=said)
    return Read(adapted.text, rewritten_lines(text, surroundings), said)
