"""What is said of a word of a text."""

from typing import NamedTuple

# a word is said in one line: with a blank for each control character
BLANKED = bytes(32 if octet < 32 or octet == 127 else octet for octet in range(256))


class Finding(NamedTuple):
    """What is said of a word."""
    line: int
    column: int
    kind: str
    word: str


def finding_at(text, start, kind, word):
    """What is said of a word that begins there."""
    column = start - (text.rfind(b"\n", 0, start) + 1) + 1
    return Finding(text.count(b"\n", 0, start) + 1, column, kind, word.translate(BLANKED).decode("latin-1"))
