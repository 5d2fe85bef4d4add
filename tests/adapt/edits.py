"""A text, and what is written otherwise in it."""

from typing import NamedTuple

from adapt.words import LINE, OTHER, PLAIN, TIGHT, words_of


class Edit(NamedTuple):
    """Bytes that are written otherwise."""
    start: int
    end: int
    text: bytes


class Edited:
    """A text with its edits. Blanks at the beginning of a macro's value go with what is left out behind them."""

    def __init__(self, text, is_value=False, use=None):
        self.text = text
        self.is_value = is_value
        self.words = words_of(text, use)
        self.at = {word.start: word for word in self.words}
        self.ends = {word.end: word for word in self.words if word.kind != LINE}
        self.edits = []
        # where what stands before has gone
        self.fresh = set()

    def replace(self, start, end, text):
        """Writes this instead, with a blank if a word begins right behind, or if one ends right before a sign, a macro
        or a quoted text."""
        front = self.front(start) if text else b""
        self.edits.append(Edit(start, end, front + text + self.gap(end)))

    def front(self, start):
        """The blank that is put before what stands for a word that isn't plain, if another one ends right there."""
        word = self.at.get(start)
        is_plain = word is None or word.kind in (PLAIN, OTHER)
        return b"" if is_plain or start not in self.ends or start in self.fresh else b" "

    def gap(self, end):
        """The blank that is put where a word begins right there."""
        word = self.at.get(end)
        return b"" if word is None or word.kind == LINE or word.is_sign(*TIGHT) else b" "

    def leave_out(self, start, end, is_element=False):
        """Leaves this out with the blanks before it. Those that begin a line go with elements of braces alone, and
        stay on a continued line."""
        blanks = start
        while self.text[blanks - 1:blanks] in (b" ", b"\t", b"\r"):
            blanks -= 1
        is_first = not blanks and not self.is_value or self.text[blanks - 1:blanks] == b"\n"
        if is_element and self.text[blanks - 2:blanks] != b"\\\n":
            is_first = False
        self.edits.append(Edit(start if is_first else blanks, end, self.gap(end)))

    def cut(self, start, end, text=b""):
        """Takes bytes out as they stand, or writes others."""
        self.edits.append(Edit(start, end, text))

    def lines_in(self, start, end):
        return self.text.count(b"\n", start, end)

    def covers(self, start, end):
        """Whether all these bytes are written otherwise."""
        return any(edit.start <= start and end <= edit.end for edit in self.edits)

    def written(self):
        """The text with all edits."""
        parts, at = [], 0
        for edit in sorted(self.edits):
            parts += [self.text[at:edit.start], edit.text]
            at = max(at, edit.end)
        return b"".join(parts) + self.text[at:]

    def old_of(self, place):
        """Where what stands at a place of the new text stands in the old one; of what was written, where the edit is."""
        old, new = 0, 0
        for edit in sorted(self.edits):
            if place < new + edit.start - old:
                break
            new += edit.start - old + len(edit.text)
            if place < new:
                return edit.start
            old = edit.end
        return old + place - new
