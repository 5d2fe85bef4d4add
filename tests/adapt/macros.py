"""Macros: what they stand for, and where they may stand."""

import re

from adapt import names
from adapt.edits import Edited
from adapt.words import (COMPARED, EMPTY, LISTED, MACRO, PLAIN, QUOTED, ROUND, SIGN, Word, are_closed, is_name,
                         words_of)

MOST_BYTES, MOST_MACROS, MOST_IN_ALL = 4096, 1000, 4 << 20
USE = re.compile(rb"\$([A-Za-z0-9_]+)(.*)", re.DOTALL)
CONTINUED = re.compile(rb"\\\n")
# bytes that a value may not bring into a text
STRANGE = re.compile(rb"[^\t -~]|[#$\\]")
# behind these a list may stand whose elements may be macros
LISTS = (b"on", b"proto", b"from", b"to", b"port", b"icmp-type", b"->")


class Use:
    """Where a macro is used: its word, its value as a text, and whether it has to be written out."""

    def __init__(self, word, value, may_stand, depth):
        self.word = word
        self.may_stand = may_stand
        # in how many braces it stands
        self.depth = depth
        # whether it is a part of a target of several addresses, of which nothing more is said
        self.is_pool = False
        # whether it was taken for a word that surroundings give
        self.is_word = False
        # one with a suffix is nothing else
        self.has_suffix = b":" in word.text
        self.is_told = False
        self.edited = Edited(value, True, self)

    def words(self):
        return self.edited.words or [Word(EMPTY, b"", 0, 0, self)]

    def written(self):
        """The value with its edits; in braces a list without its own."""
        words = self.edited.words
        if self.depth and len(words) > 1 and words[0].is_sign(LISTED) and words[-1].is_sign(b"}"):
            self.edited.cut(words[0].start, words[0].end)
            self.edited.cut(words[-1].start, words[-1].end)
        return self.edited.written()


class Macros:
    """The macros of a text, as far as it has been read."""

    def __init__(self):
        self.values = {}
        self.looked_at = 0
        self.count = 0

    def define(self, words):
        """Takes a statement that defines a macro."""
        name, value = words[0].text, self.value_of(words[2:])
        self.count += 1
        if value is None or len(value) > MOST_BYTES or not is_name(name):
            self.values.pop(name, None)
        else:
            self.values[name] = value

    def value_of(self, pieces):
        """The texts of these pieces with blanks between, or nothing."""
        texts = []
        for piece in pieces:
            text = piece.text if piece.kind == PLAIN else self.used(piece)
            if piece.kind == QUOTED and len(piece.text) > 1 and piece.text.endswith(b'"'):
                text = CONTINUED.sub(b"  ", piece.text[1:-1])
                text = None if STRANGE.search(text) else text
            texts.append(text)
        return None if not texts or None in texts else b" ".join(texts)

    def used(self, word):
        """What a use stands for, or nothing."""
        found = USE.fullmatch(word.text) if word.kind == MACRO else None
        value = self.values.get(found[1]) if found and self.count < MOST_MACROS else None
        if value is None or not found[2]:
            return value
        only = words_of(value)
        return value.strip() + found[2] if len(only) == 1 and only[0].kind == PLAIN else None

    def unfolded(self, words):
        """The words of a statement with those of the values in the place of the uses, and the uses."""
        every, uses = [], []
        for at, word in enumerate(words):
            value = None if b"/" in word.text else self.used(word)
            if value is None or self.looked_at + len(value) > MOST_IN_ALL or not are_closed(words_of(value)):
                every.append(word)
                continue
            self.looked_at += len(value)
            uses.append(Use(word, value, may_stand(words, at), len(braces_before(words, at))))
            every += uses[-1].words()
        return every, uses


def is_definition(words):
    return len(words) > 1 and words[0].kind == PLAIN and words[1].is_sign(b"=")


def may_stand(words, at):
    """Whether the use of a macro may stand there."""
    behind = words[at + 1] if at + 1 < len(words) else None
    before = words[at - 1]
    opened = opened_before(words, at)
    last = last_before(words, at)
    if (behind and behind.is_plain(b"code") or last == b"code" or before.is_sign(b"<")
            or last == b"port" and before.is_sign(*COMPARED)):
        return False
    is_table = words[0].is_plain(b"table")
    if opened and words[opened[-1]].is_sign(ROUND):
        return (before.is_sign(ROUND) and behind is not None and behind.is_sign(b")")
                and (is_table or stands_behind(words, opened[-1], opened[:-1], names.BEFORE_ADDRESSES)))
    if last == b"port" and any(word.is_sign(b"->") or word.is_plain(*names.TARGETS) for word in words[:at]):
        return False
    return is_table and bool(opened) or not is_table and stands_behind(words, at, opened, LISTS)


def stands_behind(words, at, opened, keys):
    """Whether an element of a list begins there, in braces or alone."""
    if len(opened) > 1:
        return False
    at = opened[0] if opened else at
    before = words[at - 1]
    if before.is_sign(b"-"):
        at -= 2
        before = words[at - 1]
    if before.is_sign(b"!"):
        before = words[at - 2]
    return before.kind in (PLAIN, SIGN) and before.text in keys


def opened_before(words, at):
    """The places of the braces and brackets that are open there."""
    opened = []
    for place, word in enumerate(words[:at]):
        if word.is_sign(LISTED, ROUND):
            opened.append(place)
        elif word.is_sign(b"}", b")") and opened:
            opened.pop()
    return opened


def braces_before(words, at):
    return [place for place in opened_before(words, at) if words[place].is_sign(LISTED)]


def last_before(words, at):
    """The last word of the grammar before a place; an arrow is one."""
    return next((word.text for word in reversed(words[:at]) if word.is_plain(*names.GRAMMAR) or word.is_sign(b"->")), b"")
