"""Names for numbers, addresses, groups and names of tables, by the last word of the grammar before them."""

import re

from adapt import names
from adapt.targets import without_bits
from adapt.words import (COMPARED, LISTED, MACRO, NOTE, PLAIN, ROUND, WARNING, kind_of, six_end, table_name_at, useless_end,
                         useless_list, whole_use_end)

SHORT = re.compile(rb"([0-9]+(?:\.[0-9]+){0,2})/([0-9]+)")
NUMBERS = {b"proto": names.PROTOCOLS, b"port": names.SERVICES, b"icmp-type": names.ICMP, b"code": names.ICMP}

GIVEN = {b"port": "given service", b"on": "given group"}
SEVERAL = {"given address": "several given addresses", "given service": "several given services",
           "given group": "several given groups"}
NUMBERED = {b"proto": "protocol", b"port": "service", b"icmp-type": "ICMP type", b"code": "ICMP code"}


def value_of(last, text):
    """How a value is written behind a word of the grammar, or nothing if it stays."""
    if last in NUMBERS:
        return NUMBERS[last].get(text)
    if last in names.BEFORE_NETWORKS:
        found = SHORT.fullmatch(text)
        return found and found[1] + b".0" * (3 - found[1].count(b".")) + b"/" + found[2]
    return None


def range_of(given, text):
    """A range of ports with the numbers of its services, or nothing if it has none that is new."""
    parts = text.split(b":")
    if len(parts) != 2 or not any(part in names.SERVICES or given.values(b"port", part) for part in parts):
        return None
    new = b":".join(port_of(given, part) for part in parts)
    return None if new == text else new


def is_range(word):
    """Whether a word is a range that begins with a macro."""
    return word.kind == MACRO and b":" in word.text


def port_of(given, text):
    """The port of a service that has one; other words stay."""
    values = given.values(b"port", text)
    if values:
        return values[0] if len(values) == 1 else text
    return names.SERVICES.get(text, text)


class Values:
    """Goes through the words of a rule, an anchor or a table."""

    def __init__(self, rewriter, words, gone):
        self.rewriter = rewriter
        self.given = rewriter.given
        self.words = words
        self.gone = gone
        self.last = b""
        self.depth = 0
        # elements of lists that go
        self.found = []

    def take(self):
        at = 0
        while at < len(self.words):
            at = self.take_word(at)
        self.rewriter.leave_out_elements(self.words, self.found)

    def take_word(self, at):
        """Takes what stands there: the place behind it."""
        word = self.words[at]
        if at in self.gone:
            if word.kind == PLAIN and word.text in names.GRAMMAR and word.text not in names.AMONG_ADDRESSES:
                self.last = word.text
            return at + 1
        self.depth = max(self.depth + word.is_sign(LISTED) - word.is_sign(b"}"), 0)
        if word.is_sign(b"->"):
            self.last = b"->"
        if table_name_at(self.words, at, self.last):
            self.take_table(at + 1)
            return at + 3
        if self.last in names.BEFORE_ADDRESSES:
            behind = self.take_element(at) or self.take_bracketed(at)
            if behind:
                return behind
        if word.kind == PLAIN and word.text in names.GRAMMAR:
            if word.text not in names.AMONG_ADDRESSES:
                self.last = word.text
        elif self.last == b"port" and is_range(word.use.word if word.use else word):
            self.take_range(at)
        elif word.kind == PLAIN:
            self.take_value(at)
        return at + 1

    def take_range(self, at):
        """A range that begins with a macro, which stays."""
        word = self.words[at].use.word if self.words[at].use else self.words[at]
        new = range_of(self.given, word.text)
        if new:
            if self.words[at].use:
                self.words[at].use.is_word = True
            self.rewriter.say(word, NOTE, "range of services")
            self.rewriter.edited.replace(word.start, word.end, new)

    def take_table(self, at):
        """The name of a table."""
        new = self.rewriter.tables.get(self.words[at].text)
        if new:
            self.rewriter.say(self.words[at], NOTE, "name of a table")
            self.rewriter.write(self.words, at, at + 1, new)

    def take_element(self, at):
        """An element of a list that no packet has. A macro's value is one if it has nothing else."""
        use = self.words[at].use
        behind = whole_use_end(self.words, at) if use and use.depth else None
        if behind and useless_list(self.words[at:behind]):
            kind = kind_of(self.words[at:behind])
            self.rewriter.say_plain(use.word, kind,
                                    "IPv6 address in a list" if kind == NOTE else "no-route in a list")
            self.found.append((at - self.words[at - 1].is_sign(b"!"), behind))
            return behind
        behind = useless_end(self.words, at) if self.depth else None
        if behind:
            is_six = six_end(self.words, at)
            self.rewriter.say(self.words[at], NOTE if is_six else WARNING,
                              "IPv6 address in a list" if is_six else "no-route in a list")
            self.found.append((at - self.words[at - 1].is_sign(b"!"), behind))
        return behind

    def take_bracketed(self, at):
        """A word in round brackets."""
        words = self.words
        if not (words[at].is_sign(ROUND) and not words[at - 1].is_sign(ROUND) and at + 2 < len(words)
                and words[at + 1].kind == PLAIN and words[at + 2].is_sign(b")")):
            return None
        word = words[at + 1]
        new = b"self" if word.text == b"self" else self.all_of(at, self.given.values(self.last, word.text))
        if new:
            self.mark(word, word.text != b"self")
            self.rewriter.say(word, NOTE, "(self)" if word.text == b"self" else "given address in brackets")
            self.rewriter.write(words, at, at + 3, new)
            return at + 3
        return None

    def take_value(self, at):
        """A word that isn't one of the grammar."""
        word = self.words[at]
        values = self.given.values(self.last, word.text)
        new, done = self.all_of(at, values), GIVEN.get(self.last, "given address")
        if not values and self.last == b"port":
            new, done = range_of(self.given, word.text), "range of services"
        if not values and not new and not (word.use and word.use.has_suffix):
            new, done = value_of(self.last, word.text), NUMBERED.get(self.last, "short network")
        if new:
            self.mark(word, bool(values))
            self.rewriter.say(word, NOTE, done if len(values) < 2 else SEVERAL[done])
            self.rewriter.write(self.words, at, at + 1, new)

    def mark(self, word, is_given):
        """Marks the use of a macro that is taken for a word which surroundings give."""
        if word.use and is_given and len(word.use.words()) == 1:
            word.use.is_word = True

    def all_of(self, first, values):
        """All values of what stands there, or nothing if one value is asked for; a target is no network."""
        if self.last == b"->" and any(without_bits(value) for value in values):
            return None
        if len(values) < 2:
            return values[0] if values else None
        before = next(at for at in reversed(range(first)) if at not in self.gone)
        signs = (b"!", b"-", b"->", *(COMPARED if self.last == b"port" else ()))
        if self.words[before].is_sign(*signs):
            return None
        listed = b", ".join(values)
        return listed if self.depth else b"{ " + listed + b" }"
