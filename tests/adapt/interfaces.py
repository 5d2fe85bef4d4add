"""Rules and anchors of other interfaces than that of the run: they hold for no packet."""

from adapt import names
from adapt.findings import finding_at
from adapt.macros import Macros, is_definition
from adapt.words import LINE, LISTED, MACRO, PLAIN, ROUND, WARNING, are_closed, statements_of, words_of

KIND = "other interfaces"


def remarks_of(text, given, is_rewritten):
    """What is said of a text, each with its kind. A group stands for its interfaces if the text was rewritten."""
    words = words_of(text)
    if not are_closed(words):
        return []
    macros, found = Macros(), []
    for statement in statements_of(words):
        if is_definition(statement.words):
            macros.define(statement.words)
        elif statement.first() in (*names.RULES, *names.ANCHORS):
            word = other_interface(statement.words, macros, given, is_rewritten)
            found += [(finding_at(text, word.start, WARNING, word.text), KIND)] if word else []
    return found


def other_interface(words, macros, given, is_rewritten):
    """The first interface of a rule, if none of them is that of the run; or nothing."""
    interfaces = interfaces_of([word for word in words if word.kind != LINE])
    for word in interfaces:
        value = macros.used(word) if word.kind == MACRO else word.text
        if value is None:
            return None
        for name in words_of(value):
            if name.is_sign(LISTED, b"}", b","):
                continue
            members = given.members.get(name.text, [name.text]) if is_rewritten else [name.text]
            if name.kind != PLAIN or given.interface in members:
                return None
    return interfaces[0] if interfaces else None


def interfaces_of(words):
    """The words behind `on`, one or some in braces, without commas; none if one isn't an interface's name or a macro."""
    at = place_of_on(words)
    if at is None or at + 1 == len(words):
        return []
    behind = at + 2
    if words[at + 1].is_sign(LISTED):
        at += 1
        behind = next((place for place in range(at, len(words)) if words[place].is_sign(b"}")), at)
    found = [word for word in words[at + 1:behind] if not word.is_sign(b",")]
    return found if all(word.kind in (PLAIN, MACRO) for word in found) else []


def place_of_on(words):
    """The place of the first `on` outside of brackets and braces."""
    depth = 0
    for at, word in enumerate(words):
        depth += word.is_sign(LISTED, ROUND) - word.is_sign(b"}", b")")
        if not depth and at and word.is_plain(b"on"):
            return at
    return None
