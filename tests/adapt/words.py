"""Words of a text as it is written, and its statements."""

import re
from typing import NamedTuple

from adapt import names

NOTE, WARNING = "note", "warning"
# kinds of words
PLAIN, QUOTED, MACRO, SIGN, LINE, OTHER = "plain", "quoted", "macro", "sign", "line", "other"
# what stands for the value of a macro that has no words
EMPTY = "empty"

CLOSERS = {b"(": b")", b"{": b"}", b"<": b">"}
# no blank is put before these
TIGHT = (b",", b")", b"}", b">")
ROUND, LISTED = b"(", b"{"
COMPARED = (b"=", b"!=", b"<", b"<=", b">", b">=", b"><", b"<>")

WORD = re.compile(rb"""
    (?P<blank> (?: [ \t\r] | \\\n )+ )
    | (?P<comment> \# (?: \\\n | [^\n] )* )
    | (?P<line> \n )
    | (?P<quoted> " (?: \\\n | [^\n"] )* "? )
    | (?P<sign> -> | != | <= | >= | >< | <> | [{}(),=<>!] | - )
    | (?P<macro> \$ [A-Za-z0-9_]+ (?: [:/] (?: [A-Za-z0-9_./:*] | -(?!>) )* )? )
    | (?P<plain> [A-Za-z0-9_.*] (?: [A-Za-z0-9_./:*] | -(?!>) )* )
    | (?P<other> . )
    """, re.VERBOSE | re.DOTALL)
NAME = re.compile(rb"[A-Za-z0-9_]{1,31}")
SIX = re.compile(rb"[0-9a-fA-F:./]*")
COLON = b":"


class Word(NamedTuple):
    """A word and where it stands; the end of a line is one. The words of a macro's value have its use."""
    kind: str
    text: bytes
    start: int
    end: int
    use: object = None

    def is_sign(self, *signs):
        return self.kind == SIGN and self.text in signs

    def is_plain(self, *words):
        return self.kind == PLAIN and (not words or self.text in words)

    def is_word(self):
        """Whether it is a value by itself: no sign, and no end of a line."""
        return self.kind not in (SIGN, LINE)


def words_of(text, use=None):
    """The words of a text; blanks and comments are none."""
    return [Word(found.lastgroup, found.group(), found.start(), found.end(), use) for found in WORD.finditer(text)
            if found.lastgroup not in ("blank", "comment")]


def is_name(text):
    """Whether a macro or a table may be called so in the strict language."""
    return NAME.fullmatch(text) is not None and text not in names.TAKEN


class Statement(NamedTuple):
    """The words of a statement; those of a rule with a list over some lines have ends of lines among them."""
    words: list

    def first(self):
        """The word by which it begins, if that is a plain one."""
        return self.words[0].text if self.words[0].kind == PLAIN else b""

    def begun(self):
        """The same without the braces and brackets before its first word, if that is a plain one."""
        at = next((at for at, word in enumerate(self.words) if not word.is_sign(LISTED, b"}", ROUND, b")")), 0)
        return Statement(self.words[at:]) if self.words[at].kind == PLAIN else self


def statements_of(words):
    """The statements of a text. Each body of an anchor is cut into its own."""
    closed = closed_braces(words)
    at, bodies = 0, 0
    while at < len(words):
        if words[at].kind == LINE:
            at += 1
            continue
        if bodies and words[at].is_sign(b"}"):
            bodies -= 1
        statement, depth = [], 0
        is_anchor = words[at].is_plain(b"anchor")
        while at < len(words):
            word = words[at]
            if word.kind == LINE and not depth:
                break
            begins_body = (word.is_sign(LISTED) and is_anchor and not depth
                           and (at + 1 == len(words) or words[at + 1].kind == LINE))
            statement.append(word)
            at += 1
            if begins_body:
                bodies += 1
                break
            if word.is_sign(LISTED) and word.start in closed:
                depth += 1
            elif word.is_sign(b"}"):
                depth = max(depth - 1, 0)
        yield Statement(statement)


def closed_braces(words):
    """Where the braces begin that something closes."""
    opened, closed = [], set()
    for word in words:
        if word.is_sign(LISTED):
            opened.append(word.start)
        elif word.is_sign(b"}") and opened:
            closed.add(opened.pop())
    return closed


def are_closed(words):
    """Whether each brace is closed, and closes one."""
    depth = 0
    for word in words:
        depth += word.is_sign(LISTED) - word.is_sign(b"}")
        if depth < 0:
            return False
    return not depth


def whole_use_end(words, at):
    """The place behind all words of a macro's use that begin there, or nothing where none does."""
    use = words[at].use
    if use is None or at and words[at - 1].use is use:
        return None
    while at < len(words) and words[at].use is use:
        at += 1
    return at


def value_end(words, at):
    """The place behind a VALUE, or nothing where none stands there. The use of a macro is one."""
    if at >= len(words):
        return None
    if whole_use_end(words, at):
        return whole_use_end(words, at)
    if words[at].is_word():
        return at + 1
    opener = words[at].text
    closer = CLOSERS.get(opener) if words[at].kind == SIGN else None
    at += 1
    # a group has none of its kind in it
    while closer and at < len(words) and words[at].kind != LINE and not words[at].is_sign(opener):
        if words[at].is_sign(closer):
            return at + 1
        at += 1
    return None


def are_joined(one, other):
    """Whether nothing stands between two words."""
    return one.use is other.use and one.end == other.start


def six_end(words, at):
    """The place behind an IPv6 address, or nothing where none begins there."""
    word = words[at]
    if not (word.kind == PLAIN and SIX.fullmatch(word.text) and word.text.count(COLON) > 1
            or word.text == COLON and at + 1 < len(words)
            and words[at + 1].text == COLON and are_joined(word, words[at + 1])):
        return None
    at += 1
    while at < len(words) and words[at].is_word() and are_joined(words[at - 1], words[at]):
        at += 1
    return at


def useless_end(words, at):
    """The place behind a host that no packet of this profile has: an IPv6 address, `no-route` or `urpf-failed`."""
    if at < len(words) and words[at].is_plain(*names.ROUTELESS):
        return at + 1
    return six_end(words, at) if at < len(words) else None


def useless_hosts(words, at):
    """What is said if nothing but hosts stands there that no packet has: one, or a list."""
    opened = at
    behind = whole_use_end(words, at) if at < len(words) else None
    if behind is None and at < len(words) and words[at].is_sign(LISTED):
        behind = list_end(words, at)
    if behind is None:
        opened = at + (at < len(words) and words[at].is_sign(b"!"))
        if opened < len(words) and words[opened].use:
            return None
        behind = useless_end(words, opened)
    return kind_of(words[at:behind]) if behind and useless_list(words[opened:behind]) else None


def list_end(words, opened):
    """The place behind a list in braces."""
    depth = 0
    for at in range(opened, len(words)):
        depth += words[at].is_sign(LISTED) - words[at].is_sign(b"}")
        if not depth:
            return at + 1
    return len(words)


def useless_list(words):
    """Whether there are hosts, and none but those that no packet has; the lists of macros are parts of a list."""
    at, has_any = 0, False
    while at < len(words):
        if words[at].is_sign(b",", LISTED, b"}") or words[at].kind == LINE:
            at += 1
            continue
        at += words[at].is_sign(b"!")
        behind = useless_end(words, at)
        if not behind:
            return False
        at, has_any = behind, True
    return has_any


def kind_of(words):
    return WARNING if any(word.is_plain(*names.ROUTELESS) for word in words) else NOTE


def table_name_at(words, at, last):
    """Whether a table's name begins there; `<` behind `port` compares."""
    return (words[at].is_sign(b"<") and last != b"port" and at + 2 < len(words) and words[at + 1].kind == PLAIN
            and words[at + 2].is_sign(b">"))
