"""Words of a ruleset text: how bytes make words, and which words the language keeps for itself.

A word has a sort, a text and a line. Words that are faults wherever they stand have the sort FAULT, and their text says
which fault it is. These are a bad byte, a quoted text that never ends, a brace without its partner, and a byte that
begins nothing.
"""

import re
from typing import NamedTuple

PLAIN, QUOTED, USE, SIGN, LINE_END, TEXT_END, FAULT = range(7)

BAD_BYTE, UNTERMINATED, UNKNOWN = "bad byte", "unterminated", "unknown word"
BAD_NUMBER, BAD_ADDRESS = "bad number", "bad address"
OUT_OF_ORDER, TOO_DEEP = "out of order", "too deep"

# the most bytes of the name of a macro or a table
LONGEST_NAME = 31

GRAMMAR_WORDS = frozenset("""
    table persist const counters set skip on timeout limit states frags src-nodes table-entries tables block-policy
    drop return state-policy if-bound floating hostid optimization normal require-order loginterface debug
    ruleset-optimization interval frag src.track pass block in out log quick inet proto all from to port any self
    flags icmp-type code no state keep no-sync max allow-opts label anchor nat-anchor rdr-anchor binat-anchor nat
    rdr binat static-port""".split())

# words of pf.conf that this reader refuses by their name
LEFT_OUT_WORDS = frozenset("""
    scrub altq queue antispoof load include route-to reply-to dup-to tag tagged user group os tos probability
    fragment modulate synproxy sloppy max-src-nodes max-src-states max-src-conn max-src-conn-rate overload
    source-track bitmask random source-hash round-robin sticky-address file inet6 icmp6-type return-rst return-icmp
    return-icmp6 no-route urpf-failed""".split())

PROTOCOLS = {"icmp": 1, "igmp": 2, "tcp": 6, "udp": 17, "gre": 47, "esp": 50, "ah": 51}
SERVICES = {"ftp": 21, "ssh": 22, "telnet": 23, "smtp": 25, "domain": 53, "http": 80, "www": 80, "pop3": 110,
            "ntp": 123, "imap": 143, "snmp": 161, "https": 443}
ICMP_TYPES = {"echorep": 0, "unreach": 3, "redir": 5, "echoreq": 8, "timex": 11, "paramprob": 12}
FLAG_LETTERS = {"F": 1, "S": 2, "R": 4, "P": 8, "A": 16, "U": 32, "E": 64, "W": 128}
# the timeouts that a run heeds, and those that are read and have no effect
TIMEOUTS = frozenset("""
    tcp.first tcp.opening tcp.established tcp.closing tcp.finwait tcp.closed udp.first udp.single udp.multiple
    icmp.first icmp.error other.first other.single other.multiple interval frag src.track""".split())
ADAPTIVE = frozenset({"adaptive.start", "adaptive.end"})

TAKEN_NAMES = GRAMMAR_WORDS | LEFT_OUT_WORDS | PROTOCOLS.keys() | SERVICES.keys() | ICMP_TYPES.keys()
NAME = re.compile("[A-Za-z0-9_]+")

# In quotes and comments too, a backslash before a newline makes both a blank, so neither ends there.
QUOTED_BYTES = r'"(?:[^"\n\\]+|\\\n?)*"?'
COMMENT_BYTES = r"\#(?:[^\n\\]+|\\\n?)*"
# what follows in a plain word or in a suffix: a dash before `>` belongs to the arrow
FOLLOWING_BYTES = r"(?:[A-Za-z0-9_./:*]+|-(?!>))*"
WORD = re.compile(rf"""
      (?P<blank> (?: [ \t\r]+ | \\\n )+ )
    | (?P<comment> {COMMENT_BYTES} )
    | (?P<line_end> \n+ )
    | (?P<quoted> {QUOTED_BYTES} )
    | (?P<use> \$ [A-Za-z0-9_]+ (?: (?=[:/]) {FOLLOWING_BYTES} )? )
    | (?P<plain> (?=[A-Za-z0-9_.*]) {FOLLOWING_BYTES} )
    | (?P<sign> != | <= | >= | >< | <> | -> | [{{}}(),=<>!-] )
    | (?P<stray> [!-~] )
    | (?P<bad> [^\n] )
    """, re.VERBOSE)
BRACE = re.compile(rf"{COMMENT_BYTES}|{QUOTED_BYTES}|[{{}}]")
BAD_IN_QUOTES = re.compile(r"[^\t\n\r -~]")


class Word(NamedTuple):
    sort: int
    text: str
    line: int


class Fault(Exception):
    """The first fault of a text: its line, and its kind as the program words it."""

    def __init__(self, line, kind):
        super().__init__(line, kind)
        self.line = line
        self.kind = kind


def left_out(name):
    return f"left out: {name}"


def is_name(text):
    """Whether a macro or a table may be called so."""
    return len(text) <= LONGEST_NAME and NAME.fullmatch(text) is not None and text not in TAKEN_NAMES


def lone_braces(text):
    """The places of all braces without a partner. Braces are matched over the whole text, innermost first,
    whatever they open or close; those in quotes and comments don't count."""
    opened, lone = [], set()
    for found in BRACE.finditer(text):
        if found[0] == "{":
            opened.append(found.start())
        elif found[0] == "}":
            if opened:
                opened.pop()
            else:
                lone.add(found.start())
    lone.update(opened)
    return lone


def quoted_word(text, line):
    """A quoted text: it has the lower of its faults, at the line of its first quote."""
    if BAD_IN_QUOTES.search(text):
        return Word(FAULT, BAD_BYTE, line)
    if len(text) < 2 or not text.endswith('"'):
        return Word(FAULT, UNTERMINATED, line)
    return Word(QUOTED, text[1:-1], line)


def use_word(text, line):
    """A use of a macro: the name after the dollar has to be one that a macro can have."""
    if is_name(NAME.match(text, 1)[0]):
        return Word(USE, text[1:], line)
    return Word(FAULT, UNKNOWN, line)


def sign_word(text, line, is_lone):
    if not is_lone:
        return Word(SIGN, text, line)
    return Word(FAULT, UNTERMINATED if text == "{" else UNKNOWN, line)


def words(text, lone=frozenset()):
    """All words of a text in their order; line ends (several as one) and the end of the text are words too. The
    braces at the lone places have no partner."""
    line = 1
    for found in WORD.finditer(text):
        sort, spelt = found.lastgroup, found[0]
        if sort == "plain":
            yield Word(PLAIN, spelt, line)
        elif sort == "sign":
            yield sign_word(spelt, line, found.start() in lone)
        elif sort == "line_end":
            yield Word(LINE_END, spelt, line)
        elif sort == "quoted":
            yield quoted_word(spelt, line)
        elif sort == "use":
            yield use_word(spelt, line)
        elif sort == "stray":
            yield Word(FAULT, UNKNOWN, line)
        elif sort == "bad":
            yield Word(FAULT, BAD_BYTE, line)
        line += spelt.count("\n")
    yield Word(TEXT_END, "", line)


class Cursor:
    """A place among the words of a text. Statements end at line ends, but between the braces of a list a line end
    is a blank, and is stepped over."""

    def __init__(self, words, blamed=None):
        self.words = words
        self.ahead = next(self.words)
        self.in_list = False
        self.last_line = 1
        # faults that don't end the reading; without a list of them each ends it
        self.blamed = blamed

    def peek(self):
        """The next word, which stays."""
        while self.in_list and self.ahead.sort == LINE_END:
            self.ahead = next(self.words)
        return self.ahead

    def take(self):
        """The next word, which is read with this."""
        word = self.peek()
        if word.sort != TEXT_END:
            self.ahead = next(self.words)
        if word.sort not in (LINE_END, TEXT_END):
            self.last_line = word.line
        return word

    def refused(self):
        """The fault of the next word where something else has to stand. A word that is missing is missed at the
        last word before it."""
        word = self.peek()
        if word.sort in (LINE_END, TEXT_END):
            return Fault(self.last_line, UNKNOWN)
        if word.sort == FAULT:
            return Fault(word.line, word.text)
        if word.sort == PLAIN and word.text in LEFT_OUT_WORDS:
            return Fault(word.line, left_out(word.text))
        return Fault(word.line, UNKNOWN)

    def blame(self, line, kind):
        """A fault of a word that stands in its place. Where faults are gathered, reading goes on."""
        if self.blamed is None:
            raise Fault(line, kind)
        self.blamed.append(Fault(line, kind))

    def refuse(self):
        """The next word can't stand here. Where faults are gathered, a word that is left out by its name is read all
        the same; any other ends the reading."""
        word = self.peek()
        if self.blamed is None or word.sort != PLAIN or word.text not in LEFT_OUT_WORDS:
            raise self.refused()
        self.blame(word.line, left_out(word.text))
        return self.take()

    def sees(self, sort, *texts):
        """Whether the next word is of this sort and spelt in one of these ways; with none of them, in any way."""
        word = self.peek()
        return word.sort == sort and (not texts or word.text in texts)

    def takes(self, sort, *texts):
        """Reads the next word if it is one of these, and says whether it was."""
        seen = self.sees(sort, *texts)
        if seen:
            self.take()
        return seen

    def demand(self, sort, *texts):
        """Reads the next word, which has to be one of these."""
        while not self.sees(sort, *texts):
            self.refuse()
        return self.take()

    def at_statement_end(self):
        return self.peek().sort in (LINE_END, TEXT_END)

    def end_statement(self):
        """The end of a line or of the text; a word that comes before it is one too many."""
        while not self.at_statement_end():
            self.refuse()
        self.take()


def text_cursor(text):
    """A cursor at the beginning of a text, whose first fault ends the reading."""
    return Cursor(words(text, lone_braces(text)))
