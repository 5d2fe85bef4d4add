"""Macros in a model of the expansion of rulesets: values, and what a use of one stands for.

A value is the words of its pieces, one behind the other. It is judged where it is used, and all of its faults stand
at the use; of these the lowest kind is told, and between words that are left out the first.
"""

from rulesets.parts import read_list
from rulesets.tree import Use
from rulesets.words import BAD_ADDRESS, BAD_NUMBER, PLAIN, QUOTED, SIGN, TEXT_END, UNKNOWN, Cursor, Fault, Word, words

UNDEFINED_MACRO, UNDEFINED_TABLE = "undefined macro", "undefined table"
TOO_MANY, CLASH = "too many", "clash"

# the longest word of a value that may have a suffix
LONGEST_WORD = 255
# kinds of fault from the lowest; each name that is left out has the one rank between the first and the second
RANKS = (UNKNOWN, "", BAD_NUMBER, BAD_ADDRESS, UNDEFINED_MACRO, UNDEFINED_TABLE, TOO_MANY, CLASH)


def rank(kind):
    return RANKS.index("" if kind.startswith("left out: ") else kind)


def lowest(faults):
    """Of the faults of one value the lowest, and of equals the first; their lines are places in the value."""
    return min(faults, key=lambda fault: (rank(fault.kind), fault.line))


def quoted_words(text):
    """The words of a quoted piece, or None where some of its bytes are no word. Quotes hold no comments and no uses."""
    found = list(words(text))[:-1]
    if "#" in text or any(word.sort not in (PLAIN, SIGN) for word in found):
        return None
    return found


def has_lone_brace(value):
    depth = 0
    for word in value:
        if word.sort == SIGN and word.text in "{}":
            depth += 1 if word.text == "{" else -1
        if depth < 0:
            return True
    return depth > 0


class Macros:
    """The values of the macros defined so far; None for one with bytes that are no word, or a lone brace."""

    def __init__(self):
        self.values = {}

    def define(self, macro):
        """Takes a definition, in the place of an earlier one. A use among the pieces is judged here."""
        value, is_good = [], True
        for piece in macro.pieces:
            if isinstance(piece, Use):
                value += self.words_of(piece)
            elif piece.sort == QUOTED:
                found = quoted_words(piece.text)
                is_good = is_good and found is not None
                value += found or []
            else:
                value.append(piece)
        self.values[macro.name] = value if is_good and not has_lone_brace(value) else None

    def words_of(self, use):
        """What a use stands for, its suffix and its not included; these ask for a value of one word."""
        if use.name not in self.values:
            raise Fault(use.line, UNDEFINED_MACRO)
        value = self.values[use.name]
        if value is None or ((use.suffix or use.negated) and len(value) != 1):
            raise Fault(use.line, UNKNOWN)
        if use.suffix:
            if value[0].sort != PLAIN or len(value[0].text) > LONGEST_WORD:
                raise Fault(use.line, UNKNOWN)
            value = [value[0]._replace(text=value[0].text + use.suffix)]
        if use.negated:
            value = [Word(SIGN, "!", use.line), *value]
        return value

    def one_plain_word(self, use):
        value = self.words_of(use)
        if len(value) != 1 or value[0].sort != PLAIN:
            raise Fault(use.line, UNKNOWN)
        return value[0].text

    def judge(self, use, read, resolve):
        """What a use means: its value is read by `read` as one thing or several, and `resolve` is asked of each."""
        faults, results = [], []
        value = [word._replace(line=place) for place, word in enumerate(self.words_of(use), 1)]
        value.append(Word(TEXT_END, "", len(value) + 1))
        cursor = Cursor(iter(value), faults)
        try:
            items = read(cursor)
            cursor.end_statement()
        except Fault as fault:
            # only an unknown word ends the reading, and no kind is below it
            raise Fault(use.line, fault.kind) from None
        for item in items:
            try:
                results.append(resolve(item))
            except Fault as fault:
                faults.append(fault)
        if faults:
            raise Fault(use.line, lowest(faults).kind)
        return results


class Elements:
    """The elements of one list with those of the uses in it laid flat, and the faults that were met, in order. An
    element at fault counts as one."""

    def __init__(self, macros, written, element, resolve):
        self.items, self.faults = [], []
        self.macros = macros
        for one in written:
            try:
                if isinstance(one, Use):
                    self.items += macros.judge(one, lambda cursor: read_list(cursor, element), resolve)
                else:
                    self.items.append(resolve(one))
            except Fault as fault:
                self.faults.append(fault)

    def count(self):
        return len(self.items) + len(self.faults)


def itself(item):
    """For elements that mean what they say."""
    return item
