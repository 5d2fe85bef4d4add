"""The rules of a ruleset as the command `show` names them: by their numbers and lines, and by whether they say `log`.

The strict language has one statement on a line, and a rule says `log` behind its direction. The model of the expansion
drops that word, so it is looked for among the words of the statement that begins on the rule's line.
"""

from typing import NamedTuple

from rulesets.words import LINE_END, TEXT_END, lone_braces, words
from steps.replay import ruleset_of
from telling.model import translations_of

LOG = "log"
ANSWERS, DIRECTIONS = ("drop", "return"), ("in", "out")


class FilterRule(NamedTuple):
    """A filter rule: the line of its file on which it stands, and whether its packets are logged."""
    line: int
    is_logged: bool


class TranslationRule(NamedTuple):
    kind: str
    line: int


class Rules(NamedTuple):
    """The rules of a ruleset by their numbers."""
    filter: list
    translation: list


def lines_of_words(text):
    """The words of each line of a text that ends a statement, or goes on with a list."""
    found = []
    for word in words(text, lone_braces(text)):
        if word.sort in (LINE_END, TEXT_END):
            yield found
            found = []
        else:
            found.append(word)


def is_logged(statement):
    """Whether the words of a filter rule have `log` behind what is done and the direction."""
    rest = [word.text for word in statement[1:]]
    for skipped in (ANSWERS, DIRECTIONS):
        rest = rest[1:] if rest and rest[0] in skipped else rest
    return rest[:1] == [LOG]


def logged_lines(text):
    """The lines of a text on which statements with `log` begin."""
    return {statement[0].line for statement in lines_of_words(text.decode("latin-1"))
            if statement and is_logged(statement)}


def rules_of(read, interfaces):
    """The rules of what is read of a file, for some interfaces; a fault refuses it."""
    ruleset, logged = ruleset_of(read.text, interfaces), logged_lines(read.text)
    return Rules([FilterRule(read.lines[rule.line - 1], rule.line in logged) for rule in ruleset.rules.filter],
                 [TranslationRule(kind, read.lines[rule.line - 1]) for kind, rule in translations_of(ruleset)])
