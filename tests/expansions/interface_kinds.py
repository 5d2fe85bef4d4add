"""What comes up in random texts for several interfaces, by kinds that are counted.

What depends on `self` is told by the text's meaning if `self` stood for the address of the first interface alone.
"""

from expansions import model
from expansions.hosts import OWN, Run
from rulesets.model import worded

IN_RULE, NOT_IN_RULE, IN_TABLE = "`self` in a rule", "`! self` in a rule", "`self` in a table"
CLASHES, TARGETS = "a clash by `self`", "a pool by `self`"
OF_SELF = (IN_RULE, NOT_IN_RULE, IN_TABLE, CLASHES, TARGETS)
BY_MACRO = " of a macro"
FORM, FORM_IN_TABLE, FORM_OF_NONE = "a form of a later one", "a form of a later one in a table", "a form of none"
FORM_OF_TWO = "a form of two"
SEVERAL = "several interfaces"
COUNTED = (SEVERAL, *OF_SELF, *(kind + BY_MACRO for kind in OF_SELF), FORM, FORM_IN_TABLE, FORM_OF_NONE, FORM_OF_TWO)


class OfFirst(Run):
    """A run whose `self` is the address of the first interface alone."""

    def addresses(self):
        return super().addresses()[:1]


class OfLast(Run):
    """A run whose forms are those of the last interface of which a word is one."""

    def meaning(self, form):
        return Run(self.interfaces[::-1]).meaning(form)


def lines_of(text, run_of):
    """What a text means in such a run."""
    ruleset = model.expand(text.text, text.interfaces, run_of)
    return list(model.dump(ruleset)) if isinstance(ruleset, model.Ruleset) else [worded(ruleset)]


def words_of(answer, is_of_tables):
    """The words of all lines of a dump that are about tables, or aren't, but for the table of own addresses."""
    found = [line for line in answer if not line.startswith(f"table {OWN} ")]
    return [word for line in found if line.startswith("table ") == is_of_tables for word in line.split()]


def of_self(text, answer):
    """The kinds of a text that depend on `self`."""
    other = lines_of(text, OfFirst)
    if answer[0].endswith(": clash") and other != answer:
        yield CLASHES
    elif answer[0].endswith(": left out: pool") and other != answer:
        yield TARGETS
    elif len(answer) > 1 and len(other) > 1:
        words = words_of(answer, False)
        yield from [IN_RULE] if f"<{OWN}>" in words else []
        yield from [NOT_IN_RULE] if f"!<{OWN}>" in words else []
        yield from [IN_TABLE] if words_of(answer, True) != words_of(other, True) else []


def stands_in_macros_alone(text):
    """Whether `self` stands in no line but those that define macros."""
    lines = [line for line in text.text.split(b"\n") if OWN.encode() in line]
    return all(b" = " in line.partition(b'"')[0] for line in lines)


def of_forms(text, answer):
    """The kinds of a text that has forms of interfaces."""
    own = {f"{sign}{model.network_words(network)}" for each in text.interfaces[1:]
           for network in (each.own(), each.meaning(f"{each.name}:network")) for sign in ("", "!")}
    if len(answer) > 1:
        yield from [FORM] if own.intersection(words_of(answer, False)) else []
        yield from [FORM_IN_TABLE] if own.intersection(words_of(answer, True)) else []
        yield from [FORM_OF_TWO] if lines_of(text, OfLast) != answer else []
    elif answer[0].endswith(": left out: host name"):
        yield FORM_OF_NONE


def kinds_of(text, answer):
    """The kinds of a text with its answer."""
    if len(text.interfaces) == 1 or answer[0].endswith(" translation"):
        return []
    found = [SEVERAL, *of_forms(text, answer)]
    if OWN.encode() in text.text:
        kinds = list(of_self(text, answer))
        found += kinds
        found += [kind + BY_MACRO for kind in kinds if stands_in_macros_alone(text)]
    return found
