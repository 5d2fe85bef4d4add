"""The form of a ruleset whose answer is written by hand, and what many of them share."""

from typing import NamedTuple

from expansions.cases import EM0
from expansions.hosts import Interface
from runs.model import Outcome, refused
from telling.model import JSON, TEXT, Asked

EM1, EM2 = Interface("em1", "203.0.113.2", 24), Interface("em2", "198.18.0.1", 15)
ONE, TWO, THREE = (EM0,), (EM0, EM1), (EM0, EM1, EM2)
# a ruleset for two interfaces, and the counters of a run with it
TOGETHER = b"block from self\npass to em1 label \"web\"\n"
TOGETHER_COUNTERS = b"filter 0 5 2 56\nfilter 1 5 3 84\ntotal 5 3 2 0 0\n"


class Row(NamedTuple):
    """A ruleset with the lines that are printed of it in a form, or what is said if it is refused; maybe with counters.
    """
    name: str
    text: str
    printed: tuple = ()
    interfaces: tuple = ONE
    counters: str | None = None
    said: str = ""
    form: str = TEXT

    def asked(self):
        counters = None if self.counters is None else self.counters.encode("latin-1")
        return Asked(self.text.encode("latin-1"), self.interfaces, counters, self.form)

    def outcome(self):
        return refused(self.said) if self.said else Outcome(text_of(*self.printed), b"", 0)


def text_of(*lines):
    return "".join(f"{line}\n" for line in lines).encode("latin-1")


def told(text, *printed, interfaces=ONE):
    return Row(f"{text[:60]!r}", text, printed, interfaces)


def as_json(name, text, *printed, interfaces=ONE, counters=None):
    """A text with the objects that are printed of it, each as it stands on its line."""
    return Row(f"JSON, {name}", text, printed, interfaces, counters, form=JSON)


def alone(text, words, interfaces=ONE):
    """A text whose last line is a rule, and what is printed of that rule. It is the only one of its kind."""
    return told(text, f"@0 L{text.count(chr(10)) + 1} {words}", interfaces=interfaces)


def fault(text, said, interfaces=ONE):
    """A text that is refused."""
    return Row(f"{text[:60]!r}", text, said=f"rules {said}", interfaces=interfaces)
