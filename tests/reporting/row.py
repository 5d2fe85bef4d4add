"""The form of a row: a question to the command `report`, and parts of its page, written out by hand; and what many rows
share.

Parts have the names of `page.Page`. A part that isn't named isn't written out.
"""

from typing import NamedTuple

from reporting.model import Question
from runs.model import refused
from showing import row as showing_row
from showing.model import NAME
from showing.row import BLOCK, BLOCKED, KNOCK, capture_of, several, text_of, verdicts_of

# why a line did nothing for which packets would have to go one way
NONE_IN, NONE_OUT = "not asked: no packet comes in on em0", "not asked: no packet goes out of em0"


class Row(NamedTuple):
    """A question with parts of its page, or with what is said if it is refused; and how the lines begin that say what
    was rewritten, where `{rules}` stands for the name of the ruleset's file. The warnings on standard error are None if
    they aren't written out."""
    name: str
    question: Question
    parts: dict = {}
    said: str = ""
    remarks: tuple = ()
    warnings: tuple | None = None

    def outcome(self):
        """What is left of one that is refused."""
        return refused(self.said)

    def err(self):
        """What is said on standard error without `--quiet`, but for what was rewritten."""
        return "".join(f"pfreplay: warning: {text}\n" for text in self.warnings).encode()

    def told(self, name=NAME):
        return [remark.format(rules=name).encode() for remark in self.remarks]


def question_of(rules, capture, verdicts, states=None, **how):
    """A question about a capture of one interface. The ruleset may be bytes."""
    octets = rules if isinstance(rules, bytes) else rules.encode()
    asked = showing_row.question_of("", capture, verdicts, **how)
    return Question(asked._replace(case=asked.case._replace(rules=octets)), states)


def timed(name, rules, *told, states=None, **parts):
    """A row of packets, each of which is told as a clock, a frame and what its line says behind that. The part of the
    states is `states_`."""
    capture = capture_of(*((clock, frame) for clock, frame, _ in told))
    lines = text_of(*(f"{number} {clock} {said}" for number, (clock, _, said) in enumerate(told, 1)))
    return Row(name, question_of(rules, capture, lines, states), {each.rstrip("_"): parts[each] for each in parts})


def one(name, rules, frame, said, states=None, **parts):
    """A row of one packet at the clock 0."""
    return timed(name, rules, (0, frame, said), states=states, **parts)


def blocked_once(name, rules, states=None, **parts):
    """A row of one packet that rule 0 blocks."""
    return one(name, rules, KNOCK, BLOCKED, states, **parts)


def of_captures(name, rules, captures, lines, states=None, said="", parts=None, **how):
    """A row of several interfaces."""
    return Row(name, Question(several(rules, captures, lines, **how), states), parts or {}, said)


def fault(name, question, said):
    return Row(name, question, {}, said)


def lines_blocked(count):
    return verdicts_of(*[BLOCKED] * count)


ONE = question_of(BLOCK, capture_of(*[KNOCK] * 3), lines_blocked(3))
