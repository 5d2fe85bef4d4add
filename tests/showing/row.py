"""The form of a row: a question to the command `show`, and what it leaves, written out by hand; and what many rows
share.

Most rows have packets of second 0, whose times are all the same.
"""

from typing import NamedTuple

from captures.packets import LINKTYPE_RAW, MICROSECONDS, SYN, tcp
from runs import interface_rows
from runs.case import INSIDE, Also, Case
from runs.interface_rows import Taken
from runs.model import Outcome, refused
from showing.model import NAME, TEXT, Asked, Question
from steps.translation_words import H, P

START = "1970-01-01 00:00:00.000000"
# a segment to a host inside, the packet of most rows, and what stands behind the reason for it
KNOCK, KNOCK_WORDS = tcp(P, 4000, H, 22, SYN, 1), "tcp 198.51.100.7:4000 > 10.0.0.5:22 flags S length 40"
ASKED_WORDS = "udp 10.0.0.5:1000 > 198.51.100.7:53 length 28"
BLOCK = "block in\npass out"
BLOCKED, PASSED = "in block rule r=0 t=- s=-", "out pass rule r=1 t=- s={}"


class Row(NamedTuple):
    """A question with what is printed, and with what is said if it isn't joined to its end; and how the lines begin
    that say what was rewritten, where `{rules}` stands for the name of the ruleset's file."""
    name: str
    question: Question
    out: bytes = b""
    said: str = ""
    remarks: tuple = ()

    def outcome(self):
        """What is left, but for what was rewritten."""
        return refused(self.said)._replace(out=self.out) if self.said else Outcome(self.out, b"", 0)

    def told(self, name=NAME):
        """How the lines begin that say what was rewritten."""
        return [remark.format(rules=name).encode() for remark in self.remarks]


def text_of(*lines):
    return "".join(f"{line}\n" for line in lines).encode()


def capture_of(*records, link=LINKTYPE_RAW, order="<", magic=MICROSECONDS, behind=b""):
    """A capture of frames, each maybe behind its second, or its second and its fraction."""
    timed = [each if isinstance(each, tuple) else (each,) for each in records]
    return Taken(tuple((*each[:-1], 0, 0)[:2] + each[-1:] for each in timed), behind, order, magic, link).bytes()


def verdicts_of(*told, clock=0):
    """Lines of verdicts, each by what stands behind its number and the clock."""
    return text_of(*(f"{number} {clock} {each}" for number, each in enumerate(told, 1)))


def question_of(rules, capture, verdicts, form=TEXT, surroundings=None, interface="em0", **asked):
    """A question about a capture of one interface."""
    case = Case("", rules.encode(), INSIDE, capture, interface)
    return Question(case, verdicts, Asked(**asked), form, surroundings)


def several(rules, captures, verdicts, form=TEXT, interfaces=interface_rows.TWO, **asked):
    """A question about captures, one for each interface."""
    case = interface_rows.case_of("", rules, captures, interfaces)
    return Question(case, verdicts, Asked(**asked), form)


def also_of(name, capture):
    """One more interface of any name."""
    return Also(name, "203.0.113.2/24", capture)


def line_of(words, number=1, time=START):
    """The line that is printed of a packet, by what stands between its time and its number."""
    return f"{time} {words}, packet {number}"


def one(name, rules, frame, verdict, words, **how):
    """A row of one packet as text."""
    return Row(name, question_of(rules, capture_of(frame, **how), verdicts_of(verdict)), text_of(line_of(words)))


def fault(name, question, said, *printed):
    """A row that is refused, with the lines that are printed before."""
    return Row(name, question, text_of(*printed), said)
