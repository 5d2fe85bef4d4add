"""What the command `diff` leaves, made of two runs: a second implementation, written from docs/FORMATS.md, section
"What another ruleset changes".

The runs replay the same captures, one by each ruleset. Their lines are joined packet by packet:

- It is told which packets change (`changes.decisions`), and which of them are causes (`changes.causes`): a line for
  each cause, and one for each pair of decisions.
- Packets that aren't judged, or not as the firewall would judge them, are counted (`changes.unjudged`). So are the
  differences between the rulesets that no packet could have asked (`changes.untried`). If no packet changes, the status
  depends on both.
- All of this is printed as text or as JSON (`changes.printed`).
- Before that it is said what may not fit, unless that is left out (`changes.warned`).

What refuses a run refuses the command, with another status. Of the two rulesets the first one that is refused is told,
before anything of a capture is.
"""

from typing import NamedTuple

from adapt.surroundings import Surroundings
from changes import adapted, unjudged, untried
from changes.causes import cause_lines, pair_lines, traced
from changes.decisions import changes_of
from changes.printed import TEXT, All, printed
from changes.warned import warned
from runs import model as runs_model
from runs.case import Case
from runs.model import Outcome

NOTHING_CHANGES, SOMETHING_CHANGES, REFUSED, UNJUDGED = 0, 1, 2, 5
# the statuses of a run that was refused, and of one whose capture is cut
RUN_REFUSED, RUN_CUT = 1, 2
OF_RULESET = b"pfreplay: rules "
# the files of the rulesets, if no others are named
NAMES = ("old", "new")


class Question(NamedTuple):
    """What the command is asked: the run by the old ruleset, the text of the new one, whether verdicts alone count,
    with what both texts are adapted, if they are, how the answer is printed, and whether warnings are left out."""
    case: Case
    new: bytes
    by_verdict: bool = False
    surroundings: Surroundings | None = None
    form: str = TEXT
    is_quiet: bool = True

    def read(self):
        """What is run of both files."""
        return [adapted.read(text, self.surroundings) for text in (self.case.rules, self.new)]

    def cases(self):
        """The runs by both rulesets."""
        return [self.case._replace(rules=each.text) for each in self.read()]

    def swapped(self):
        """The same with the rulesets in each other's place."""
        return self._replace(case=self.case._replace(rules=self.new), new=self.case.rules)

    def remarks(self, names=NAMES):
        """How the lines begin that say what was rewritten."""
        return [f"{name}:{line}".encode("latin-1") for name, each in zip(names, self.read()) for line in each.said]


# The command

def refusal(old, new, names):
    """What is left if one of both runs was refused, or None. A ruleset is refused before a capture is."""
    for outcome, name in zip((old, new), names):
        if outcome.err.startswith(OF_RULESET):
            return Outcome(b"", OF_RULESET + f"{name} ".encode() + outcome.err.removeprefix(OF_RULESET), REFUSED)
    return Outcome(b"", old.err, REFUSED) if old.status == RUN_REFUSED else None


def status_of(packets, kinds):
    """The status, by what is told of all packets, and by the kinds of those that aren't judged."""
    if packets.changed:
        return SOMETHING_CHANGES
    is_open = packets.differences or unjudged.leaves_open(kinds, packets.packets)
    return UNJUDGED if is_open else NOTHING_CHANGES


def lines_of(question, old, new, kinds, tried):
    """All lines about two runs: the kinds of packets that aren't judged, and what no packet tried."""
    found = traced(changes_of(question, old, new))
    causes = cause_lines(found)
    count = old.files.verdicts.count(b"\n")
    return [*causes, *pair_lines(found), *tried.lines, unjudged.line_of(kinds),
            All(len(found), count, len(causes), tried.count, old.status == RUN_CUT)]


def answer(question, old, new, names=NAMES):
    """What the command leaves, by what the runs by both rulesets left. The names are those of the rulesets' files."""
    refused = refusal(old, new, names)
    if refused:
        return refused
    kinds, tried = unjudged.found(question.case.captures(), old, new), untried.untried(question, old, new)
    lines = lines_of(question, old, new, kinds, tried)
    said = b"" if question.is_quiet else warned(question.case, question.read()[1].text, new)
    return Outcome(printed(question.form, lines), said, status_of(lines[-1], kinds))


def modelled(question, names=NAMES):
    """The same, by what the model says of both runs."""
    return answer(question, *map(runs_model.run, question.cases()), names)
