"""The command `diff` on the files of a question, and the runs by both rulesets.

The files stand in the folder of a comparison, in which the program is run. So what is said of one has a short name.
"""

from changes.model import NAMES
from changes.printed import TEXT
from runs.comparison import flags_of
from runs.model import NONE, UNTOUCHED

CAPTURE = "capture"


def lay_out(comparison, question):
    """Writes the files of a question, and no others."""
    comparison.prepare(question.case)
    comparison.prepare()
    for name, text in zip(NAMES, (question.case.rules, question.new)):
        (comparison.folder / name).write_bytes(text)


def also_of(question, captures):
    """The flags of the other interfaces, each with its value."""
    return [word for each, capture in zip(question.case.also, captures)
            for word in ("--also", f"{each.name},{each.address},{capture}")]


def adapting(surroundings):
    """The flags that adapt both rulesets. Those that name files aren't among them."""
    if surroundings is None:
        return []
    return ["--adapt", *(word for name, address in surroundings.interfaces
                         for word in ("--interface-address", f"{name}={address}"))]


def flags(comparison, question, others=None):
    """All flags of a question, maybe with other names for the captures of its other interfaces."""
    captures = others or [capture.name for capture in comparison.other_captures]
    printing = [] if question.form == TEXT else ["--format", question.form]
    return [*flags_of(question.case, UNTOUCHED), *also_of(question, captures), *["--verdicts"] * question.by_verdict,
            *["--quiet"] * question.is_quiet, *printing, *adapting(question.surroundings)]


def asked(comparison, question, capture=CAPTURE, names=NAMES, others=None, **how):
    """What the command answers to a question, whose files are there; maybe by other names."""
    words = ["diff", capture, *names, *flags(comparison, question, others)]
    return comparison.execute(words, home=comparison.folder, **how)


def runs_of(comparison, question):
    """What the program's runs by both rulesets leave."""
    outcomes = []
    for case in question.cases():
        comparison.prepare(case)
        outcomes.append(comparison.replay(case, NONE))
    return outcomes
