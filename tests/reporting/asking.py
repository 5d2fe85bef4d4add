"""The command `report` on the files of a question, and what it may answer.

The files stand in the folder of a comparison, in which the program is run. So what is said of one has a short name.
"""

from changes.asking import adapting
from reporting.model import answers
from reporting.page import octets_of
from reporting.reading import read
from showing import asking
from showing.asking import CAPTURE, LINES, expect_one_of, interface_words, paired, without_remarks
from showing.model import NAME

LEFT, QUIET = "left", "--quiet"


def lay_out(comparison, question):
    """Writes the files of a question, and no others."""
    asking.lay_out(comparison, question.shown)
    (comparison.folder / LEFT).unlink(missing_ok=True)
    if question.states is not None:
        (comparison.folder / LEFT).write_bytes(question.states)


def flags(comparison, question, others=None, states=LEFT, is_quiet=True):
    """All flags of a question, maybe with other names for the captures of its other interfaces and for its states, and
    maybe without the one that leaves warnings out."""
    captures = others or [capture.name for capture in comparison.other_captures]
    given = [] if question.states is None else [f"--states={states}"]
    return [*paired(interface_words(question.shown, captures)), *given, *adapting(question.surroundings),
            *[QUIET] * is_quiet]


def command_of(program, folder, question):
    """The whole command, with its files in a folder; values stand behind their flags."""
    captures = [folder / name for name in question.captures()[1:]]
    given = [] if question.states is None else ["--states", folder / LEFT]
    return list(map(str, [program, "report", *(folder / name for name in (CAPTURE, LINES, NAME)),
                          *interface_words(question.shown, captures), *given, QUIET]))


def asked(comparison, question, capture=CAPTURE, lines=LINES, rules=NAME, others=None, states=LEFT, is_quiet=True,
          **how):
    """What the command answers to a question, whose files are there; maybe by other names."""
    words = ["report", capture, lines, rules, *flags(comparison, question, others, states, is_quiet)]
    return comparison.execute(words, home=comparison.folder, **how)


def page_read(out):
    """The page that was printed."""
    return read(out)[0]


def as_read(seen):
    """An outcome with what its page says in the place of the page."""
    if seen is None or seen.status or not seen.out:
        return seen
    page, faults = read(seen.out)
    return seen._replace(out=b"".join(f"{fault}\n".encode() for fault in faults) if page is None else
                         octets_of(page, faults))


def expect_answer(comparison, name, question, seen, names=None, is_quiet=True):
    """What is seen is one of the outcomes that are right for a question."""
    told = as_read(without_remarks(seen, question.shown.remarks(*([names.rules] if names else []))))
    expect_one_of(comparison, name, answers(question, names, is_quiet), told)
