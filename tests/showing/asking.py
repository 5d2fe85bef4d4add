"""The command `show` on the files of a question, and what it may answer.

The files stand in the folder of a comparison, in which the program is run. So what is said of one has a short name.
"""

from adapt.asking import begins_so
from changes.asking import adapting, also_of
from runs.model import NONE
from showing.model import COUNT, NAME, TEXT
from telling.words import network_words

CAPTURE, LINES = "capture", "lines"
STANDARD = "-"


def lay_out(comparison, question):
    """Writes the files of a question, and no others."""
    comparison.prepare(question.case)
    comparison.prepare()
    (comparison.folder / LINES).write_bytes(question.verdicts)


def paired(flags):
    """Flags before each of which a value follows, each as one word. So a value may begin with any sign."""
    return [f"{flag}={value}" for flag, value in zip(flags[::2], flags[1::2])]


def asking_words(asked, form=TEXT):
    """The flags that say which packets are asked for, and how they are printed."""
    words = {"only": asked.only and ",".join(asked.only), "rule": asked.rule, "line": asked.line,
             "host": asked.host and network_words(asked.host), "port": asked.port, "proto": asked.proto}
    printing = ["--count"] if form == COUNT else [] if form == TEXT else ["--format", form]
    return [*(word for flag, value in words.items() if value is not None for word in (f"--{flag}", str(value))),
            *["--logged"] * asked.logged, *printing]


def interface_words(question, captures):
    """The flags of all interfaces, with names for the captures of those behind the first."""
    return ["--interface", question.case.interface, "--address", question.case.address, *also_of(question, captures)]


def flags(comparison, question, others=None):
    """All flags of a question, maybe with other names for the captures of its other interfaces."""
    captures = others or [capture.name for capture in comparison.other_captures]
    return [*paired(interface_words(question, captures)), *asking_words(question.asked, question.form),
            *adapting(question.surroundings)]


def command_of(program, folder, question):
    """The whole command, with its files in a folder; values stand behind their flags."""
    captures = [folder / f"{CAPTURE}{place}" for place, _ in enumerate(question.case.also, 1)]
    words = [program, "show", *(folder / name for name in (CAPTURE, LINES, NAME)), *interface_words(question, captures),
             *asking_words(question.asked, question.form)]
    return list(map(str, words))


def asked(comparison, question, capture=CAPTURE, lines=LINES, rules=NAME, others=None, **how):
    """What the command answers to a question, whose files are there; maybe by other names."""
    words = ["show", capture, lines, rules, *flags(comparison, question, others)]
    return comparison.execute(words, home=comparison.folder, **how)


def without_remarks(seen, told):
    """What is left but for the lines that say what was rewritten; None if they don't begin so."""
    said = seen.err.splitlines(keepends=True) if seen else []
    before, rest = said[:len(told)], b"".join(said[len(told):])
    is_told = len(before) == len(told) and all(map(begins_so, before, told))
    return seen._replace(err=rest) if seen and is_told else None


def expect_one_of(comparison, name, allowed, seen):
    """One of the outcomes that are right, of which the first is shown otherwise."""
    comparison.expect(name, seen if seen in allowed else allowed[0], seen)


def expect_answer(comparison, name, question, allowed):
    """The program answers one of the outcomes that are right for a question."""
    lay_out(comparison, question)
    seen = without_remarks(asked(comparison, question), question.remarks())
    expect_one_of(comparison, name, allowed, seen)


def run_of(comparison, case):
    """What the program's run of a case leaves."""
    comparison.prepare(case)
    return comparison.replay(case, NONE)
