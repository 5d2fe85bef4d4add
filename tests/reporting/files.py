"""The command `report` with files that can't be opened or read, alone and two at once, with files of odd names, with
files from standard input, and with outputs that fail."""

import os
import subprocess
from itertools import combinations_with_replacement
from threading import Thread

from changes.files import piped
from reporting.asking import LEFT, as_read, asked, expect_answer, flags, lay_out
from reporting.model import Names, Question, answer
from reporting.row import ONE
from reporting.rows_states import states_of
from runs.devices import feed
from runs.model import cannot_open, failed, refused
from showing import files as showing_files
from showing.asking import CAPTURE, LINES, STANDARD, expect_one_of
from showing.files import BAD, NOWHERE, UNORDERED, UNREAD, UNWRITTEN
from showing.model import NAME
from workers.pipes import without_reader

STATELESS = ONE
WITH_STATES = ONE._replace(states=states_of(0, 0, 0))
TWO, BROKEN, CUT, LACKING, MANY = (Question(each) for each in (
    showing_files.TWO, showing_files.BROKEN, showing_files.CUT, showing_files.LACKING, showing_files.MANY))
PIECES = (1, 7, 1000)
# names of files, which stand on the page
ODD_NAMES = (("<b>&amp;\"'</b>", "</title><script>"), (b"r\xc2\x85\xef\xbf\xbe", b"c\x01\xef\xbb\xbf"),
             ("two words", "\u00e9\u20ac"), ("a\tb", "a\nb"), ("-x", "--x"))


# Faults in their order

# in the order in which they are told
THINGS = ("words", "rules file", "ruleset", "capture file", "lines file", "states file", "capture", "lines", "states")
# the formats don't say when the states are looked at behind the ruleset
OF_STATES, BEHIND = {"states file", "states"}, {*THINGS[3:]}


def spoilt(things):
    """What the command is asked where these things are spoilt: the question, and the names of its files."""
    case = ONE.case._replace(rules=BAD.encode() if "ruleset" in things else ONE.case.rules,
                             capture=ONE.case.capture[:23] if "capture" in things else ONE.case.capture)
    shown = ONE.shown._replace(case=case, verdicts=b"x\n" if "lines" in things else ONE.shown.verdicts)
    named = ((CAPTURE, "capture file"), (LINES, "lines file"), (NAME, "rules file"), (LEFT, "states file"))
    return (Question(shown, b"x\n" if "states" in things else WITH_STATES.states),
            [NOWHERE + name if thing in things else name for name, thing in named])


def are_unordered(things):
    """Whether the formats don't say which of two things is told first."""
    return things <= UNORDERED or things <= BEHIND and bool(things & OF_STATES)


def told_of(thing, seen):
    """What is left where a thing is spoilt alone."""
    of_states = {"states file": cannot_open(NOWHERE + LEFT), "states": refused("states line 1: no state")}
    return of_states.get(thing) or showing_files.told_of(thing, seen)


def in_order(comparison):
    """Each thing that can be spoilt alone, and each two at once. Nothing is said besides."""
    for things in map(set, combinations_with_replacement(THINGS, 2)):
        question, (*names, states) = spoilt(things)
        lay_out(comparison, question)
        more = ["--warn"] if "words" in things else []
        words = ["report", *names, *flags(comparison, question, states=states, is_quiet=False), *more]
        seen = comparison.execute(words, home=comparison.folder)
        first = sorted(things, key=THINGS.index)[:2 if are_unordered(things) else 1]
        expect_one_of(comparison, f"spoilt: {', '.join(sorted(things))}", [told_of(each, seen) for each in first], seen)


# Files of other kinds and names

def odd_files(comparison):
    """Folders, devices and names in place of files."""
    question = WITH_STATES
    lay_out(comparison, question)
    for name in (".", "rules/below", "", str(comparison.folder)):
        comparison.expect(f"the ruleset from {name!r}", cannot_open(name), asked(comparison, question, rules=name))
        comparison.expect(f"states from {name!r}", cannot_open(name), asked(comparison, question, states=name))
    for name in ("rules/below", "", NOWHERE):
        comparison.expect(f"a capture from {name!r}", cannot_open(name), asked(comparison, question, name))
        comparison.expect(f"lines from {name!r}", cannot_open(name), asked(comparison, question, lines=name))
    comparison.expect("a folder as the capture", UNREAD, asked(comparison, question, "."))
    comparison.expect("a folder as the lines", failed("cannot read: ."), asked(comparison, question, lines="."))
    comparison.expect("an empty capture", refused("capture: header cut"), asked(comparison, question, "/dev/null"))
    comparison.expect("lines from nowhere", refused("packet 1: no line of verdicts"),
                      asked(comparison, question, lines="/dev/null"))
    comparison.expect("a ruleset from nowhere", refused("packet 1: not of this ruleset"),
                      asked(comparison, question, rules="/dev/null"))
    expect_answer(comparison, "states from nowhere", question._replace(states=b""),
                  asked(comparison, question, states="/dev/null"))
    comparison.expect("lines as the states", refused("states line 1: no state"),
                      asked(comparison, question, states=LINES))


def odd_names(comparison):
    """Names that stand on the page, of which each character is shown."""
    for rules, capture in ODD_NAMES:
        lay_out(comparison, ONE)
        home = os.fsencode(comparison.folder) + b"/"
        names = []
        for name, octets in ((rules, ONE.case.rules), (capture, ONE.case.capture)):
            names.append("./" + os.fsdecode(name).replace("/", "|"))
            with open(home + os.fsencode(names[-1]), "wb") as file:
                file.write(octets)
        seen = asked(comparison, ONE, names[1], rules=names[0])
        expect_answer(comparison, f"the names {names}", ONE, seen, Names((names[1],), names[0]))


def of_two(comparison):
    """The second capture is missing, or a folder."""
    lay_out(comparison, TWO)
    for name, expected in showing_files.OF_TWO:
        comparison.expect(f"the second capture from {name}", expected, asked(comparison, TWO, others=[name]))


def ruleset_by_a_sign(comparison):
    """`-` in the place of the ruleset is a file of that name."""
    lay_out(comparison, ONE)
    comparison.expect("no file of that name", cannot_open(STANDARD), asked(comparison, ONE, rules=STANDARD))
    (comparison.folder / STANDARD).write_bytes(ONE.case.rules)
    expect_answer(comparison, "a ruleset of that name", ONE, asked(comparison, ONE, rules=STANDARD),
                  Names(ONE.captures(), STANDARD))
    (comparison.folder / STANDARD).unlink()


# Standard input

def expect_given(comparison, question, name):
    """A file of this name comes from standard input, of a file and of a pipe. Its sign stands on the page."""
    octets = (comparison.folder / name).read_bytes()
    captures = [STANDARD if each == name else each for each in question.captures()]
    words = {LINES: {"lines": STANDARD}, LEFT: {"states": STANDARD}, CAPTURE: {"capture": STANDARD}}.get(
        name, {"others": captures[1:]})
    for title, source in (("a file", comparison.folder / name), ("a pipe", piped(octets))):
        with open(source, "rb") as given:
            seen = asked(comparison, question, given=given, **words)
        expect_answer(comparison, f"{name} from standard input, {title}", question, seen, Names(tuple(captures)))


def from_standard_input(comparison):
    for question, names in ((WITH_STATES, (CAPTURE, LINES, LEFT)), (TWO, (CAPTURE, LINES, "capture1")),
                            (BROKEN, (CAPTURE, LINES)), (CUT, (CAPTURE, LINES)), (LACKING, (CAPTURE, LINES)),
                            (MANY, (CAPTURE, LINES)), (WITH_STATES._replace(states=b"x\n"), (LEFT,)),
                            (WITH_STATES._replace(states=states_of(*range(3000))), (LEFT,))):
        lay_out(comparison, question)
        for name in names:
            expect_given(comparison, question, name)


def odd_standard_inputs(comparison):
    """Nothing, a folder and files of the name of the sign."""
    question = WITH_STATES
    lay_out(comparison, question)
    comparison.expect("no capture on standard input", refused("capture: header cut"),
                      asked(comparison, question, STANDARD))
    comparison.expect("no lines on standard input", refused("packet 1: no line of verdicts"),
                      asked(comparison, question, lines=STANDARD))
    expect_answer(comparison, "no states on standard input", question._replace(states=b""),
                  asked(comparison, question, states=STANDARD))
    for names, expected in (({"capture": STANDARD}, UNREAD), ({"states": STANDARD}, cannot_open(STANDARD)),
                            ({"lines": STANDARD}, failed(f"cannot read: {STANDARD}"))):
        opened = os.open(comparison.folder, os.O_RDONLY)
        comparison.expect(f"a folder on standard input as {names}", expected,
                          asked(comparison, question, given=opened, **names))
        os.close(opened)
    (comparison.folder / STANDARD).write_bytes(question.states)
    expect_answer(comparison, "a file of that name", question, asked(comparison, question, states="./-"))
    (comparison.folder / STANDARD).unlink()


def in_pieces(comparison):
    """A capture, lines or states that come through a pipe in pieces."""
    pipe = comparison.folder / "pipe"
    for question, lengths in ((MANY, (1000,)), (WITH_STATES, PIECES), (CUT, PIECES), (LACKING, PIECES)):
        lay_out(comparison, question)
        given = [("capture", question.case.capture), ("lines", question.shown.verdicts),
                 *([] if question.states is None else [("states", question.states)])]
        for length in lengths:
            for word, octets in given:
                os.mkfifo(pipe)
                Thread(target=feed, args=(pipe, octets, length), daemon=True).start()
                names = Names((pipe.name if word == "capture" else CAPTURE,))
                expect_answer(comparison, f"{word} in pieces of {length}", question,
                              asked(comparison, question, **{word: pipe.name}), names)
                pipe.unlink()


def behind_a_run(comparison):
    """The lines, or the states, come from a run as it writes them."""
    for question, flag in ((MANY, "verdicts"), (MANY._replace(states=b""), "states")):
        lay_out(comparison, question)
        outputs = {name: "/dev/null" for name in ("verdicts", "packets", "counters", "states")}
        words = ["run", CAPTURE, NAME, "--interface", "em0", "--address", "192.0.2.1/24", "--inside", "10.0.0.0/8",
                 *(word for name, file in {**outputs, flag: STANDARD}.items() for word in (f"--{name}", file))]
        with subprocess.Popen([comparison.program, *words], cwd=comparison.folder, stdin=subprocess.DEVNULL,
                              stdout=subprocess.PIPE, stderr=subprocess.DEVNULL) as run:
            seen = asked(comparison, question, given=run.stdout,
                         **{"lines" if flag == "verdicts" else "states": STANDARD})
        expect_answer(comparison, f"behind a run, {flag}", question, seen)


# Outputs

def outputs(comparison):
    """A full disk in the place of standard output, and a pipe that nobody reads. A refusal may be told as well."""
    for name, question in (("a page", WITH_STATES), ("a page of many packets", MANY), ("a refused ruleset", BROKEN),
                           ("a line too few", LACKING), ("a page of a cut capture", CUT),
                           ("a refused state", WITH_STATES._replace(states=b"x\n"))):
        lay_out(comparison, question)
        whole = answer(question)
        comparison.expect(f"{name}, printed", whole, as_read(asked(comparison, question)))
        allowed = [whole] if whole.status else [UNWRITTEN]
        with open("/dev/full", "wb") as full:
            expect_one_of(comparison, f"{name} to a full disk", allowed, asked(comparison, question, out=full))
        with without_reader() as gone:
            expect_one_of(comparison, f"{name} that nobody reads", allowed, asked(comparison, question, out=gone))
    lay_out(comparison, WITH_STATES)
    with open("/dev/full", "wb") as full:
        seen = asked(comparison, WITH_STATES, is_quiet=False, out=full)
    comparison.expect("warnings, and a page to a full disk",
                      UNWRITTEN._replace(err=answer(WITH_STATES, is_quiet=False).err + UNWRITTEN.err), seen)


def again(comparison):
    """The same question has the same page."""
    for question in (WITH_STATES, MANY, TWO):
        lay_out(comparison, question)
        comparison.expect("the same page again", asked(comparison, question), asked(comparison, question))


def compare(comparison):
    for part in (in_order, odd_files, odd_names, of_two, ruleset_by_a_sign, from_standard_input, odd_standard_inputs,
                 in_pieces, behind_a_run, outputs, again):
        part(comparison)
