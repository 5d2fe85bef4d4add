"""The command `show` with files that can't be opened or read, alone and two at once, with files from standard input,
and with outputs that fail."""

import os
import subprocess
from itertools import combinations_with_replacement
from threading import Thread

from changes.files import piped
from runs.comparison import a_line
from runs.devices import feed
from runs.model import Outcome, cannot_open, failed, refused
from showing.asking import CAPTURE, LINES, STANDARD, asked, expect_one_of, flags, lay_out
from showing.model import COUNT, FORMS, JSON, NAME, PFLOG, answer
from showing.row import BLOCK, BLOCKED, KNOCK, capture_of, question_of, several, text_of, verdicts_of
from workers.pipes import without_reader

BAD = "scrub in all"
ONE = question_of(BLOCK, capture_of(*[KNOCK] * 3), verdicts_of(*[BLOCKED] * 3))
TWO = several(BLOCK, [capture_of((1, KNOCK)), capture_of((2, KNOCK))], text_of(
    f"1 1 {BLOCKED} i=em0", f"2 2 {BLOCKED} i=em1"))
# more is printed of it than is written at once
MANY = question_of(BLOCK, capture_of(*[KNOCK] * 2000), verdicts_of(*[BLOCKED] * 2000))
BROKEN = ONE._replace(case=ONE.case._replace(rules=BAD.encode()))
CUT = ONE._replace(case=ONE.case._replace(capture=ONE.case.capture + b"\0"))
LACKING = ONE._replace(verdicts=ONE.verdicts[:-1])
UNWRITTEN = failed("write failed: standard output")
UNREAD = failed("read failed, committed 0")
NOWHERE = "nowhere/file"
# names for the second of two captures, with what is left
OF_TWO = ((NOWHERE, cannot_open(NOWHERE)), (".", failed("read failed: em1, committed 0")))
PIECES = (1, 7, 24, 1000)


# Faults in their order

# in the order in which they are told
THINGS = ("words", "rules file", "ruleset", "capture file", "lines file", "capture", "lines")
# two of which the formats don't say which one is told first
UNORDERED = {"capture file", "lines file", "capture"}


def spoilt(things):
    """What the command is asked where these things are spoilt: the question, and the names of its files."""
    case = ONE.case._replace(rules=BAD.encode() if "ruleset" in things else ONE.case.rules,
                             capture=ONE.case.capture[:23] if "capture" in things else ONE.case.capture)
    question = ONE._replace(case=case, verdicts=b"x\n" if "lines" in things else ONE.verdicts)
    named = ((CAPTURE, "capture file"), (LINES, "lines file"), (NAME, "rules file"))
    return question, [NOWHERE + name if thing in things else name for name, thing in named]


def told_of(thing, seen):
    """What is left where a thing is spoilt alone."""
    return {"words": Outcome(b"", a_line(seen, b"pfreplay: "), 1), "rules file": cannot_open(NOWHERE + NAME),
            "ruleset": refused("rules line 1: left out: scrub"), "capture file": cannot_open(NOWHERE + CAPTURE),
            "lines file": cannot_open(NOWHERE + LINES), "capture": refused("capture: header cut"),
            "lines": refused("packet 1: no line of verdicts")}[thing]


def in_order(comparison):
    """Each thing that can be spoilt alone, and each two at once."""
    for things in map(set, combinations_with_replacement(THINGS, 2)):
        question, names = spoilt(things)
        lay_out(comparison, question)
        more = ["--quiet"] if "words" in things else []
        seen = comparison.execute(["show", *names, *flags(comparison, question), *more], home=comparison.folder)
        first = sorted(things, key=THINGS.index)[:2 if things < UNORDERED else 1]
        expect_one_of(comparison, f"spoilt: {', '.join(sorted(things))}", [told_of(each, seen) for each in first], seen)


# Files of other kinds and names

def odd_files(comparison):
    """Folders, devices and names in place of files."""
    lay_out(comparison, ONE)
    for name in (".", "rules/below", "", str(comparison.folder)):
        comparison.expect(f"the ruleset from {name!r}", cannot_open(name), asked(comparison, ONE, rules=name))
    for name in ("rules/below", "", NOWHERE):
        comparison.expect(f"a capture from {name!r}", cannot_open(name), asked(comparison, ONE, name))
        comparison.expect(f"lines from {name!r}", cannot_open(name), asked(comparison, ONE, lines=name))
    for name in (".", str(comparison.folder)):
        comparison.expect(f"a folder as the capture, {name}", UNREAD, asked(comparison, ONE, name))
        comparison.expect(f"a folder as the lines, {name}", failed(f"cannot read: {name}"),
                          asked(comparison, ONE, lines=name))
    comparison.expect("an empty capture", refused("capture: header cut"), asked(comparison, ONE, "/dev/null"))
    comparison.expect("lines from nowhere", refused("packet 1: no line of verdicts"),
                      asked(comparison, ONE, lines="/dev/null"))
    comparison.expect("a ruleset from nowhere", refused("packet 1: not of this ruleset"),
                      asked(comparison, ONE, rules="/dev/null"))
    comparison.expect("a capture as the lines", refused("packet 1: no line of verdicts"),
                      asked(comparison, ONE, lines=CAPTURE))
    comparison.expect("lines as the capture", refused("capture: bad magic"), asked(comparison, ONE, LINES))
    (comparison.folder / "link").symlink_to(LINES)
    for name in ("link", f"./{LINES}", f"../{comparison.folder.name}/{LINES}"):
        comparison.expect(f"lines as {name}", answer(ONE), asked(comparison, ONE, lines=name))
    (comparison.folder / "link").unlink()


def of_two(comparison):
    """The second capture is missing, or a folder."""
    lay_out(comparison, TWO)
    for name, expected in OF_TWO:
        comparison.expect(f"the second capture from {name}", expected, asked(comparison, TWO, others=[name]))


def ruleset_by_a_sign(comparison):
    """`-` in the place of the ruleset is a file of that name."""
    lay_out(comparison, ONE)
    comparison.expect("no file of that name", cannot_open(STANDARD), asked(comparison, ONE, rules=STANDARD))
    (comparison.folder / STANDARD).write_bytes(ONE.case.rules)
    comparison.expect("a ruleset of that name", answer(ONE), asked(comparison, ONE, rules=STANDARD))
    (comparison.folder / STANDARD).unlink()


def included(comparison):
    """A rule of a file that is included stands where that is named, and says `log` there."""
    question = question_of('\ninclude "more"\npass out', capture_of(KNOCK), verdicts_of(BLOCKED), logged=True)
    lay_out(comparison, question)
    (comparison.folder / "more").write_bytes(b"# more\n\nblock in log (all)\n")
    words = ["show", CAPTURE, LINES, NAME, *flags(comparison, question), "--adapt", "--include", "more=more"]
    seen = comparison.execute(words, home=comparison.folder)
    expected = answer(question_of("\nblock in log", capture_of(KNOCK), verdicts_of(BLOCKED)))
    comparison.expect("a file that is included", (expected.out, 0, True),
                      seen and (seen.out, seen.status, b"rules:2:1: note: include: " in seen.err))


# Standard input

def expect_given(comparison, question, name):
    """A file of this name comes from standard input, of a file and of a pipe."""
    octets = (comparison.folder / name).read_bytes()
    names = {"capture": STANDARD} if name == CAPTURE else {"lines": STANDARD} if name == LINES else {
        "others": [STANDARD]}
    for title, source in (("a file", comparison.folder / name), ("a pipe", piped(octets))):
        with open(source, "rb") as given:
            seen = asked(comparison, question, given=given, **names)
        comparison.expect(f"{name} from standard input, {title}", answer(question), seen)


def from_standard_input(comparison):
    for question, names in ((ONE, (CAPTURE, LINES)), (TWO, (CAPTURE, LINES, "capture1")), (BROKEN, (CAPTURE, LINES)),
                            (CUT, (CAPTURE, LINES)), (LACKING, (CAPTURE, LINES)), (MANY, (CAPTURE, LINES)),
                            (ONE._replace(form=PFLOG), (CAPTURE, LINES)), (ONE._replace(form=COUNT), (CAPTURE, LINES))):
        lay_out(comparison, question)
        for name in names:
            expect_given(comparison, question, name)


def odd_standard_inputs(comparison):
    """Nothing, a folder and files of the name of the sign."""
    lay_out(comparison, ONE)
    comparison.expect("no capture on standard input", refused("capture: header cut"), asked(comparison, ONE, STANDARD))
    comparison.expect("no lines on standard input", refused("packet 1: no line of verdicts"),
                      asked(comparison, ONE, lines=STANDARD))
    for names, expected in (({"capture": STANDARD}, UNREAD), ({"lines": STANDARD}, failed(f"cannot read: {STANDARD}"))):
        opened = os.open(comparison.folder, os.O_RDONLY)
        comparison.expect(f"a folder on standard input as {names}", expected,
                          asked(comparison, ONE, given=opened, **names))
        os.close(opened)
    for octets, names in ((ONE.case.capture, {"capture": "./-"}), (ONE.verdicts, {"lines": "./-"})):
        (comparison.folder / STANDARD).write_bytes(octets)
        comparison.expect(f"a file of that name, {names}", answer(ONE), asked(comparison, ONE, **names))
        (comparison.folder / STANDARD).unlink()


def in_pieces(comparison):
    """A capture, or lines, that come through a pipe in pieces."""
    pipe = comparison.folder / "pipe"
    for question, lengths in ((MANY, (1000,)), (ONE, PIECES), (CUT, PIECES), (LACKING, PIECES)):
        lay_out(comparison, question)
        for length in lengths:
            for octets, names in ((question.case.capture, {"capture": pipe.name}),
                                  (question.verdicts, {"lines": pipe.name})):
                os.mkfifo(pipe)
                Thread(target=feed, args=(pipe, octets, length), daemon=True).start()
                comparison.expect(f"{names} in pieces of {length}", answer(question),
                                  asked(comparison, question, **names))
                pipe.unlink()


def behind_a_run(comparison):
    """The lines come from a run, as it writes them."""
    for question in (ONE, MANY, MANY._replace(form=COUNT)):
        lay_out(comparison, question)
        words = ["run", CAPTURE, NAME, "--interface", "em0", "--address", "192.0.2.1/24", "--inside", "10.0.0.0/8",
                 "--verdicts", STANDARD, *(word for name in ("packets", "counters", "states")
                                           for word in (f"--{name}", "/dev/null"))]
        with subprocess.Popen([comparison.program, *words], cwd=comparison.folder, stdin=subprocess.DEVNULL,
                              stdout=subprocess.PIPE, stderr=subprocess.DEVNULL) as run:
            seen = asked(comparison, question, lines=STANDARD, given=run.stdout)
        comparison.expect(f"behind a run, {question.form}", answer(question), seen)


# Outputs

def outputs(comparison):
    """A full disk in the place of standard output, and a pipe that nobody reads. A refusal may be told as well."""
    printing = [(form, ONE._replace(form=form)) for form in FORMS]
    nothing = ONE._replace(asked=ONE.asked._replace(rule=7))
    for name, question in (*printing, ("many packets", MANY), ("no packet", nothing), ("a refused ruleset", BROKEN),
                           ("a line too few", LACKING), ("many packets as JSON", MANY._replace(form=JSON))):
        lay_out(comparison, question)
        whole = answer(question)
        comparison.expect(f"{name}, printed", whole, asked(comparison, question))
        allowed = [UNWRITTEN] if whole.out else [whole]
        allowed += [whole._replace(out=b"")] if whole.status else []
        with open("/dev/full", "wb") as full:
            expect_one_of(comparison, f"{name} to a full disk", allowed, asked(comparison, question, out=full))
        with without_reader() as gone:
            expect_one_of(comparison, f"{name} that nobody reads", allowed, asked(comparison, question, out=gone))


def compare(comparison):
    for part in (in_order, odd_files, of_two, ruleset_by_a_sign, included, from_standard_input, odd_standard_inputs,
                 in_pieces, behind_a_run, outputs):
        part(comparison)
