"""The command `diff` with files that can't be opened or read, alone and two at once, with captures from standard input,
and with outputs that fail."""

import os
from itertools import combinations_with_replacement
from threading import Thread

from captures.packets import record, udp
from changes.asking import asked, flags, lay_out
from changes.model import NAMES, REFUSED, modelled
from changes.printed import JSON
from changes.row import CAME, FLOW_CAME, TRAFFIC, capture_of, question_of, text_of
from changes.rows_runs import several
from runs.comparison import a_line
from runs.devices import feed
from runs.model import Outcome, cannot_open, failed
from runs.standard_streams import write_all
from steps.translation_words import ASKED, H, P
from workers.pipes import without_reader

OPEN, CLOSED, BAD = "pass no state", "block", "scrub in all"
STANDARD = "-"
CHANGING = question_of(OPEN, CLOSED, capture_of(TRAFFIC))
SAME = question_of(OPEN, OPEN, capture_of(TRAFFIC))
BROKEN = question_of(OPEN, BAD, capture_of(TRAFFIC))
CUT = CHANGING._replace(case=CHANGING.case._replace(capture=CHANGING.case.capture[:-1]))
TOO_LONG = CHANGING._replace(case=CHANGING.case._replace(capture=CHANGING.case.capture + record(1, 0, b"", 262145)))
# of which the new ruleset names another interface alone
WARNED = question_of(OPEN, f"{CLOSED} on em1\n{OPEN}", capture_of(TRAFFIC), is_quiet=False)
TWO = several("", OPEN, f"{OPEN}\nblock on em1",
              [capture_of([(1, ASKED)]), capture_of([(2, ASKED), (3, CAME)])]).question
# flows whose lines are written in several pieces
MANY = question_of(OPEN, CLOSED, capture_of([udp(H, port, P, 53) for port in range(5000)]))
UNWRITTEN = failed("write failed: standard output")
UNREAD = failed("read failed, committed 0")
NOWHERE = "nowhere/file"
PIECES = (1, 7, 24, 1000)


def refused(said):
    return Outcome(b"", f"pfreplay: {said}\n".encode(), REFUSED)


# Faults in their order

# in the order in which they are told
THINGS = ("words", "old file", "new file", "old ruleset", "new ruleset", "capture file", "capture")
# of which of these two comes first nothing is said
UNORDERED = {"new file", "old ruleset"}


def spoilt(things):
    """What the command is asked where these things are spoilt: the question, and the names of the files."""
    question = question_of(BAD if "old ruleset" in things else OPEN, BAD if "new ruleset" in things else CLOSED,
                           CHANGING.case.capture[:23] if "capture" in things else CHANGING.case.capture)
    old, new = (NOWHERE + name if f"{name} file" in things else name for name in NAMES)
    return question, NOWHERE if "capture file" in things else "capture", (old, new)


def told_first(things, seen, names):
    """What is left where these things are spoilt."""
    first = min(things, key=THINGS.index)
    if first == "words":
        return Outcome(b"", a_line(seen, b"pfreplay: "), REFUSED)
    if first.endswith("file"):
        return cannot_open(dict(zip(THINGS[1:3], names)).get(first, NOWHERE))
    if first == "capture":
        return refused("capture: header cut")
    return refused(f"rules {first.split()[0]} line 1: left out: scrub")


def in_order(comparison):
    """Each thing that can be spoilt alone, and each two at once."""
    for things in map(set, combinations_with_replacement(THINGS, 2)):
        if things == UNORDERED:
            continue
        question, capture, names = spoilt(things)
        lay_out(comparison, question)
        words = ["diff", capture, *names, *flags(comparison, question), *["--count"] * ("words" in things)]
        seen = comparison.execute(words, home=comparison.folder)
        comparison.expect(f"spoilt: {', '.join(sorted(things))}", told_first(things, seen, names), seen)


def without_warnings(comparison):
    """Where warnings aren't left out, files that can't be opened or read are told alone."""
    lay_out(comparison, WARNED)
    for capture, names, expected in ((NOWHERE, NAMES, cannot_open(NOWHERE)),
                                     ("capture", (NOWHERE, "new"), cannot_open(NOWHERE)),
                                     ("capture", ("old", NOWHERE), cannot_open(NOWHERE)), (".", NAMES, UNREAD)):
        comparison.expect(f"warnings and {capture}, {names}", expected,
                          asked(comparison, WARNED, capture, names=names))


# Files of other kinds and names

def odd_files(comparison):
    """Folders, devices and names in place of files."""
    lay_out(comparison, CHANGING)
    (comparison.folder / "link").symlink_to("old")
    for name in (".", "old/below", "", str(comparison.folder)):
        for names in ((name, "new"), ("old", name)):
            comparison.expect(f"rulesets from {names}", cannot_open(name), asked(comparison, CHANGING, names=names))
    for name in ("old/below", ""):
        comparison.expect(f"a capture from {name!r}", cannot_open(name), asked(comparison, CHANGING, name))
    comparison.expect("a folder as the capture", UNREAD, asked(comparison, CHANGING, "."))
    comparison.expect("an empty capture", refused("capture: header cut"), asked(comparison, CHANGING, "/dev/null"))
    none = modelled(CHANGING._replace(new=b""))
    comparison.expect("a ruleset from nowhere", none, asked(comparison, CHANGING, names=("old", "/dev/null")))
    unchanged = Outcome(text_of("0 of 4 packets change"), b"", 0)
    for names in (("old", "old"), ("old", "./old"), ("link", "old"), ("/dev/null", "/dev/null")):
        comparison.expect(f"one ruleset as {names}", unchanged, asked(comparison, CHANGING, names=names))
    (comparison.folder / "link").unlink()


def of_two(comparison):
    """The second capture is missing, a folder, or the first one again."""
    lay_out(comparison, TWO)
    for name, expected in ((NOWHERE, cannot_open(NOWHERE)), (".", failed("read failed: em1, committed 0"))):
        comparison.expect(f"the second capture from {name}", expected, asked(comparison, TWO, others=[name]))
    case = TWO.case
    twice = TWO._replace(case=case._replace(also=(case.also[0]._replace(capture=case.capture),)))
    comparison.expect("one capture for both", modelled(twice), asked(comparison, TWO, others=["capture"]))


def rulesets_by_a_sign(comparison):
    """`-` in the place of a ruleset is a file of that name."""
    for names in ((STANDARD, "new"), ("old", STANDARD)):
        lay_out(comparison, CHANGING)
        comparison.expect(f"no file for {names}", cannot_open(STANDARD), asked(comparison, CHANGING, names=names))
        for text in (BAD, "block in\n"):
            question = question_of(*(text if name == STANDARD else OPEN for name in names), CHANGING.case.capture)
            lay_out(comparison, question)
            (comparison.folder / STANDARD).write_bytes(text.encode())
            comparison.expect(f"{text!r} for {names}", modelled(question, names),
                              asked(comparison, question, names=names))
            (comparison.folder / STANDARD).unlink()


def included(comparison):
    """A rule of a file that is included stands where that is named."""
    question = question_of('\ninclude "more"\npass out', "pass in\npass out", capture_of([CAME]))
    lay_out(comparison, question)
    (comparison.folder / "more").write_bytes(b"# more\n\nblock in\n")
    words = ["diff", "capture", *NAMES, *flags(comparison, question), "--adapt", "--include", "more=more"]
    seen = comparison.execute(words, home=comparison.folder)
    pair = "block L2 -> pass L1"
    lines = text_of(f"{FLOW_CAME}  {pair}  1 packet, first 1", f"{pair}: 1 packet in 1 flow",
                    "1 of 1 packet change: 1 cause")
    comparison.expect("a file that is included", (lines, 1, True),
                      seen and (seen.out, seen.status, seen.err.startswith(b"old:2:1: note: include: ")))


# Standard input

def piped(octets):
    """The end of a pipe from which bytes can be read."""
    reading, writing = os.pipe()
    Thread(target=write_all, args=(writing, octets), daemon=True).start()
    return reading


def expect_given(comparison, question, place):
    """The capture of a place comes from standard input, of a file and of a pipe."""
    captures = question.case.captures()
    names = ["capture", "capture1"][:len(captures)]
    first, *others = [STANDARD if number == place else name for number, name in enumerate(names)]
    for title, source in (("a file", comparison.folder / names[place]), ("a pipe", piped(captures[place]))):
        with open(source, "rb") as given:
            seen = asked(comparison, question, first, others=others, given=given)
        comparison.expect(f"{names[place]} from standard input, {title}", modelled(question), seen)


def from_standard_input(comparison):
    """A capture from standard input, alone and as one of two."""
    for question in (CHANGING, SAME, BROKEN, TWO):
        lay_out(comparison, question)
        for place, _ in enumerate(question.case.captures()):
            expect_given(comparison, question, place)


def odd_standard_inputs(comparison):
    """Nothing, a folder and a file of the name of the sign."""
    lay_out(comparison, CHANGING)
    comparison.expect("nothing on standard input", refused("capture: header cut"),
                      asked(comparison, CHANGING, STANDARD))
    opened = os.open(comparison.folder, os.O_RDONLY)
    comparison.expect("a folder on standard input", UNREAD, asked(comparison, CHANGING, STANDARD, given=opened))
    os.close(opened)
    (comparison.folder / STANDARD).write_bytes(CHANGING.case.capture)
    comparison.expect("a file of that name", modelled(CHANGING), asked(comparison, CHANGING, "./-"))
    (comparison.folder / STANDARD).unlink()


def in_pieces(comparison):
    """Captures that come through a pipe in pieces, whole and cut."""
    pipe = comparison.folder / "pipe"
    for question, lengths in ((MANY, (1000,)), (CHANGING, PIECES), (CUT, PIECES)):
        lay_out(comparison, question)
        for length in lengths:
            os.mkfifo(pipe)
            Thread(target=feed, args=(pipe, question.case.capture, length), daemon=True).start()
            comparison.expect(f"a capture in pieces of {length}", modelled(question),
                              asked(comparison, question, pipe.name))
            pipe.unlink()


# Outputs

def outputs(comparison):
    """A full disk in the place of standard output, and a pipe that nobody reads."""
    for name, question in (("changes", CHANGING), ("no change", SAME), ("many flows", MANY), ("a refusal", BROKEN),
                           ("JSON of no change", SAME._replace(form=JSON)),
                           ("JSON of many flows", MANY._replace(form=JSON))):
        lay_out(comparison, question)
        answer = modelled(question)
        comparison.expect(f"{name}, printed", answer, asked(comparison, question))
        expected = UNWRITTEN if answer.out else answer
        with open("/dev/full", "wb") as full:
            comparison.expect(f"{name} to a full disk", expected, asked(comparison, question, out=full))
        with without_reader() as gone:
            comparison.expect(f"{name} that nobody reads", expected, asked(comparison, question, out=gone))


def warned_outputs(comparison):
    """Warnings come before an answer, so they are told before a write that fails. They may fail to be told as well."""
    lay_out(comparison, WARNED)
    answer = modelled(WARNED)
    comparison.expect("warnings, printed", answer, asked(comparison, WARNED))
    with open("/dev/full", "wb") as full:
        comparison.expect("warnings, and an answer to a full disk",
                          UNWRITTEN._replace(err=answer.err + UNWRITTEN.err), asked(comparison, WARNED, out=full))
        comparison.expect("warnings to a full disk", answer._replace(err=b""), asked(comparison, WARNED, err=full))


def compare(comparison):
    for part in (in_order, without_warnings, odd_files, of_two, rulesets_by_a_sign, included, from_standard_input,
                 odd_standard_inputs, in_pieces, outputs, warned_outputs):
        part(comparison)
