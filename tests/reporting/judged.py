"""Made-up endings of the command `report` under faults. Its judge has to allow the right ones and refuse the others. No
program is needed."""

import tempfile
from pathlib import Path

from faults import made_up
from faults.made_up import Ending, Trial, ending, lost
from faults.replay import ANSWER, CAPTURES, MEMORY
from faults.report import RULES, STATES, VERDICTS, judge, names_of, places, question_of, texts_of
from faults.trial import Seen
from reporting.asking import LEFT, command_of
from reporting.files import BROKEN, LACKING, TWO, WITH_STATES
from reporting.model import answer, page_of
from reporting.row import ONE
from reporting.written import written
from showing.asking import LINES
from showing.judged import BEHIND_TWO, LINE, PACKETS, RECORD, WRITTEN
from showing.model import NAME

FIRST, SECOND = CAPTURES[:2]


def trial_of(folder, question):
    """The run of a question without a fault, whose files are written. A page is one that says what the model tells."""
    for name, capture in zip(question.captures(), question.case.captures()):
        (folder / name).write_bytes(capture)
    for name, octets in ((LINES, question.shown.verdicts), (NAME, question.case.rules), (LEFT, question.states or b"")):
        (folder / name).write_bytes(octets)
    command = command_of("pfreplay", folder, question)
    trial = Trial(command, Seen(0, b"", b""), places(command))
    outcome = answer(question)
    if outcome.status:
        return trial._replace(clean=Seen(outcome.status, b"", outcome.err))
    return trial._replace(clean=Seen(0, page_in(trial), b""))


def page_in(trial, **others):
    """The page of a trial, maybe with other texts in some files."""
    return written(page_of(question_of(trial.command, {**texts_of(trial), **others}), names_of(trial)))


# One capture

def right_endings(trial):
    out, capture = trial.clean.out, len(ONE.case.capture)
    verdicts, rules, states = map(trial.name_of, ("verdicts", "rules", "states"))
    yield ending("memory at first", MEMORY, "no memory, committed 0", 4)
    for name, printed in (("", b""), (" behind a part of the page", out[:99]), (" behind the page", out)):
        yield ending(f"memory{name}", MEMORY, "no memory", 4, printed)
    yield ending("memory that isn't missed", MEMORY, "", 0, out)
    yield ending("the ruleset", RULES, f"cannot open: {rules}", 3, moved=3)
    yield ending("the states", STATES, f"cannot open: {states}", 3, moved=3)
    yield ending("the lines", VERDICTS, f"cannot read: {verdicts}", 3, moved=LINE)
    for moved, count in ((0, 0), (23, 0), (24, 0), (23 + RECORD, 0), (24 + RECORD, 1), (BEHIND_TWO, 2), (capture, 3)):
        yield ending(f"a read of the capture behind {moved} bytes", FIRST, f"read failed, committed {count}", 3,
                     moved=moved)
    for target in (FIRST, VERDICTS, RULES, STATES, ANSWER):
        yield ending(f"a {target.call} that is cut", target, "", 0, out, "cut")
    for deed in ("fail", "zero"):
        for printed in (b"", out[:1], out[:-1]):
            yield ending(f"a write behind {len(printed)} bytes", ANSWER, WRITTEN, 3, printed, deed)


def right_ends(trial):
    """Files that end early."""
    yield ending("an end in the capture's header", FIRST, "capture: header cut", 1, deed="zero", moved=23)
    for moved, count in ((24, 0), (24 + RECORD, 1), (24 + RECORD + 1, 1), (BEHIND_TWO, 2)):
        yield ending(f"an end of the capture behind {moved} bytes", FIRST,
                     f"packet {count + 1}: not of this capture", 1, deed="zero", moved=moved)
    for moved, count in ((0, 0), (1, 0), (LINE, 1), (2 * LINE - 1, 1), (2 * LINE, 2)):
        yield ending(f"an end of the lines behind {moved} bytes", VERDICTS,
                     f"packet {count + 1}: no line of verdicts", 1, deed="zero", moved=moved)
    yield ending("no byte of the ruleset", RULES, "packet 1: not of this ruleset", 1, deed="zero")
    yield ending("an end in the ruleset", RULES, "rules line 1: unknown word", 1, deed="zero", moved=3)
    rule = b"block in\n"
    yield ending("an end behind the rule", RULES, "", 0, page_in(trial, rules=rule), "zero", len(rule))
    yield ending("an end in a state", STATES, "states line 1: no state", 1, deed="zero", moved=9)
    line = WITH_STATES.states.index(b"\n") + 1
    for moved in (0, line, 2 * line):
        states = WITH_STATES.states[:moved]
        yield ending(f"an end of the states behind {moved} bytes", STATES, "", 0, page_in(trial, states=states), "zero",
                     moved)


def wrong_endings(trial):
    out = trial.clean.out
    verdicts, rules, states = map(trial.name_of, ("verdicts", "rules", "states"))
    yield ending("another page", MEMORY, "no memory", 4, out[1:9])
    yield ending("another status after memory was refused", MEMORY, "no memory", 3)
    yield ending("packets that are told", MEMORY, "no memory, committed 3", 4)
    yield ending("a page before the words were read", MEMORY, "no memory, committed 0", 4, out[:9])
    yield ending("a page of which a part is missing, and nothing is said", MEMORY, "", 0, out[:-1])
    yield ending("the ruleset, told of the lines", RULES, f"cannot open: {verdicts}", 3)
    yield ending("the ruleset, told as another", RULES, f"cannot read: {rules}", 3)
    yield ending("the ruleset, and a part of the page", RULES, f"cannot open: {rules}", 3, out[:1])
    yield ending("the states, told as lines", STATES, f"cannot read: {states}", 3)
    yield ending("the states, and a part of the page", STATES, f"cannot open: {states}", 3, out[:20])
    yield ending("the states that aren't told", STATES, "", 0, out)
    yield ending("the states as an end", STATES, "states line 1: no state", 1)
    yield ending("the lines, and a part of the page", VERDICTS, f"cannot read: {verdicts}", 3, out[:20], moved=LINE)
    yield ending("the lines as an end", VERDICTS, "packet 1: no line of verdicts", 1)
    yield ending("the lines that aren't told", VERDICTS, "", 0, out)
    yield ending("one packet too many before a read", FIRST, "read failed, committed 2", 3, moved=BEHIND_TWO - 1)
    yield ending("a read, and a part of the page", FIRST, "read failed, committed 2", 3, out[:20], moved=BEHIND_TWO)
    yield ending("a read as an end", FIRST, "packet 1: not of this capture", 1, moved=24)
    yield ending("an end as a read", FIRST, "read failed, committed 0", 3, deed="zero", moved=24)
    yield ending("an end, and a part of the page", FIRST, "packet 2: not of this capture", 1, out[:20], "zero",
                 24 + RECORD)
    yield ending("an end behind the rule, and the page of before", RULES, "", 0, out, "zero", len("block in\n"))
    yield ending("an end of the states, and the page of before", STATES, "", 0, out, "zero", 0)
    yield ending("a read that is cut and ends the run", FIRST, "read failed, committed 0", 3, deed="cut", moved=24)
    yield ending("the page though a write failed", ANSWER, WRITTEN, 3, out)
    yield ending("a write that failed and isn't told", ANSWER, "", 0, out)
    yield ending("a write that failed, with another status", ANSWER, WRITTEN, 1)


# Two captures

def right_of_two(trial):
    yield ending("the first capture", FIRST, "read failed: em0, committed 1", 3, moved=24 + RECORD)
    yield ending("the second capture's header", SECOND, "read failed: em1, committed 0", 3, moved=10)
    yield ending("an end in the second capture's header", SECOND, "capture em1: header cut", 1, deed="zero", moved=10)
    yield ending("an end of the second capture", SECOND, "packet 2: not of this capture", 1, deed="zero", moved=24)
    yield ending("memory", MEMORY, "no memory", 4, trial.clean.out[:50])


def wrong_of_two(trial):
    yield ending("a read, told without its interface", FIRST, "read failed, committed 1", 3, moved=24 + RECORD)
    yield ending("a read, told of the other interface", FIRST, "read failed: em1, committed 1", 3, moved=24 + RECORD)
    yield ending("a read, and a part of the page", SECOND, "read failed: em1, committed 0", 3, trial.clean.out[:9],
                 moved=10)


# Runs that are refused

def of_refused(trial):
    clean, said = trial.clean, trial.clean.err.decode().removeprefix("pfreplay: ").strip()
    yield ending("the refusal before a read behind it", FIRST, said, 1, moved=24 + PACKETS * RECORD)
    yield ending("a read before the refusal", FIRST, "read failed, committed 3", 3, moved=24 + PACKETS * RECORD)
    yield from lost(clean._replace(err=b""), clean._replace(err=clean.err[:9]))


def wrong_of_refused(trial):
    clean = trial.clean
    yield ending("no refusal", MEMORY, "", 0)
    yield ending("another refusal", MEMORY, "packet 1: no line of verdicts", 1)
    yield ending("the refusal, and a part of a page", MEMORY, clean.err.decode()[10:-1], 1, b"<!")
    yield from lost(clean._replace(err=b"", status=0), clean._replace(err=b"x"))


def of_bad_ruleset(trial):
    rules = trial.name_of("rules")
    yield ending("a ruleset that can't be read", RULES, f"cannot open: {rules}", 3)
    yield ending("no byte of the ruleset", RULES, "packet 1: not of this ruleset", 1, deed="zero")
    yield ending("memory", MEMORY, "no memory", 4)
    yield Ending("the refusal", MEMORY, "fail", trial.clean)


def wrong_of_bad_ruleset(_):
    yield ending("the refusal though the ruleset isn't read", RULES, "rules line 1: left out: scrub", 1)
    yield ending("another refusal", MEMORY, "rules line 2: left out: scrub", 1)


def compare(comparison):
    """The comparison keeps how many endings there are, and which are judged wrongly."""
    with tempfile.TemporaryDirectory() as name:
        for question, right, wrong in ((WITH_STATES, right_endings, wrong_endings),
                                       (WITH_STATES, right_ends, lambda _: ()), (TWO, right_of_two, wrong_of_two),
                                       (LACKING, of_refused, wrong_of_refused),
                                       (BROKEN, of_bad_ruleset, wrong_of_bad_ruleset)):
            trial = trial_of(Path(name), question)
            made_up.compare(comparison, judge, trial, right(trial), wrong(trial))
