"""Made-up endings of the command `show` under faults. Its judge has to allow the right ones and refuse the others. No
program is needed."""

import tempfile
from pathlib import Path

from faults import made_up
from faults.made_up import Ending, Trial, ending, lost
from faults.replay import ANSWER, CAPTURES, MEMORY
from faults.show import RULES, VERDICTS, judge, places
from faults.trial import Seen
from showing.asking import CAPTURE, LINES, command_of
from showing.model import COUNT, JSON, NAME, PFLOG, answer
from showing.row import BLOCK, BLOCKED, KNOCK, capture_of, question_of, several, text_of, verdicts_of

FIRST, SECOND = CAPTURES[:2]
PACKETS = 3
# where each record ends, and each line of verdicts
RECORD = 16 + len(KNOCK)
BEHIND_TWO = 24 + 2 * RECORD
ONE = question_of(BLOCK, capture_of(*[KNOCK] * PACKETS), verdicts_of(*[BLOCKED] * PACKETS))
LINE = len(ONE.verdicts) // PACKETS
# packets at the seconds 1, 3 and 5 on the first interface, and at 2 and 4 on the second one
TWO = several(BLOCK, [capture_of(*((second, KNOCK) for second in seconds)) for seconds in ((1, 3, 5), (2, 4))], text_of(
    *(f"{number} {number} {BLOCKED} i=em{(number + 1) % 2}" for number in range(1, 6))))
REFUSED = ONE._replace(verdicts=ONE.verdicts[:-1])
BROKEN = ONE._replace(case=ONE.case._replace(rules=b"scrub in all"))
WRITTEN = "write failed: standard output"


def trial_of(folder, question):
    """The run of a question without a fault, whose files are written."""
    for place, capture in enumerate(question.case.captures()):
        (folder / f"{CAPTURE}{place or ''}").write_bytes(capture)
    (folder / LINES).write_bytes(question.verdicts)
    (folder / NAME).write_bytes(question.case.rules)
    out, err, status, _ = answer(question)
    command = command_of("pfreplay", folder, question)
    return Trial(command, Seen(status, out, err), places(command))


def beginning(trial, count):
    """The first lines of what is printed."""
    return b"".join(trial.clean.out.splitlines(keepends=True)[:count])


# One capture

def right_endings(trial):
    out, capture, (verdicts, rules) = trial.clean.out, len(ONE.case.capture), map(trial.name_of, ("verdicts", "rules"))
    yield ending("memory at first", MEMORY, "no memory, committed 0", 4)
    yield ending("memory", MEMORY, "no memory", 4)
    yield ending("memory behind a line", MEMORY, "no memory", 4, beginning(trial, 1))
    yield ending("memory behind all lines", MEMORY, "no memory", 4, out)
    yield ending("memory that isn't missed", MEMORY, "", 0, out)
    yield ending("the ruleset", RULES, f"cannot open: {rules}", 3, moved=3)
    for moved, count in ((0, 0), (23, 0), (24, 0), (23 + RECORD, 0), (24 + RECORD, 1), (BEHIND_TWO, 2), (capture, 3)):
        for lines in {0, count}:
            yield ending(f"a read of the capture behind {moved} bytes and {lines} lines", FIRST,
                         f"read failed, committed {count}", 3, beginning(trial, lines), moved=moved)
    for moved, count in ((0, 0), (LINE - 1, 0), (LINE, 1), (2 * LINE, 2), (3 * LINE, 3)):
        for lines in {0, count}:
            yield ending(f"a read of the lines behind {moved} bytes and {lines} lines", VERDICTS,
                         f"cannot read: {verdicts}", 3, beginning(trial, lines), moved=moved)
    for target in (FIRST, VERDICTS, RULES, ANSWER):
        yield ending(f"a {target.call} that is cut", target, "", 0, out, "cut")
    for deed in ("fail", "zero"):
        yield ending("a write", ANSWER, WRITTEN, 3, deed=deed)
    yield ending("a write behind a line", ANSWER, WRITTEN, 3, beginning(trial, 1))
    yield ending("a write of a part of a line", ANSWER, WRITTEN, 3, out[:-1])


def right_ends(trial):
    """Files that end early."""
    yield ending("an end in the capture's header", FIRST, "capture: header cut", 1, deed="zero", moved=23)
    yield ending("an end of the capture before its packets", FIRST, "packet 1: not of this capture", 1, deed="zero",
                 moved=24)
    for moved, count in ((24 + RECORD, 1), (24 + RECORD + 1, 1), (BEHIND_TWO, 2)):
        yield ending(f"an end of the capture behind {moved} bytes", FIRST,
                     f"packet {count + 1}: not of this capture", 1, beginning(trial, count), "zero", moved)
    for moved, count in ((0, 0), (1, 0), (LINE, 1), (2 * LINE - 1, 1), (2 * LINE, 2)):
        yield ending(f"an end of the lines behind {moved} bytes", VERDICTS,
                     f"packet {count + 1}: no line of verdicts", 1, beginning(trial, count), "zero", moved)
    yield ending("no byte of the ruleset", RULES, "packet 1: not of this ruleset", 1, deed="zero")
    yield ending("an end in the ruleset", RULES, "rules line 1: unknown word", 1, deed="zero", moved=3)
    yield ending("an end behind the rule", RULES, "", 0, trial.clean.out, "zero", len("block in\n"))


def wrong_endings(trial):
    out, (verdicts, rules) = trial.clean.out, map(trial.name_of, ("verdicts", "rules"))
    yield ending("other lines", MEMORY, "no memory", 4, out[1:9])
    yield ending("another status after memory was refused", MEMORY, "no memory", 3)
    yield ending("packets that are told", MEMORY, "no memory, committed 3", 4)
    yield ending("a line before the words were read", MEMORY, "no memory, committed 0", 4, beginning(trial, 1))
    yield ending("memory for a ruleset", MEMORY, "rules line 0: no memory", 4)
    yield ending("lines are missing, and nothing is said", MEMORY, "", 0, beginning(trial, 1))
    yield ending("a line as none", MEMORY, "packet 2: no line of verdicts", 1, beginning(trial, 1))
    yield ending("another status, and nothing is said", MEMORY, "", 1, out)
    yield ending("a read of the ruleset, told of the lines", RULES, f"cannot open: {verdicts}", 3)
    yield ending("a read of the ruleset, told as another", RULES, f"cannot read: {rules}", 3)
    yield ending("a ruleset that isn't read, and a line", RULES, f"cannot open: {rules}", 3, beginning(trial, 1))
    yield ending("a read of the lines, told as another", VERDICTS, f"cannot open: {verdicts}", 3)
    yield ending("a read of the lines, told of the ruleset", VERDICTS, f"cannot read: {rules}", 3)
    yield ending("a read of the lines, told of the capture", VERDICTS, "read failed, committed 0", 3)
    yield ending("a read of the lines as an end", VERDICTS, "packet 1: no line of verdicts", 1)
    yield ending("a packet without its line", VERDICTS, f"cannot read: {verdicts}", 3, beginning(trial, 2), moved=LINE)
    yield ending("a read of the lines that isn't told", VERDICTS, "", 0, out, moved=3 * LINE)
    yield ending("one packet too many before a read", FIRST, "read failed, committed 2", 3, moved=BEHIND_TWO - 1)
    yield ending("one packet too few before a read", FIRST, "read failed, committed 1", 3, moved=BEHIND_TWO)
    yield ending("a packet that wasn't read", FIRST, "read failed, committed 1", 3, beginning(trial, 2),
                 moved=24 + RECORD)
    yield ending("a read, told of an interface", FIRST, "read failed: em0, committed 0", 3)
    yield ending("a read as an end", FIRST, "packet 1: not of this capture", 1, moved=24)
    yield ending("an end as a read", FIRST, "read failed, committed 0", 3, deed="zero", moved=24)
    yield ending("an end of the lines as a read", VERDICTS, f"cannot read: {verdicts}", 3, deed="zero", moved=24)
    yield ending("an end of the lines, and a packet too few", VERDICTS, "packet 2: no line of verdicts", 1, b"", "zero",
                 LINE)
    yield ending("a read that is cut and ends the run", FIRST, "read failed, committed 0", 3, deed="cut", moved=24)
    yield ending("all lines though a write failed", ANSWER, WRITTEN, 3, out)
    yield ending("a write that failed and isn't told", ANSWER, "", 0, out)
    yield ending("a write that failed, with another status", ANSWER, WRITTEN, 1)


# Two captures

def right_of_two(trial):
    yield ending("the first capture", FIRST, "read failed: em0, committed 3", 3, beginning(trial, 3), moved=BEHIND_TWO)
    yield ending("the second capture", SECOND, "read failed: em1, committed 2", 3, moved=24 + RECORD)
    yield ending("the second capture's header", SECOND, "read failed: em1, committed 0", 3, moved=10)
    yield ending("the end of the second capture", SECOND, "read failed: em1, committed 4", 3, beginning(trial, 1),
                 moved=BEHIND_TWO)
    yield ending("an end in the second capture's header", SECOND, "capture em1: header cut", 1, deed="zero", moved=10)
    yield ending("an end of the second capture", SECOND, "packet 4: not of this capture", 1, beginning(trial, 3),
                 "zero", 24 + RECORD)


def wrong_of_two(trial):
    yield ending("a read, told without its interface", FIRST, "read failed, committed 3", 3, moved=BEHIND_TWO)
    yield ending("a read, told of the other interface", FIRST, "read failed: em1, committed 3", 3, moved=BEHIND_TWO)
    yield ending("packets of the other capture behind the read", SECOND, "read failed: em1, committed 3", 3,
                 moved=24 + RECORD)
    yield ending("lines of the other capture behind the read", SECOND, "read failed: em1, committed 2", 3,
                 beginning(trial, 3), moved=24 + RECORD)


# Other forms

def of_count(trial):
    yield ending("memory", MEMORY, "no memory", 4)
    yield ending("the lines at their end", VERDICTS, f"cannot read: {trial.name_of('verdicts')}", 3, moved=3 * LINE)
    yield ending("a write", ANSWER, WRITTEN, 3, b"3 of 3 pack")


def wrong_of_count(trial):
    yield ending("a count though the lines weren't read", VERDICTS, f"cannot read: {trial.name_of('verdicts')}", 3,
                 trial.clean.out, moved=3 * LINE)
    yield ending("a count of fewer", FIRST, "read failed, committed 2", 3, b"2 of 2 packets\n", moved=BEHIND_TWO)


def of_pflog(trial):
    out = trial.clean.out
    yield ending("a header alone", FIRST, "read failed, committed 2", 3, out[:24], moved=BEHIND_TWO)
    yield ending("a part of a record", MEMORY, "no memory", 4, out[:100])
    yield ending("two records", FIRST, "read failed, committed 2", 3, out[:24 + 2 * (RECORD + 64)], moved=BEHIND_TWO)


def wrong_of_pflog(trial):
    out = trial.clean.out
    yield ending("a header before the capture's was read", FIRST, "read failed, committed 0", 3, out[:24], moved=23)
    yield ending("a byte of a record too much", FIRST, "read failed, committed 2", 3, out[:24 + 2 * (RECORD + 64) + 1],
                 moved=BEHIND_TWO)


# Runs that are refused

def compare_refused(comparison, trial):
    """A run that is refused may tell that, or the fault. Standard error gets nothing of it, or a part."""
    clean, said = trial.clean, trial.clean.err.decode().removeprefix("pfreplay: ").strip()
    right = [ending("a write, or the refusal", ANSWER, said, 1), ending("a write", ANSWER, WRITTEN, 3),
             ending("a read behind the refusal", FIRST, said, 1, clean.out, moved=24 + PACKETS * RECORD),
             *lost(clean._replace(err=b""), clean._replace(err=clean.err[:9]))]
    wrong = [ending("memory as the refusal, and less is printed", MEMORY, said, 1), ending("no refusal", ANSWER, "", 0),
             ending("the ruleset as the refusal", RULES, said, 1, clean.out),
             *lost(clean._replace(err=b"", status=0), clean._replace(err=b"", out=b""))]
    made_up.compare(comparison, judge, trial, right, wrong)


def compare_bad_ruleset(comparison, trial):
    """A ruleset that is refused isn't told if it can't be read."""
    rules = trial.name_of("rules")
    right = [ending("a ruleset that can't be read", RULES, f"cannot open: {rules}", 3),
             ending("no byte of the ruleset", RULES, "packet 1: not of this ruleset", 1, deed="zero"),
             ending("memory", MEMORY, "no memory", 4), Ending("the refusal", MEMORY, "fail", trial.clean)]
    wrong = [ending("a ruleset that can't be read, and a line", RULES, f"cannot open: {rules}", 3, b"1970"),
             ending("the refusal though the ruleset isn't read", RULES, "rules line 1: left out: scrub", 1),
             ending("another refusal", MEMORY, "rules line 2: left out: scrub", 1)]
    made_up.compare(comparison, judge, trial, right, wrong)


def compare(comparison):
    """The comparison keeps how many endings there are, and which are judged wrongly."""
    with tempfile.TemporaryDirectory() as name:
        folder = Path(name)
        for question, right, wrong in ((ONE, right_endings, wrong_endings), (ONE, right_ends, lambda _: ()),
                                       (ONE._replace(form=JSON), right_ends, lambda _: ()),
                                       (TWO, right_of_two, wrong_of_two),
                                       (ONE._replace(form=COUNT), of_count, wrong_of_count),
                                       (ONE._replace(form=PFLOG), of_pflog, wrong_of_pflog)):
            trial = trial_of(folder, question)
            made_up.compare(comparison, judge, trial, right(trial), wrong(trial))
        compare_refused(comparison, trial_of(folder, REFUSED))
        compare_bad_ruleset(comparison, trial_of(folder, BROKEN))
