"""Made-up endings of the command `rules` under faults. Its judge has to allow the right ones and refuse the others. No
program is needed."""

import tempfile
from pathlib import Path

from faults import made_up
from faults.made_up import Trial, ending, lost
from faults.replay import ANSWER, ERROR, MEMORY
from faults.rules import COUNTERS, COUNTERS_FLAG, RULES, judge, places
from faults.trial import Seen
from telling.asking import interface_words
from telling.row import TWO, text_of

TEXT = b"block from self\npass out\n"
BLOCK, PASS = "@0 L1 block drop from self to any", "@1 L2 pass out all keep state"
BLOCK_COUNTS, PASS_COUNTS, TOTAL = text_of("filter 0 5 2 56"), text_of("filter 1 5 0 0"), text_of("total 5 3 2 0 0")
COUNTS = BLOCK_COUNTS + PASS_COUNTS + TOTAL
TOLD_BLOCK = f"{BLOCK}  # 5 evaluations, 2 packets, 56 bytes"
TOLD_PASS = f"{PASS}  # 5 evaluations, 0 packets, 0 bytes: counts no packet"
SHOWN, FIRST_SHOWN = text_of(TOLD_BLOCK, TOLD_PASS), text_of(TOLD_BLOCK)
# what is said of files, whose names stand for these
RULES_FILE, COUNTERS_FILE = "RULES_FILE", "COUNTERS_FILE"
WRITE_FAILED, NOT_OF_RULES = "write failed: standard output", "counters line 1: not of this ruleset"


def right_endings():
    yield ending("memory at first", MEMORY, "no memory, committed 0", 4)
    yield ending("memory for the file", MEMORY, "no memory", 4)
    yield ending("memory for the ruleset", MEMORY, "rules line 0: no memory", 4)
    yield ending("memory behind a line", MEMORY, "no memory", 4, FIRST_SHOWN)
    yield ending("memory that isn't missed", MEMORY, "", 0, SHOWN)
    yield ending("a read of the ruleset", RULES, f"cannot open: {RULES_FILE}", 3, moved=5)
    yield ending("a read of the counters", COUNTERS, f"cannot open: {COUNTERS_FILE}", 3, moved=5)
    for target in (RULES, COUNTERS):
        yield ending(f"{target} that is cut", target, "", 0, SHOWN, "cut")
    yield ending("an end behind a rule", RULES, "counters line 2: not of this ruleset", 1, deed="zero",
                 moved=len(b"block from self\n"))
    yield ending("an end in a word", RULES, "rules line 1: left out: host name", 1, deed="zero",
                 moved=len(b"block from sel"))
    yield ending("an end of the ruleset at first", RULES, NOT_OF_RULES, 1, deed="zero")
    yield ending("an end of the ruleset where it is", RULES, "", 0, SHOWN, "zero", len(TEXT))
    yield ending("an end in a line of the counters", COUNTERS, "counters line 2: not of this ruleset", 1, deed="zero",
                 moved=len(BLOCK_COUNTS) + 3)
    yield ending("an end behind a line of the counters", COUNTERS, "counters line 3: not of this ruleset", 1,
                 deed="zero", moved=len(BLOCK_COUNTS + PASS_COUNTS))
    yield ending("an end of the counters at first", COUNTERS, NOT_OF_RULES, 1, deed="zero")
    for deed in ("fail", "zero"):
        yield ending("a write", ANSWER, WRITE_FAILED, 3, deed=deed)
    yield ending("a write behind a line", ANSWER, WRITE_FAILED, 3, FIRST_SHOWN)
    yield ending("a write that is cut", ANSWER, "", 0, SHOWN, "cut")


def wrong_endings():
    yield ending("a line though the words weren't read", MEMORY, "no memory, committed 0", 4, FIRST_SHOWN)
    yield ending("a line though the ruleset wasn't read", MEMORY, "rules line 0: no memory", 4, FIRST_SHOWN)
    yield ending("all lines though memory was refused", MEMORY, "no memory", 4, SHOWN)
    yield ending("other lines", MEMORY, "no memory", 4, text_of(TOLD_PASS))
    yield ending("lines without counters", MEMORY, "no memory", 4, text_of(BLOCK))
    yield ending("another status after memory was refused", MEMORY, "no memory", 3)
    yield ending("the words of run", MEMORY, "no memory, committed 5", 4)
    yield ending("a ruleset that can't be told for want of memory", MEMORY,
                 "rules not told: please report this ruleset", 1)
    yield ending("lines are missing, and nothing is said", MEMORY, "", 0, FIRST_SHOWN)
    yield ending("a read and another file", RULES, "cannot open: other", 3)
    yield ending("a read of the ruleset and the other file", RULES, f"cannot open: {COUNTERS_FILE}", 3)
    yield ending("a read of the counters and the other file", COUNTERS, f"cannot open: {RULES_FILE}", 3)
    yield ending("a read and a line", COUNTERS, f"cannot open: {COUNTERS_FILE}", 3, FIRST_SHOWN)
    yield ending("a read as an end", COUNTERS, NOT_OF_RULES, 1)
    yield ending("a read as an end of the ruleset", RULES, NOT_OF_RULES, 1)
    yield ending("an end that isn't refused", COUNTERS, "", 0, FIRST_SHOWN, "zero", len(BLOCK_COUNTS))
    yield ending("an end behind a line, and a line", COUNTERS, "counters line 2: not of this ruleset", 1, FIRST_SHOWN,
                 "zero", len(BLOCK_COUNTS))
    yield ending("an end as a failed read", RULES, f"cannot open: {RULES_FILE}", 3, deed="zero", moved=5)
    yield ending("a read that is cut and ends the run", RULES, f"cannot open: {RULES_FILE}", 3, deed="cut")
    yield ending("all lines though a write failed", ANSWER, WRITE_FAILED, 3, SHOWN)
    yield ending("a write that failed and isn't told", ANSWER, "", 0, SHOWN)
    yield ending("a write that failed as a file", ANSWER, f"cannot open: {RULES_FILE}", 3)
    yield ending("lines that are lost with the error", ERROR, "", 0)


def named(endings, trial):
    """Endings in which the files have their names."""
    for each in endings:
        err = each.seen.err.replace(RULES_FILE.encode(), trial.name_of("rules").encode())
        err = err.replace(COUNTERS_FILE.encode(), trial.name_of("counters").encode())
        yield each._replace(seen=each.seen._replace(err=err))


def trial_of(folder, clean, text, counters=None):
    """A run without a fault, whose files are written into the folder."""
    words = ["pfreplay", "rules", str(folder / "rules"), *interface_words(TWO)]
    (folder / "rules").write_bytes(text)
    if counters is not None:
        (folder / "counters").write_bytes(counters)
        words += [COUNTERS_FLAG, str(folder / "counters")]
    return Trial(words, clean, places(words))


def compare(comparison):
    """The comparison keeps how many endings there are, and which are judged wrongly."""
    with tempfile.TemporaryDirectory() as name:
        folder = Path(name)
        trial = trial_of(folder, Seen(0, SHOWN, b""), TEXT, COUNTS)
        made_up.compare(comparison, judge, trial, named(right_endings(), trial), named(wrong_endings(), trial))
        # standard error gets nothing of a refusal, or a part; in the last one the status doesn't tell it either
        clean = Seen(1, b"", b"pfreplay: rules line 1: left out: scrub\n")
        made_up.compare(comparison, judge, trial_of(folder, clean, b"scrub"),
                        lost(clean._replace(err=b""), clean._replace(err=clean.err[:9])),
                        lost(clean._replace(err=b"", status=0)))
