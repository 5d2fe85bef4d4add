"""Made-up endings of the command `states` under faults. Its judge has to allow the right ones and refuse the others. No
program is needed."""

import tempfile
from pathlib import Path

from faults import made_up
from faults.made_up import Trial, ending, lost
from faults.replay import ANSWER, ERROR, MEMORY
from faults.states import STATES, judge, places
from faults.trial import Seen
from listing.rows import ECHO, ECHO_SHOWN, HELD, UDP, UDP_SHOWN, text_of

OCTETS = text_of(UDP, ECHO)
SHOWN, FIRST_SHOWN = text_of(ECHO_SHOWN, UDP_SHOWN), text_of(ECHO_SHOWN)
# what is said of a file, whose name stands for this
FILE = "FILE"


def right_endings():
    yield ending("memory at first", MEMORY, "no memory, committed 0", 4)
    yield ending("memory for the file", MEMORY, "no memory", 4)
    yield ending("memory behind a line", MEMORY, "no memory", 4, FIRST_SHOWN)
    yield ending("memory that isn't missed", MEMORY, "", 0, SHOWN)
    yield ending("a read", STATES, f"cannot open: {FILE}", 3, moved=5)
    yield ending("a read that is cut", STATES, "", 0, SHOWN, "cut")
    yield ending("an end in a line", STATES, "states line 2: no state", 1, deed="zero", moved=len(OCTETS) - 1)
    yield ending("an end behind a line", STATES, "", 0, text_of(UDP_SHOWN), "zero", len(text_of(UDP)))
    yield ending("an end at first", STATES, "", 0, deed="zero")
    for deed in ("fail", "zero"):
        yield ending("a write", ANSWER, "write failed: standard output", 3, deed=deed)
    yield ending("a write behind a line", ANSWER, "write failed: standard output", 3, FIRST_SHOWN)
    yield ending("a write that is cut", ANSWER, "", 0, SHOWN, "cut")


def wrong_endings():
    yield ending("a line though the words weren't read", MEMORY, "no memory, committed 0", 4, FIRST_SHOWN)
    yield ending("all lines though memory was refused", MEMORY, "no memory", 4, SHOWN)
    yield ending("other lines", MEMORY, "no memory", 4, text_of(UDP_SHOWN))
    yield ending("another status after memory was refused", MEMORY, "no memory", 3)
    yield ending("the words of standby", MEMORY, "no memory, after 0 messages", 4)
    yield ending("lines are missing, and nothing is said", MEMORY, "", 0, FIRST_SHOWN)
    yield ending("a read and another file", STATES, "cannot open: other", 3)
    yield ending("a read and a line", STATES, f"cannot open: {FILE}", 3, FIRST_SHOWN)
    yield ending("a read as an end", STATES, "", 0, text_of(UDP_SHOWN), moved=len(text_of(UDP)))
    yield ending("an end in a line that isn't refused", STATES, "", 0, text_of(UDP_SHOWN), "zero", len(OCTETS) - 1)
    yield ending("an end as a failed read", STATES, f"cannot open: {FILE}", 3, deed="zero", moved=5)
    yield ending("a read that is cut and ends the run", STATES, f"cannot open: {FILE}", 3, deed="cut")
    yield ending("all lines though a write failed", ANSWER, "write failed: standard output", 3, SHOWN)
    yield ending("a write that failed and isn't told", ANSWER, "", 0, SHOWN)
    yield ending("lines that are lost with the error", ERROR, "", 0)


def named(endings, trial):
    """Endings in which the file has its name."""
    for each in endings:
        err = each.seen.err.replace(FILE.encode(), trial.name_of("states").encode())
        yield each._replace(seen=each.seen._replace(err=err))


def trial_of(file, clean):
    command = ["pfreplay", "states", str(file)]
    return Trial(command, clean, places(command))


def compare(comparison):
    """The comparison keeps how many endings there are, and which are judged wrongly."""
    with tempfile.TemporaryDirectory() as name:
        folder = Path(name)
        (folder / "states").write_bytes(OCTETS)
        trial = trial_of(folder / "states", Seen(0, SHOWN, b""))
        made_up.compare(comparison, judge, trial, named(right_endings(), trial), named(wrong_endings(), trial))
        # standard error gets nothing of a refusal, or a part; in the last one the status doesn't tell it either
        clean = Seen(1, b"", b"pfreplay: states line 1: no state\n")
        (folder / "held").write_bytes(text_of(HELD))
        made_up.compare(comparison, judge, trial_of(folder / "held", clean),
                        lost(clean._replace(err=b""), clean._replace(err=clean.err[:9])),
                        lost(clean._replace(err=b"", status=0)))
