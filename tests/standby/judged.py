"""Made-up endings of the command `standby` under faults. Its judge has to allow the right ones and refuse the others.
No program is needed."""

import tempfile
from pathlib import Path
from typing import NamedTuple

from faults import made_up
from faults.made_up import ending
from faults.replay import ANSWER, ERROR, MEMORY
from faults.standby import MESSAGES, judge
from faults.trial import Seen
from runs.model import FILE
from standby.model import answer
from standby.rows import inserted, made, updated
from standby.streams import spelled

# two messages that are taken, and one that is refused; in a file the first one has 290 bytes, and the second 378
TEXTS = [made([1]), made([2], [1]), made(deletes=[9])]
OCTETS = spelled(TEXTS, FILE)
FIRST, SECOND = 290, 290 + 378
LINES = f"{updated(1)}\n{inserted(2)}\n".encode()
FIRST_LINE = f"{inserted(1)}\n".encode()


class Trial(NamedTuple):
    """A run without a fault, of a file."""
    clean: Seen
    file: str

    def name_of(self, _):
        return self.file


def right_endings():
    yield ending("memory at first", MEMORY, "no memory, after 0 messages", 4)
    yield ending("memory behind a message", MEMORY, "no memory, after 1 messages", 4)
    yield ending("memory for the lines", MEMORY, "no memory, after 2 messages", 4)
    yield ending("memory that isn't missed", MEMORY, "message 3 refused: 8", 1, LINES)
    yield ending("the first read", MESSAGES, "read failed, after 0 messages", 3)
    yield ending("a read in a message", MESSAGES, "read failed, after 1 messages", 3, FIRST_LINE, moved=FIRST + 100)
    yield ending("a read behind a message", MESSAGES, "read failed, after 1 messages", 3, FIRST_LINE, moved=FIRST)
    yield ending("a read in the last message", MESSAGES, "read failed, after 2 messages", 3, LINES, moved=SECOND + 1)
    yield ending("a read behind a refusal", MESSAGES, "message 3 refused: 8", 1, LINES, moved=len(OCTETS))
    yield ending("an end in a message", MESSAGES, "message 2 refused: 1", 1, FIRST_LINE, "zero", FIRST + 1)
    yield ending("an end behind a message", MESSAGES, "", 0, FIRST_LINE, "zero", FIRST)
    yield ending("a read that is cut", MESSAGES, "message 3 refused: 8", 1, LINES, "cut")
    for deed in ("fail", "zero"):
        yield ending("a write", ANSWER, "write failed, after 2 messages", 3, deed=deed)
    yield ending("a write behind a line", ANSWER, "write failed, after 2 messages", 3, LINES[:100])
    yield ending("a write that is cut", ANSWER, "message 3 refused: 8", 1, LINES, "cut")
    yield ending("a lost error", ERROR, "", 1, LINES)


def wrong_endings():
    yield ending("a line after memory was refused", MEMORY, "no memory, after 1 messages", 4, FIRST_LINE)
    yield ending("more messages than are taken, after memory was refused", MEMORY, "no memory, after 3 messages", 4)
    yield ending("another status after memory was refused", MEMORY, "no memory, after 1 messages", 3)
    yield ending("a run's words", MEMORY, "no memory, committed 1", 4)
    yield ending("lines before a read that failed are lost", MESSAGES, "read failed, after 1 messages", 3, moved=FIRST)
    yield ending("a message before a read that failed isn't taken", MESSAGES, "read failed, after 0 messages", 3,
                 moved=FIRST)
    yield ending("a message that wasn't whole", MESSAGES, "read failed, after 2 messages", 3, LINES, moved=SECOND - 1)
    yield ending("a part as a refusal", MESSAGES, "message 2 refused: 1", 1, FIRST_LINE, moved=FIRST + 100)
    yield ending("a read that failed before a refusal", MESSAGES, "read failed, after 2 messages", 3, LINES,
                 moved=len(OCTETS))
    yield ending("an end as a failed read", MESSAGES, "read failed, after 1 messages", 3, FIRST_LINE, "zero", FIRST)
    yield ending("a read that is cut and ends the run", MESSAGES, "read failed, after 2 messages", 3, LINES, "cut")
    yield ending("a write and fewer messages", ANSWER, "write failed, after 1 messages", 3)
    yield ending("a write and the refused message", ANSWER, "write failed, after 3 messages", 3)
    yield ending("all lines though a write failed", ANSWER, "write failed, after 2 messages", 3, LINES)
    yield ending("other lines", ANSWER, "write failed, after 2 messages", 3, FIRST_LINE)
    yield ending("a write that failed and isn't told", ANSWER, "message 3 refused: 8", 1, LINES)
    yield ending("the refusal in place of a write that failed", ANSWER, "message 3 refused: 8", 1)
    yield ending("lines that are lost with the error", ERROR, "", 1)


def compare(comparison):
    """The comparison keeps how many endings there are, and which are judged wrongly."""
    with tempfile.NamedTemporaryFile() as file:
        Path(file.name).write_bytes(OCTETS)
        out, err, status, _ = answer(OCTETS, FILE)
        made_up.compare(comparison, judge, Trial(Seen(status, out, err), file.name), right_endings(), wrong_endings())
