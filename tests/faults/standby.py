"""Which endings of the command `standby` are lawful under each fault.

The words behind `standby` are `--messages` and a file. Nothing else is read than that file, and only standard output
and standard error are written. The model tells what is answered to the bytes that were read before a fault.
"""

from pathlib import Path

from faults.judging import judge_answer
from faults.replay import ANSWER, ERROR, MEMORY, TRANSFER, judge_lost
from faults.trial import Seen, Target, Unlawful, ending_told, lawful
from runs.model import FILE
from standby import model

MESSAGES = Target("read", "", TRANSFER, "messages")
TARGETS = (MEMORY, MESSAGES, ANSWER, ERROR)

# in the order of the summary
ENDINGS = ("whole", "shorter input", "read failed", "write failed", "no memory", "error lost")

# a cut read or write changes nothing; what a read that failed, an input that ends early or a lost error leaves is
# judged apart
LAWFUL = {
    (MEMORY, "fail"): {"whole", "no memory"},
    (ANSWER, "fail"): {"write failed"},
    (ANSWER, "zero"): {"write failed"},
}

COUNT = rb"(0|[1-9][0-9]*) messages"
TEXTS = (
    ("write failed", 3, rb"write failed, after " + COUNT),
    ("no memory", 4, rb"no memory, after " + COUNT),
)
# if memory is refused while the words are read: which command they ask for isn't known then
NO_WORDS = b"pfreplay: no memory, committed 0\n"


def places(command):
    """Which word of the command names its file."""
    return {"messages": command.index("--messages") + 1}


def judge(trial, fault, counts, seen):
    """The ending of a run with this fault, one of ENDINGS; Unlawful if it is none of the lawful ones."""
    if fault.target == MESSAGES and fault.deed != "cut":
        return judge_read(trial, fault, counts, seen)
    if fault.target == ERROR and fault.deed != "cut":
        return judge_lost(trial.clean, seen)
    return lawful(ending_of(trial, seen), fault, LAWFUL)


def octets_of(trial):
    """The stream of messages."""
    return Path(trial.name_of("messages")).read_bytes()


def judge_read(trial, fault, counts, seen):
    """After a read that failed, or an input that ends early, what was read before is answered."""
    is_failed = fault.deed == "fail"
    ending = judge_answer(trial, counts, seen, model.answer(octets_of(trial)[:counts.moved], FILE, is_failed))
    return "read failed" if is_failed and ending != "whole" else ending


def ending_of(trial, seen):
    """The ending that status and standard error tell, once standard output and the number of messages agree with it."""
    if seen == trial.clean:
        return "whole"
    if seen == Seen(4, b"", NO_WORDS):
        return "no memory"
    ending, found = ending_told(TEXTS, seen)
    check_told(trial, ending, int(found[1]), seen)
    return ending


def check_told(trial, ending, told, seen):
    """If a write failed, all messages were taken that can be, and a part of the lines may be there. If memory was
    refused, there are no lines."""
    count = model.ending_of(octets_of(trial), FILE).count
    if ending == "write failed" and told != count or told > count:
        raise Unlawful(f"{told} messages are told of {count}")
    if ending == "no memory" and seen.out:
        raise Unlawful("something is written, though memory was refused")
    if not trial.clean.out.startswith(seen.out) or seen.out == trial.clean.out != b"":
        raise Unlawful("standard output is no part of the whole one")
