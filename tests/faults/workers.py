"""Which endings of the command `run` are lawful under each fault where workers evaluate its packets ahead.

Which allocation is the one of a number differs from run to run then. So the judge asks no more of a run that fails than
holds whatever its workers had done: the fault is told, each output is a beginning of what the run without workers
writes, and what belongs to the packets that are told as committed is there. A run that tells no fault is as that one.
"""

from faults import replay
from faults.replay import ENDINGS, OUTPUTS, TARGETS, places
from faults.trial import check

__all__ = ["ENDINGS", "OUTPUTS", "TARGETS", "judge", "places", "reference"]


def reference(command):
    """The command without workers."""
    place = command.index("--workers") + 1
    return [*command[:place], "0", *command[place + 1:]]


def judge(trial, fault, counts, seen):
    """The ending of a run with this fault, one of ENDINGS; Unlawful where it is none of the lawful ones."""
    return replay.judge_by(check_held, trial, fault, counts, seen)


def check_held(trial, _ending, committed, _fault, _counts, seen):
    """The outputs hold at least what belongs to the committed packets."""
    whole = replay.whole_of(trial)
    check(committed <= whole.count, "more packets are committed than there are")
    check(committed == 0 or whole.is_held(committed, replay.texts_in(trial, seen)),
          "what belongs to the committed packets isn't there")
