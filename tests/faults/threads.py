"""The judge of the command `run` where threads are refused: each run is as the one without workers.

A thread that is refused is no fault, as the others do its work, or the run itself does.
"""

from faults.replay import OUTPUTS, places
from faults.trial import Target, check
from faults.workers import reference

__all__ = ["ENDINGS", "OUTPUTS", "TARGETS", "judge", "places", "reference"]

# one is refused, or each whose number is a multiple of one: all of them, every second one and so on
TARGETS = (Target("thread", "", ("fail", "each")),)
ENDINGS = ("whole",)


def judge(trial, fault, counts, seen):
    """The ending of a run with this fault; Unlawful where it isn't whole."""
    check(seen == trial.clean, "it differs from the run without workers, though a thread that is refused is no fault")
    return "whole"
