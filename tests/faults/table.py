"""Which endings of the program that calls a table of states are lawful where an allocation is refused.

One change isn't taken for want of memory, and every answer is as the model gives it without that change; or the program
itself ends before its first answer.
"""

from pathlib import Path

import table.model
from faults.rulesets import ENDINGS, TARGETS
from faults.trial import Unlawful


def first_difference(lines, others):
    """The first line that differs from the one at its place, and that one."""
    ends = ["no line"]
    return next((pair for pair in zip(lines + ends, others + ends) if pair[0] != pair[1]), None)


def judge(trial, fault, counts, seen):
    """The ending of a run with this fault, one of ENDINGS; Unlawful where it is none of them."""
    if seen == trial.clean:
        return "whole"
    if seen.status == 1 and not seen.out:
        return "ended"
    if seen.status != trial.clean.status or seen.err != trial.clean.err:
        raise Unlawful("the program ended otherwise than by an error before its first answer")
    lines = seen.out.decode().splitlines()
    calls, right = table.model.refused(Path(trial.source).read_text().splitlines(), lines)
    if lines != right:
        line, other = first_difference(lines, right)
        raise Unlawful(f"refused: {calls}; then {line!r} in place of {other!r}")
    if len(calls) != 1:
        raise Unlawful(f"one allocation was refused, and {len(calls)} changes weren't taken")
    return "no memory"
