"""Which endings of a command that rewrites its ruleset are lawful under each fault: `adapt`, and `check` with `--adapt`.

The words behind the command are the ruleset's file and the flags. Nothing else is read than that file, and only standard
output and standard error are written. What was rewritten is said on standard error before anything is answered.
"""

import os
import re

from faults.check import ENDINGS, RULES_WORD, TARGETS, TEXTS, judge_by
from faults.trial import Unlawful

__all__ = ("ENDINGS", "TARGETS", "judge")


def judge(trial, fault, counts, seen):
    """The ending of a run with this fault, one of ENDINGS; Unlawful where it is none of the lawful ones."""
    return judge_by(ending_of, judge_lost, trial, fault, counts, seen)


def judge_lost(clean, seen):
    """Where a write to standard error fails, what it would have written may be lost, and no more."""
    if seen._replace(err=clean.err) != clean:
        raise Unlawful("more was lost than the text on standard error")
    kept = len(os.path.commonprefix([clean.err, seen.err]))
    if not clean.err.endswith(seen.err[kept:]):
        raise Unlawful("more was lost than a piece of standard error")
    return "whole" if seen == clean else "error lost"


def ending_of(trial, seen):
    """The ending that status and the last line of standard error tell, once all else agrees with it."""
    if seen == trial.clean:
        return "whole"
    said, _, last = seen.err.rstrip(b"\n").rpartition(b"\n")
    for ending, status, text in TEXTS:
        found = re.fullmatch(rb"pfreplay: " + text, last)
        if found and seen.status == status:
            check_told(trial, ending, found, said, seen)
            return ending
    raise Unlawful("no such status and standard error")


def check_told(trial, ending, found, said, seen):
    """What is told holds: the file is the one that was named, what was said before is a beginning of all that is said, and
    nothing was answered but where a write failed."""
    if ending == "cannot open" and found[1] != trial.command[RULES_WORD].encode():
        raise Unlawful("standard error names another file")
    if not trial.clean.err.startswith(said):
        raise Unlawful("something else was said before")
    if seen.out and (ending != "write failed" or not trial.clean.out.startswith(seen.out)):
        raise Unlawful("standard output isn't empty")
