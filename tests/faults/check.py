"""Which endings of the command `check` are lawful under each fault.

The words behind `check` are the ruleset's file and the flags. Nothing else is read than that file, and only standard
output and standard error are written.
"""

from faults.replay import ERROR, MEMORY, TRANSFER, judge_lost
from faults.trial import Target, Unlawful, ending_told, lawful

RULES = Target("read", "", TRANSFER)
ANSWER = Target("write", "1", TRANSFER)
TARGETS = (MEMORY, RULES, ANSWER, ERROR)
# the place of the word for the ruleset
RULES_WORD = 2

# in the order of the summary
ENDINGS = ("whole", "shorter input", "cannot open", "write failed", "no memory", "error lost")

# a cut read or write changes nothing; what an input that ends early or a lost error leaves is judged apart
LAWFUL = {
    (MEMORY, "fail"): {"whole", "no memory"},
    (RULES, "fail"): {"cannot open"},
    (ANSWER, "fail"): {"write failed"},
    (ANSWER, "zero"): {"write failed"},
}

TEXTS = (
    ("cannot open", 3, rb"cannot open: (.*)"),
    ("write failed", 3, rb"write failed.*"),
    ("no memory", 4, rb"rules line 0: no memory"),
    ("no memory", 4, rb"no memory.*"),
)


def judge(trial, fault, counts, seen):
    """The ending of a run with this fault, one of ENDINGS; Unlawful where it is none of the lawful ones."""
    return judge_by(ending_of, judge_lost, trial, fault, counts, seen)


def judge_by(ending, lost, trial, fault, counts, seen):
    """The same, where `ending` tells the ending of what was seen, and `lost` what a failed write to standard error left."""
    if fault.target == RULES and fault.deed == "zero":
        return judge_shorter(trial, counts, seen)
    if fault.target == ERROR and fault.deed != "cut":
        return lost(trial.clean, seen)
    return lawful(ending(trial, seen), fault, LAWFUL)


def ending_of(trial, seen):
    """The ending that status and standard error tell, once standard output agrees with it."""
    if seen == trial.clean:
        return "whole"
    ending, found = ending_told(TEXTS, seen)
    check_told(trial, ending, found, seen)
    return ending


def check_told(trial, ending, found, seen):
    """What is told holds: the file is the one that was named, and nothing was answered but where a write failed."""
    if ending == "cannot open" and found[1] != trial.command[RULES_WORD].encode():
        raise Unlawful("standard error names another file")
    if seen.out and (ending != "write failed" or not trial.clean.out.startswith(seen.out)):
        raise Unlawful("standard output isn't empty")


def judge_shorter(trial, counts, seen):
    """A ruleset that ends early is as a file of that length and of the same name."""
    words = list(trial.command)
    name = str(words[RULES_WORD])
    with trial.beginning(name, counts.moved) as shorter:
        words[RULES_WORD] = shorter.name
        expected = trial.without_fault(words)
    expected = expected._replace(err=expected.err.replace(shorter.name.encode(), name.encode()))
    if seen != expected:
        raise Unlawful(f"a file of {counts.moved} bytes ends with status {expected.status}, {expected.err!r}")
    return "whole" if seen == trial.clean else "shorter input"
