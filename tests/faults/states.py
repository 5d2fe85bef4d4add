"""Which endings of the command `states` are lawful under each fault.

The words behind `states` are the file, and maybe `--json`. Nothing else is read than that file, and only standard
output and standard error are written. The model tells what is answered to a file that ends early.
"""

from pathlib import Path

from faults.judging import judge_answer
from faults.replay import ANSWER, ERROR, MEMORY, TRANSFER, judge_lost
from faults.trial import Target, Unlawful, lawful
from listing import model

STATES = Target("read", "", TRANSFER, "states")
TARGETS = (MEMORY, STATES, ANSWER, ERROR)

# in the order of the summary
ENDINGS = ("whole", "shorter input", "cannot open", "write failed", "no memory", "error lost")

# a cut read or write changes nothing; what an input that ends early or a lost error leaves is judged apart
LAWFUL = {
    (MEMORY, "fail"): {"whole", "no memory"},
    (STATES, "fail"): {"cannot open"},
    (ANSWER, "fail"): {"write failed"},
    (ANSWER, "zero"): {"write failed"},
}


def places(command):
    """Which word of the command names its file."""
    return {"states": command.index("states") + 1}


def texts(trial):
    """What is said in each ending but the whole one, with its status. While the words are read it isn't known yet which
    command they ask for."""
    return {"cannot open": (3, {f"cannot open: {trial.name_of('states')}"}),
            "write failed": (3, {"write failed: standard output"}),
            "no memory": (4, {"no memory", "no memory, committed 0"})}


def judge(trial, fault, counts, seen):
    """The ending of a run with this fault, one of ENDINGS; Unlawful if it is none of the lawful ones."""
    if fault.target == STATES and fault.deed == "zero":
        return judge_shorter(trial, counts, seen)
    if fault.target == ERROR and fault.deed != "cut":
        return judge_lost(trial.clean, seen)
    return lawful(ending_of(trial, seen), fault, LAWFUL)


def judge_shorter(trial, counts, seen):
    """A file that ends early is answered as one of that length."""
    octets = Path(trial.name_of("states")).read_bytes()[:counts.moved]
    return judge_answer(trial, counts, seen, model.answer(octets, "--json" in trial.command))


def ending_of(trial, seen):
    """The ending that status and standard error tell, once standard output agrees with it."""
    if seen == trial.clean:
        return "whole"
    for ending, (status, said) in texts(trial).items():
        if seen.status == status and seen.err in {f"pfreplay: {text}\n".encode() for text in said}:
            check_printed(trial, ending, seen)
            return ending
    raise Unlawful("no such status and standard error")


def check_printed(trial, ending, seen):
    """Nothing is printed if the file wasn't read, or memory was refused for the words; and else a part of the lines may
    be there."""
    if seen.out and (ending == "cannot open" or b"committed" in seen.err):
        raise Unlawful("something is printed before the file was read")
    if not trial.clean.out.startswith(seen.out) or seen.out == trial.clean.out != b"":
        raise Unlawful("standard output is no part of the whole one")
