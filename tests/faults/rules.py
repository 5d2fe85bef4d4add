"""Which endings of the command `rules` are lawful under each fault.

The words behind `rules` are the ruleset's file and the flags, of which one may name the file of the counters. Nothing
else is read than these two, and only standard output and standard error are written. The model tells what is answered
to a file that ends early.
"""

from pathlib import Path

from expansions.hosts import interface_of
from faults.judging import judge_answer
from faults.replay import ANSWER, ERROR, MEMORY, TRANSFER, judge_lost
from faults.trial import Target, Unlawful, lawful
from telling import model
from telling.model import TEXT, Asked

RULES, COUNTERS = (Target("read", "", TRANSFER, name) for name in ("rules", "counters"))
INPUTS = (RULES, COUNTERS)
TARGETS = (MEMORY, *INPUTS, ANSWER, ERROR)
COUNTERS_FLAG = "--counters"

# in the order of the summary
ENDINGS = ("whole", "shorter input", "cannot open", "write failed", "no memory", "error lost")

# a cut read or write changes nothing; what an input that ends early or a lost error leaves is judged apart
LAWFUL = {
    (MEMORY, "fail"): {"whole", "no memory"},
    **{(target, "fail"): {"cannot open"} for target in INPUTS},
    **{(ANSWER, deed): {"write failed"} for deed in ("fail", "zero")},
}


def places(command):
    """Which words of the command name its files."""
    words = list(map(str, command))
    named = {"counters": words.index(COUNTERS_FLAG) + 1} if COUNTERS_FLAG in words else {}
    return {"rules": words.index("rules") + 1, **named}


def asked_of(trial):
    """What the command of a trial is given."""
    words = list(map(str, trial.command))
    values = [(flag, word) for flag, word in zip(words, words[1:]) if flag.startswith("--")]
    flags = dict(values)
    interfaces = [interface_of(flags["--interface"], flags["--address"])]
    interfaces += [interface_of(*word.split(",")) for flag, word in values if flag == "--also"]
    octets = {name: Path(words[place]).read_bytes() for name, place in places(words).items()}
    return Asked(octets["rules"], tuple(interfaces), octets.get("counters"), form=flags.get("--format", TEXT))


def texts(trial, fault):
    """What is said in each ending but the whole one, with its status. While the words are read it isn't known yet which
    command they ask for."""
    unread = {f"cannot open: {trial.name_of(fault.target.file)}"} if fault.target in INPUTS else set()
    return {"cannot open": (3, unread),
            "write failed": (3, {"write failed: standard output"}),
            "no memory": (4, {"no memory", "rules line 0: no memory", "no memory, committed 0"})}


def judge(trial, fault, counts, seen):
    """The ending of a run with this fault, one of ENDINGS; Unlawful if it is none of the lawful ones."""
    if fault.target in INPUTS and fault.deed == "zero":
        return judge_shorter(trial, fault, counts, seen)
    if fault.target == ERROR and fault.deed != "cut":
        return judge_lost(trial.clean, seen)
    return lawful(ending_of(trial, fault, seen), fault, LAWFUL)


def judge_shorter(trial, fault, counts, seen):
    """A file that ends early is answered as one of that length."""
    asked = asked_of(trial)
    if fault.target == RULES:
        asked = asked._replace(text=asked.text[:counts.moved])
    else:
        asked = asked._replace(counters=asked.counters[:counts.moved])
    return judge_answer(trial, counts, seen, model.answer(asked))


def ending_of(trial, fault, seen):
    """The ending that status and standard error tell, once standard output agrees with it."""
    if seen == trial.clean:
        return "whole"
    for ending, (status, said) in texts(trial, fault).items():
        if seen.status == status and seen.err in {f"pfreplay: {text}\n".encode() for text in said}:
            check_printed(trial, ending, seen)
            return ending
    raise Unlawful("no such status and standard error")


def check_printed(trial, ending, seen):
    """Nothing is printed if a file wasn't read, or memory was refused for the words or the ruleset; and else a part of
    the lines may be there."""
    if seen.out and (ending == "cannot open" or b"committed" in seen.err or b"line 0" in seen.err):
        raise Unlawful("something is printed before the files were read")
    if not trial.clean.out.startswith(seen.out) or seen.out == trial.clean.out != b"":
        raise Unlawful("standard output is no part of the whole one")
