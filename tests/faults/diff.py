"""Which endings of the command `diff` are lawful under each fault.

The words behind `diff` are the capture, the old and the new ruleset, and the flags. Nothing is printed before all
captures are read, and only standard output and standard error are written. Before the answer warnings are said, unless
that is left out: so they are there if a write fails, and maybe if memory is refused. The model tells what is answered
if a file ends early.

The capture of the interface at place K is called `captureK`, but for that of the first one.
"""

import re

from changes.model import Question, modelled
from changes.printed import TEXT
from faults.judging import also_of, also_places, judge_answer, records_told, texts_in
from faults.replay import ANSWER, CAPTURE_NAMES, CAPTURES, ERROR, MEMORY, TRANSFER, judge_lost
from faults.trial import Part, Target, check, ending_told, lawful
from runs.case import NO_SEED, Case

OLD, NEW = (Target("read", "", TRANSFER, name) for name in ("old", "new"))
TARGETS = (MEMORY, *CAPTURES, OLD, NEW, ANSWER, ERROR)

# in the order of the summary
ENDINGS = ("whole", "shorter input", "read failed", "cannot open", "write failed", "no memory", "error lost")

# a cut read or write changes nothing; what an input that ends early or a lost error leaves is judged apart
LAWFUL = {
    (MEMORY, "fail"): {"whole", "no memory"},
    **{(capture, "fail"): {"read failed"} for capture in CAPTURES},
    **{(ruleset, "fail"): {"cannot open"} for ruleset in (OLD, NEW)},
    **{(ANSWER, deed): {"write failed"} for deed in ("fail", "zero")},
}

COMMITTED = rb"committed (0|[1-9][0-9]*)"
TEXTS = (
    ("read failed", 3, rb"read failed(?:: ([^,]*))?, " + COMMITTED),
    ("cannot open", 3, rb"cannot open: (.*)"),
    ("write failed", 3, rb"write failed: standard output"),
    # the second is said while it isn't known yet which command the words ask for
    ("no memory", 4, rb"no memory"),
    ("no memory", 4, rb"no memory, committed 0"),
)
WARNINGS = re.compile(rb"(?:pfreplay: warning: [^\n]*\n)*")


# The command

def places(command):
    """Which words of the command name its files."""
    first = command.index("diff")
    also = zip(CAPTURE_NAMES[1:], also_places(command))
    return {"capture": first + 1, "old": first + 2, "new": first + 3, **{name: Part(place, 2) for name, place in also}}


def flags_of(command):
    """The flags with their values."""
    words = [word for word in command[command.index("diff") + 4:] if word not in ("--verdicts", "--quiet")]
    return dict(zip(words[::2], words[1::2]))


def names_of(command):
    """The names of the interfaces, by their places."""
    return [flags_of(command)["--interface"], *(command[place].split(",")[0] for place in also_places(command))]


def texts_of(trial):
    """What the files hold, by their names."""
    return texts_in(trial, places(trial.command))


def question_of(command, texts):
    """What the model is asked if the files hold these texts."""
    flags = flags_of(command)
    case = Case("", texts["old"], flags.get("--inside"), texts["capture"], flags["--interface"], flags["--address"],
                flags.get("--seed", NO_SEED), also_of(command, texts), flags.get("--tap"))
    return Question(case, texts["new"], "--verdicts" in command, form=flags.get("--format", TEXT),
                    is_quiet="--quiet" in command)


def rulesets_of(trial):
    """The names of the rulesets' files."""
    return tuple(trial.name_of(name) for name in ("old", "new"))


# Endings

def judge(trial, fault, counts, seen):
    """The ending of a run with this fault, one of ENDINGS; Unlawful if it is none of the lawful ones."""
    if fault.target in (*CAPTURES, OLD, NEW) and fault.deed == "zero":
        return judge_shorter(trial, fault, counts, seen)
    if fault.target == ERROR and fault.deed != "cut":
        return judge_lost_line(trial.clean, seen)
    ending, told = told_of(trial, seen)
    lawful(ending, fault, LAWFUL)
    check_printed(trial, ending, seen)
    check_warned(trial, ending, seen)
    if ending == "read failed":
        check_read(trial, fault, counts, told)
    elif ending == "cannot open":
        check(told == (trial.name_of(fault.target.file).encode(),), "standard error names another file")
    elif ending == "no memory":
        is_first = not seen.out and not warned_in(seen)
        check(is_first or b"committed" not in seen.err, "something is printed before the words were read")
    return ending


def judge_lost_line(clean, seen):
    """Where standard error can't be written one of several lines may be lost, all of it or its end, since each is
    written by itself. Or all that follows may be lost."""
    rows = clean.err.splitlines(keepends=True)
    for place, row in enumerate(rows):
        before, behind = b"".join(rows[:place]), b"".join(rows[place + 1:])
        left = seen.err.removeprefix(before).removesuffix(behind)
        if before + left + behind == seen.err and row.startswith(left):
            return judge_lost(clean, seen._replace(err=before + left))
    return judge_lost(clean, seen)


def told_of(trial, seen):
    """The ending that status and standard error tell, and what is told besides."""
    if seen == trial.clean:
        return "whole", ()
    ending, found = ending_told(TEXTS, seen._replace(err=seen.err[len(warned_in(seen)):]))
    return ending, found.groups()


def warned_in(seen):
    """The warnings, which are said first."""
    return WARNINGS.match(seen.err)[0]


def check_printed(trial, ending, seen):
    """A part of the lines may be there if a write failed, or memory was refused behind the last packet."""
    if ending in ("read failed", "cannot open"):
        check(not seen.out, "something is printed, though a file wasn't read")
    if ending != "whole":
        check(trial.clean.out.startswith(seen.out), "standard output is no part of the whole one")
        check(seen.out != trial.clean.out or not seen.out, "standard output is whole")


def check_warned(trial, ending, seen):
    """All warnings are there if a write failed, and none if a file isn't read. If memory was refused some may be."""
    whole, warned = warned_in(trial.clean), warned_in(seen)
    if ending in ("read failed", "cannot open"):
        check(not warned, "there are warnings, though a file wasn't read")
    elif ending == "write failed":
        check(warned == whole, "the warnings aren't whole")
    check(whole.startswith(warned), "there are other warnings")


def check_read(trial, fault, counts, told):
    """A read that failed is told by the number of packets before it, and by the interface if there are several."""
    names = names_of(trial.command)
    captures = [texts_of(trial)[each] for each in CAPTURE_NAMES[:len(names)]]
    records_told(captures, names, fault, counts, told)


def judge_shorter(trial, fault, counts, seen):
    """A file that ends early is answered as one of that length."""
    texts = texts_of(trial)
    texts[fault.target.file] = texts[fault.target.file][:counts.moved]
    return judge_answer(trial, counts, seen, modelled(question_of(trial.command, texts), rulesets_of(trial)))
