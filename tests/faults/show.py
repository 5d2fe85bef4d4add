"""Which endings of the command `show` are lawful under each fault.

The words behind `show` are the capture, the lines of verdicts, the ruleset, and the flags. Only standard output and
standard error are written. Packets are printed as they are joined: what stands on standard output is a beginning of
what is printed of the packets before the fault. The model tells what that is, and what is answered if a file ends
early.

The capture of the interface at place K is called `captureK`, but for that of the first one.
"""

from faults.judging import also_of, also_places, records_told, texts_in
from faults.replay import ANSWER, CAPTURE_NAMES, CAPTURES, ERROR, HEADER, MEMORY, TRANSFER, judge_lost
from faults.trial import Part, Seen, Target, Unlawful, check, ending_told, lawful
from runs.case import Case
from runs.model import network_of
from showing.model import COUNT, TEXT, Asked, Question, answers, printed_after

VERDICTS, RULES = (Target("read", "", TRANSFER, name) for name in ("verdicts", "rules"))
INPUTS = (*CAPTURES, VERDICTS, RULES)
TARGETS = (MEMORY, *INPUTS, ANSWER, ERROR)

# in the order of the summary
ENDINGS = ("whole", "shorter input", "read failed", "cannot read", "cannot open", "write failed", "refused",
           "no memory", "error lost")

# a cut read or write changes nothing; what an input that ends early or a lost error leaves is judged apart
LAWFUL = {
    (MEMORY, "fail"): {"whole", "no memory"},
    **{(capture, "fail"): {"read failed"} for capture in CAPTURES},
    (VERDICTS, "fail"): {"cannot read"},
    (RULES, "fail"): {"cannot open"},
    **{(ANSWER, deed): {"write failed"} for deed in ("fail", "zero")},
}

TEXTS = (
    ("read failed", 3, rb"read failed(?:: ([^,]*))?, committed (0|[1-9][0-9]*)"),
    ("cannot read", 3, rb"cannot read: (.*)"),
    ("cannot open", 3, rb"cannot open: (.*)"),
    ("write failed", 3, rb"write failed: standard output"),
    # the second is said while it isn't known yet which command the words ask for
    ("no memory", 4, rb"no memory"),
    ("no memory", 4, rb"no memory, committed 0"),
)
WITHOUT_VALUE = ("--logged", "--count")


# The command

def places(command):
    """Which words of the command name its files."""
    first = command.index("show")
    also = zip(CAPTURE_NAMES[1:], also_places(command))
    return {"capture": first + 1, "verdicts": first + 2, "rules": first + 3,
            **{name: Part(place, 2) for name, place in also}}


def flags_of(command):
    """The flags with their values, None for one without."""
    words = iter(command[command.index("show") + 4:])
    return {word: None if word in WITHOUT_VALUE else next(words) for word in words}


def asked_of(flags):
    """Which packets are asked for."""
    only, host = flags.get("--only"), flags.get("--host")
    rule, line = (flags.get(flag) for flag in ("--rule", "--line"))
    return Asked(only and tuple(only.split(",")), rule and int(rule), line and int(line), host and network_of(host),
                 "--logged" in flags, flags.get("--port"), flags.get("--proto"))


def texts_of(trial):
    """What the files hold, by their names."""
    return texts_in(trial, places(trial.command))


def question_of(command, texts):
    """What the model is asked if the files hold these texts."""
    flags = flags_of(command)
    case = Case("", texts["rules"], None, texts["capture"], flags["--interface"], flags["--address"],
                also=also_of(command, texts))
    form = COUNT if "--count" in flags else flags.get("--format", TEXT)
    return Question(case, texts["verdicts"], asked_of(flags), form)


# Endings

def judge(trial, fault, counts, seen):
    """The ending of a run with this fault, one of ENDINGS; Unlawful if it is none of the lawful ones."""
    if fault.target in INPUTS and fault.deed == "zero":
        return judge_shorter(trial, fault, counts, seen)
    if fault.target == ERROR and fault.deed != "cut":
        return judge_lost(trial.clean, seen)
    ending, told = told_of(trial, seen)
    if not is_either(trial, fault, ending):
        lawful(ending, fault, LAWFUL)
    check_ending(trial, fault, counts, ending, told, seen)
    return ending


def is_either(trial, fault, ending):
    """Whether the run is refused without a fault as well, and may tell that first. If a write fails, less is printed
    of it."""
    if not trial.clean.err or fault.deed == "cut":
        return False
    return fault.target == ANSWER and ending == "refused" or fault.target in (VERDICTS, *CAPTURES) and ending == "whole"


def told_of(trial, seen):
    """The ending that status and standard error tell, and what is told besides."""
    if seen == trial.clean:
        return "whole", ()
    if trial.clean.err and (seen.status, seen.err) == (trial.clean.status, trial.clean.err):
        return "refused", ()
    ending, found = ending_told(TEXTS, seen)
    return ending, found.groups()


def check_ending(trial, fault, counts, ending, told, seen):
    """What is told holds, and what is printed is a beginning of what may be."""
    if ending == "read failed":
        check_read(trial, fault, counts, told, seen)
    elif ending in ("cannot read", "cannot open"):
        check(told == (trial.name_of(fault.target.file).encode(),), "standard error names another file")
        check(ending == "cannot read" or not seen.out, "something is printed before the ruleset was read")
        lines = question_of(trial.command, texts_of(trial)).verdicts[:counts.moved].count(b"\n")
        check_beginning(trial, lines if ending == "cannot read" else 0, seen)
    elif ending != "whole":
        check_part(trial, ending, seen)


def check_part(trial, ending, seen):
    """A beginning of what is to come is printed, or all of it if memory was refused."""
    check(trial.clean.out.startswith(seen.out), "standard output is no beginning of the whole one")
    check(ending == "no memory" or seen.out != trial.clean.out, "standard output is whole")
    check(not seen.out or b"committed" not in seen.err, "something is printed before the words were read")


def check_beginning(trial, count, seen):
    """What is printed is a beginning of what is printed of a number of packets."""
    if seen.out:
        whole = printed_after(question_of(trial.command, texts_of(trial)), count)
        check(any(each.startswith(seen.out) for each in whole), f"more is printed than what belongs to {count} packets")


def check_read(trial, fault, counts, told, seen):
    """A read that failed is told by the number of packets before it, and by the interface if there are several."""
    question = question_of(trial.command, texts_of(trial))
    before, given = records_told(question.case.captures(), question.names(), fault, counts, told)
    check_beginning(trial, before, seen)
    check(len(given) >= HEADER or not seen.out, "something is printed before the headers were read")


def judge_shorter(trial, fault, counts, seen):
    """A file that ends early is answered as one of that length."""
    texts = texts_of(trial)
    texts[fault.target.file] = texts[fault.target.file][:counts.moved]
    allowed = answers(question_of(trial.command, texts))
    if seen not in [Seen(status, out, err) for out, err, status, _ in allowed]:
        out, err, status, _ = allowed[0]
        raise Unlawful(f"behind {counts.moved} bytes it ends with status {status}, {err!r} and {len(out)} bytes")
    return "whole" if seen == trial.clean else "shorter input"
