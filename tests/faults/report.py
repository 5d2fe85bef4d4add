"""Which endings of the command `report` are lawful under each fault.

The words behind `report` are the capture, the lines of verdicts, the ruleset, and the flags, among them maybe the file
of states. Only standard output and standard error are written. Nothing is printed before all packets are joined and the
states are read: so a page, or a beginning of it, stands on standard output if memory is refused or a write fails, and
else nothing. The model tells what is answered if a file ends early.

The capture of the interface at place K is called `captureK`, but for that of the first one.
"""

from faults import show
from faults.judging import also_of, also_places, records_told, texts_in
from faults.replay import ANSWER, CAPTURE_NAMES, CAPTURES, ERROR, MEMORY, TRANSFER, judge_lost
from faults.show import RULES, VERDICTS, check_part, told_of
from faults.trial import Part, Target, Unlawful, check, lawful
from reporting.asking import as_read
from reporting.model import Names, Question, answers
from runs.case import Case
from runs.model import Outcome
from showing import model as showing_model

STATES = Target("read", "", TRANSFER, "states")
INPUTS = (*CAPTURES, VERDICTS, RULES, STATES)
TARGETS = (MEMORY, *INPUTS, ANSWER, ERROR)
ENDINGS = show.ENDINGS
LAWFUL = {**show.LAWFUL, (STATES, "fail"): {"cannot open"}}
# behind these faults nothing of the page was begun
BEFORE_THE_PAGE = ("read failed", "cannot read", "cannot open")


# The command

def places(command):
    """Which words of the command name its files."""
    first = command.index("report")
    also = zip(CAPTURE_NAMES[1:], also_places(command))
    given = {"states": command.index("--states") + 1} if "--states" in command else {}
    return {"capture": first + 1, "verdicts": first + 2, "rules": first + 3, **given,
            **{name: Part(place, 2) for name, place in also}}


def question_of(command, texts):
    """What the model is asked if the files hold these texts."""
    interface, address = (command[command.index(flag) + 1] for flag in ("--interface", "--address"))
    case = Case("", texts["rules"], None, texts["capture"], interface, address, also=also_of(command, texts))
    return Question(showing_model.Question(case, texts["verdicts"]), texts.get("states"))


def texts_of(trial):
    """What the files hold, by their names."""
    return texts_in(trial, places(trial.command))


def names_of(trial):
    """The names of the files that stand on the page."""
    captures = [name for name in CAPTURE_NAMES if name in places(trial.command)]
    return Names(tuple(map(trial.name_of, captures)), trial.name_of("rules"))


# Endings

def judge(trial, fault, counts, seen):
    """The ending of a run with this fault, one of ENDINGS; Unlawful if it is none of the lawful ones."""
    if fault.target in INPUTS and fault.deed == "zero":
        return judge_shorter(trial, fault, counts, seen)
    if fault.target == ERROR and fault.deed != "cut":
        return judge_lost(trial.clean, seen)
    ending, told = told_of(trial, seen)
    if not is_refused_first(trial, fault, ending):
        lawful(ending, fault, LAWFUL)
    check_ending(trial, fault, counts, ending, told, seen)
    return ending


def is_refused_first(trial, fault, ending):
    """Whether the run is refused without a fault as well, and tells that before it comes to the fault."""
    return bool(trial.clean.err) and fault.deed == "fail" and ending == "whole" and fault.target in (
        VERDICTS, STATES, *CAPTURES)


def check_ending(trial, fault, counts, ending, told, seen):
    """What is told holds, and what is printed is a beginning of the page."""
    if ending in BEFORE_THE_PAGE:
        check(not seen.out, "something is printed before all packets were joined")
    if ending == "read failed":
        check_read(trial, fault, counts, told)
    elif ending in ("cannot read", "cannot open"):
        check(told == (trial.name_of(fault.target.file).encode(),), "standard error names another file")
    elif ending != "whole":
        check_part(trial, ending, seen)


def check_read(trial, fault, counts, told):
    """A read that failed is told by the number of packets before it, and by the interface if there are several."""
    question = question_of(trial.command, texts_of(trial))
    records_told(question.case.captures(), question.shown.names(), fault, counts, told)


def judge_shorter(trial, fault, counts, seen):
    """A file that ends early is answered as one of that length."""
    texts = texts_of(trial)
    texts[fault.target.file] = texts[fault.target.file][:counts.moved]
    allowed = answers(question_of(trial.command, texts), names_of(trial))
    if as_read(Outcome(seen.out, seen.err, seen.status)) not in allowed:
        out, err, status, _ = allowed[0]
        raise Unlawful(f"behind {counts.moved} bytes it ends with status {status}, {err!r} and {len(out)} bytes")
    return "whole" if seen == trial.clean else "shorter input"
