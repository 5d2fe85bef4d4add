"""Compares what the command `diff` of pfreplay answers with the model, and with answers written by hand.

    python3 -m changes.compare [--program FILE] [--drawn N]
    python3 -m changes.compare --model

in the folder `tests`. `--drawn` tells how many random questions there are. For each one the program is run by both
rulesets, and the model joins what these runs leave. For some of them the model of runs is asked too. With `--model` the
models alone are compared with the answers written by hand, and no program is needed.
"""

import re
import sys
from collections import Counter

sys.dont_write_bytecode = True

from adapt.asking import begins_so
from changes import cases, edits, files, judged, lines, model, readers, rows, untried
from changes.asking import asked, flags, lay_out, runs_of
from changes.decisions import changes_of
from changes.files import BROKEN, CHANGING, CUT, SAME, TOO_LONG, TWO, WARNED
from changes.kinds import UNASKED, counts_of, told_drawn
from changes.model import NAMES, REFUSED, SOMETHING_CHANGES, modelled
from changes.printed import JSON, TEXT
from changes.row import question_of
from faults.command import ends_lawfully
from runs import model as runs_model
from runs.setting_rows import OF_BOTH
from standby.many import in_parts, in_processes, main_of
from steps.tap_cases import RULES as REDIRECTING

# where no other number is told, and that of the models alone
DRAWN, MODEL_DRAWN = 2400, 1200
# one question in this number is also answered by the model of runs, and one row in this number also asked for warnings
MODEL_STEP, LOUD_STEP = 4, 5
IDLE = {kind.__name__ for kind in edits.IDLE}
# how many packets follow a cause, behind its line
FOLLOWING = re.compile(r"(  1 packet, first \d+), \d+ follows?")


# Answers written by hand

def expect_row(comparison, row, seen):
    """A row's answer. If rulesets are adapted, what is said of that comes first, each line with a reason behind it."""
    told = row.told(NAMES)
    said = seen.err.splitlines(keepends=True) if seen else []
    before, rest = said[:len(told)], b"".join(said[len(told):])
    comparison.expect(row.name, row.outcome(NAMES), seen and seen._replace(err=rest))
    comparison.expect(f"{row.name}: what was rewritten", True,
                      len(before) == len(told) and all(map(begins_so, before, told)))


def model_rows(comparison):
    """What the model says to the rows."""
    for row in rows.rows():
        comparison.expect(row.name, row.outcome(NAMES), modelled(row.question))
        comparison.expect(f"{row.name}: what was rewritten", row.told(NAMES), row.question.remarks())


def program_rows(comparison):
    """What the program answers to the rows. Some are asked for warnings too, which the model tells."""
    for number, row in enumerate(rows.rows()):
        lay_out(comparison, row.question)
        expect_row(comparison, row, asked(comparison, row.question))
        if number % LOUD_STEP == 0 and row.question.is_quiet and not row.remarks:
            loud = row.question._replace(is_quiet=False)
            comparison.expect(f"{row.name}, with warnings", modelled(loud), asked(comparison, loud))


# Command lines

def bad_lines(comparison):
    """Lines that don't fit. Of the wording what is at fault is fixed."""
    lay_out(comparison, question_of("scrub in all", "pass", b""))
    for words, said in lines.bad():
        seen = comparison.execute(words, home=comparison.folder)
        comparison.expect_refused(f"words {words}", seen, said, REFUSED)


def good_lines(comparison):
    """Lines that fit, and the help."""
    question = question_of(REDIRECTING, "block\npass out to 198.51.100.0/24 label x", OF_BOTH, is_quiet=False)
    lay_out(comparison, question)
    for words, asking, settings in lines.good():
        fitting = question._replace(case=question.case._replace(**settings), **asking)
        comparison.expect(f"words {words}", modelled(fitting),
                          comparison.execute(["diff", *words], home=comparison.folder))
    for words in (("--help",), ("diff", "--help"), ("help", "diff")):
        comparison.expect_help(words, lines.HELPED if "diff" in words else (b"diff",))


# Faults

WITH_FAULTS = {"changes": CHANGING, "no change": SAME, "a ruleset that is refused": BROKEN, "two captures": TWO,
               "a capture that is cut": CUT, "a record that is too long": TOO_LONG,
               "verdicts alone": CHANGING._replace(by_verdict=True), "JSON": CHANGING._replace(form=JSON),
               "warnings": WARNED}


def faults(comparison):
    """Each allocation, read and write of some questions goes wrong in turn."""
    folder = comparison.folder
    for name, question in WITH_FAULTS.items():
        lay_out(comparison, question)
        print(f"diff, {name}", flush=True)
        words = [folder / each for each in ("capture", *NAMES)]
        command = [comparison.program, "diff", *words, *flags(comparison, question, comparison.other_captures)]
        comparison.expect(f"{name}, with faults", True, ends_lawfully("diff", list(map(str, command))))


# Runs of the program by both rulesets

def expect_read(comparison, question, outcomes, answered):
    """What Python's reader of JSON reads of an answer is what the answer is as text."""
    if question.form == JSON and answered and answered.status != REFUSED:
        expected = model.answer(question._replace(form=TEXT), *outcomes).out
        comparison.expect(f"{question.case.name}: read as JSON", expected,
                          readers.as_text(answered.out, question.case.also))


def joined(comparison, question):
    """What both runs leave, and the answer that the model makes of that; None if a run takes too long. The program has
    to give this answer."""
    outcomes = runs_of(comparison, question)
    if None in outcomes:
        comparison.expect(f"{question.case.name}: the runs", "an end of both", outcomes)
        return outcomes, None
    expected = model.answer(question, *outcomes)
    lay_out(comparison, question)
    seen = asked(comparison, question)
    comparison.expect(question.case.name, expected, seen)
    if seen == expected:
        expect_read(comparison, question, outcomes, seen)
    return outcomes, expected


def example_questions(comparison):
    """The examples, without each of their rules in turn."""
    for question in cases.examples():
        joined(comparison, question)


def expect_idle(comparison, drawn, expected):
    """Nothing changes if all edits leave the rules as they are."""
    if IDLE.issuperset(drawn.edits):
        comparison.expect(f"{drawn.question.case.name}: nothing changes", False, expected.status == SOMETHING_CHANGES)


def expect_unasked(comparison, question, outcomes):
    """Nothing changes if no packet could have asked a rule that differs, and no option differs: whether this is so."""
    if untried.untried(question, *outcomes).is_tried:
        return False
    comparison.expect(f"{question.case.name}: nothing was asked", [], list(changes_of(question, *outcomes)))
    return True


def drawn_by_program(comparison, number):
    """A random question: the program is run by both rulesets, and asked."""
    drawn = cases.drawn_at(number)
    outcomes, expected = joined(comparison, drawn.question)
    if expected is None:
        return Counter()
    if number % MODEL_STEP == 0:
        comparison.expect(f"{drawn.question.case.name}: by the model of runs", modelled(drawn.question), expected)
    expect_idle(comparison, drawn, expected)
    is_unasked = expected.status != REFUSED and expect_unasked(comparison, drawn.question, outcomes)
    return counts_of(drawn, outcomes, expected) + Counter({UNASKED: 1} if is_unasked else {})


# The model beside itself

def mirrored(line):
    """A line about a cause or a pair of decisions with both decisions in each other's place."""
    *flow, pair, rest = line.split("  ") if "  " in line else line.split(": ")
    old, new = pair.split(" -> ")
    return ("  " if flow else ": ").join([*flow, f"{new} -> {old}", rest])


def is_of_changes(line):
    """Whether a line is about changes, and not about what isn't judged or met."""
    return not line.startswith(("not judged: ", "met by no packet: "))


def lines_of_changes(answered):
    """The lines about changes without their order, and the last one. How many packets follow each cause is left out: if
    one met states of two causes, the old ruleset says which of them it follows."""
    *lines, last = answered.out.decode().splitlines()
    return sorted(FOLLOWING.sub(r"\1", line) for line in lines if is_of_changes(line)), last


def expect_alike(comparison, question, outcomes):
    """With the rulesets in each other's place the same packets change and are causes, and if verdicts alone count no
    others change."""
    question = question._replace(form=TEXT)
    said, last = lines_of_changes(model.answer(question, *outcomes))
    comparison.expect(f"{question.case.name}, the other way round", (sorted(map(mirrored, said)), last),
                      lines_of_changes(model.answer(question.swapped(), *reversed(outcomes))))
    numbers, fewer = ({each.number for each in changes_of(question._replace(by_verdict=alone), *outcomes)}
                      for alone in (False, True))
    comparison.expect(f"{question.case.name}, by the verdict", fewer & numbers, fewer)


def drawn_by_model(comparison, number):
    """A random question by the model of runs."""
    drawn = cases.drawn_at(number)
    outcomes = list(map(runs_model.run, drawn.question.cases()))
    expected = model.answer(drawn.question, *outcomes)
    expect_idle(comparison, drawn, expected)
    is_unasked = expected.status != REFUSED and expect_unasked(comparison, drawn.question, outcomes)
    if expected.status != REFUSED:
        expect_alike(comparison, drawn.question, outcomes)
        expect_read(comparison, drawn.question, outcomes, expected)
    return counts_of(drawn, outcomes, expected) + Counter({UNASKED: 1} if is_unasked else {})


# All of it

def compare_model():
    """Whether something goes wrong with each part of the model alone."""
    results = in_parts(None, {
        "answers written by hand, by the model": (model_rows,),
        "made-up endings of faults": (judged.compare,)})
    found = in_processes(drawn_by_model, None, MODEL_DRAWN)
    return [*results, told_drawn("random questions, by the models", found)]


def compare(program, drawn=DRAWN):
    """Whether something goes wrong with each part of the comparison with a program."""
    results = in_parts(program, {
        "answers written by hand and command lines": (program_rows, bad_lines, good_lines),
        "files and outputs": (files.compare,),
        "questions with a fault at each call": (faults,),
        "the examples without a rule": (example_questions,)})
    return [*results, told_drawn("random questions", in_processes(drawn_by_program, program, drawn))]


def model_alone():
    sys.exit(any(compare_model()))


def main():
    main_of("diff", compare, model_alone, DRAWN)


if __name__ == "__main__":
    main()
