"""Compares what the command `show` of pfreplay answers with the model, and with answers written by hand.

    python3 -m showing.compare [--program FILE] [--drawn N]
    python3 -m showing.compare --model

in the folder `tests`. `--drawn` tells how many random questions there are. For each one the program is run, and the
model joins the lines that it leaves with the packets. With `--model` the models alone are compared with the answers
written by hand, and no program is needed.
"""

import random
import sys
from collections import Counter
from functools import partial

sys.dont_write_bytecode = True

import steps.place_runs
import steps.random_runs
import steps.translation_runs
from captures.merging import ENDED
from changes.cases import case_of_run
from faults.command import ends_lawfully
from runs import model as runs_model
from showing import cases, files, judged, lines, readers, rows
from showing.asking import asked, command_of, expect_answer, expect_one_of, lay_out, run_of, without_remarks
from showing.files import BROKEN, CUT, LACKING, ONE, TWO
from showing.kinds import counts_of, told_drawn
from showing.model import COUNT, JSON, PFLOG, TEXT, Asked, Question, answer, answers
from showing.rows_asked import of_six
from standby.many import in_parts, in_processes, main_of
from steps.settings import PLAIN

# where no other number is told, and that of the models alone
DRAWN, MODEL_DRAWN = 1000, 300
# the packets of each run that other readers are asked about, and of one for the models alone; and the kinds of runs
READ, MODEL_READ = 1200, 120
LONG = ("one", "translation", "several")


# Answers written by hand

def model_rows(comparison):
    """What the model says to the rows. Of each there is one answer that is right."""
    for row in rows.rows():
        comparison.expect(row.name, [row.outcome()], answers(row.question))
        comparison.expect(f"{row.name}: what was rewritten", row.told(),
                          row.question.remarks() if row.question.surroundings else [])


def program_rows(comparison):
    """What the program answers to the rows."""
    for row in rows.rows():
        lay_out(comparison, row.question)
        comparison.expect(row.name, row.outcome(), without_remarks(asked(comparison, row.question), row.told()))


# Command lines

def bad_lines(comparison):
    """Lines that don't fit. Of the wording what is at fault is fixed."""
    lay_out(comparison, BROKEN)
    for words, said in lines.bad():
        seen = comparison.execute(words, home=comparison.folder)
        comparison.expect_refused(f"words {words}", seen, said)


def good_lines(comparison):
    """Lines that fit, and the help."""
    question = of_six()
    lay_out(comparison, question)
    for words, asking, form in lines.good():
        fitting = question._replace(asked=Asked(**asking), form=form)
        seen = comparison.execute(["show", *words], home=comparison.folder)
        expect_one_of(comparison, f"words {words}", answers(fitting), seen)
    for words in (("--help",), ("show", "--help"), ("help", "show")):
        comparison.expect_help(words, lines.HELPED if "show" in words else (b"show",))


# Faults

WITH_FAULTS = {"some packets": ONE, "JSON": of_six(JSON), "pflog": of_six(PFLOG), "a number of packets": of_six(COUNT),
               "flags": of_six(only=("pass", "block"), line=3, logged=True, port="ssh", proto="tcp"),
               "two captures": TWO,
               "a ruleset that is refused": BROKEN, "a capture that is cut": CUT, "a line that is cut": LACKING}


def faults(comparison):
    """Each allocation, read and write of some questions goes wrong in turn."""
    for name, question in WITH_FAULTS.items():
        lay_out(comparison, question)
        print(f"show, {name}", flush=True)
        command = command_of(comparison.program, comparison.folder, question)
        comparison.expect(f"{name}, with faults", True, ends_lawfully("show", command))


# Other readers

def long_case(kind, count):
    """A random run with this number of packets, on one interface or several, some of whose rules log."""
    draw, counts = random.Random(f"{cases.SEED} {count} {kind}"), (count, count)
    make = {"one": lambda: steps.random_runs.some_run(draw, 0, count, counts),
            "translation": lambda: steps.translation_runs.some_run(draw, 0, count, draw.randbytes(32), counts),
            "several": lambda: steps.place_runs.some_run(draw, 0, count, counts, PLAIN)}[kind]
    while True:
        case = case_of_run(draw, cases.logging(draw, make()))._replace(name=f"{count} packets, {kind}")
        seen = Question(case, b"").joined()
        if seen.tail in ENDED and len(seen.packets) > count // 2:
            return case


def expect_read(comparison, question, answered):
    """What other readers say of the packets of a question is what its lines say."""
    for form, expect in ((PFLOG, readers.expect_pflog), (JSON, readers.expect_json)):
        seen = answered(question._replace(form=form))
        comparison.expect(f"{question.case.name}: {form}", (0, b""), seen and (seen.status, seen.err))
        if seen and seen.status == 0:
            expect(comparison, question, seen.out)


def read_by_model(comparison):
    """What the model prints is read again."""
    for kind in LONG:
        case = long_case(kind, MODEL_READ)
        expect_read(comparison, Question(case, runs_model.run(case).files.verdicts), answer)


def read_by_program(comparison):
    """What the program prints is read again."""
    for kind in LONG:
        case = long_case(kind, READ)
        question = Question(case, run_of(comparison, case).files.verdicts)
        lay_out(comparison, question)
        expect_read(comparison, question, partial(asked, comparison))


# Random questions

def drawn_by_program(comparison, number):
    """A random question: the program is run, and asked."""
    drawn = cases.drawn_at(number)
    outcome = run_of(comparison, drawn.case)
    if outcome is None:
        comparison.expect(f"{drawn.case.name}: the run", "an end", None)
        return Counter()
    question = cases.question_of(drawn, outcome)
    allowed = answers(question)
    expect_answer(comparison, drawn.case.name, question, allowed)
    return counts_of(drawn, question, allowed)


def drawn_by_model(comparison, number):
    """A random question by the model of runs."""
    drawn = cases.drawn_at(number)
    question = cases.question_of(drawn, runs_model.run(drawn.case))
    allowed = answers(question)
    if allowed[0].status == 0:
        expect_alike(comparison, question._replace(form=TEXT))
    return counts_of(drawn, question, allowed)


def expect_alike(comparison, question):
    """Lines of text, objects and numbers of packets are of the same packets, and each packet has one verdict."""
    name, whole = question.case.name, question._replace(asked=Asked())
    told, every = (answer(each).out.splitlines() for each in (question, whole))
    comparison.expect(f"{name}: lines among all", told, [line for line in every if line in set(told)])
    count = answer(question._replace(form=COUNT)).out.split()
    comparison.expect(f"{name}: numbers", [b"%d" % len(told), b"%d" % len(every)], [count[0], count[2]])
    objects = answer(question._replace(form=JSON)).out.splitlines()
    comparison.expect(f"{name}: objects", len(told), len(objects))
    parts = [answer(whole._replace(asked=Asked(only=(verdict,)))).out.splitlines() for verdict in cases.VERDICTS]
    comparison.expect(f"{name}: by verdicts", sorted(every), sorted(sum(parts, [])))


# All of it

def compare_model():
    """Whether something goes wrong with each part of the model alone."""
    results = in_parts(None, {
        "answers written by hand, by the model": (model_rows,),
        "made-up endings of faults": (judged.compare,),
        "what other readers say, of the model": (read_by_model,)})
    found = in_processes(drawn_by_model, None, MODEL_DRAWN)
    return [*results, told_drawn("random questions, by the models", found)]


def compare(program, drawn=DRAWN):
    """Whether something goes wrong with each part of the comparison with a program."""
    results = in_parts(program, {
        "answers written by hand and command lines": (program_rows, bad_lines, good_lines),
        "files and outputs": (files.compare,),
        "questions with a fault at each call": (faults,),
        "what other readers say": (read_by_program,)})
    return [*results, told_drawn("random questions", in_processes(drawn_by_program, program, drawn))]


def model_alone():
    sys.exit(any(compare_model()))


def main():
    main_of("show", compare, model_alone, DRAWN)


if __name__ == "__main__":
    main()
