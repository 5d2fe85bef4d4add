"""Compares what the command `report` of pfreplay answers with the model, and with pages written by hand; and what
commands say of how far they have come.

    python3 -m reporting.compare [--program FILE] [--drawn N]
    python3 -m reporting.compare --model

in the folder `tests`. `--drawn` tells how many random questions there are. For each one the program is run, and the
model tells the page of what it leaves. With `--model` the models alone are compared with the pages written by hand, and
no program is needed.
"""

import sys
from collections import Counter

sys.dont_write_bytecode = True

from faults.command import ends_lawfully
from reporting import cases, checks, files, included, judged, lines, made_up, model, progress, rows
from reporting.asking import asked, command_of, expect_answer, lay_out, page_read
from reporting.files import BROKEN, CUT, LACKING, STATELESS, TWO, WITH_STATES
from reporting.kinds import counts_of, told_drawn
from reporting.reading import read
from reporting.row import ONE
from reporting.written import written
from runs import model as runs_model
from showing.asking import run_of, without_remarks
from standby.many import in_parts, in_processes, main_of

# where no other number is told, and that of the models alone
DRAWN, MODEL_DRAWN = 1000, 300
# tidy also reads one page in this many
TIDY_STEP = 25


# Pages written by hand

def model_rows(comparison):
    """What the model says to the rows. Of each there is one answer that is right."""
    for row in rows.rows():
        allowed = model.answers(row.question)
        comparison.expect(f"{row.name}: answers", 1, len(allowed))
        if row.said:
            comparison.expect(row.name, row.outcome(), allowed[0])
        else:
            page = model.page_of(row.question, model.default_names(row.question))
            expect_parts(comparison, row, page)
            expect_written(comparison, row.name, page)
        comparison.expect(f"{row.name}: what was rewritten", row.told(),
                          row.question.shown.remarks() if row.question.surroundings else [])


def expect_parts(comparison, row, page):
    """The parts of a page that are written out."""
    for name, value in row.parts.items():
        comparison.expect(f"{row.name}: {name}", value, page and getattr(page, name))


def expect_written(comparison, name, page):
    """What is read of a page that is written in another way is the same."""
    comparison.expect(f"{name}: read again", (page, []), read(written(page)))


def program_rows(comparison):
    """What the program answers to the rows."""
    for number, row in enumerate(rows.rows()):
        lay_out(comparison, row.question)
        if row.said:
            seen = asked(comparison, row.question, is_quiet=False)
            comparison.expect(row.name, row.outcome(), without_remarks(seen, row.told()))
            continue
        is_quiet = number % 2 == 0
        seen = asked(comparison, row.question, is_quiet=is_quiet)
        comparison.expect(f"{row.name}: the status", 0, seen and seen.status)
        expect_parts(comparison, row, page_read(seen.out) if seen else None)
        expect_answer(comparison, row.name, row.question, seen, is_quiet=is_quiet)
        expect_read(comparison, row.name, seen, number)
        if row.warnings is not None:
            expect_warned(comparison, row, seen)


def expect_warned(comparison, row, seen):
    """What is said on standard error, and the page, are those that are written out, or that were seen."""
    for is_quiet, said in ((True, b""), (False, row.err())):
        again = without_remarks(asked(comparison, row.question, is_quiet=is_quiet), row.told())
        comparison.expect(f"{row.name}: warnings, {'' if is_quiet else 'not '}quiet", seen and (seen.out, said),
                          again and (again.out, again.err))


def expect_read(comparison, name, seen, number=0):
    """Other readers of HTML have nothing to say of a page, some of which tidy reads too."""
    if seen and seen.status == 0:
        comparison.expect(f"{name}: html5lib", "", checks.said_by_html5lib(seen.out))
        if number % TIDY_STEP == 0:
            comparison.expect(f"{name}: tidy", "", checks.said_by_tidy(seen.out))


# Command lines

def bad_lines(comparison):
    """Lines that don't fit. Of the wording what is at fault is fixed."""
    lay_out(comparison, BROKEN)
    for words, said in lines.bad():
        seen = comparison.execute(words, home=comparison.folder)
        comparison.expect_refused(f"words {words}", seen, said)


def good_lines(comparison):
    """Lines that fit, and the help."""
    lay_out(comparison, WITH_STATES)
    for words, has_states, is_quiet in lines.good():
        question = WITH_STATES if has_states else STATELESS
        seen = comparison.execute(words, home=comparison.folder)
        expect_answer(comparison, f"words {words}", question, seen, is_quiet=is_quiet)
    for words in (("--help",), ("report", "--help"), ("help", "report")):
        comparison.expect_help(words, lines.HELPED if "report" in words else (b"report",))


# Faults

WITH_FAULTS = {"some packets": ONE, "states": WITH_STATES, "two captures": TWO, "a ruleset that is refused": BROKEN,
               "a capture that is cut": CUT, "a line that is cut": LACKING,
               "a state that is cut": WITH_STATES._replace(states=WITH_STATES.states[:-1])}


def faults(comparison):
    """Each allocation, read and write of some questions goes wrong in turn."""
    for name, question in WITH_FAULTS.items():
        lay_out(comparison, question)
        print(f"report, {name}", flush=True)
        command = command_of(comparison.program, comparison.folder, question)
        comparison.expect(f"{name}, with faults", True, ends_lawfully("report", command))


# Random questions

def drawn_by_program(comparison, number):
    """A random question: the program is run, and asked."""
    drawn = cases.drawn_at(number)
    outcome = run_of(comparison, drawn.case)
    if outcome is None:
        comparison.expect(f"{drawn.case.name}: the run", "an end", None)
        return Counter()
    question = cases.question_of(drawn, outcome)
    lay_out(comparison, question)
    is_quiet = cases.is_quiet_at(number)
    seen = asked(comparison, question, is_quiet=is_quiet)
    expect_answer(comparison, drawn.case.name, question, seen, is_quiet=is_quiet)
    expect_read(comparison, drawn.case.name, seen, number)
    return counts_of(drawn, question, is_quiet)


def drawn_by_model(comparison, number):
    """A random question by the model of runs."""
    drawn = cases.drawn_at(number)
    question = cases.question_of(drawn, runs_model.run(drawn.case))
    allowed = model.answers(question)
    comparison.expect(f"{drawn.case.name}: an answer", True, bool(allowed))
    if allowed[0].status == 0:
        page = model.page_of(question, model.default_names(question))
        expect_written(comparison, drawn.case.name, page)
        expect_sums(comparison, drawn.case.name, page)
    return counts_of(drawn, question, cases.is_quiet_at(number))


def number_in(cell):
    return int(cell or "0")


def expect_sums(comparison, name, page):
    """Packets are counted once by their verdicts, and once in the spans."""
    packets = number_in(dict(page.summary)["Packets"].removesuffix(", cut"))
    by_verdict = [number_in(row[1]) for row in page.verdicts]
    in_spans = [number_in(each.split(" ")[0]) for title, _ in page.spans for each in title[21:].split(", ")]
    comparison.expect(f"{name}: packets", [packets, packets], [sum(by_verdict), sum(in_spans)])
    more = number_in(page.more.rpartition(" with ")[2].partition(" ")[0])
    flows = sum(number_in(row[0]) for row in page.blocked) + more
    comparison.expect(f"{name}: packets that are blocked", by_verdict[1] + by_verdict[2], flows)
    unused = {row[1] for row in page.rules if row[0] == "unused"}
    comparison.expect(f"{name}: lines that did nothing", True, {row[0] for row in page.unused} <= unused)


# All of it

def compare_model():
    """Whether something goes wrong with each part of the model alone."""
    results = in_parts(None, {
        "made-up pages": (made_up.compare,),
        "pages written by hand, by the model": (model_rows,),
        "made-up endings of faults": (judged.compare,),
        "made-up lines of progress": (progress.compare_made_up,)})
    found = in_processes(drawn_by_model, None, MODEL_DRAWN)
    return [*results, told_drawn("random questions, by the models", found)]


def compare(program, drawn=DRAWN):
    """Whether something goes wrong with each part of the comparison with a program."""
    for left_out in checks.missing():
        print(f"left out: what {left_out} says of pages")
    results = in_parts(program, {
        "pages written by hand and command lines": (program_rows, bad_lines, good_lines),
        "files and outputs": (files.compare, included.compare),
        "how far a command has come": (progress.compare,),
        "questions with a fault at each call": (faults,)})
    return [*results, told_drawn("random questions", in_processes(drawn_by_program, program, drawn))]


def model_alone():
    sys.exit(any(compare_model()))


def main():
    main_of("report", compare, model_alone, DRAWN)


if __name__ == "__main__":
    main()
