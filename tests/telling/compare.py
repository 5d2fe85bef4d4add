"""Compares what the command `rules` of pfreplay answers with the model, and with answers written by hand.

    python3 -m telling.compare [--program FILE] [--drawn N] [--runs N]

in the folder `tests`. `--drawn` and `--runs` tell how many drawn rulesets and how many random runs there are. What is
printed of a ruleset is given again, as a ruleset: the same rules have to be printed, and `check` has to count as many.
What is printed as JSON is read by Python, and has to mean the same as the lines of text.
"""

import argparse
import sys
from collections import Counter
from pathlib import Path

sys.dont_write_bytecode = True

import building
from expansions.hosts import interface_of
from runs import model as runs_model
from runs.check_cases import FITTING, RULES
from runs.model import Outcome
from standby.after_runs import ALONE
from standby.cases import case_at as run_at
from standby.many import in_parts, in_processes, told
from steps.replay import ruleset_of
from telling import asking, cases, deciding, files, judged, kinds, lines, model, rows, rows_adapted
from telling.asking import answered, checked, interface_words
from telling.expecting import expect_told, expect_told_by_model
from telling.model import FORMS, TEXT, Asked
from telling.row import ONE, TOGETHER, TOGETHER_COUNTERS, TWO
from workers.choices import run_of

# where no other numbers are told, and those of the models alone
DRAWN, RUNS = 3000, 200
MODEL_DRAWN, MODEL_RUNS = 3000, 60
# how many cases there are at most for each time that a thing comes up
DRAWN_EACH, RUNS_EACH = 400, 100


# Answers written by hand

def model_rows(comparison):
    """What the model says to the rows. Of texts as they are written it is asked for those with the same rules."""
    for row in rows.rows():
        comparison.expect(row.name, row.outcome(), model.answer(row.asked()))
        expect_told_by_model(comparison, row.name, row.asked())
    for each in rows_adapted.rows():
        row = each.row()
        if not row.said:
            seen = model.answer(row.asked()._replace(text=each.strict.encode()))
            comparison.expect(row.name, asking.without_lines(row.outcome().out), asking.without_lines(seen.out))


def program_rows(comparison):
    """What the program answers to the rows, and that it counts as many rules as it prints."""
    for row in rows.rows():
        expect_told(comparison, row.name, row.asked(), row.outcome())
        if not row.said:
            counts = ruleset_of(row.asked().text, row.interfaces).counts()
            comparison.expect(f"{row.name}, check", asking.check_again(row.asked().text, *counts),
                              checked(comparison, row.asked()))


def program_adapted(comparison):
    """Texts as they are written. The same is said of them as by `check`."""
    for each in rows_adapted.rows():
        row = each.row()
        for name, text in each.files.items():
            (comparison.folder / name).write_text(text)
        flags = ["--adapt", *each.flags]
        seen = answered(comparison, row.asked(), flags, home=comparison.folder)
        said = comparison.execute(["check", comparison.rules, *interface_words(ONE), *flags], home=comparison.folder)
        err = said.err if said else b""
        comparison.expect(row.name, row.outcome()._replace(err=err), seen)
        comparison.expect(f"{row.name}, what is said last", True, err.endswith(row.outcome().err))


# Command lines

def command_lines(comparison):
    """Lines that don't fit: of the wording what is at fault is fixed. Others in any order, and the help."""
    folder = comparison.folder
    (folder / asking.COUNTERS).write_bytes(TOGETHER_COUNTERS)
    (folder / RULES).write_bytes(b"scrub in all\n")
    for words, said in lines.bad():
        seen = comparison.execute(["rules", *words], home=folder)
        comparison.expect_refused(f"words {words}", seen, said)
    (folder / RULES).write_bytes(TOGETHER)
    for words, form in lines.good():
        expected = model.answer(Asked(TOGETHER, TWO, TOGETHER_COUNTERS, form))
        comparison.expect(f"words {words}", expected, comparison.execute(["rules", *words], home=folder))
    own = b"<RULES>", b"--counters", b"--also", b"--adapt", b"--format <text|json>"
    for words, parts in ((("--help",), (b"rules",)), (("rules", "--help"), own), (("help", "rules"), own)):
        comparison.expect_help(words, parts)


def other_commands(comparison):
    """The commands `check` and `adapt` know other interfaces too."""
    comparison.rules.write_bytes(TOGETHER)
    words = [comparison.rules, *interface_words(TWO)]
    for command, expected in (("check", asking.check_again(TOGETHER, 2, 0)), ("adapt", Outcome(TOGETHER, b"", 0))):
        comparison.expect(f"{command} for two interfaces", expected, comparison.execute([command, *words]))
        for names in (("em0",), ("em1", "em1")):
            seen = comparison.execute([command, comparison.rules, *FITTING, *lines.also(*names)])
            said = Outcome(b"", f"pfreplay: interface twice: {names[-1]}\n".encode(), 1)
            comparison.expect(f"{command} with {names}", said, seen)
        for form in FORMS:
            seen = comparison.execute([command, *words, "--format", form])
            comparison.expect_refused(f"{command} as {form}", seen, (b"--format",))


# Drawn rulesets

MARKED = "rules marked as shadowed"
ENDED = (*kinds.ENDINGS, *cases.KINDS, cases.NO_COUNTERS, cases.RIGHT_COUNTERS, *cases.DAMAGES, *FORMS, *kinds.OF_JSON)


def counts_of_case(case):
    """How often each thing comes up in a case, and how many rules are shadowed."""
    expected = model.answer(case.asked)
    found = {kinds.ending_of(case.asked, expected), case.kind, case.damage, case.asked.form}
    if expected.status == 0:
        found |= kinds.kinds_of(ruleset_of(case.asked.text, case.asked.interfaces), case.asked.interfaces)
        found |= {*kinds.of_json(case.asked, expected)}
    return Counter(found) + Counter({MARKED: len(asking.marked(model.answer(case.asked._replace(form=TEXT)).out))})


def told_of_drawn(title, found):
    """Prints how drawn rulesets went, and how many rules were marked. It answers whether something is wrong: also if
    none was."""
    is_wrong = told(title, found, (*ENDED, *kinds.OF_RULES), DRAWN_EACH)
    print(f"  {found.counts[MARKED]} {MARKED}", flush=True)
    return is_wrong or not found.counts[MARKED]


def drawn_case(comparison, number, expect=expect_told):
    case = cases.case_at(number)
    expect(comparison, case.name, case.asked)
    return counts_of_case(case)


def drawn_case_by_model(comparison, number):
    return drawn_case(comparison, number, expect_told_by_model)


# Random runs

DECISIONS = ("a rule that counts", "a rule that counts nothing", "a rule that is shadowed", "a translation that counts",
             "a translation that counts nothing")
IN_RUNS = (*DECISIONS, "runs on several interfaces", "runs that stop early", *FORMS)


def counts_of_run(asked, expected):
    """How often each thing comes up in what is printed as text with the counters of a run, and how it was asked for."""
    if expected.status:
        return Counter(["runs that stop early", asked.form])
    translations = ruleset_of(asked.text, asked.interfaces).counts()[1]
    rules = [line for line in asking.lines_in(expected.out) if line.startswith(b"@")]
    kinds_of_rules = ("a translation", rules[:translations]), ("a rule", rules[translations:])
    found = {f"{kind} that counts{' nothing' if asking.COUNTS_NOTHING.search(line) else ''}"
             for kind, some in kinds_of_rules for line in some}
    found |= {"a rule that is shadowed"} if asking.marked(expected.out) else set()
    return Counter(found | {asked.form}) + Counter({"runs on several interfaces": len(asked.interfaces) > 1})


def expect_run(comparison, case, outcome, form, expect):
    """The counters that a run leaves, with its ruleset, printed in some form."""
    counters = outcome and outcome.files.counters
    if counters is None:
        comparison.expect(f"{case.name}: the run", "counters", outcome)
        return Counter()
    asked = Asked(case.rules, tuple(interface_of(*each) for each in case.interfaces()), counters, form)
    comparison.prepare()
    expect(comparison, case.name, asked)
    return counts_of_run(asked, model.answer(asked._replace(form=TEXT)))


def after_run(comparison, number):
    case = run_at(number)
    return expect_run(comparison, case, run_of(comparison, case, ALONE), cases.form_at(number), expect_told)


def after_run_by_model(comparison, number):
    case = run_at(number)
    return expect_run(comparison, case, runs_model.run(case), cases.form_at(number), expect_told_by_model)


# All of it

def compare_model():
    """Whether the model or the judge of faults answers otherwise than is written by hand, or a kind is too rare."""
    results = in_parts(None, {
        "answers written by hand, by the model": (model_rows,),
        "made-up endings of faults": (judged.compare,)})
    found = in_processes(deciding.case_at, None, deciding.RULESETS)
    results.append(told("packets near the rules of drawn rulesets", found, deciding.SEEN))
    found = in_processes(drawn_case_by_model, None, MODEL_DRAWN)
    results.append(told_of_drawn("drawn rulesets, by the model", found))
    found = in_processes(after_run_by_model, None, MODEL_RUNS)
    results.append(told("counters of random runs, by the models", found, IN_RUNS, RUNS_EACH))
    return any(results)


def compare(program, drawn=DRAWN, runs=RUNS):
    """The same of the program."""
    results = in_parts(program, {
        "answers written by hand, command lines, files and outputs": (
            program_rows, program_adapted, command_lines, other_commands, files.files, files.outputs),
        "rulesets of as many rules as there may be": (files.long_rulesets,),
        "rulesets and counters with a fault at each call": (files.faults,)})
    found = in_processes(drawn_case, program, drawn)
    results.append(told_of_drawn("drawn rulesets", found))
    found = in_processes(after_run, program, runs)
    results.append(told("counters of random runs", found, IN_RUNS, RUNS_EACH))
    return any(results)


def model_alone():
    sys.exit(compare_model())


def main():
    parser = argparse.ArgumentParser(description="Compares the command rules with the model.")
    parser.add_argument("--program", type=Path, metavar="FILE", help="the built program")
    parser.add_argument("--drawn", type=int, default=DRAWN, metavar="N", help="how many drawn rulesets")
    parser.add_argument("--runs", type=int, default=RUNS, metavar="N", help="how many random runs")
    words = parser.parse_args()
    sys.exit(compare(words.program or building.pfreplay(), words.drawn, words.runs))


if __name__ == "__main__":
    main()
