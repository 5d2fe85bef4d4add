"""What is expected of what the command `rules` prints: that it is the right answer, that the same is printed if it is
given again as a ruleset, and that JSON means the same as text."""

from functools import partial

from expansions.hosts import OWN
from runs.check_cases import MOST_TEXT
from runs.model import Outcome
from steps.replay import ruleset_of
from telling import asking, model
from telling.asking import answered, checked
from telling.model import JSON, TEXT
from telling.reading import expect_objects


# What was printed, as a ruleset

def tables_of(ruleset):
    """The tables of the text."""
    return [name for name in ruleset.hosts.tables if name != OWN]


def bare(outcome):
    """What was printed without marks: tables are empty when it is given again, so fewer rules are shadowed."""
    return outcome._replace(out=asking.without_marks(outcome.out)) if isinstance(outcome, Outcome) else outcome


def expect_again(comparison, name, asked, printed, answer):
    """What was printed, maybe with counters, is given again: the same rules are printed of it. It answers what was
    given."""
    tables = tables_of(ruleset_of(asked.text, asked.interfaces))
    rules = bare(model.answer(asked._replace(counters=None))).out
    again = asking.asked_again(asked, printed, tables)
    seen, expected = answer(again), model.answer(again)
    comparison.expect(f"{name}, given again", asking.printed_again(rules, tables), bare(seen))
    comparison.expect(f"{name}, given again, with marks", expected, seen)
    words = asking.without_lines(bare(seen).out) if isinstance(seen, Outcome) else None
    comparison.expect(f"{name}, given again, numbers and words", asking.without_lines(rules), words)
    return again


def fits(printed):
    """Whether what was printed may be a ruleset, behind some tables."""
    return len(printed) < MOST_TEXT


def expect_told(comparison, name, asked, expected=None):
    """The program answers what is expected, by default what the model does, and the same to what it printed. What it
    prints as JSON is read by Python, and means the same as what it prints as text."""
    expected = expected or model.answer(asked)
    seen = answered(comparison, asked)
    comparison.expect(name, expected, seen)
    if expected.status or seen != expected:
        return
    if asked.form == JSON:
        text = answered(comparison, asked._replace(form=TEXT))
        expect_objects(comparison, name, seen.out, text and text.out)
    elif fits(seen.out):
        again = expect_again(comparison, name, asked, seen.out, partial(answered, comparison))
        counts = ruleset_of(asked.text, asked.interfaces).counts()
        said = asking.check_again(again.text, *counts)
        comparison.expect(f"{name}, given to check", said, checked(comparison, again))


def expect_told_by_model(comparison, name, asked):
    """The model answers the same to what it printed. What it prints as JSON is read by Python."""
    expected = model.answer(asked)
    if expected.status:
        return
    if asked.form == JSON:
        expect_objects(comparison, name, expected.out, model.answer(asked._replace(form=TEXT)).out)
    elif fits(expected.out):
        expect_again(comparison, name, asked, expected.out, model.answer)
