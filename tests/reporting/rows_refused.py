"""Rows that are refused: all that `show` and `states` refuse. Nothing is printed."""

import listing.rows
import showing.rows
from reporting.model import Question
from reporting.row import BLOCK, BLOCKED, KNOCK, Row, capture_of, fault, question_of, text_of
from reporting.rows_states import states_of
from showing.model import TEXT, Asked
from showing.rows_refused import TOO_LONG

GOOD = capture_of(KNOCK), text_of(f"1 0 {BLOCKED}")


def of_show():
    """Each refusal of `show`, once. Which packets it asks for doesn't matter."""
    seen = set()
    for row in showing.rows.rows():
        question = Question(row.question._replace(asked=Asked(), form=TEXT))
        if row.said and question not in seen:
            seen.add(question)
            yield Row(f"refused by show: {row.name}", question, {}, row.said, row.remarks)


def of_states():
    """Each refusal of `states`, behind packets that are joined."""
    for row in listing.rows.rows():
        if row.said:
            yield fault(f"refused by states: {row.name}", question_of(BLOCK, *GOOD, row.octets), row.said)


def of_both():
    """The ruleset is read before the states are, and so are the packets if there are no states to be refused."""
    yield fault("a ruleset that is refused, and states", question_of("scrub in all", *GOOD, b"x\n"),
                "rules line 1: left out: scrub")
    yield fault("no line of a packet, and good states", question_of(BLOCK, GOOD[0], b"", states_of(0)),
                "packet 1: no line of verdicts")
    long = capture_of(KNOCK, behind=TOO_LONG)
    yield fault("a record that is too long, and good states", question_of(BLOCK, long, GOOD[1], states_of(0)),
                "capture: record too long 262145, committed 1")


def rows():
    for make in (of_show, of_states, of_both):
        yield from make()
