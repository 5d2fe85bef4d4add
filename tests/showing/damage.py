"""What is wrong with some of the random questions to the command `show`: lines of verdicts with damage, or another
capture or ruleset than that of the run. Each takes a question and answers another one.
"""

import re

from captures.model import HEADER, Refused, read_header, records_of
from changes import edits
from listing import cases
from showing.verdicts import REASONS

NUMBERS = (0, 1, 2, 3, 7, 99, 2**32 - 1, 2**32, 2**64 - 1, 2**64, "-")
FIELDS = {"number": rb"^(\d+)", "clock": rb"^\d+ (\d+)", "rule": rb" r=(\d+|-)", "translation": rb" t=(\d+|-)",
          "state": rb" s=(\d+|-)"}
NAMES = (b"em0", b"em1", b"em2", b"em9", b"", b"a", b"em 0", b"e" * 16, b"-", b"em0 i=em0")


# Lines

def with_line(draw, question, change):
    """A question of whose lines a function changes one, if there is any."""
    lines = question.verdicts.splitlines(keepends=True)
    if lines:
        place = draw.randrange(len(lines))
        lines[place] = change(lines[place])
    return question._replace(verdicts=b"".join(lines))


def of_octets(kind):
    """A kind of damage of a file, as one of a question."""
    return lambda draw, question: question._replace(verdicts=kind(draw, question.verdicts))


def put(line, found, octets):
    return line if found is None else line[:found.start(1)] + octets + line[found.end(1):]


def other_number(draw, question):
    """A number of a line is another one: any, or one more or less."""
    pattern = FIELDS[draw.choice(sorted(FIELDS))]

    def change(line):
        found = re.search(pattern, line)
        if found is None or found[1] == b"-" or draw.random() < 0.5:
            return put(line, found, str(draw.choice(NUMBERS)).encode())
        return put(line, found, b"%d" % max(0, int(found[1]) + draw.choice((-1, 1))))

    return with_line(draw, question, change)


def other_word(draw, question):
    """Verdict and reason are others of those that go together, or the direction is."""
    reason = draw.choice(sorted(REASONS))
    words = f"{draw.choice(('in', 'out', '-'))} {draw.choice(REASONS[reason])} {reason}".encode()
    return with_line(draw, question, lambda line: put(line, re.search(rb"^\d+ \d+ (\S+ \S+ \S+)", line), words))


def other_name(draw, question):
    """The interface is another one, or is named where it isn't to be, or the other way round."""
    name = draw.choice(NAMES)
    end = b" i=" + name + b"\n" if name else b"\n"
    return with_line(draw, question, lambda line: re.sub(rb"( i=.*)?\n", end, line))


def line_too_many(draw, question):
    lines = question.verdicts.splitlines(keepends=True)
    more = draw.choice((*lines[-1:], b"x\n", b"\n", b"1", b"1 0 in pass rule r=0 t=- s=-\n"))
    return question._replace(verdicts=question.verdicts + more)


def line_too_few(draw, question):
    lines = question.verdicts.splitlines(keepends=True)
    return question._replace(verdicts=b"".join(lines[:-draw.choice((1, 1, 2, 5))]))


# Captures

def with_capture(draw, question, change):
    """A question of whose captures a function changes the records of one; its end stays."""
    case = question.case
    place = draw.randrange(len(case.captures()))
    capture = case.captures()[place]
    try:
        records, _ = records_of(capture, read_header(capture).order)
    except Refused:
        return question
    pieces = [each.header + each.frame for each in records]
    rest = capture[HEADER + sum(map(len, pieces)):]
    other = capture[:HEADER] + b"".join(change(pieces)) + rest
    if place == 0:
        return question._replace(case=case._replace(capture=other))
    also = list(case.also)
    also[place - 1] = also[place - 1]._replace(capture=other)
    return question._replace(case=case._replace(also=tuple(also)))


def record_left_out(draw, question):
    def change(pieces):
        place = draw.randrange(len(pieces)) if pieces else 0
        return pieces[:place] + pieces[place + 1:]
    return with_capture(draw, question, change)


def record_doubled(draw, question):
    def change(pieces):
        place = draw.randrange(len(pieces)) if pieces else 0
        return pieces[:place + 1] + pieces[place:]
    return with_capture(draw, question, change)


def records_swapped(draw, question):
    def change(pieces):
        if len(pieces) > 1:
            place = draw.randrange(len(pieces) - 1)
            pieces[place:place + 2] = pieces[place + 1], pieces[place]
        return pieces
    return with_capture(draw, question, change)


# Rulesets

def rule_left_out(draw, question):
    lines = edits.removed(draw, question.case.rules.decode("latin-1").split("\n"))
    rules = question.case.rules if lines is None else "\n".join(lines).encode("latin-1")
    return question._replace(case=question.case._replace(rules=rules))


def with_fault(draw, question):
    lines = edits.with_fault(draw, question.case.rules.decode("latin-1").split("\n"))
    return question._replace(case=question.case._replace(rules="\n".join(lines).encode("latin-1")))


def no_rule(_draw, question):
    return question._replace(case=question.case._replace(rules=b""))


OF_LINES = {kind.__name__: of_octets(kind) for kind in cases.KINDS}
OF_QUESTIONS = (other_number, other_word, other_name, line_too_many, line_too_few, record_left_out, record_doubled,
                records_swapped, rule_left_out, with_fault, no_rule)
KINDS = {**OF_LINES, **{kind.__name__: kind for kind in OF_QUESTIONS}}
