"""Which endings of the programs that expand rulesets and that go through runs are lawful where an allocation is refused.

They are those of the program that reads rulesets, where an answer is the lines before a line `end`.
"""

from faults.rulesets import ENDINGS, TARGETS, judge_answers


def answers_in(out):
    """The answers, and what stands behind the last of them if anything does."""
    answers = [b""]
    for line in out.splitlines(keepends=True):
        if line == b"end\n":
            answers.append(b"")
        else:
            answers[-1] += line
    return answers if answers[-1] else answers[:-1]


def judge(trial, fault, counts, seen):
    """The ending of a run with this fault, one of ENDINGS; Unlawful where it is none of them."""
    return judge_answers(trial, seen, answers_in)
