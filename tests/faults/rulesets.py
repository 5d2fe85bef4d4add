"""Which endings of the program that reads rulesets are lawful where an allocation is refused.

The text that is read then is answered with want of memory, on line 0; or the program itself ends, having answered the
texts before.
"""

from faults.trial import Target, Unlawful

MEMORY = Target("allocation", "", ("fail",))
TARGETS = (MEMORY,)
# in the order of the summary
ENDINGS = ("whole", "no memory", "ended")

NO_MEMORY = b"line 0: no memory\n"


def lines_in(out):
    return out.splitlines(keepends=True)


def judge_answers(trial, seen, answers_in):
    """The ending of a run whose output holds the answers that `answers_in` cuts it into."""
    if seen == trial.clean:
        return "whole"
    whole, answers = answers_in(trial.clean.out), answers_in(seen.out)
    if seen.status != trial.clean.status:
        if seen.status != 1 or whole[:len(answers)] != answers:
            raise Unlawful("the program ended otherwise than by an error behind right answers")
        return "ended"
    changed = [answer for answer, right in zip(answers, whole) if answer != right]
    if len(answers) != len(whole) or changed != [NO_MEMORY]:
        raise Unlawful("another answer than want of memory for one text")
    return "no memory"


def judge(trial, fault, counts, seen):
    """The ending of a run with this fault, one of ENDINGS; Unlawful where it is none of them."""
    return judge_answers(trial, seen, lines_in)
