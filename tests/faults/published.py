"""Which endings of the program that publishes tables are lawful where an allocation or a thread is refused.

The program itself ends, having answered the scripts before; or one script is answered otherwise. In that a publication
is refused, and each later one with it, or a viewer is missing. What viewers are shown is lawful by the model all the
same.
"""

from faults.commits import runs_in
from faults.rulesets import MEMORY
from faults.trial import Target, Unlawful
from published.model import NOTHING, Expected, refusals, script_of

TARGETS = (MEMORY, Target("thread", "", ("fail",)))
# in the order of the summary
ENDINGS = ("whole", "no publication", "no viewer", "ended")


def ending_of(script, answer):
    """The ending that an answer to a script tells."""
    for refusal in (NOTHING, *refusals(script)):
        if Expected(script, refusal).lines_beside(answer) == answer:
            return "whole" if refusal == NOTHING else "no viewer" if refusal.publication is None else "no publication"
    raise Unlawful(f"no answer to this script, whatever is refused: {answer}")


def judge(trial, fault, counts, seen):
    """The ending of a run with this fault, one of ENDINGS; Unlawful where it is none of them."""
    answers, rest = runs_in(seen.out.decode().splitlines())
    if rest:
        raise Unlawful("the output ends inside an answer")
    with open(trial.source, encoding="ascii") as source:
        scripts, _ = runs_in(source.read().splitlines())
    endings = [ending_of(script_of(script), answer) for script, answer in zip(scripts, answers)]
    changed = [ending for ending in endings if ending != "whole"]
    if seen.status != trial.clean.status:
        if seen.status != 1 or changed:
            raise Unlawful("the program ended otherwise than by an error behind right answers")
        return "ended"
    if len(answers) != len(scripts) or len(changed) > 1:
        raise Unlawful("more than one script is answered otherwise")
    return changed[0] if changed else "whole"
