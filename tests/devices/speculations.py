"""Which endings of a run with workers are lawful if an allocation is refused, where each packet is evaluated ahead.

A refusal that meets a worker's evaluation alone changes no output: the committer evaluates that packet itself, and the
gate is told so. One that meets the committer ends the run, and what was handed on is a beginning. So does one that meets
who takes a piece. Or the program ends without an answer.
"""

from devices import cases
from faults.rulesets import MEMORY
from faults.trial import Unlawful
from messages.rows import flows
from schedules.machine import ANSWERED, TAKE, Shape, Step
from schedules.model import Script, again_in, known_of
from steps.run import THREE, Run

TARGETS = (MEMORY,)
# in the order of the summary
ENDINGS = ("whole", "evaluated again", "no memory", "not taken", "no answer")
PROMISED = ENDINGS[:3]
NO_RULES = "line 0: no memory"
WORKERS = 2


def run_of(name, rules, packets):
    return Run(name, rules.decode(), [(0, packet) for packet in packets], interfaces=THREE)


def script_of(run, batches):
    """A script of a run by which each packet is answered before its batch is taken. Where a thread is refused, the other
    one does so too."""
    shape = Shape(batches, WORKERS)
    order = [step for batch, _ in enumerate(batches, 1)
             for step in (*(Step(ANSWERED, number) for number in shape.packets_of(batch)), Step(TAKE, batch))]
    return Script(known_of(run, shape), tuple(order))


def scripts():
    """Runs in which the same packets are evaluated again whichever tables the workers look at."""
    yield script_of(run_of("two ports for three flows", cases.TWO_PORTS, flows(3)), (3,))
    yield script_of(run_of("four flows", b"pass out", flows(4)), (2, 2))


def lines_in(out):
    """The lines of the one answer of an output."""
    *lines, last = out.decode("latin-1").splitlines()
    if last != "end":
        raise Unlawful("the output ends inside an answer")
    return lines


def outputs_in(lines):
    """What an answer says of the run, but for who evaluated which packet, and for the order of the calls."""
    return [line for line in lines if not line.startswith(("own ", "again ", "passed "))]


def handed_on(lines):
    """The lines of what was handed on."""
    return lines[:next(place for place, line in enumerate(lines) if line.startswith("own "))]


def begins(mine, whole):
    """Whether lines are the first ones of others, and not all."""
    return mine == whole[:len(mine)] and len(mine) < len(whole)


def verdicts_in(lines):
    return [line for line in handed_on(lines) if not line.startswith(("packets ", "messages "))]


def is_same(seen, clean):
    """Whether two runs handed on and left the same."""
    return seen.status == clean.status and outputs_in(lines_in(seen.out)) == outputs_in(lines_in(clean.out))


def judge(trial, fault, counts, seen):
    """The ending of a run with this fault, one of ENDINGS; Unlawful if it is none of them."""
    if seen.status == 1 and not seen.out:
        return "no answer"
    if seen.status != 0:
        raise Unlawful("the program ended otherwise than by an error or with an answer")
    whole, lines = lines_in(trial.clean.out), lines_in(seen.out)
    if lines == [NO_RULES]:
        return "no memory"
    if "refused" in lines:
        # of the last piece a part may be handed on
        mine, all_of_it = verdicts_in(lines), verdicts_in(whole)
        if mine != all_of_it[:len(mine)]:
            raise Unlawful("what was handed on is no beginning")
        return "no memory"
    if begins(handed_on(lines), handed_on(whole)):
        return "not taken"
    if outputs_in(lines) != outputs_in(whole):
        raise Unlawful("another outcome")
    again, before = again_in(lines), again_in(whole)
    if again == before:
        return "whole"
    if not again > before or f"own {len(again)}" not in lines:
        raise Unlawful(f"packets {sorted(again)} are evaluated again, and without the fault {sorted(before)}")
    return "evaluated again"
