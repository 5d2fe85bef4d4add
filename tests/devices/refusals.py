"""Which endings of a run over devices in memory are lawful if an allocation is refused.

The run goes to its end as without that, or it stops for want of memory, in its ruleset or behind some packets. If the
refusal met the program and not the run, there is no answer. Outputs are beginnings of what they are without the
refusal, and committed is the greatest boundary of batches up to which all is there.
"""

from devices import model
from devices.scene import Left, Scene, left_of
from faults.rulesets import MEMORY
from faults.trial import Unlawful
from runs.model import done_of

TARGETS = (MEMORY,)
# in the order of the summary
ENDINGS = ("whole", "no memory for the ruleset", "no memory", "no answer")
PROMISED = ENDINGS[:3]
NO_RULES, NO_MEMORY = "rules line 0: no memory", "no memory, committed "


def scene_of(source):
    """The scene of a script, as far as the model asks for it."""
    with open(source, encoding="ascii") as script:
        words = dict(line.split(" ", 1) for line in script.read().splitlines() if " " in line)
    return Scene("", bytes.fromhex(words["rules"]), bytes.fromhex(words["capture"]), int(words["batch"]),
                 int(words["workers"]))


def left_in(out):
    """What a run left by the one answer of an output."""
    *lines, last = out.decode().splitlines()
    if last != "end":
        raise Unlawful("the output ends inside an answer")
    try:
        return left_of(lines)
    except ValueError as error:
        raise Unlawful(str(error)) from error


def boundary(scene, left):
    """The greatest number of packets of whole batches, or of all, of which all is there."""
    case = scene.case()
    count = len(done_of(case).replay.steps)
    for packets in sorted({*range(0, count, scene.batch), count}, reverse=True):
        online = model.left_at(case, packets, left.end)
        if packets and all(mine.startswith(theirs) for mine, theirs in zip(left.files(), online.files())):
            return packets
    return 0


def check_stopped(scene, whole, left):
    """A run that stopped for want of memory."""
    if not all(all_of_it.startswith(part) for all_of_it, part in zip(whole.files(), left.files())):
        raise Unlawful("an output is no beginning")
    if left.end != f"{NO_MEMORY}{boundary(scene, left)}":
        raise Unlawful(f"{left.end}, and {boundary(scene, left)} packets are there")


def is_same(seen, clean):
    """Whether two runs left the same, whoever evaluated which packet."""
    return seen.status == clean.status and left_in(seen.out) == left_in(clean.out)


def judge(trial, fault, counts, seen):
    """The ending of a run with this fault, one of ENDINGS; Unlawful if it is none of them."""
    if seen.status == 1 and not seen.out:
        return "no answer"
    if seen.status != 0:
        raise Unlawful("the program ended otherwise than by an error or with an answer")
    whole, left = left_in(trial.clean.out), left_in(seen.out)
    if left == whole:
        return "whole"
    if left == Left(NO_RULES):
        return "no memory for the ruleset"
    check_stopped(scene_of(trial.source), whole, left)
    return "no memory"
