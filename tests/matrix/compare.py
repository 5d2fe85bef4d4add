"""Runs pfreplay on each scene of `cases` with every choice of workers and batches, and compares what it leaves with what
is worked out by hand, and with the model.

In some of the scenes a call fails. The command `check` has no workers and is run once.
"""

import sys
import tempfile
from itertools import product
from pathlib import Path

import building
from faults import replay
from faults.trial import Fault, Trial, put_name
from matrix import cases
from runs import model
from runs.check_cases import FITTING
from runs.comparison import Comparison
from runs.model import Outcome
from workers.choices import Choice, run_of

WORKERS, BATCHES = (0, 1, 2, 4, 8), (1, 2, 256)
MOST_SHOWN = 10


def expect_facts(comparison, name, scene, outcome):
    """What is worked out of a scene, if the run came to an end in time."""
    if outcome is None:
        comparison.expect(name, "an end", outcome)
        return
    for title, wanted, seen in scene.facts(outcome):
        comparison.expect(f"{name}: {title}", wanted, seen)


def compare_model(comparison):
    """The model on each scene in which no call fails."""
    for name, scene in cases.named(cases.SCENES):
        expect_facts(comparison, f"model: {name}", scene, model.run(scene.case))


def compare_scenes(comparison):
    """How many runs there are of scenes in which no call fails."""
    runs = 0
    for name, scene in cases.named(cases.SCENES):
        expected = model.run(scene.case)
        for choice in (Choice(*pair) for pair in product(WORKERS, BATCHES)):
            seen = run_of(comparison, scene.case, choice)
            expect_facts(comparison, f"{name}, {choice}", scene, seen)
            comparison.expect(f"{name}, {choice}: as the model", expected, seen)
            runs += 1
    return runs


def failing_run(comparison, failing, choice):
    """What a run leaves of which a call fails."""
    case = failing.scene.case
    comparison.prepare(case)
    command = list(map(str, [comparison.program, *comparison.command(case), *choice.words()]))
    places = replay.places(command)
    for name in replay.CAPTURE_NAMES[1:len(case.also) + 1] if failing.has_one_capture else ():
        put_name(command, places[name], str(comparison.capture))
    trial = Trial(command, "/dev/null", comparison.folder, places, replay.OUTPUTS)
    target = replay.READS.get(failing.file) or replay.WRITES[failing.file]
    seen, counts = trial.counted(target, Fault(target, failing.deed, failing.number))
    return counts.fired, Outcome(seen.out, seen.err, seen.status, replay.files_of(seen.files, len(case.also)))


def compare_failing(comparison):
    """How many runs there are in which a call fails."""
    runs = 0
    for name, failing in cases.named(cases.FAILING_SCENES):
        for choice in (Choice(*pair) for pair in product(WORKERS, failing.batches)):
            has_failed, seen = failing_run(comparison, failing, choice)
            comparison.expect(f"{name}, {choice}: the call fails", True, has_failed)
            expect_facts(comparison, f"{name}, {choice}", failing.scene, seen)
            runs += 1
    return runs


def compare_check(comparison):
    """One run of the command `check`."""
    text, answer = cases.EMPTY_RULESET
    comparison.prepare()
    comparison.rules.write_bytes(text)
    comparison.expect("an_empty_ruleset", Outcome(answer, b"", 0),
                      comparison.execute(["check", comparison.rules, *FITTING]))
    return 1


def end(comparison, runs):
    """Tells what went wrong, and exits with 1 if anything did, or if there was nothing to compare."""
    comparison.show(MOST_SHOWN)
    print(f"{len(cases.SCENES) + len(cases.FAILING_SCENES) + 1} scenes, {runs}, {comparison.count} comparisons, "
          f"{len(comparison.wrong)} not as expected")
    sys.exit(bool(comparison.wrong) or comparison.count == 0)


def model_alone():
    with tempfile.TemporaryDirectory() as folder:
        comparison = Comparison(None, Path(folder))
        compare_model(comparison)
        end(comparison, "the model alone")


def main():
    with tempfile.TemporaryDirectory() as folder:
        comparison = Comparison(building.pfreplay(), Path(folder))
        compare_model(comparison)
        runs = [part(comparison) for part in (compare_scenes, compare_failing, compare_check)]
        comparison.expect("each part has runs", True, all(runs))
        end(comparison, f"{sum(runs)} runs with {len(WORKERS) * len(BATCHES)} choices of workers and batches")
