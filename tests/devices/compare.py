"""Compares runs over devices in memory with rows written by hand, and with a model of devices that fail. Then it
refuses each allocation to some runs.

Scenes are run without workers and with some.
"""

import sys
import tempfile
from collections import Counter
from pathlib import Path

import building
from answering import SHOWN, answers_of, differing, place_of_difference, show_lines
from devices import cases, refusals, speculations
from devices.model import expected
from devices.scene import OUTPUTS, left_of
from faults.run import NOT_REACHED
from faults.run import run as run_with_faults
from schedules.compare import script_bytes

WORKERS = (0, 1, 2, 8)
# how long a call waits for one that doesn't come since memory was refused
TURNS = "20000"
# the endings of which one at least is seen
ENDINGS = ("committed", "committed, cut", "read failed", "capture refused", "record too long",
           *(f"write failed: {name}" for name in OUTPUTS))


def ending_of(end):
    """The kind of how a run ended."""
    if end.startswith("committed "):
        return "committed, cut" if end.endswith(", cut") else "committed"
    if end.startswith("capture "):
        return "record too long" if "record too long" in end else "capture refused"
    return end.split(": capture")[0].split(",")[0]


def told(counts, names):
    """Counts by their names, in words."""
    return ", ".join(f"{counts[name]} {name}" for name in names)


def missing(counts, names):
    """How many endings came up in no run; each is told."""
    none = [name for name in names if not counts[name]]
    for name in none:
        print(f"  no run ended so: {name}")
    return len(none)


def show(scene, wanted, seen):
    """Shows the first line that differs, and the script."""
    place = place_of_difference(wanted, seen)
    print(f"  {scene.name}, {scene.workers} workers, line {place + 1}", *scene.script().decode().splitlines(),
          sep="\n    ")
    show_lines(place, wanted, seen)


def seen_of(lines):
    """What is left by an answer, None if it isn't one."""
    try:
        return left_of(lines)
    except ValueError:
        return None


def compare_rows(command):
    """How many rows end otherwise than is written out."""
    all_rows = [row for workers in WORKERS for row in cases.rows(workers)]
    wrong = 0
    for (scene, end, sizes), lines in zip(all_rows, answers_of(command, [scene.script() for scene, *_ in all_rows])):
        left = seen_of(lines)
        if left is None or (left.end, cases.sizes_of(left)) != (end, sizes):
            wrong += 1
            print(f"  {scene.name}, {scene.workers} workers: {end}, {sizes}, and not {lines}")
    print(f"{len(all_rows)} rows written by hand, {wrong} differ")
    return wrong


def whole_outputs():
    """What each output has at the end of the connection of the rows."""
    whole = expected(cases.connection("whole", 0))
    return dict(zip(OUTPUTS, whole.files()))


def compare_scenes(command):
    """How many scenes leave something else than the model says, and which endings came up in none."""
    whole = whole_outputs()
    scenes = [scene for workers in WORKERS for scene in cases.scenes(whole, workers)]
    compared, counts = [], Counter()
    for scene, lines in zip(scenes, answers_of(command, [scene.script() for scene in scenes])):
        left = expected(scene)
        counts[ending_of(left.end)] += 1
        compared.append((scene, left.lines(), lines[:-1]))
    wrong = differing(compared, show)
    print(f"{len(scenes)} runs over devices, {wrong} differ: {told(counts, ENDINGS)}")
    return wrong + missing(counts, ENDINGS)


def refused_in_turn(command, judge, scripts):
    """How many runs end otherwise than a judge allows, with each allocation refused in turn to some scripts, which have
    titles; and how many endings that are promised came up in none."""
    wrong, counts = 0, Counter()
    with tempfile.TemporaryDirectory() as folder:
        source = Path(folder) / "script"
        for title, script in scripts:
            source.write_bytes(script)
            calls, endings, unlawful = run_with_faults(command, source, judge)
            counts += endings
            wrong += len(unlawful)
            print(f"{title}: {sum(calls.values())} allocations, {told(endings, (*judge.ENDINGS, NOT_REACHED))}",
                  *unlawful[:SHOWN], sep="\n")
    return wrong + missing(counts, judge.PROMISED)


def compare_refusals(command):
    scripts = ((f"{scene.name}, batches of {scene.batch}, {scene.workers} workers", scene.script())
               for scene in cases.refused_scenes())
    return refused_in_turn(command, refusals, scripts)


def compare_speculations(command):
    scripts = ((f"{script.known.run.name}, evaluated ahead", script_bytes(script)) for script in speculations.scripts())
    return refused_in_turn(command, speculations, scripts)


def compare(devices, schedules):
    return (compare_rows(devices) + compare_scenes(devices) + compare_refusals(devices)
            + compare_speculations(schedules))


def model_alone():
    """The rows beside the model."""
    wrong = 0
    for scene, end, sizes in cases.rows(0):
        left = expected(scene)
        if (left.end, cases.sizes_of(left)) != (end, sizes):
            wrong += 1
            print(f"  {scene.name}: {end}, {sizes}, and not {left.end}, {cases.sizes_of(left)}")
    print(f"{wrong} rows differ from the model")
    sys.exit(bool(wrong))


def main():
    sys.exit(bool(compare(building.run_answers("devices"), [*building.run_answers("schedules"), TURNS])))
