"""Runs pfreplay on many rulesets and captures and compares each run with the model.

The model itself is compared with the outcomes that are written out. The commands that the documents show are run too.
Runs of which much is to be told to a standby have a process of their own.
"""

import sys
import tempfile
from concurrent.futures import ProcessPoolExecutor
from pathlib import Path

import building
from runs import command_check, command_run, shown_commands
from runs.comparison import Comparison

MOST_SHOWN = 10


def end(comparison):
    """Tells what went wrong, and exits with 1 if anything did."""
    comparison.show(MOST_SHOWN)
    print(f"{comparison.count} cases, {len(comparison.wrong)} not as expected")
    sys.exit(bool(comparison.wrong))


def compare_model(comparison):
    command_run.compare_model(comparison)
    command_check.compare_model(comparison)


def model_alone():
    with tempfile.TemporaryDirectory() as folder:
        comparison = Comparison(None, Path(folder))
        compare_model(comparison)
    end(comparison)


def alone(compare_some):
    """Runs the cases of one function by themselves, such as those of same_files.compare."""
    with tempfile.TemporaryDirectory() as folder:
        comparison = Comparison(building.pfreplay(), Path(folder))
        compare_some(comparison)
    end(comparison)


def messages_apart(program):
    """How many runs there are of which much is to be told, and what went wrong in them."""
    with tempfile.TemporaryDirectory() as folder:
        comparison = Comparison(program, Path(folder))
        command_run.compare_messages(comparison)
        return comparison.count, comparison.wrong


def main():
    program = building.pfreplay()
    with tempfile.TemporaryDirectory() as folder, ProcessPoolExecutor(1) as pool:
        apart = pool.submit(messages_apart, program)
        comparison = Comparison(program, Path(folder))
        compare_model(comparison)
        command_run.compare(comparison)
        command_check.compare(comparison)
        shown_commands.compare(comparison)
        comparison.add(*apart.result())
    end(comparison)
