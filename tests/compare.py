#!/usr/bin/env python3
"""Compares what the programs of this repository answer with models, and with answers written by hand.

    compare.py [--model | --all] [WORD ..]

Each word names a comparison, and no word stands for all of them. Each one runs in a process of its own, as many at once
as there are processors. What it prints comes whole, in the order of the words, under its name and the seconds that it
took. The status is 1 if one of them failed.

With `--model` the models alone are compared with the answers written by hand, and no program is needed. With `--all` all
random cases are compared, also those that are left out by default since a program that isn't proved is slow.
"""

import argparse
import os
import subprocess
import sys
import time
from concurrent.futures import ThreadPoolExecutor
from pathlib import Path
from typing import NamedTuple

sys.dont_write_bytecode = True

import building

TESTS = Path(__file__).resolve().parent
# each is a package with a module `compare`
WORDS = ("runs", "rulesets", "expansions", "tracking", "table", "steps", "commits", "messages", "schedules",
         "published", "devices", "workers", "matrix", "standby", "listing", "telling", "changes", "showing", "reporting",
         "adapt", "faults", "hostile", "gateway", "manners", "first", "documents")
# those without answers written by hand
WITHOUT_MODEL_ALONE = ("workers", "hostile", "gateway", "manners", "first", "documents")
# those that leave out random cases
IN_PART = ("rulesets", "expansions", "tracking", "table", "steps", "commits", "messages", "schedules", "published")
# those of the program pfreplay, of answers and of run_answers
OF_PFREPLAY = ("runs", "expansions", "workers", "matrix", "standby", "listing", "telling", "changes", "showing",
               "reporting", "adapt", "faults", "hostile", "gateway", "manners", "first")
OF_ANSWERS = ("rulesets", "expansions", "tracking", "table", "steps", "commits", "messages")
OF_RUNS = ("schedules", "published", "devices")


class Outcome(NamedTuple):
    """How a comparison ended: what it printed, and the seconds that it took."""
    is_passed: bool
    printed: bytes
    seconds: float


def call_of(word, asked):
    """The call of a comparison that does what is asked."""
    if asked.model:
        return "model_alone()"
    return "main(part=1)" if asked.all and word in IN_PART else "main()"


def outcome_of(word, call):
    """Calls a comparison in a process of its own."""
    start = time.monotonic()
    done = subprocess.run([sys.executable, "-uB", "-c", f"from {word} import compare; compare.{call}"], cwd=TESTS,
                          stdin=subprocess.DEVNULL, stdout=subprocess.PIPE, stderr=subprocess.STDOUT, check=False)
    return Outcome(done.returncode == 0, done.stdout, time.monotonic() - start)


def build(words):
    """Builds what these comparisons need, so that none of them has to while the others run."""
    if set(words) & set(OF_PFREPLAY):
        building.pfreplay()
    building.built(*(name for name, asking in (("answers", OF_ANSWERS), ("run_answers", OF_RUNS))
                     if set(words) & set(asking)))


def compare(words, asked):
    """Runs comparisons side by side and prints each: the words of those that failed."""
    failed = []
    with ThreadPoolExecutor(os.cpu_count()) as pool:
        for word, outcome in zip(words, pool.map(lambda word: outcome_of(word, call_of(word, asked)), words)):
            print(f"{word}, {outcome.seconds:.0f} seconds", flush=True)
            sys.stdout.buffer.write(outcome.printed)
            sys.stdout.flush()
            failed += [] if outcome.is_passed else [word]
    return failed


def main():
    parser = argparse.ArgumentParser(description="Compares the programs with models.")
    asking = parser.add_mutually_exclusive_group()
    asking.add_argument("--model", action="store_true", help="compare the models with the answers written by hand")
    asking.add_argument("--all", action="store_true", help="compare all random cases")
    parser.add_argument("words", nargs="*", metavar="WORD", help=f"a comparison: {', '.join(WORDS)}")
    asked = parser.parse_args()
    words = tuple(dict.fromkeys(asked.words)) or WORDS
    if unknown := [word for word in words if word not in WORDS]:
        parser.error(f"no comparison: {' '.join(unknown)}")
    if asked.model:
        words = [word for word in words if word not in WITHOUT_MODEL_ALONE]
    else:
        build(words)
    failed = compare(words, asked)
    if failed:
        sys.exit(f"failed: {' '.join(failed)}")


if __name__ == "__main__":
    main()
