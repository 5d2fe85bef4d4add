#!/usr/bin/env python3
"""Runs a command once for each fault at each of its calls of some kinds, and judges each run.

    run.py [--judge MODULE] [--calls] [--step N] COMMAND WORDS.. [< INPUT]

The judge says which kinds: allocations, reads and writes, or threads. With `--step` of the calls of a kind each Nth one
meets its faults, from the first one on, and else each. It prints how many runs ended each way, and exits with 1 where one
ended in an unlawful way, and with 2 where no fault was reached. A word for a file that the command writes, as the judge
tells, stands for a new file in each run; no file of that name is made. So does a word for a peer.
"""

import argparse
import importlib.util
import operator
import os
import resource
import sys
import tempfile
from collections import Counter
from concurrent.futures import ThreadPoolExecutor
from pathlib import Path

sys.dont_write_bytecode = True
if __name__ == "__main__":
    # Python looks for modules beside the command, and the packages stand one folder above
    sys.path[0] = str(Path(__file__).resolve().parent.parent)

from faults.trial import Fault, Trial, Unlawful

MOST_SHOWN = 10
MOST_OUTPUT = 1 << 28
# the runs that may take too long before the others aren't waited for
MOST_SLOW = 4
NOT_REACHED, NOT_TRIED = "not reached", "not tried"


def same_by(judge):
    """Which two runs are the same to a judge: by default those that left the same."""
    return getattr(judge, "is_same", operator.eq)


def count_calls(trial, targets, is_same):
    """The number of calls of each target in a run without a fault."""
    calls = {}
    for target in targets:
        seen, counts = trial.counted(target)
        if not is_same(seen, trial.clean):
            raise OSError("two runs without a fault differ")
        calls[target] = counts.calls
        if counts.calls == 0 and has_calls(trial, target):
            raise OSError(f"no call of this kind is seen, though there must be some: {target}")
    writes = [calls[target] for target in targets if target.call == "write"]
    if trial.clean.out and writes and not any(writes):
        raise OSError("the command writes, but by no call that the library counts")
    return calls


def has_calls(trial, target):
    """Whether a run without a fault can't do without a call of the target: each allocates, one that is to be refused
    threads begins some, what stands in a file was written, and what is answered was read."""
    if target.call in ("allocation", "thread"):
        return True
    if target.file in trial.outputs:
        return bool(trial.clean.files[trial.outputs.index(target.file)])
    return bool(target.file) and bool(trial.clean.out)


def judged(trial, judge, fault, slow):
    """The ending of a run with this fault, and what is to be shown of it where it is unlawful. `slow` is a list of the
    faults with which runs took too long."""
    if len(slow) >= MOST_SLOW:
        return NOT_TRIED, None
    seen, counts = trial.counted(fault.target, fault)
    try:
        if seen.status is None:
            slow.append(fault)
            raise Unlawful("it took too long")
        if not counts.fired:
            # with several threads the number of calls may vary
            if not same_by(judge)(seen, trial.clean):
                raise Unlawful("it differs, though the fault was not reached")
            return NOT_REACHED, None
        return judge.judge(trial, fault, counts, seen), None
    except Unlawful as reason:
        return "unlawful", f"""{' '.join(trial.command)}
  fault: {fault}
  {reason}
  status {seen.status}, standard error {seen.err!r}
  {seen.out.count(10)} lines of output, the last bytes {seen.out[-120:]!r}{shown_files(seen.files)}"""


def shown_files(files):
    """What a run left in the files that it was to write, in words."""
    return "".join("\n  a file that isn't there" if text is None else
                   f"\n  a file of {len(text)} bytes, the last ones {text[-40:]!r}" for text in files)


def run(command, source, judge, step=1):
    """Runs all faults of each `step`th call: the calls of each target, the number of runs by ending, the unlawful ones in
    words."""
    with tempfile.TemporaryDirectory() as folder:
        places = judge.places(command) if hasattr(judge, "places") else {}
        reference = judge.reference(command) if hasattr(judge, "reference") else command
        trial = Trial(command, source, folder, places, getattr(judge, "OUTPUTS", ()), reference)
        # a file that the command doesn't name has no calls
        targets = [target for target in judge.TARGETS if not target.file or target.file in places]
        calls = count_calls(trial, targets, same_by(judge))
        faults = [Fault(target, deed, number) for target in targets for deed in target.deeds
                  for number in range(1, calls[target] + 1, step)]
        slow = []
        with ThreadPoolExecutor(os.cpu_count()) as pool:
            results = list(pool.map(lambda fault: judged(trial, judge, fault, slow), faults))
    return calls, Counter(ending for ending, _ in results), [text for _, text in results if text]


def judge_of(name):
    """The module of a judge: one of this folder, or another that Python finds."""
    is_here = importlib.util.find_spec(f"faults.{name}") is not None
    return importlib.import_module(f"faults.{name}" if is_here else name)


def main():
    parser = argparse.ArgumentParser(description="Runs a command with a fault at each call.")
    parser.add_argument("--judge", default="replay", help="the module that judges the runs")
    parser.add_argument("--calls", action="store_true", help="print the number of calls of each kind")
    parser.add_argument("--step", type=int, default=1, help="of the calls of each kind, which ones meet faults")
    parser.add_argument("command", nargs=argparse.REMAINDER, help="the command and its words")
    words = parser.parse_args()
    if not words.command:
        parser.error("a command is missing")
    judge = judge_of(words.judge)
    # a run that writes without end is ended by the system
    resource.setrlimit(resource.RLIMIT_FSIZE, (MOST_OUTPUT, MOST_OUTPUT))
    with tempfile.TemporaryDirectory() as folder:
        source = Path(folder) / "input"
        source.write_bytes(sys.stdin.buffer.read())
        try:
            calls, endings, unlawful = run(words.command, source, judge, words.step)
        except OSError as error:
            parser.exit(2, f"{error}\n")
    if words.calls:
        print(", ".join(f"{target}: {number}" for target, number in calls.items()))
    for text in unlawful[:MOST_SHOWN]:
        print(text)
    names = [*judge.ENDINGS, NOT_REACHED, NOT_TRIED, "unlawful"]
    print(f"{endings.total()} runs: " + ", ".join(f"{endings[name]} {name}" for name in names if endings[name]))
    if endings[NOT_REACHED] == endings.total():
        parser.exit(2, "no fault was reached\n")
    return 1 if unlawful else 0


if __name__ == "__main__":
    sys.exit(main())
