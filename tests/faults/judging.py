"""What the judges of several commands have in common."""

from pathlib import Path

from faults.replay import CAPTURE_NAMES, CAPTURES, HEADER, records_before
from faults.trial import Seen, Unlawful, check
from runs.case import Also


# The command

def also_places(command):
    """The places of the words behind `--also`."""
    return [place + 1 for place, word in enumerate(command) if word == "--also"]


def also_of(command, texts):
    """The interfaces behind the first one, whose captures hold these texts."""
    return tuple(Also(*command[place].split(",")[:2], texts[name])
                 for name, place in zip(CAPTURE_NAMES[1:], also_places(command)))


def texts_in(trial, names):
    """What the files of these names hold."""
    return {name: Path(trial.name_of(name)).read_bytes() for name in names}


# Endings

def records_told(captures, names, fault, counts, told):
    """A read of a capture that failed is told by the number of packets before it, and by the interface if there are
    several: that number, and what was given of the capture."""
    place, (name, count) = CAPTURES.index(fault.target), told
    check(name == (names[place].encode() if len(names) > 1 else None), "standard error names another capture")
    given = captures[place][:counts.moved]
    before = records_before(captures, place, given) if len(given) >= HEADER else 0
    check(int(count) == before, f"{before} whole records were read")
    return before, given


def judge_answer(trial, counts, seen, answer):
    """The ending of a run with an input that ends early, if it gives the model's answer to that."""
    out, err, status, _ = answer
    if seen != Seen(status, out, err):
        raise Unlawful(f"behind {counts.moved} bytes it ends with status {status}, {err!r} and {out.count(10)} lines")
    return "whole" if seen == trial.clean else "shorter input"
