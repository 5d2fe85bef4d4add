"""Made-up endings of a command under faults. Its judge has to allow the right ones and refuse the others. No program is
needed."""

from typing import NamedTuple

from faults.replay import ERROR
from faults.trial import Counts, Fault, Seen, Target, Unlawful, name_in


class Trial(NamedTuple):
    """A run without a fault, with the places of its files' names in the command."""
    command: list
    clean: Seen
    places: dict

    def name_of(self, file):
        return name_in(self.command, self.places[file])


class Ending(NamedTuple):
    name: str
    target: Target
    deed: str
    seen: Seen
    # bytes that were read before the fault
    moved: int = 0


def ending(name, target, said, status, out=b"", deed="fail", moved=0):
    return Ending(name, target, deed, Seen(status, out, f"pfreplay: {said}\n".encode() if said else b""), moved)


def lost(*seen):
    """Endings in which standard error fails."""
    return [Ending(f"a lost error, {one}", ERROR, "fail", one) for one in seen]


def is_allowed(judge, trial, each):
    """Whether a judge allows an ending of a trial."""
    try:
        judge(trial, Fault(each.target, each.deed, 1), Counts(True, 1, each.moved), each.seen)
    except Unlawful:
        return False
    return True


def compare(comparison, judge, trial, right, wrong):
    """The comparison keeps how many endings there are, and which are judged wrongly."""
    for is_right, endings in ((True, right), (False, wrong)):
        for each in endings:
            comparison.expect(f"an ending, {each.name}", is_right, is_allowed(judge, trial, each))
