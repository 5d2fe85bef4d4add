"""Runs that a device ends, judged by the judge of tests/faults, and by the run without workers."""

from collections import Counter

from faults import replay
from faults.trial import Counts, Fault, Unlawful
from runs.comparison import Comparison
from workers.choices import Choice, run_of

WORKERS, BATCHES = (0, 1, 2, 4, 8), (1, 7, 256)
# the runs that may take too long before the others aren't tried
MOST_SLOW = 2


class Judging(Comparison):
    """A comparison that judges ends of runs, and counts how many came to each."""

    def __init__(self, program, folder):
        super().__init__(program, folder)
        self.endings = Counter()
        self.slow = 0

    def execute(self, *words, **how):
        """One run of the program; None where it takes too long, or isn't tried."""
        if self.slow == MOST_SLOW:
            return None
        outcome = super().execute(*words, **how)
        self.slow += outcome is None
        return outcome

    def known(self, kind, batch):
        """A run without workers, to which nothing happens."""
        choice = Choice(0, batch)
        outcome = run_of(self, kind.case, choice, kind.form)
        words = [self.program, *self.command(kind.case, kind.form), *choice.words()]
        command = list(map(str, words))
        if outcome is None:
            raise SystemExit(f"{kind.case.name}, {choice}: it takes too long without a fault")
        return replay.Known(command, replay.seen_of(command, outcome), kind.message_ends())

    def judge(self, name, known, target, outcome):
        """Judges how a run ended in which the writes to a target fail, or none where that is None."""
        why = why_unlawful(known, target, outcome)
        self.expect(f"{name}: {why}" if why else name, "a lawful end" if why else outcome, outcome)
        self.endings[f"{target.file or 'answer'} failed" if target else "whole"] += 1

    def judge_all(self, name, known, target, run):
        """Judges the run without workers, and expects each with some to end as that one. A function runs a choice."""
        batch = replay.batch_of(known.command)
        alone = run(Choice(0, batch))
        self.judge(f"{name}, {Choice(0, batch)}", known, target, alone)
        for workers in WORKERS[1:]:
            choice = Choice(workers, batch)
            self.expect(f"{name}, {choice}", alone or "an end", run(choice))


def why_unlawful(known, target, outcome):
    """Why a run ended otherwise than is lawful where the writes to a target fail; None where it didn't."""
    if outcome is None:
        return "it took too long"
    seen = replay.seen_of(known.command, outcome)
    if target is None:
        return None if seen == known.clean else "it differs, though no device fails"
    try:
        replay.judge_part(known, Fault(target, "fail", 1), Counts(True, 1, 0), seen)
    except Unlawful as reason:
        return str(reason)
    return None
