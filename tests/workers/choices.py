"""A number of workers with a size of batches, and runs with such a choice."""

from typing import NamedTuple

from runs.model import FILE


class Choice(NamedTuple):
    workers: int
    batch: int

    def words(self):
        return ["--workers", self.workers, "--batch", self.batch]

    def __str__(self):
        return f"{self.workers} workers, batches of {self.batch}"


def run_of(comparison, case, choice, form=FILE, **how):
    """What a run of the case with a choice comes to, with its messages in a form; None where it takes too long."""
    comparison.prepare(case)
    return comparison.execute([*comparison.command(case, form), *choice.words()], **how)
