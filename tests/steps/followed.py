"""Runs that the model follows packet by packet: what it says, what comes up, and what is wrong with what is written."""

from collections import Counter
from typing import NamedTuple

from steps.lines import state_line, step_line
from steps.place_kinds import PlaceKinds
from steps.replay import Record, steps_of
from steps.states import StateTable
from steps.tap_kinds import TapKinds
from steps.translation_kinds import Kinds, rooms_of
from steps.written_packets import faults_of


class Followed(NamedTuple):
    """The lines of a run, how often each verdict, reason and kind of packet came up, and what is wrong with packets."""
    lines: list
    counts: Counter
    faults: list


def followed(run):
    """A run whose ruleset has no fault."""
    job = run.job()
    table = StateTable(job.ruleset.options.values["states"])
    kinds, place_kinds, tap_kinds = (make(job, run.link, table) for make in (Kinds, PlaceKinds, TapKinds))
    records = [Record(b"", *each) for each in run.placed()]
    lines, counts, faults = [], Counter(), []
    for step in steps_of(job, run.link_at, records, table):
        lines.append(step_line(step))
        counts.update((step.outcome.verdict, step.outcome.reason, *kinds.of(step), *rooms_of(step.outcome)))
        counts.update(place_kinds.of(step) if run.places else ())
        counts.update(tap_kinds.of(step))
        faults += [f"{run.name}, packet {step.number}: {fault}"
                   for fault in faults_of(job, kinds.rules, run.link, step, table)]
    return Followed(lines + list(map(state_line, table.by_number())), counts, faults)
