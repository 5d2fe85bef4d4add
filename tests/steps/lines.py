"""Packets of a run as the program that goes through them prints them."""

from expansions.model import dotted
from steps.replay import dashed


def binding_words(entry):
    """The place of the interface on which a state was made, and the place to which it is bound."""
    return f"{entry.interface}/{dashed(entry.binding)}"


def state_line(entry):
    """The line of a state."""
    return f"{entry.text()} {binding_words(entry)}"


def change_words(change):
    if change is None:
        return "-"
    kind, changed = change
    return f"{kind} {changed if kind == 'removed' else state_line(changed)}"


def written_words(outcome):
    """What is written into the packet."""
    if outcome.passage is None:
        return "-"
    address, port = outcome.passage.beyond(outcome.direction)
    return f"{'source' if outcome.direction == 'out' else 'destination'} {dotted(address)}:{port}"


def numbers(visited):
    return ",".join(map(str, visited)) or "-"


def step_line(step):
    """The line of a packet."""
    outcome = step.outcome
    return (f"{step.verdict_line()}; {numbers(outcome.visited)} {numbers(outcome.visited_translation)}; "
            f"{change_words(outcome.change)}; {written_words(outcome)}")
