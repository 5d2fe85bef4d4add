"""What lines end in if a run has several interfaces: which one a packet is on, and to which one a state is bound."""

from steps.states import ALL


def name_at(interfaces, place):
    """The name of the interface at a place, empty behind the last one."""
    return interfaces[place].name if place < len(interfaces) else ""


def mark(interfaces, binding):
    """` i=` with the name of the interface at a place, or with `-` for all; nothing if the run has one interface."""
    if len(interfaces) < 2:
        return ""
    return f" i={'-' if binding is ALL else name_at(interfaces, binding)}"


def verdict_line(interfaces, step):
    """The line of a packet, without the newline."""
    return step.verdict_line() + mark(interfaces, step.record.place)


def state_line(interfaces, entry):
    """The line of a state, without the newline."""
    return entry.text() + mark(interfaces, entry.binding)
