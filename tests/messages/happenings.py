"""What comes up in lists of events and in their messages: names for it, of which each has to come up often enough."""

from collections import Counter

from messages.model import entries_of, message_of, parts_of, size_of
from messages.events import MADE, REMOVED
from messages.message import INS, KINDS, MOST, UPD_C

COUNTED = {
    "records": KINDS,
    "messages of kinds": ("INS alone", "UPD_C alone", "DEL_C alone", "INS and UPD_C", "INS and DEL_C",
                          "UPD_C and DEL_C", "INS and UPD_C and DEL_C"),
    "states in a message": ("INS that is gone again", "UPD_C that turns into DEL_C", "DEL_C at once",
                            "INS that moves on", "UPD_C that moves on", "INS at 0 seconds", "UPD_C at 0 seconds"),
    "ends of parts": ("by size before INS", "by size before UPD_C", "by size before DEL_C", "by clock", "by the end"),
    "parts": ("without a record", "empty in between", "of 1500 bytes", "with room again"),
    "states": ("in two messages of a second", "not told of", "gone by deadline", "gone by a packet",
               "gone together with another of its deadline"),
    "packets": ("that close a message and say nothing", "that close two messages", "without a change of states"),
}


def name_of_kinds(message):
    kinds = list(message.numbers())
    return f"{kinds[0]} alone" if len(kinds) == 1 else " and ".join(kinds)


def of_number(events):
    """What comes up for one number in a part."""
    first, last = events[0].kind, events[-1].kind
    remaining = events[-1].state.deadline - events[-1].clock
    if first == REMOVED:
        yield "DEL_C at once"
    elif last == REMOVED:
        yield "INS that is gone again" if first == MADE else "UPD_C that turns into DEL_C"
    else:
        kind = INS if first == MADE else UPD_C
        yield from [f"{kind} that moves on"] if len(events) > 1 else []
        yield from [f"{kind} at 0 seconds"] if remaining <= 0 else []


def by_number(events):
    found = {}
    for event in events:
        found.setdefault(event.number, []).append(event)
    return found


def of_part(origin, part):
    """What comes up in a part."""
    numbers = by_number(part)
    for events in numbers.values():
        yield from of_number(events)
    message = message_of(origin, part)
    if message is None:
        yield "without a record"
        return
    yield name_of_kinds(message)
    yield from (kind for kind, records in message.records().items() for _ in records)
    if message.size() == MOST:
        yield "of 1500 bytes"
    if len(numbers) < len(part):
        yield from of_sizes([size_of(part[:count]) for count in range(1, len(part) + 1)])


def of_sizes(sizes):
    """What comes up in a part that has these sizes behind each of its events."""
    if size_of([]) in sizes:
        yield "empty in between"
    if any(earlier > later for earlier, later in zip(sizes, sizes[1:])) and max(sizes) > MOST - 300:
        yield "with room again"


def of_end(part, following):
    """How a part ends before another."""
    if following is None:
        return "by the end"
    if part[0].clock != following[0].clock:
        return "by clock"
    (kind, _), = entries_of(following[:1])
    return f"by size before {kind}"


def of_packet(happening, closed):
    told = [state for state in happening.gone if state.is_told]
    yield from ["gone by deadline"] * len(happening.gone)
    deadlines = Counter(state.deadline for state in told)
    yield from ["gone together with another of its deadline"] * sum(deadlines[state.deadline] > 1 for state in told)
    if happening.change is None:
        yield "without a change of states"
    elif happening.change[0] == REMOVED:
        yield "gone by a packet"
    if len(closed) > 1:
        yield "that close two messages"


def of_list(origin, happenings, packets, closed):
    """What comes up in a list, where `closed` are the messages that close at each packet."""
    parts = list(parts_of([event for packet in packets for event in packet.events]))
    counts = Counter()
    for part, following in zip(parts, [*parts[1:], None]):
        counts.update(of_part(origin, part))
        counts[of_end(part, following)] += 1
        if following and part[0].clock == following[0].clock:
            counts["in two messages of a second"] += len(by_number(part).keys() & by_number(following).keys())
    for happening, packet, messages in zip(happenings, packets, closed):
        counts.update(of_packet(happening, messages))
        counts["that close a message and say nothing"] += bool(messages and not packet.events)
        is_new = happening.change and happening.change[0] == MADE and not happening.change[1].is_told
        counts["not told of"] += bool(is_new)
    return counts
