"""The spans of the clock in which a report counts packets: a second implementation, written from docs/FORMATS.md,
section "A report".

A span has the least length of which no more than 120 reach from the first clock to the last. It begins at a multiple of
its length.
"""

from datetime import datetime, timedelta
from itertools import count

from reporting.page import NONE, VERDICTS

SECOND, MINUTE, HOUR, DAY = 1, 60, 3600, 86400
MOST_SPANS = 120
EPOCH = datetime(1970, 1, 1)


def lengths():
    """All lengths by size: how many of a unit, its name, and its seconds."""
    for unit, name, numbers in ((SECOND, "second", (1, 5, 10, 30)), (MINUTE, "minute", (1, 5, 10, 30)),
                                (HOUR, "hour", (1, 2, 6, 12)), (DAY, "day", (2**power for power in count()))):
        yield from ((number, name, number * unit) for number in numbers)


def time_words(seconds):
    return f"{EPOCH + timedelta(seconds=seconds):%Y-%m-%d %H:%M:%S}"


def spans_between(first, last, seconds):
    """The numbers of the spans of a length, the one of the clock 0 being 0."""
    return range(first // seconds, last // seconds + 1)


def length_for(first, last):
    return next(each for each in lengths() if len(spans_between(first, last, each[-1])) <= MOST_SPANS)


def bar_words(number, unit):
    return f"Each bar is {number} {unit}{'' if number == 1 else 's'}."


def span_of(begin, counts):
    """The title of a span, and the verdicts that count a packet there."""
    words = ", ".join(f"{counts.get(verdict, 0)} {verdict}" for verdict in VERDICTS)
    return f"{time_words(begin)}: {words}", tuple(verdict for verdict in VERDICTS if counts.get(verdict))


def spans_of(told):
    """What is said of bars, and the spans of pairs of a clock and a verdict."""
    if not told:
        return NONE, ()
    clocks = [clock for clock, _ in told]
    number, unit, seconds = length_for(clocks[0], clocks[-1])
    counts = {place: {} for place in spans_between(clocks[0], clocks[-1], seconds)}
    for clock, verdict in told:
        span = counts[clock // seconds]
        span[verdict] = span.get(verdict, 0) + 1
    return bar_words(number, unit), tuple(span_of(place * seconds, span) for place, span in counts.items())
