"""Rows of the spans of the clock: each length, and the most that there may be of each."""

import time

from reporting.row import BLOCK, BLOCKED, KNOCK, timed
from reporting.rows_summary import PASSED, RETURNED, SKIP_ON
from showing.rows_text import SKIPPED
from steps.translation_words import ASKED

DAY = 86400
# the clocks of two packets, the length of a span in words and in seconds, and how many there are
LENGTHS = (
    (0, 0, "1 second", 1, 1), (5, 5, "1 second", 1, 1), (0, 1, "1 second", 1, 2), (0, 119, "1 second", 1, 120),
    (7, 126, "1 second", 1, 120), (0, 120, "5 seconds", 5, 25), (7, 127, "5 seconds", 5, 25),
    # 596 seconds lie between both of these, and the second one begins one span more
    (4, 599, "5 seconds", 5, 120), (4, 600, "10 seconds", 10, 61), (5, 600, "5 seconds", 5, 120),
    (0, 1199, "10 seconds", 10, 120), (0, 1200, "30 seconds", 30, 41), (0, 3599, "30 seconds", 30, 120),
    (0, 3600, "1 minute", 60, 61), (59, 7140, "1 minute", 60, 120), (59, 7200, "5 minutes", 300, 25),
    (0, 35999, "5 minutes", 300, 120), (0, 36000, "10 minutes", 600, 61), (0, 71999, "10 minutes", 600, 120),
    (0, 72000, "30 minutes", 1800, 41), (1799, 215999, "30 minutes", 1800, 120), (1799, 216000, "1 hour", 3600, 61),
    (0, 431999, "1 hour", 3600, 120), (0, 432000, "2 hours", 7200, 61), (0, 863999, "2 hours", 7200, 120),
    (0, 864000, "6 hours", 21600, 41), (0, 2591999, "6 hours", 21600, 120), (0, 2592000, "12 hours", 43200, 61),
    (0, 5183999, "12 hours", 43200, 120), (0, 5184000, "1 day", DAY, 61), (0, 120 * DAY - 1, "1 day", DAY, 120),
    (0, 120 * DAY, "2 days", 2 * DAY, 61), (DAY, 240 * DAY - 1, "2 days", 2 * DAY, 120),
    (DAY, 240 * DAY, "4 days", 4 * DAY, 61), (0, 480 * DAY - 1, "4 days", 4 * DAY, 120),
    (0, 480 * DAY, "8 days", 8 * DAY, 61), (0, 960 * DAY, "16 days", 16 * DAY, 61),
    (0, 1920 * DAY, "32 days", 32 * DAY, 61), (0, 3840 * DAY, "64 days", 64 * DAY, 61),
    (0, 7680 * DAY, "128 days", 128 * DAY, 61), (0, 15360 * DAY, "256 days", 256 * DAY, 61),
    (0, 30720 * DAY, "512 days", 512 * DAY, 61), (0, 4294967295, "512 days", 512 * DAY, 98),
    (1767261634, 1767261634, "1 second", 1, 1), (1767261634, 1767261894, "5 seconds", 5, 53))


def title(begin, *counts):
    """The title of a span with counts of pass, block, return and skip."""
    numbers = dict(zip(("pass", "block", "return", "skip"), (*counts, 0, 0, 0, 0)))
    said = ", ".join(f"{count} {verdict}" for verdict, count in numbers.items())
    return f"{time.strftime('%Y-%m-%d %H:%M:%S', time.gmtime(begin))}: {said}"


def of_lengths():
    """The first packet is blocked, and the last one passes."""
    for first, last, words, seconds, number in LENGTHS:
        begins = [first - first % seconds + place * seconds for place in range(number)]
        spans = [(title(begin), ()) for begin in begins]
        spans[0], spans[-1] = (title(begins[0], 0, 1), ("block",)), (title(begins[-1], 1), ("pass",))
        if number == 1:
            spans = [(title(begins[0], 1, 1), ("pass", "block"))]
        yield timed(f"spans from {first} to {last}", BLOCK, (first, KNOCK, BLOCKED), (last, ASKED, SKIP_ON),
                    bar=f"Each bar is {words}.", spans=tuple(spans))


def of_counts():
    """Some spans with all kinds of counts."""
    told = ((10, KNOCK, BLOCKED), (10, KNOCK, BLOCKED), (10, ASKED, PASSED.format(3)), (11, KNOCK, RETURNED),
            (13, b"", SKIPPED), (13, ASKED, PASSED.format(6)), (13, KNOCK, RETURNED), (13, KNOCK, BLOCKED))
    yield timed("spans of all kinds", BLOCK, *told, bar="Each bar is 1 second.", spans=(
        ("1970-01-01 00:00:10: 1 pass, 2 block, 0 return, 0 skip", ("pass", "block")),
        ("1970-01-01 00:00:11: 0 pass, 0 block, 1 return, 0 skip", ("return",)),
        ("1970-01-01 00:00:12: 0 pass, 0 block, 0 return, 0 skip", ()),
        ("1970-01-01 00:00:13: 1 pass, 1 block, 1 return, 1 skip", ("pass", "block", "return", "skip"))))
    many = [(0, KNOCK, BLOCKED)] * 1 + [(1, KNOCK, BLOCKED)] * 3000
    yield timed("one packet beside many", BLOCK, *many, spans=(
        ("1970-01-01 00:00:00: 0 pass, 1 block, 0 return, 0 skip", ("block",)),
        ("1970-01-01 00:00:01: 0 pass, 3000 block, 0 return, 0 skip", ("block",))))
    yield timed("spans of five seconds", BLOCK, (3, KNOCK, BLOCKED), (4, KNOCK, BLOCKED), (5, KNOCK, BLOCKED),
                (9, KNOCK, RETURNED), (124, KNOCK, RETURNED), bar="Each bar is 5 seconds.", spans=(
        ("1970-01-01 00:00:00: 0 pass, 2 block, 0 return, 0 skip", ("block",)),
        ("1970-01-01 00:00:05: 0 pass, 1 block, 1 return, 0 skip", ("block", "return")),
        *((title(begin), ()) for begin in range(10, 120, 5)),
        ("1970-01-01 00:02:00: 0 pass, 0 block, 1 return, 0 skip", ("return",))))


def rows():
    yield from of_lengths()
    yield from of_counts()
