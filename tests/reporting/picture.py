"""The picture of a page: its spans with their bars, whose heights have to be to scale."""

import re
from itertools import chain
from typing import NamedTuple

from reporting.page import VERDICTS

SHIFT = re.compile(r"\s*translate\(\s*(-?[\d.]+)(?:[\s,]+(-?[\d.]+))?\s*\)\s*")
COUNTS = re.compile(r".*: (\d+) pass, (\d+) block, (\d+) return, (\d+) skip", re.DOTALL)
# how far a height may be from what its count stands for, and a bar from the edge, in units of the picture
ROUNDING, NEARLY = 1, 1e-6


class Bar(NamedTuple):
    """A rect, where it stands in the picture."""
    classes: list
    left: float
    top: float
    width: float
    height: float


class Span(NamedTuple):
    title: str
    bars: list

    def verdicts(self):
        """The verdicts that have a bar, each as often as it has one."""
        found = [name for bar in self.bars for name in bar.classes if name in VERDICTS]
        return tuple(sorted(found, key=VERDICTS.index))

    def heights(self):
        """Pairs of a count and the height of its bar."""
        counts = COUNTS.fullmatch(self.title)
        numbers = dict(zip(VERDICTS, map(int, counts.groups()))) if counts else {}
        return [(numbers[name], bar.height) for bar in self.bars for name in bar.classes if numbers.get(name)]


def number_of(element, name):
    return float(element.attributes.get(name) or 0)


def bars_below(element, left=0.0, top=0.0):
    """All rects below an element, with its shift added."""
    for child in element.children:
        if isinstance(child, str):
            continue
        move = SHIFT.fullmatch(child.attributes.get("transform") or "translate(0)")
        if move is None:
            raise ValueError(f"a transform {child.attributes['transform']!r}")
        x, y = left + float(move[1]), top + float(move[2] or 0)
        if child.tag == "rect":
            place = x + number_of(child, "x"), y + number_of(child, "y")
            yield Bar(child.classes(), *place, number_of(child, "width"), number_of(child, "height"))
        yield from bars_below(child, x, y)


def spans_of(svg):
    """The spans of a picture: its groups with titles."""
    for group in svg.elements("g"):
        titles = group.own("title")
        if titles:
            yield Span(titles[0].text(), list(bars_below(group)))


def frame_of(svg):
    """The edges of a picture: left, top, right and bottom."""
    # the reader has the names of attributes in lower case
    box = svg.attributes.get("viewbox")
    x, y, width, height = (map(float, re.split(r"[\s,]+", box.strip())) if box else
                           (0, 0, number_of(svg, "width"), number_of(svg, "height")))
    return x, y, x + width, y + height


def is_inside(bar, frame):
    left, top, right, bottom = frame
    return (left - NEARLY <= bar.left and top - NEARLY <= bar.top and bar.left + bar.width <= right + NEARLY
            and bar.top + bar.height <= bottom + NEARLY and min(bar.width, bar.height) > 0)


def are_to_scale(pairs):
    """Whether one scale fits all pairs of a count and a height, but for rounding."""
    least = max(((height - ROUNDING) / count for count, height in pairs), default=0)
    most = min(((height + ROUNDING) / count for count, height in pairs), default=0)
    return least <= most


def faults_of_span(group):
    """What is wrong with the order of what stands in a group: its title comes first."""
    tags = [child.tag for child in group.children if not isinstance(child, str)]
    if group.own("title") and tags[0] != "title":
        yield f"{tags[0]} before the title of a span"


def faults_of(svg):
    """What is wrong with a picture, whatever it shows."""
    try:
        spans, bars, frame = list(spans_of(svg)), list(bars_below(svg)), frame_of(svg)
    except ValueError as why:
        yield f"no number in the picture: {why}"
        return
    for group in svg.elements("g"):
        yield from faults_of_span(group)
    yield from (f"a rect outside of the picture: {bar}" for bar in bars if not is_inside(bar, frame))
    in_spans = sum(len(span.verdicts()) for span in spans)
    if sum(len(Span("", [bar]).verdicts()) for bar in bars) != in_spans:
        yield "a bar outside of the spans"
    pairs = list(chain.from_iterable(span.heights() for span in spans))
    if not are_to_scale(pairs):
        yield f"heights that aren't to scale: {sorted(set(pairs))[:6]}"
    edges = [min(bar.left for bar in span.bars) for span in spans if span.bars]
    if edges != sorted(edges):
        yield "spans that don't stand in their order"
