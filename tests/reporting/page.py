"""What a report says, as values: the cells of its tables, the spans of its picture, and the lines beside them."""

from typing import NamedTuple

VERDICTS = ("pass", "block", "return", "skip")
# the parts of a page in their order, with their headings; the last one may be missing
WARNINGS, SUMMARY, TIME, RULES = "warnings", "summary", "time", "rules"
UNUSED, BLOCKED, STATES = "unused", "blocked", "states"
HEADINGS = {WARNINGS: "What may not fit", SUMMARY: "What was replayed", TIME: "Verdicts over time",
            RULES: "Rules by line", UNUSED: "Lines that did nothing", BLOCKED: "Flows blocked most",
            STATES: "States by age"}
# the columns of their tables, of which the summary has two; that of names and values has none
OF_VERDICTS = "verdicts"
COLUMNS = {OF_VERDICTS: ("Verdict", "Packets", "Bytes", "Share"),
           RULES: ("Line", "Packets", "Bytes", "Share", "Text"), UNUSED: ("Line", "Rules", "Why", "Text"),
           BLOCKED: ("Packets", "Bytes", "Flow", "Interface", "Rule", "Reason", "First"),
           STATES: ("Age", "States", "Packets", "Bytes", "Share")}
TITLE = "pfreplay report: "
NONE = "None."
# what a row of the rules may be: if packets count, the verdict of all filter rules of the line, or else used
USED, UNUSED_ROW = "used", "unused"
ROW_CLASSES = (*VERDICTS[:3], USED, UNUSED_ROW)


class Page(NamedTuple):
    """All that a page says. Warnings are texts. Rows are tuples of cells; one of the rules begins with its class, ""
    for none. A span is its title and the verdicts that have a bar there. Of a part that says `None.` there are no
    rows."""
    title: str
    warnings: tuple
    summary: tuple
    verdicts: tuple
    bar: str
    spans: tuple
    rules: tuple
    unused: tuple
    blocked: tuple
    more: str
    states: tuple | None


def listed(page, faults=()):
    """A page in lines, each of which has one value; and what is wrong with it."""
    for name, value in page._asdict().items():
        if isinstance(value, tuple):
            yield f"{name}: {len(value)}"
            yield from (f"{name}, {each!r}" for each in value)
        else:
            yield f"{name}: {value!r}"
    yield from (f"fault: {fault}" for fault in faults)


def octets_of(page, faults=()):
    """The same as bytes, in the place of what is printed."""
    return "".join(f"{line}\n" for line in listed(page, faults)).encode(errors="surrogateescape")
