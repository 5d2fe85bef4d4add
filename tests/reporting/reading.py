"""Reads a page of HTML: what it says, as `page.Page`, and what is wrong with its form.

The page is read by what its elements are, and not by how it is laid out: other elements may stand round them.
"""

import re

from reporting import picture
from reporting.characters import escaped
from reporting.checks import faults_of_whole
from reporting.page import (BLOCKED, COLUMNS, HEADINGS, NONE, OF_VERDICTS, ROW_CLASSES, RULES, STATES, SUMMARY, TIME,
                            UNUSED, WARNINGS, Page)
from reporting.tree import Element, tree_of

# the lines that stand beside tables and the picture
BAR, MORE = re.compile(r"Each bar is .*\."), re.compile(r".* more with .*\.")
TABLES, PARAGRAPH = ("table", "svg"), "p"
CELLS = ("th", "td")
NO_SECTION = Element("section", {}, [])


def cells_of(row):
    return [child for child in row.children if isinstance(child, Element) and child.tag in CELLS]


def is_head(row):
    return all(cell.tag == "th" for cell in cells_of(row))


def text_rows(table):
    """The cells of all rows but those that name columns, and the class of each row."""
    return [(row, tuple(cell.text() for cell in cells_of(row))) for row in table.elements("tr") if not is_head(row)]


def lines_of(element):
    """The texts of the elements below that hold texts of their own, but in tables, pictures and headings."""
    for child in element.children:
        if isinstance(child, Element) and child.tag not in (*TABLES, "h1", "h2", "h3", "style"):
            if any(isinstance(each, str) and each.strip() for each in child.children):
                yield child.tag, child.text().strip()
            else:
                yield from lines_of(child)


def line_like(section, pattern):
    """The one line of a section that is of a form; "" if there is none."""
    found = [text for _, text in lines_of(section) if pattern.fullmatch(text)]
    return " / ".join(found)


class Parts:
    """The sections of a page by their names, and what is wrong with them."""

    def __init__(self, root):
        self.faults = []
        sections = [each for each in root.elements("section") if each.attributes.get("id")]
        self.names = [each.attributes["id"] for each in sections]
        self.sections = dict(zip(self.names, sections))
        if self.names not in (list(HEADINGS), list(HEADINGS)[:-1]):
            self.faults.append(f"the parts {self.names}")
        for name, section in self.sections.items():
            headings = [each.text() for each in section.elements("h1", "h2", "h3", "h4")]
            if headings != [HEADINGS.get(name)]:
                self.faults.append(f"the headings {headings} of {name}")

    def section(self, name):
        return self.sections.get(name, NO_SECTION)

    def is_none(self, name):
        """Whether a section says so, in a paragraph."""
        return (PARAGRAPH, NONE) in lines_of(self.section(name))

    def tables(self, name, count):
        """The tables of a section, of which there have to be so many."""
        found = list(self.section(name).elements("table"))
        if len(found) != count:
            self.faults.append(f"{len(found)} tables in {name}")
        return [*found, *[Element("table", {}, [])] * count][:count]

    def check_columns(self, name, table):
        heads = [tuple(cell.text() for cell in cells_of(row)) for row in table.elements("tr") if is_head(row)]
        if heads != [COLUMNS[name]]:
            self.faults.append(f"the columns {heads} of {name}")

    def rows_of(self, name):
        """The rows of a table that stands alone; none if it may be missing, and the section says that."""
        if name in (UNUSED, BLOCKED) and self.is_none(name):
            self.tables(name, 0)
            return []
        table, = self.tables(name, 1)
        self.check_columns(name, table)
        if name in (UNUSED, BLOCKED) and not text_rows(table):
            self.faults.append(f"no row in {name}")
        return text_rows(table)

    def warnings(self):
        """The texts of the list of warnings; none if the section says so."""
        section = self.section(WARNINGS)
        lists, items = list(section.elements("ul", "ol")), list(section.elements("li"))
        if self.is_none(WARNINGS):
            self.faults += ["a list of nothing"] * bool(lists or items)
            return ()
        if [each.tag for each in lists] != ["ul"] or not items or lists[0].own("li") != items:
            self.faults.append("no list of warnings")
        self.faults += [f"not escaped: {each.written()[:80]!r}" for each in items
                        if each.written() != escaped(each.text())]
        return tuple(each.text() for each in items)

    def summary(self):
        names, verdicts = self.tables(SUMMARY, 2)
        if OF_VERDICTS not in (verdicts.attributes.get("id"), *verdicts.classes()):
            self.faults.append("the second table of the summary isn't called verdicts")
        self.check_columns(OF_VERDICTS, verdicts)
        for row, _ in text_rows(names):
            if [cell.tag for cell in cells_of(row)] != ["th", "td"]:
                self.faults.append("a row of the summary that isn't a name and a value")
        return text_rows(names), text_rows(verdicts)

    def picture(self):
        """The line about bars, and the spans; none without packets."""
        section = self.section(TIME)
        pictures, bar = list(section.elements("svg")), line_like(section, BAR)
        if self.is_none(TIME):
            self.faults += ["a picture or a line of nothing"] * bool(pictures or bar)
            return NONE, ()
        if len(pictures) != 1:
            self.faults.append(f"{len(pictures)} pictures")
            return bar, ()
        self.faults += picture.faults_of(pictures[0])
        try:
            return bar, tuple((span.title, span.verdicts()) for span in picture.spans_of(pictures[0]))
        except ValueError:
            return bar, ()


def with_kind(row, cells):
    """The cells of a row of rules behind its class."""
    return (" ".join(name for name in row.classes() if name in ROW_CLASSES), *cells)


def plain(rows):
    return tuple(cells for _, cells in rows)


def faults_of_texts(section):
    """How texts of the ruleset are written: the last cell of each row."""
    for row in section.elements("tr"):
        cells = [] if is_head(row) else cells_of(row)
        if cells and cells[-1].written() != escaped(cells[-1].text()):
            yield f"not escaped: {cells[-1].written()[:80]!r}"


def page_in(text):
    """What a page says, and what is wrong with the form of it."""
    root, faults = tree_of(text)
    parts = Parts(root)
    titles = [each.text() for head in root.elements("head") for each in head.elements("title")]
    faults += [f"{len(titles)} titles"] * (len(titles) != 1)
    summary, verdicts = parts.summary()
    bar, spans = parts.picture()
    rules, unused, blocked = map(parts.rows_of, (RULES, UNUSED, BLOCKED))
    states = plain(parts.rows_of(STATES)) if STATES in parts.names else None
    for name in (RULES, UNUSED):
        faults += faults_of_texts(parts.section(name))
    page = Page("".join(titles), parts.warnings(), plain(summary), plain(verdicts), bar, spans,
                tuple(with_kind(*each) for each in rules), plain(unused), plain(blocked),
                line_like(parts.section(BLOCKED), MORE), states)
    return page, root, faults + parts.faults


def read(octets):
    """What a page says; None if its bytes aren't UTF-8. Beside it stands what is wrong with it."""
    try:
        text = octets.decode()
    except UnicodeDecodeError as why:
        return None, [f"no UTF-8: {why}"]
    page, root, faults = page_in(text)
    return page, [*faults, *faults_of_whole(text, root)]
