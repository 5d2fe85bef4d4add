"""Writes a page that says some values, as the command might. What reads pages is compared with it, and nothing else."""

from reporting.characters import escaped
from reporting.page import (BLOCKED, COLUMNS, HEADINGS, NONE, OF_VERDICTS, RULES, STATES, SUMMARY, TIME, UNUSED,
                            VERDICTS, WARNINGS)
from reporting.picture import COUNTS

WIDTH, FULL = 8, 200


def element(tag, inside, **attributes):
    words = "".join(f' {name.rstrip("_")}="{value}"' for name, value in attributes.items() if value)
    return f"<{tag}{words}>{inside}</{tag}>"


def cells(tag, row):
    return "".join(element(tag, escaped(each)) for each in row)


def table(name, rows, kinds=None):
    body = [element("tr", cells("td", row), class_=kind) for row, kind in zip(rows, kinds or [""] * len(rows))]
    head = element("thead", element("tr", cells("th", COLUMNS[name])))
    return element("table", f"{head}\n{element('tbody', chr(10).join(body))}", class_=name)


def some(name, rows):
    """A table, or the paragraph that stands for none."""
    return table(name, rows) if rows else element("p", NONE)


def counts_of(title):
    return [int(each) for each in COUNTS.fullmatch(title).groups()]


def group(place, title, most):
    """A span, whose bars stand upon one another."""
    bottom, bars = FULL, []
    for verdict, count in zip(VERDICTS, counts_of(title)):
        if count:
            height = round(count * FULL / most, 2)
            bottom -= height
            bars.append(f'<rect class="{verdict}" x="{place * WIDTH}" y="{max(bottom, 0):.2f}" width="{WIDTH - 1}" '
                        f'height="{height}"/>')
    return element("g", element("title", title) + "".join(bars))


def picture(page):
    most = max(sum(counts_of(title)) for title, _ in page.spans)
    groups = "\n".join(group(place, title, most) for place, (title, _) in enumerate(page.spans))
    return element("p", page.bar) + element("svg", groups, viewBox=f"0 0 {len(page.spans) * WIDTH} {FULL}")


def items(texts):
    """A list, or the paragraph that stands for none."""
    return element("ul", "\n".join(element("li", escaped(each)) for each in texts)) if texts else element("p", NONE)


def names_table(rows):
    return element("table", "".join(element("tr", element("th", escaped(name)) + element("td", escaped(value)))
                                    for name, value in rows))


def sections(page):
    """What stands in each part."""
    kinds, rules = [kind for kind, *_ in page.rules], [row for _, *row in page.rules]
    more = element("p", page.more) if page.more else ""
    found = {WARNINGS: items(page.warnings),
             SUMMARY: names_table(page.summary) + table(OF_VERDICTS, page.verdicts),
             TIME: picture(page) if page.spans else element("p", NONE),
             RULES: table(RULES, rules, kinds), UNUSED: some(UNUSED, page.unused),
             BLOCKED: some(BLOCKED, page.blocked) + more}
    return found if page.states is None else {**found, STATES: table(STATES, page.states)}


def written(page):
    """The whole page as bytes."""
    body = "\n".join(element("section", f"{element('h2', HEADINGS[name])}\n{inside}", id=name)
                     for name, inside in sections(page).items())
    head = f'<meta charset="utf-8">{element("title", escaped(page.title))}{element("style", "td { white-space: pre }")}'
    return (f"<!DOCTYPE html>\n{element('html', element('head', head) + element('body', body), lang='en')}\n").encode()
