"""A document, passage by passage."""

import re
from typing import NamedTuple

PROSE, ITEM, ROW, BLOCK, TITLE = "prose", "item", "row", "block", "title"
CRATE = re.compile(r"\bpfr_\w+")
CODE = re.compile(r"`([^`]+)`")
# a crate with what stands right behind it in backquotes, and what is said to be of a crate
BEHIND = re.compile(r"\b(pfr_\w+)(?:'s)?(:?\s\(?`[^`]+`(?:(?:[:,]\s|,?\sand\s|\s)`[^`]+`)*)")
OF = re.compile(r"`[^`]+`\s(?:of\s|in\s|\((?=pfr_\w+\)))(pfr_\w+)")


class Passage(NamedTuple):
    """Some lines of a document: the number of the first one, their kind, their text, and the words of the title above
    them."""
    line: int
    kind: str
    text: str
    titled: tuple

    def codes(self):
        """What stands in backquotes, each with its line and with the crate whose it is said to be, if there is one."""
        owners = self.owners()
        for line, match in self.found(CODE):
            yield line, " ".join(match[1].split()), owners.get(match.start())

    def owners(self):
        """The crates whose something is, by the places of the first backquotes."""
        found = {}
        for match in BEHIND.finditer(self.text):
            found.update((match.start(2) + code.start(), match[1]) for code in CODE.finditer(match[2]))
        return {**found, **{match.start(): match[1] for match in OF.finditer(self.text)}}

    def cells(self):
        """The cells of a row, none of anything else."""
        return self.text.strip().strip("|").split("|") if self.kind == ROW else []

    def found(self, pattern):
        """What a pattern finds, each with its line."""
        for match in pattern.finditer(self.text):
            yield self.line + self.text.count("\n", 0, match.start()), match


def kind_of(line, before):
    """The kind of a line, behind a line of another kind, which is None for an empty one."""
    if line.startswith("#"):
        return TITLE
    if line.lstrip().startswith("|"):
        return ROW
    if re.match(r" {0,3}(?:[-*]|\d+\.) ", line):
        return ITEM
    return BLOCK if line.startswith("    ") and before in (None, BLOCK) else PROSE


def goes_on(kind, before):
    """Whether a line of a kind belongs to the passage of the line before it."""
    return kind == before == BLOCK or kind == PROSE and before in (PROSE, ITEM)


def passages(text):
    """The passages of a document: paragraphs, items of lists, titles, rows of tables and indented blocks."""
    titled, lines, first, before = (), [], None, None
    for number, line in enumerate([*text.splitlines(), ""], 1):
        kind = kind_of(line, before) if line.strip() else None
        if lines and not goes_on(kind, before):
            yield Passage(*first, "\n".join(lines), titled)
            lines = []
        if kind == TITLE:
            titled = tuple(re.findall(r"\w+", line))
        if kind:
            first = first if lines else (number, kind)
            lines.append(line)
        before = kind
