"""The written answers of the expansion: those of the folder `texts`, and the rows of rows.py.

In the file `expected` each answer begins with the text's name and a colon. Interfaces may stand before the colon, each
a name and an address, else it is em0 with 192.0.2.1/24.
Behind it stand `line L: KIND` or `F filter, T translation`, or the lines of the dump follow, indented. Lines of options
that are as under `every ruleset` aren't repeated. Neither is the table `self` written if there is one interface.
"""

import sys
from pathlib import Path
from typing import NamedTuple

from expansions import rows
from expansions.cases import EM0
from expansions.hosts import interface_of

TEXTS = Path(__file__).resolve().parent / "texts"
EVERY = "every ruleset"


class Case(NamedTuple):
    name: str
    interfaces: tuple
    # the answer on one line, or None where the lines of the dump follow
    answer: str | None
    lines: list


def option_of(line):
    """Which option a line of the dump is about, None where it is about none."""
    words = line.split()
    if words[0] in ("timeout", "limit"):
        return " ".join(words[:2])
    return words[0] if words[0] in ("block-policy", "state-policy", "hostid", "skip") else None


def cases_of_texts():
    """The cases of the folder, behind what holds for every ruleset."""
    cases = []
    for line in (TEXTS / "expected").read_text().splitlines():
        if line.startswith(" "):
            cases[-1].lines.append(line.strip())
        elif line.startswith(EVERY):
            cases.append(Case(EVERY, (), None, []))
        elif line:
            head, _, answer = line.partition(":")
            name, *words = head.split()
            interfaces = tuple(map(interface_of, words[::2], words[1::2])) or (EM0,)
            cases.append(Case(name, interfaces, answer.strip() or None, []))
    return cases


def whole(lines, defaults, interfaces):
    """The lines of a case with those options that it doesn't write, and the table of one interface's address."""
    written = {option_of(line): line for line in lines if option_of(line)}
    options = [written.pop(option_of(line), line) for line in defaults]
    own = [f"table self {each.address}/32" for each in interfaces] if len(interfaces) == 1 else []
    return [*options, *written.values(), *own, *(line for line in lines if not option_of(line))]


def written():
    """The cases, each with the bytes of its text and its answer, a line or the lines of the dump."""
    every, *cases = cases_of_texts()
    found, named = {path.name for path in TEXTS.glob("*.conf")}, {case.name for case in cases}
    if found != named:
        sys.exit(f"files without an answer, or answers without a file: {sorted(found ^ named)}")
    for case in cases:
        yield case, (TEXTS / case.name).read_bytes(), case.answer or whole(case.lines, every.lines, case.interfaces)


def short():
    """The rows of rows.py, each as the cases of the folder are."""
    defaults = cases_of_texts()[0].lines
    for number, row in enumerate(rows.rows()):
        is_line = isinstance(row.answer, str)
        case = Case(f"row {number}", row.interfaces, row.answer if is_line else None, [])
        yield case, row.text.encode(), row.answer if is_line else whole(row.answer, defaults, row.interfaces)
