"""Texts with what the command should make of them, written by hand."""

import re
from pathlib import Path
from typing import NamedTuple

from adapt.findings import Finding
from adapt.model import Adapted, remarks_of
from adapt.rows import ROWS
from adapt.rows_included import ROWS as INCLUDED
from adapt.rows_interfaces import ROWS as ELSEWHERE
from adapt.rows_remarks import ROWS as REFUSED
from adapt.rows_written import ROWS as WRITTEN
from adapt.surroundings import NOTHING, Surroundings

TEXTS = Path(__file__).resolve().parent / "texts"
TESTS = TEXTS.parent.parent
# other texts, of which those are taken that are accepted
OTHERS = (TESTS / "rulesets" / "texts", TESTS / "expansions" / "texts", TESTS.parent / "examples")

FIELDS = {"--interface-address": "interfaces", "--group": "groups", "--hosts": "hosts", "--services": "services",
          "--table": "tables", "--include": "includes"}


# a word and its fault
FAULT = re.compile("(.*?): ((?:bad|un|left out:|out of|too) ?.*|clash)", re.DOTALL)


class Case(NamedTuple):
    name: str
    text: bytes
    adapted: Adapted
    surroundings: Surroundings = NOTHING


def surroundings_of(flags, contents):
    """Surroundings by flags with their words, `contents` giving what a file holds."""
    found = Surroundings()
    for flag, word in flags:
        if flag == "--address":
            found = found._replace(address=word)
            continue
        field = FIELDS[flag]
        name, _, value = word.partition("=")
        one = {"--hosts": lambda: contents(word), "--services": lambda: contents(word),
               "--table": lambda: (name, contents(value)), "--include": lambda: (name, contents(value))}
        added = one.get(flag, lambda: (name, value))()
        found = found._replace(**{field: (*getattr(found, field), added)})
    return found


def surroundings_beside(path):
    """The flags in a file beside a text: one with its word on each line. Files stand in the same folder."""
    flags = path.with_suffix(".flags")
    lines = flags.read_text().splitlines() if flags.exists() else []
    return surroundings_of([line.split(" ", 1) for line in lines], lambda name: (path.parent / name).read_bytes())


def adapted_of(text, lines):
    """What is said is written as on standard error, without the name of the file and without reasons."""
    findings, errors = [], []
    for line in lines:
        first, column, said, rest = (part.strip() for part in line.split(":", 3))
        word, kind = FAULT.fullmatch(rest).groups() if said == "error" else (rest, said)
        (errors if said == "error" else findings).append(Finding(int(first), int(column), kind, word))
    return Adapted(text, findings, errors)


def texts():
    """The rulesets of the folder `texts`."""
    for path in sorted(TEXTS.glob("*.conf")):
        lines = path.with_suffix(".findings").read_text(encoding="latin-1").splitlines()
        yield Case(path.stem, path.read_bytes(), adapted_of(path.with_suffix(".adapted").read_bytes(), lines),
                   surroundings_beside(path))


def rows():
    """Short texts. `⏎` is a newline, `␍` a carriage return and `␉` a tab. Of a flag with a file, what the file holds
    is written in its place. What pfctl refuses isn't written here: it has rows of its own."""
    for number, (text, new, said, *flags) in enumerate((*ROWS, *WRITTEN), 1):
        lines = [line.strip() for line in said.split("|") if line.strip()]
        adapted = adapted_of(spelled(text if new is None else new), lines)
        yield remarked(Case(f"row {number}, {text}", spelled(text), adapted, given("".join(flags))))


def remarked(case):
    """A case with what pfctl refuses, by the model."""
    is_rewritten = case.adapted.text != case.text
    remarks = remarks_of(case.text, case.surroundings, is_rewritten)
    return case._replace(adapted=case.adapted._replace(remarks=tuple(finding for finding, _ in remarks)))


def refused():
    """Short texts, each with what pfctl refuses of it and its kinds."""
    for text, said in REFUSED:
        yield spelled(repeated(text)), [line for line in repeated(said).split(" | ") if line]


def elsewhere():
    """Short texts, each with surroundings and what is said of rules of other interfaces."""
    for text, said, *flags in ELSEWHERE:
        yield spelled(text), given("".join(flags)), [line for line in said.split(" | ") if line]


def included():
    """Short texts, each with surroundings, what is printed and the lines that are said."""
    for text, new, said, *files in INCLUDED:
        pairs = [file.partition("=") for file in files]
        includes = tuple((name, spelled(content)) for name, _, content in pairs)
        yield spelled(text), NOTHING._replace(includes=includes), spelled(new), [line.strip() for line in said.split("|")]


def given(flags):
    """Surroundings by flags with `|` between."""
    return surroundings_of([flag.strip().split(" ", 1) for flag in flags.split("|") if flag.strip()], spelled)


def repeated(text):
    """A text with letters in the place of `{N*x}`."""
    return re.sub(r"\{(\d+)\*(.)\}", lambda found: found[2] * int(found[1]), text)


def limits():
    """Texts at a limit and past it: the number of macros and of tables, and the length of a value."""
    for count, is_known in ((998, True), (999, False)):
        others = "".join(f"x{number} = 1\n" for number in range(count))
        yield limit_case(f"{count + 1} macros", others + "p = imaps\npass to port $p\n", count + 2, is_known,
                         others + "p = imaps\npass to port 993\n")
    for count, is_known in ((4096, True), (4097, False)):
        value = "{ imaps" + " " * (count - 9) + " }"
        define = f'p = "{value}"\n'
        yield limit_case(f"a value of {count} bytes", f"{define}pass to port $p\n", 2, is_known,
                         f"{define}pass to port {value.replace('imaps', '993')}\n")
    names = [f"a-{number}" for number in range(1000)]
    text = "".join(f"table <{name}>\n" for name in names)
    findings = [f"{line}:8: note: {name}" for line, name in enumerate(names, 1)]
    yield Case("1000 tables", text.encode(), adapted_of(text.replace("-", "_").encode(), findings))
    yield Case("1001 tables", text.encode() + b"table <b-c>\n",
               adapted_of(text.replace("-", "_").encode() + b"table <b-c>\n", [*findings, "1001:8: error: b-c: unknown word"]))


def limit_case(name, text, line, is_known, new):
    """A text of which the last line has a macro as a port, which is known or not."""
    said = [f"{line}:14: note: $p"] * 2 if is_known else [f"{line}:14: error: $p: left out: service"]
    return remarked(Case(name, text.encode(), adapted_of((new if is_known else text).encode(), said)))


def spelled(text):
    return text.replace("⏎", "\n").replace("␍", "\r").replace("␉", "\t").encode("latin-1")


def others():
    """Texts of other comparisons, and the examples."""
    for folder in OTHERS:
        for path in sorted(folder.glob("*.conf")):
            yield f"{folder.parent.name}/{path.name}", path.read_bytes()
