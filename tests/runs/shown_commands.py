"""Runs the commands that the documents show, and compares what they print with what is shown.

A command stands in an indented block behind `$ `, and what it prints below it; a line of two dots stands for the rest.
"""

import os
import subprocess
from typing import NamedTuple

from building import ROOT

# those that show commands that are run, and those that may
DOCUMENTS = ("README.md", "examples/README.md")
OTHER_DOCUMENTS = ("docs/PROOF.md", "tests/README.md")
# what commands find in their folder besides the program
FOLDERS = ("crates", "docs", "examples", "tests")
INDENT, PROMPT, REST = "    ", "    $ ", "    .."
# first words of commands that are run; others, as `./test` and `tests/compare.py`, are for the reader alone
RUN = ("./pfreplay", "cat", "sed", "head", "tail", "grep", "wc", "cut", "od")
# seconds; other comparisons may run at the same time
TIME_LIMIT = 30


class Command(NamedTuple):
    line: int
    text: str
    printed: list

    def agrees(self, seen):
        """Whether these lines are what is shown."""
        if self.printed[-1:] == [REST[len(INDENT):]]:
            return seen[:len(self.printed) - 1] == self.printed[:-1]
        return seen == self.printed


def commands(text):
    """The commands of a document in their order; one that ends in a backslash goes on in the next line."""
    current, goes_on = None, False
    for number, line in enumerate(text.splitlines(), 1):
        if goes_on:
            current = current._replace(text=f"{current.text}\n{line}")
        elif line.startswith(PROMPT):
            if current:
                yield current
            current = Command(number, line[len(PROMPT):], [])
        elif current and line.startswith(INDENT):
            current.printed.append(line[len(INDENT):])
            continue
        elif current:
            yield current
            current = None
        goes_on = current is not None and current.text.endswith("\\")
    if current:
        yield current


def printed_by(command, folder):
    """What a command prints on both streams, in lines."""
    done = subprocess.run(["bash", "-c", command.text], cwd=folder, stdin=subprocess.DEVNULL, stdout=subprocess.PIPE,
                          stderr=subprocess.STDOUT, timeout=TIME_LIMIT, env={**os.environ, "LC_ALL": "C"}, check=False)
    return done.stdout.decode(errors="replace").splitlines()


def compare(comparison):
    """The commands of each document, in a folder in which all stands as the documents have it."""
    for number, name in enumerate((*DOCUMENTS, *OTHER_DOCUMENTS)):
        folder = comparison.folder / f"shown{number}"
        folder.mkdir()
        for other in FOLDERS:
            (folder / other).symlink_to(ROOT / other)
        (folder / "pfreplay").symlink_to(comparison.program)
        compare_document(comparison, name, folder)


def compare_document(comparison, name, folder):
    shown = [command for command in commands((ROOT / name).read_text()) if command.text.split()[0] in RUN]
    if name in DOCUMENTS:
        comparison.expect(f"{name} shows commands", True, bool(shown))
    for command in shown:
        seen = printed_by(command, folder)
        comparison.expect(f"{name}, line {command.line}: {command.text}", command.printed,
                          command.printed if command.agrees(seen) else seen)
