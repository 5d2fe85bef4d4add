"""Compares what the documents name with what there is.

    python3 -m documents.compare

in the folder `tests`. It needs no program: flags of the program are those of the man page.
"""

import sys

sys.dont_write_bytecode = True

from documents.checks import HISTORY, Document
from documents.cases import ROWS
from documents.tree import Tree

# besides those in `docs`
OTHERS = ("README.md", "bench/README.md", HISTORY, "examples/README.md", "tests/README.md", "tests/faults/README.md")


def documents(tree):
    """The names of the documents that are read."""
    return sorted({*OTHERS, *(name for name in tree.files if name.startswith("docs/") and name.endswith(".md"))})


def compare_planted(tree):
    """Whether just those faults are found that are planted: how many rows are wrong."""
    wrong = 0
    for row in ROWS:
        found = tuple(Document(tree, row.name, row.text).faults())
        if found != row.faults:
            wrong += 1
            print(f"{row.name}, planted: found {found}, not {row.faults}, in\n{row.text}")
    print(f"wrong names that are planted: {len(ROWS)} texts, {wrong} not as expected")
    return wrong


def compare_documents(tree):
    """Prints what documents name and isn't there: how much that is."""
    count, wrong = 0, 0
    for name in documents(tree):
        document = Document(tree, name, (tree.root / name).read_text())
        faults = document.faults()
        for fault in faults:
            print(f"{name}:{fault.line}: {fault.kind}: {fault.name}")
        count, wrong = count + document.count, wrong + len(faults)
    print(f"names in {len(documents(tree))} documents: {count}, of which {wrong} aren't there, or stand in long lines")
    return wrong


def main():
    tree = Tree()
    # both are made, whatever the first finds
    if compare_planted(tree) + compare_documents(tree):
        sys.exit("the documents name what isn't there")


if __name__ == "__main__":
    main()
