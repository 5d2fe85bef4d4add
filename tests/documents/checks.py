"""What a document names and isn't there."""

import re
from pathlib import Path
from posixpath import normpath
from typing import NamedTuple

from documents.passages import BLOCK, CODE, CRATE, ROW, passages
from documents.tree import FLAG, anchors

MOST_LETTERS = 120
# folders at the top, by which a path begins that is seen anywhere in a document
TOPS = ("bench", "crates", "docs", "examples", "share", "tests")
PATH = re.compile(rf"(?<![\w./-])(?:{'|'.join(TOPS)})/[\w./*-]*[\w/*]")
# names of files that are looked for where they stand alone in backquotes
FILE = re.compile(r"[\w./*-]*\w\.(?:py|rt|antt|md|rs|rattle|nft|c)")
PARTS = re.compile(r"(?:src|specs|proofs|must-fail|wrong)/[\w./*-]*")
LINK = re.compile(r"\]\(([^)\s]+)\)")
# names of code: with `::`, with `()`, in snake_case, and of types
SCOPED = re.compile(r"[A-Za-z]\w*(?:::\w+)+(?:\(\))?")
SNAKE = re.compile(r"[a-z][a-z0-9]*(?:_[a-z0-9]+)+(?:\(\))?|[a-z]\w*\(\)")
TYPE = re.compile(r"[A-Z][a-z]\w*")
# documents that name the code of crates: there all these forms are names
OF_CODE = ("docs/ARCHITECTURE.md", "docs/DECISIONS.md", "docs/DEFINITIONS.md", "docs/PROOF.md", "docs/VOCABULARY.md")
# it names what was there when it was measured
HISTORY = "bench/HISTORY.md"
# what is no name of this repository, though it looks like one
OUTSIDE = {"BinaryHeap", "Vec", "String", "Option", "Result"}
# a word in capitals stands for another one
STANDS_FOR = re.compile(r"(?:^|[/.=])(?:FILE|FOLDER|MODULE|NAME|WORD)(?:$|[/.=,])")
# what runs the program
PROGRAM = re.compile(r"(?:\./|\S*/)?(?:pfreplay|pfr_cli)(?!\S)")
# a cell with one file of a crate
FILE_CELL = re.compile(r"\s*(pfr_\w+) `([\w./-]+)`\s*")
WORD = re.compile(r"\w+")
# several commands on a line, a command on several, and how one begins
SEVERAL = re.compile(r" (?:\||\|\||&&) ")
GOES_ON = re.compile(r"(?:.*\\\n)+.*")
COMMAND = re.compile(r"^\s*(?:\$ )?(?:(?:[A-Z_]+=\S+|nice|-n|-?\d+|taskset|-c) )*(\S+)(?: -m (\S+))?")


class Fault(NamedTuple):
    """What is named and isn't there, with its kind and line."""
    line: int
    kind: str
    name: str


class Document:
    """A document by its name and its text, beside what there is."""

    def __init__(self, tree, name, text):
        self.tree, self.name, self.text = tree, name, text
        self.folder = str(Path(name).parent)
        self.passages = list(passages(text))
        self.count = 0

    def faults(self):
        """All faults, by line."""
        checks = (lines, links) if self.name == HISTORY else (lines, links, paths, crates, code_names, flags)
        return sorted({Fault(*found) for check in checks for found in check(self)})

    def seen(self, is_there, line, kind, name):
        """Counts a name, and gives its fault if it isn't there."""
        self.count += 1
        return () if is_there else ((line, kind, name),)


def lines(document):
    """Lines that are too long, but for tables and what stands in blocks."""
    for passage in document.passages:
        for number, line in enumerate(passage.text.splitlines(), passage.line):
            if passage.kind not in (ROW, BLOCK) and len(line) > MOST_LETTERS:
                yield number, "line", f"{len(line)} letters"


def links(document):
    """Links that lead to no file, or to no title."""
    for passage in document.passages:
        for line, match in passage.found(LINK):
            path, _, anchor = match[1].partition("#")
            if path.startswith(("http:", "https:")):
                continue
            name = normpath(f"{document.folder}/{path}") if path else document.name
            yield from document.seen(document.tree.below(name), line, "link", match[1])
            if anchor and name in document.tree.files:
                text = document.text if name == document.name else (document.tree.root / name).read_text()
                yield from document.seen(anchor in anchors(text), line, "title", match[1])


def paths(document):
    """Files and folders: paths from the top anywhere, and names of files in backquotes."""
    for passage in document.passages:
        for line, match in passage.found(PATH):
            if "/out/" not in match[0] and not STANDS_FOR.search(match[0]):
                yield from document.seen(document.tree.below(match[0]), line, "file", match[0])
        for line, code, owner in passage.codes():
            name = code.split()[0]
            if (FILE.fullmatch(name) or PARTS.fullmatch(name)) and not PATH.match(name) \
                    and not STANDS_FOR.search(name):
                yield from document.seen(has_file(document, passage, name, owner), line, "file", of(name, owner))


def of(name, owner):
    """A name, and whose it is said to be."""
    return f"{name} of {owner}" if owner else name


def has_file(document, passage, name, owner):
    """Whether there is a file by the name that stands in a passage. A file of a crate is one of the crate whose it is
    said to be, or else of one that the passage or its title names, or else of any."""
    tree = document.tree
    if name.endswith((".rt", ".antt")) or PARTS.fullmatch(name):
        named = {each for each in (*CRATE.findall(passage.text), *passage.titled) if each in tree.crates}
        return tree.in_crates(name, [owner] if owner else named or tree.crates)
    if tree.below(f"{document.folder}/{name}") or tree.below(name):
        return True
    return "/" not in name and any(tree.has_below(folder, name) for folder in folders_of(document, passage))


def folders_of(document, passage):
    """The folders in which a file may be that a passage names: the one of its row, or those of the title above it, or
    else the document's own."""
    folders = {name for name in document.tree.folders if str(Path(name).parent) == document.folder}
    row = [cell.strip() for cell in passage.cells()[:1]]
    for words in (row, passage.titled):
        if named := [f"{document.folder}/{word}" for word in words if f"{document.folder}/{word}" in folders]:
            return named
    return [document.folder if document.folder.split("/")[0] in ("bench", "tests") else "."]


def crates(document):
    """Names of crates."""
    for passage in document.passages:
        for line, match in passage.found(CRATE):
            yield from document.seen(match[0] in document.tree.crates, line, "crate", match[0])


def code_names(document):
    """Functions, types and modules, and in tables with files the definitions of these files."""
    for passage in document.passages:
        for line, code, owner in passage.codes():
            if is_name(document, code):
                yield from document.seen(is_code(document, code, owner), line, "name", of(code, owner))
        for line, code, file in defined_in(document, passage):
            yield from document.seen(words_in(code) <= document.tree.words(file), line, "name", of(code, file))


def is_name(document, code):
    """Whether what stands in backquotes is a name of code."""
    return bool(SCOPED.fullmatch(code) or SNAKE.fullmatch(code)
                or document.name in OF_CODE and TYPE.fullmatch(code))


def words_in(code):
    """The words of a name."""
    return {*code.removesuffix("()").split("::")}


def is_code(document, code, owner):
    """Whether a name stands in the sources of the crate whose it is said to be, or else of any crate, or of scripts if
    the document is theirs."""
    tree, first, words = document.tree, code.split("::")[0], words_in(code)
    if first in tree.crates:
        return words - {first} <= tree.code[first]
    scripts = [top for top in ("tests", "bench") if document.name.startswith(f"{top}/")]
    owners = [owner] if owner in tree.crates else [*tree.crates, *scripts]
    return first in OUTSIDE or any(words <= tree.code.get(each, set()) for each in owners)


def defined_in(document, passage):
    """The names in the first cell of a row that has a cell with one file of a crate and nothing else, each with that
    file."""
    first, *others = passage.cells() or [""]
    for crate, name in (match.groups() for match in map(FILE_CELL.fullmatch, others) if match):
        file = f"crates/{crate}/{name}"
        if file in document.tree.files:
            yield from ((passage.line, code, file) for code in CODE.findall(first) if WORD.fullmatch(code))


def flags(document):
    """Flags: those of a command are the program's or its script's; those that stand alone are of any of them."""
    own = document.tree.flags | document.tree.all_script_flags.get(document.folder.split("/")[0], set())
    for passage in document.passages:
        if passage.kind == BLOCK:
            yield from block_flags(document, passage)
            continue
        for line, code, _ in passage.codes():
            if code.startswith("--"):
                for flag in FLAG.findall(code):
                    yield from document.seen(flag in own, line, "flag", flag)


def block_flags(document, passage):
    """The flags of the commands in a block; a command goes on behind a backslash."""
    tree = document.tree
    # what goes on is one line, and the lines behind it keep their numbers
    text = GOES_ON.sub(lambda match: match[0].replace("\\\n", " ") + "\n" * match[0].count("\n"), passage.text)
    for number, line in enumerate(text.splitlines(), passage.line):
        for command in SEVERAL.split(line):
            known = flags_known(tree, command)
            for flag in FLAG.findall(command) if known else ():
                yield from document.seen(flag in known, number, "flag", flag)


def flags_known(tree, line):
    """The flags of the first command on a line, None if it is none of this repository's."""
    found = COMMAND.match(line)
    command, module = (found[1], found[2]) if found else ("", None)
    if PROGRAM.fullmatch(command):
        return tree.flags
    script = f"tests/{module.replace('.', '/')}.py" if module else command
    if script not in tree.files or not script.endswith(".py"):
        return None
    # a script may be given the program with its words
    return tree.script_flags(script) | (tree.flags if PROGRAM.search(line) else set())
