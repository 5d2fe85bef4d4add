"""What there is in the repository that documents may name."""

import fnmatch
import re
import subprocess
from functools import cached_property, lru_cache
from pathlib import Path

from building import ROOT, named_crates

# what has code, and the lines there that are comments
SOURCES = {".rt": "//", ".antt": "--", ".py": "#", ".c": "//", ".rs": "//", ".rattle": "//"}
WORD = re.compile(r"\w+")
ARGUMENT = re.compile(r"""add_argument\(\s*["'](--[\w-]+)""")
FLAG = re.compile(r"(?<![\w-])--[a-z][a-z-]*(?![\w-])")
# how the man page has a flag, of the program and of nothing else
PAGE, PAGE_FLAG = "docs/pfreplay.8", re.compile(r"\bFl (-[a-z][a-z-]*)")
IMPORT = re.compile(r"^(?:from|import) ([\w.]+)(?: import (.+))?$", re.MULTILINE)
TITLE = re.compile(r"^#+ +(.*)$", re.MULTILINE)


def words_of(path):
    """The words of a source, without lines that are comments."""
    lines = path.read_text(errors="replace").splitlines()
    comment = SOURCES[path.suffix]
    return {word for line in lines if not line.lstrip().startswith(comment) for word in WORD.findall(line)}


def anchors(text):
    """The anchors by which links lead to the titles of a document."""
    return {re.sub(r"[^\w\- ]", "", title.strip().lower()).replace(" ", "-") for title in TITLE.findall(text)}


class Tree:
    """The files of the repository, and what stands in them."""

    def __init__(self, root=ROOT):
        self.root = root
        listed = subprocess.run(["git", "ls-files", "-z", "-c", "-o", "--exclude-standard"], cwd=root, check=True,
                                stdout=subprocess.PIPE).stdout
        self.files = {name for name in listed.decode().split("\0") if name and (root / name).exists()}
        self.folders = {str(parent) for name in self.files for parent in Path(name).parents}
        self.crates = named_crates()

    def below(self, name):
        """Whether there is a file or a folder of this name; `*` stands for any letters."""
        name = name.removeprefix("./").rstrip("/")
        return name in self.files or name in self.folders or "*" in name and bool(fnmatch.filter(self.files, name))

    def has_below(self, folder, name):
        """Whether there is a file of this name in a folder, or somewhere below it; `*` stands for any letters."""
        top = "" if folder == "." else f"{folder}/"
        return any(each.startswith(top) and fnmatch.fnmatch(Path(each).name, name) for each in self.files)

    def in_crates(self, name, crates):
        """Whether one of these crates has a file or a folder of this name, at its top or somewhere below."""
        tops = tuple(f"crates/{crate}/" for crate in crates)
        return any(self.below(top + name) for top in tops) or any(
            each.startswith(tops) and each.endswith("/" + name) for each in self.files)

    @lru_cache(None)
    def words(self, file):
        """The words of a source."""
        return words_of(self.root / file)

    @cached_property
    def code(self):
        """The words in the sources of each crate, and of the scripts of `tests` and of `bench`."""
        found = {}
        for name in self.files:
            top, part, *rest = name.split("/") + [""]
            owner = part if top == "crates" else top
            if (top == "crates" and rest[0] in ("src", "specs", "proofs") or top in ("tests", "bench")) \
                    and Path(name).suffix in SOURCES:
                found.setdefault(owner, set()).update(self.words(name))
        return found

    @cached_property
    def flags(self):
        """The flags of the program, which the man page explains."""
        return {f"-{flag}" for flag in PAGE_FLAG.findall((self.root / PAGE).read_text())} | {"--help", "--version"}

    def script_flags(self, script):
        """The flags that a script has, and the modules of this repository that it names."""
        text = (self.root / script).read_text()
        found = {"--help", *ARGUMENT.findall(text)}
        top = Path(script).parts[0]
        for module, names in IMPORT.findall(text):
            for name in (module, *(f"{module}.{each.strip()}" for each in names.split(","))):
                path = self.root / top / (name.replace(".", "/") + ".py")
                found.update(ARGUMENT.findall(path.read_text()) if path.is_file() else ())
        return found

    @cached_property
    def all_script_flags(self):
        """The flags of all scripts, by their top folder."""
        found = {}
        for name in self.files:
            if name.startswith(("tests/", "bench/")) and name.endswith(".py"):
                found.setdefault(name.split("/")[0], {"--help"}).update(
                    ARGUMENT.findall((self.root / name).read_text()))
        return found
