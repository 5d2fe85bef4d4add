"""What the program says of itself: the help of each command, and its version."""

import re
import shutil
import subprocess

from building import ROOT
from runs.comparison import a_line
from runs.model import Outcome

VERSION = "pfreplay 0.1.0"
HELP = "help"
EXAMPLE_HEADINGS = ("Example:", "Examples:")
# a call of the program, maybe behind a pipe
EXAMPLE = re.compile(r"  (\S.* \| )?pfreplay ")
UNKNOWN = (["nothing"], ["Run"], [HELP, "nothing"], [HELP, "--warn"])
# seconds
TIME_LIMIT = 60


def listed(text, heading):
    """The lines of a help behind a heading, up to the next one that isn't indented."""
    lines = text.splitlines()
    for line in lines[lines.index(heading) + 1:] if heading in lines else []:
        if line and not line.startswith(" "):
            return
        yield line


def values_in(text):
    """The long flags that a help lists, each with the form of its value; None if it has none."""
    found = (re.match(r" +(?:-\w, )?(--[a-z][a-z-]*)(?: <(\S+)>)?", line) for line in listed(text, "Options:"))
    return {each[1]: each[2] for each in found if each}


def words_in(text):
    """The words that a help lists, which stand in their places without a flag."""
    found = (re.match(r" +<(\w+)>", line) for line in listed(text, "Arguments:"))
    return [each[1] for each in found if each]


def shape(flag, form):
    """A flag with the shape of its value, which has as many parts between commas as its form."""
    return f"{flag} {','.join('VALUE' for _ in form.split(','))}" if form else flag


def expect_words(comparison, name, expected, seen):
    """Compares two sets of words by what is missing, and what is too much."""
    comparison.expect(name, {"missing": [], "too much": []},
                      {"missing": sorted(expected - seen), "too much": sorted(seen - expected)})


def commands_in(text):
    """The commands that a help lists, without the one that prints helps."""
    return [line.split()[0] for line in listed(text, "Commands:") if line.strip() and line.split()[0] != HELP]


class Helps:
    """The flags that the help of each command lists, with their values, its words, and the flags that stand without a
    command."""

    def __init__(self, comparison):
        self.comparison = comparison
        whole = self.text_of()
        self.alone = {*values_in(whole)}
        texts = {command: self.text_of(command) for command in commands_in(whole)}
        self.values = {command: values_in(text) for command, text in texts.items()}
        self.words = {command: words_in(text) for command, text in texts.items()}
        self.flags = {command: {*values} for command, values in self.values.items()}
        comparison.expect("commands and flags are listed", True, all((self.alone, self.flags, *self.flags.values())))

    def text_of(self, *command):
        seen = self.comparison.execute([*command, "--help"])
        return seen.out.decode() if seen else ""

    def commands(self):
        return {*self.flags, HELP}

    def all_flags(self):
        return self.alone.union(*self.flags.values())


def compare_helps(comparison, helps):
    """The two ways to ask for a help say the same, and each help of a command begins with an example."""
    comparison.expect(HELP, comparison.execute(["--help"]), comparison.execute([HELP]))
    for command in helps.flags:
        comparison.expect(f"{HELP} {command}", comparison.execute([command, "--help"]),
                          comparison.execute([HELP, command]))
        heading, example = (*helps.text_of(command).splitlines(), "", "")[:2]
        comparison.expect(f"{command} --help begins with an example", True,
                          heading in EXAMPLE_HEADINGS and bool(EXAMPLE.match(example)))
    for words in UNKNOWN:
        seen = comparison.execute(words)
        expected = Outcome(b"", a_line(seen, b"pfreplay: "), 1, seen and seen.files)
        comparison.expect(f"words {words}", expected, seen)


def toolchain():
    """The toolchain's line, as PROOF.md states it."""
    found = re.search(r"^- The toolchain: (\S+), (logic \S+)\.", (ROOT / "docs" / "PROOF.md").read_text(), re.MULTILINE)
    return f"{found[1]} {found[2]}" if found else "(none in PROOF.md)"


def compare_version(comparison):
    """The version, and the toolchain behind it."""
    seen = comparison.execute(["--version"])
    comparison.expect("--version", [VERSION, toolchain()], seen and seen.out.decode().splitlines())
    if (here := toolchain_here()) not in (None, toolchain()):
        print(f"PROOF.md says {toolchain()}, and `rt version` {here}")


def toolchain_here():
    """The line of the toolchain on this machine; None if there is none."""
    if not shutil.which("rt"):
        return None
    done = subprocess.run(["rt", "version"], stdin=subprocess.DEVNULL, stdout=subprocess.PIPE,
                          stderr=subprocess.DEVNULL, text=True, timeout=TIME_LIMIT, check=False)
    return done.stdout.strip() or None


def compare(comparison, helps):
    compare_helps(comparison, helps)
    compare_version(comparison)
