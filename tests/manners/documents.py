"""The man page and the completions have the commands, the flags with their values and the words that the helps list,
and no others. It takes no tool to see that: the files are read here."""

import re

from building import ROOT
from manners.helps import HELP, expect_words, shape

PAGE = ROOT / "docs" / "pfreplay.8"
BASH, ZSH, KSH = (ROOT / "share" / name for name in ("pfreplay.bash", "_pfreplay", "pfreplay.sh"))
FLAG = re.compile(r"(?<![\w-])--[a-z][a-z-]*")
# in the completion for zsh a value stands behind `=`
ZSH_FLAG = re.compile(FLAG.pattern + "=?")
# in the completion for zsh, what may not stand beside a flag
EXCLUSIONS = re.compile(r"(?<=')\(-[^()]*\)")
# there too, what stands behind the bracket of a flag: `:`, what is asked for, and maybe `:` and what completes it
ASKED = re.compile(r"\](:.*)['\"]\)?(?: \\| ;;)?$", re.MULTILINE)
# what stands for several flags
SURROUNDINGS = "surroundings"


def found(pattern, text):
    """What the group of a pattern matches first in a text."""
    match = re.search(pattern, text, re.MULTILINE | re.DOTALL)
    return match[1] if match else ""


# The man page

def section(text, macro, name):
    """What stands behind a heading of the man page, up to the next one of its kind or above."""
    return found(rf"^\.{macro} {name}\n(.*?)(?=^\.S[hs] )", text)


def page_shapes(text):
    """The long flags in a part of the man page, with the shapes of their values."""
    return {shape(f"-{flag}", form)
            for flag, form in re.findall(r"\bFl (-[a-z][a-z-]*)(?: (?:Ar|Cm) (\S+))?", text)}


def items(text):
    """The long flags that a part of the man page explains, with the shapes of their values."""
    return page_shapes("\n".join(line for line in text.splitlines() if line.startswith(".It ")))


def synopsis(text):
    """What the synopsis has of each command, and of none, where there are two forms."""
    forms = {}
    for form in section(text, "Sh", "SYNOPSIS").split(".Nm\n")[1:]:
        command = re.match(r"\.Cm (\w+)\n", form)
        forms.setdefault(command[1] if command else None, []).append(form)
    return {command: "".join(each) for command, each in forms.items()}


def form_shapes(text, form):
    """The flags in a form of the synopsis; where it says surroundings it has those of their section too."""
    stands_for = items(section(text, "Ss", "Surroundings")) if f"Ar {SURROUNDINGS}" in form else set()
    return page_shapes(form) | stands_for


def compare_page(comparison, helps):
    """The synopsis of each command, and the flags that are explained."""
    text = PAGE.read_text()
    forms = synopsis(text)
    comparison.expect("forms of commands", {*helps.commands(), None}, {*forms})
    asked = {command: {shape(*value) for value in values.items()} - {"--help"}
             for command, values in helps.values.items()}
    for command, flags in {**asked, HELP: set(), None: helps.alone}.items():
        expect_words(comparison, f"synopsis of {command}", flags, form_shapes(text, forms.get(command, "")))
    for command, words in helps.words.items():
        comparison.expect(f"words in the synopsis of {command}", len(words),
                          len(re.findall(r"^\.Ar \w+$", forms.get(command, ""), re.MULTILINE)))
        comparison.expect(f"flags that aren't as explained of {command}", set(),
                          items(section(text, "Ss", command)) - asked[command])
    expect_words(comparison, "flags that the man page explains", helps.all_flags(),
                 {each.split()[0] for each in items(text)})
    headings = re.findall(r"^\.Ss (\w+)$", text, re.MULTILINE)
    expect_words(comparison, "commands that the man page explains", helps.commands(), {*headings} - {"Surroundings"})


# The completions

def zsh_text(text, command):
    """What the completion for zsh has for a command, and in the arrays that it names there."""
    arm = found(rf"^ +{command}\)\n(.*?);;", text)
    arrays = dict(re.findall(r"^(\w+)=\((.*?)\)$", text, re.MULTILINE | re.DOTALL))
    return "\n".join((arm, *(arrays.get(name, "") for name in re.findall(r"\$(\w+)", arm))))


def compare_zsh(comparison, helps, text):
    """For zsh the flags of each command, those with a value, and its words."""
    for command, values in helps.values.items():
        seen = zsh_text(text, command)
        expect_words(comparison, f"flags of {command} for zsh",
                     {f"{flag}=" if form else flag for flag, form in values.items()}, {*ZSH_FLAG.findall(seen)})
        comparison.expect(f"words of {command} for zsh", len(helps.words[command]), len(re.findall(r"'\d:", seen)))
    comparison.expect("too many parts behind a flag for zsh", [],
                      [asked for asked in ASKED.findall(text) if len(re.findall(r"(?<!\\):", asked)) > 2])


def compare_completions(comparison, helps):
    """The words in each file, and for zsh those of each command; bash is asked for those of its commands."""
    bash, ksh = BASH.read_text(), KSH.read_text()
    zsh = EXCLUSIONS.sub("", ZSH.read_text())
    expect_words(comparison, "flags for bash", helps.all_flags(), {*FLAG.findall(bash)})
    expect_words(comparison, "flags for zsh", helps.all_flags(), {*FLAG.findall(zsh)})
    compare_zsh(comparison, helps, zsh)
    in_bash = found(r"local commands='([^'\n]*)'", bash)
    expect_words(comparison, "commands for bash", helps.commands(), {*in_bash.split()})
    in_zsh = found(r"^commands=\(\n(.*?)^\)$", zsh)
    expect_words(comparison, "commands for zsh", helps.commands(), {*re.findall(r"^ +'(\w+):", in_zsh, re.MULTILINE)})
    expect_words(comparison, "words for ksh", helps.commands() | helps.alone,
                 {*found(r"set -A complete_pfreplay_1 -- ([^\n]*)", ksh).split()})


def compare(comparison, helps):
    compare_page(comparison, helps)
    compare_completions(comparison, helps)
