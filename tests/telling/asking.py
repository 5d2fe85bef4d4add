"""The command `rules` on a ruleset, and what was printed as a ruleset of its own."""

import hashlib
import re

from runs.model import Outcome
from telling.model import TEXT, Asked

# the name of the file of counters
COUNTERS = "told"
# what stands before a rule
NUMBERED = re.compile(rb"^(@[0-9]+ L)[0-9]+ ")
# the line of a rule in JSON; in a string no quotation mark stands alone
LINE_NAMED = re.compile(rb',"line":[0-9]+')
# what stands behind a rule that is shadowed, without counters; a label ends with a quote
MARK = re.compile(rb"  # shadowed by @[0-9]+$")
# the ends of the lines of rules that are shadowed, with counters or without, and of those for which no packet counts
SHADOWED = re.compile(rb"shadowed by @[0-9]+$")
COUNTS_NOTHING = re.compile(rb": counts no packet(, shadowed by @[0-9]+)?$")


# The program

def interface_words(interfaces):
    """The flags of interfaces."""
    first, *others = interfaces
    also = [word for each in others for word in ("--also", f"{each.name},{each.address}/{each.bits}")]
    return ["--interface", first.name, "--address", f"{first.address}/{first.bits}", *also]


def words_of(comparison, asked):
    """The words of the command, whose files are written into the folder of the comparison."""
    comparison.rules.write_bytes(asked.text)
    words = ["rules", comparison.rules, *interface_words(asked.interfaces)]
    if asked.counters is not None:
        file = comparison.folder / COUNTERS
        file.write_bytes(asked.counters)
        words += ["--counters", file]
    return words if asked.form == TEXT else [*words, "--format", asked.form]


def answered(comparison, asked, words=(), **how):
    """What the command leaves, with more words than its own."""
    return comparison.execute([*words_of(comparison, asked), *words], **how)


def checked(comparison, asked):
    """What the command `check` leaves for the same ruleset."""
    _, *words = words_of(comparison, asked._replace(counters=None, form=TEXT))
    return comparison.execute(["check", *words])


# What was printed, as a ruleset

def lines_in(printed):
    """The lines that were printed, without their ends."""
    return printed.split(b"\n")[:-1]


def marked(printed):
    """The lines of rules that are shadowed."""
    return [line for line in lines_in(printed) if SHADOWED.search(line)]


def without_marks(printed):
    """Rules without what is said of those that are shadowed."""
    return b"".join(MARK.sub(b"", line) + b"\n" for line in lines_in(printed))


def text_again(printed, tables):
    """What was printed as a ruleset, behind tables of these names."""
    lines = [f"table <{name}> persist".encode() for name in tables]
    lines += [NUMBERED.sub(b"", line) for line in lines_in(printed)]
    return b"".join(line + b"\n" for line in lines)


def printed_again(printed, tables):
    """What is to be printed of that ruleset: the same, but that each rule has its own line there."""
    lines = [NUMBERED.sub(rb"\g<1>%d " % place, line) for place, line in enumerate(lines_in(printed), len(tables) + 1)]
    return Outcome(b"".join(line + b"\n" for line in lines), b"", 0)


def without_lines(printed):
    """Numbers and words alone."""
    return [LINE_NAMED.sub(b"", NUMBERED.sub(rb"\1 ", line)) for line in lines_in(printed)]


def check_again(text, filters, translations):
    """What `check` is to answer to that ruleset."""
    return Outcome(f"{filters} filter, {translations} translation, {hashlib.md5(text).hexdigest()}\n".encode(), b"", 0)


def asked_again(asked, printed, tables):
    """The command on what was printed."""
    return Asked(text_again(printed, tables), asked.interfaces)
