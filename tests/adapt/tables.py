"""Names of tables, and what their files hold."""

import re

from adapt import names
from adapt.values import value_of
from adapt.words import NOTE, WARNING, is_name, six_end, table_name_at, value_end, words_of

MOST_TABLES, MOST_BYTES, MOST_BEFORE = 1000, 31, 24
OTHER_BYTE = re.compile(rb"[^A-Za-z0-9_]")


def names_in(words):
    """The words that are names of tables in a statement, in their order."""
    last = b""
    at = 0
    while at < len(words):
        if table_name_at(words, at, last):
            yield words[at + 1]
            at += 3
            continue
        if words[at].is_plain(*names.GRAMMAR) or words[at].is_sign(b"->"):
            last = words[at].text
        at += 1


def renamed(words, text):
    """The new names of those tables that get one, by the words that are names and all words of the text. What stands in
    `< >` in the text is counted, also where it is no name; names in the values of macros have no number."""
    tables = list(dict.fromkeys(text[at + 1].text for at in range(len(text)) if table_name_at(text, at, b"")))
    numbers = {table: number for number, table in enumerate(tables, 1)}
    every = list(dict.fromkeys([*tables, *(word.text for word in words)]))
    plain = {table: plain_name(table) for table in every}
    new = {}
    for table in every:
        number = numbers.get(table)
        if is_name(table) or number and number > MOST_TABLES:
            continue
        others = {plain[other] for other in every if other != table}
        choices = [plain[table]]
        if number:
            choices.append(OTHER_BYTE.sub(b"_", table)[:MOST_BEFORE] + f"_{number}".encode())
        new[table] = next((name for name in choices if is_name(name) and name not in others), table)
    return {table: name for table, name in new.items() if name != table}


def plain_name(table):
    """A name with `_` for each byte that it may not have; one that is a name stays."""
    return table if is_name(table) else OTHER_BYTE.sub(b"_", table)[:MOST_BYTES]


def take_files(rewriter, words, gone):
    """Writes the entries of files out."""
    if len(words) < 4 or not table_name_at(words, 1, b"table"):
        return
    entries, is_done, depth = rewriter.given.files.get(words[2].text), False, 0
    for at in range(4, len(words)):
        depth += words[at].is_sign(b"{", b"(") - words[at].is_sign(b"}", b")")
        behind = value_end(words, at + 1) if words[at].is_plain(b"file") and not depth and at not in gone else None
        if entries is None or behind is None:
            continue
        rewriter.say(words[at], NOTE, "file of a table")
        if is_done:
            rewriter.leave_out(words, at, behind)
        else:
            rewriter.write(words, at, behind, listed(rewriter, words[at], entries))
        gone.update(range(at, behind))
        is_done = True


def listed(rewriter, word, entries):
    """The entries of a file in braces, each rewritten as those of a table are."""
    kept, kept_first = [], True
    for entry in entries:
        new, done = entry_of(rewriter.given, entry)
        if new is not None:
            kind = WARNING if done == "no-route in a list" else NOTE
            rewriter.say(word, kind, "entry of a file", 1, names.reason_of(done))
        if new != b"":
            kept.append(new or entry)
        elif not kept:
            kept_first = False
    begin = b"{  " if kept and not kept_first else b"{ "
    return begin + b", ".join(kept) + b" }"


def entry_of(given, entry):
    """How an entry is written, which may be nothing, and as what it was rewritten; None if it stays."""
    bare = entry.removeprefix(b"!")
    mark = entry[:len(entry) - len(bare)]
    words = words_of(bare)
    if words and six_end(words, 0):
        return b"", "IPv6 address in a list"
    if bare in names.ROUTELESS:
        return b"", "no-route in a list"
    if bare == b"(self)":
        return (mark + b" self" if mark else b"self"), "(self)"
    inner = bare[1:-1] if bare.startswith(b"(") and bare.endswith(b")") else bare
    values = given.values(b"table", inner)
    if values and not (mark and len(values) > 1):
        return mark + b", ".join(values), "given address"
    new = value_of(b"table", bare)
    return new and mark + new, "short network"
