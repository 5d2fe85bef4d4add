"""Targets of several addresses: of each pool one address is left."""

import re

from adapt import names
from adapt.words import LINE, PLAIN, QUOTED, WARNING, six_end, table_name_at

NETWORK = re.compile(rb"([0-9]+(?:\.[0-9]+){3})/([0-9]+)")
ALL_BITS = 32


def take(rewriter, words, gone):
    """Rewrites what stands behind the arrow of a rule, and the picks behind any target."""
    arrow = next((at for at, word in enumerate(words) if word.is_sign(b"->") and at not in gone), None)
    if arrow is not None and arrow + 1 < len(words):
        take_target(rewriter, words, arrow + 1, gone)
    first = next((at for at, word in enumerate(words) if word.is_sign(b"->") or word.is_plain(*names.TARGETS)), None)
    if first is not None:
        take_picks(rewriter, words, first + 1, gone)


def take_target(rewriter, words, at, gone):
    """Leaves one address of a list, a network or a range. It is said of the whole once."""
    if not words[at].is_sign(b"{"):
        take_one(rewriter, words, at, gone, None)
        return
    chosen, behind = choice(words, at)
    if chosen is None:
        return
    say(rewriter, words[at], "list as a target")
    for word in words[chosen[0]:chosen[1]]:
        rewriter.told_at[word.use, word.start] = words[at]
    rewriter.keep(words, at, chosen, behind)
    for word in words[at:behind]:
        if word.use:
            word.use.is_pool = True
    gone.update(range(at, chosen[0]), range(chosen[1], behind))
    take_one(rewriter, words, chosen[0], gone, words[at])


def say(rewriter, word, done):
    """Tells of a target; of a macro that is a list or a network nothing more is told."""
    rewriter.say(word, WARNING, done)
    if word.use and not word.is_sign(b"-"):
        word.use.is_pool = True


def choice(words, opened):
    """The first element of a list that is no IPv6 address: where it begins and ends; and the place behind the list."""
    depth, at, chosen = 0, opened, None
    while at < len(words):
        depth += words[at].is_sign(b"{") - words[at].is_sign(b"}")
        if not depth:
            return chosen, at + 1
        if chosen is None and words[at].is_sign(b"{") and words[at].use and words[at].use is not words[opened].use:
            # a list as an element is none of these
            return None, at
        behind = six_end(words, at)
        if behind:
            at = behind
            continue
        if chosen is None and not words[at].is_sign(b"{", b"}", b",") and words[at].kind != LINE:
            chosen = element(words, at)
            if chosen is None:
                return None, at
        at += 1
    return None, at


def element(words, at):
    """A word, a word in round brackets or a table: where it begins and ends. Or nothing, if it is none of these."""
    if words[at].is_word():
        return at, at + 1
    if table_name_at(words, at, b"->"):
        return at, at + 3
    if words[at].is_sign(b"(") and at + 2 < len(words) and words[at + 1].is_word() and words[at + 2].is_sign(b")"):
        return at, at + 3
    return None


def take_one(rewriter, words, at, gone, pool):
    """An address that is left of a network or a range; of one in a pool nothing is said."""
    word = words[at]
    address = without_bits(word.text) if word.kind == PLAIN else None
    if address:
        if not pool:
            say(rewriter, word, "network as a target")
        rewriter.write(words, at, at + 1, address)
        gone.add(at)
    if (not pool and at + 2 < len(words) and word.kind == PLAIN and words[at + 1].is_sign(b"-") and words[at + 2].kind == PLAIN):
        say(rewriter, words[at + 1], "range as a target")
        rewriter.leave_out(words, at + 1, at + 3)
        gone.update((at + 1, at + 2))


def without_bits(text):
    """The address of a network of fewer than 32 bits, or nothing if it is none."""
    found = NETWORK.fullmatch(text)
    return found[1] if found and int(found[2]) < ALL_BITS else None


def take_picks(rewriter, words, at, gone):
    """Leaves out how an address is picked."""
    depth = 0
    while at < len(words):
        depth += words[at].is_sign(b"(", b"{") - words[at].is_sign(b")", b"}")
        if depth or at in gone or not words[at].is_plain(*names.POOLS):
            at += 1
            continue
        behind = at + 1
        if words[at].text == b"source-hash" and behind < len(words) and is_key(words[behind]):
            behind += 1
        rewriter.say(words[at], WARNING, "pick of a target")
        rewriter.leave_out(words, at, behind)
        gone.update(range(at, behind))
        at = behind


def is_key(word):
    return word.kind == QUOTED or word.kind == PLAIN and word.text not in names.GRAMMAR and word.text not in names.POOLS
