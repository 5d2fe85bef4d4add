"""Words of a rule or an anchor outside of brackets and braces, and options in round brackets."""

from adapt import names
from adapt.words import LINE, LISTED, NOTE, OTHER, PLAIN, ROUND, WARNING, value_end


def take(rewriter, words, gone):
    """Rewrites these words; what goes with them is added to what has gone."""
    at, depth, labels = 0, 0, 0
    while at < len(words):
        word = words[at]
        if at in gone:
            at += 1
            continue
        if word.is_sign(ROUND, LISTED):
            behind = options(rewriter, words, at, gone) if word.is_sign(ROUND) and not depth else None
            if behind:
                at = behind
                continue
            depth += 1
        elif word.is_sign(b")", b"}"):
            depth = max(depth - 1, 0)
        elif not depth and word.kind == PLAIN and at:
            behind = rule_word(rewriter, words, at)
            if word.text == b"label":
                behind = second_label(rewriter, words, at) if labels else None
                labels += 1
            if behind:
                gone.update(range(at, behind))
                at = behind
                continue
        at += 1


def rule_word(rewriter, words, at):
    """Rewrites a word of a rule: the place behind it and what goes with it, or nothing."""
    word, behind = words[at], at + 1
    following = words[behind] if behind < len(words) else None
    if word.is_plain(b"modulate", b"synproxy") and following and following.is_plain(b"state"):
        rewriter.say(word, NOTE if word.text == b"modulate" else WARNING, word.text.decode())
        rewriter.write(words, at, behind + 1, b"keep state")
        return behind + 1
    if word.is_plain(*names.ANSWERS):
        if following and following.is_sign(ROUND):
            behind = value_end(words, behind) or behind
        rewriter.say(word, NOTE, "answer")
        rewriter.write(words, at, behind, b"return")
        return behind
    if word.is_plain(b"log"):
        behind = value_end(words, behind) if following and following.is_sign(ROUND) else None
        if behind:
            rewriter.say(word, NOTE, "log")
            rewriter.write(words, at, behind, b"log")
        return behind
    if word.is_plain(names.ALONE):
        return leave_out(rewriter, words, at, behind, NOTE, "route")
    for done, kind, some in (("route", NOTE, names.ROUTES), ("queue", NOTE, names.RULE_QUEUES),
                             ("number of a rule", NOTE, names.NUMBERS), ("tag", WARNING, (b"tag",))):
        if word.is_plain(*some):
            return leave_out(rewriter, words, at, value_end(words, behind), kind, done)
    if word.is_plain(b"set"):
        end = value_end(words, behind)
        if end and not following.is_sign(ROUND):
            end = value_end(words, end)
        return leave_out(rewriter, words, at, end, NOTE, "set in a rule")
    return None


def second_label(rewriter, words, at):
    return leave_out(rewriter, words, at, value_end(words, at + 1), NOTE, "second label")


def leave_out(rewriter, words, at, behind, kind, done):
    """Leaves a word and its value out, if it has one: the place behind them."""
    if behind:
        rewriter.say(words[at], kind, done)
        rewriter.leave_out(words, at, behind)
    return behind


def options(rewriter, words, opened, gone):
    """Leaves options out of round brackets: the place behind these if nothing is left in them."""
    closed = opened + 1
    while closed < len(words) and not words[closed].is_sign(b")") and words[closed].kind != LINE:
        closed += 1
    if closed == len(words) or words[closed].kind == LINE:
        return None
    found, at = [], opened + 1
    while at < closed:
        kind, behind = option(words, at, closed)
        if kind is None:
            at += 1
            continue
        rewriter.say(words[at], kind, "option of states")
        found.append((at, behind))
        at = behind
    is_empty = found and are_all(words, found, opened + 1, closed)
    left_out = with_commas(words, found)
    if is_empty:
        left_out[0] = opened, left_out[0][1]
        left_out[-1] = left_out[-1][0], closed + 1
    for first, behind in left_out:
        rewriter.leave_out(words, first, behind)
        gone.update(range(first, behind))
    return closed + 1 if is_empty else None


def with_commas(words, found):
    """Elements of a list, each with the comma before it, or else with the one behind it."""
    gone = []
    for first, behind in found:
        if words[first - 1].is_sign(b",") and not (gone and gone[-1][1] == first):
            first -= 1
        elif words[behind].is_sign(b","):
            behind += 1
        gone.append((first, behind))
    return gone


def are_all(words, found, first, closed):
    """Whether these are all elements of a list, with a comma or none between two of them."""
    at = first
    for start, behind in found:
        if at != first and words[at].is_sign(b","):
            at += 1
        if start != at:
            return False
        at = behind
    return at == closed


def option(words, at, closed):
    """Whether an option stands there that is left out: its kind and the place behind it."""
    word, behind = words[at], at + 1
    if word.is_plain(b"pflow"):
        return NOTE, behind
    if word.is_plain(b"sloppy"):
        return WARNING, behind
    if word.is_plain(b"source-track"):
        return WARNING, behind + (behind < closed and words[behind].is_plain(b"rule", b"global"))
    if word.is_plain(b"flush"):
        return WARNING, behind + (behind < closed and words[behind].is_plain(b"global"))
    if word.is_plain(*names.LIMITS, names.RATE, *names.TIMEOUTS, b"overload"):
        end = value_end(words, behind)
        if word.text == names.RATE and end and end < closed and (words[end].kind, words[end].text) == (OTHER, b"/"):
            end = value_end(words, end + 1) or end
            end = end if end <= closed else None
        if end and end <= closed:
            return WARNING, end
    return None, at
