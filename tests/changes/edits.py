"""Small edits of the text of a ruleset, drawn so that what comes of it is read: rules that come, go, move and change.

An edit of some kinds leaves all rules as they are, and moves them at most.
"""

import re

from expansions.model import Ruleset, expand
from steps import place_texts, texts, translation_texts

FILTER, TRANSLATION = ("pass", "block"), ("nat", "rdr", "binat", "no")
# how often an edit is drawn anew if its text isn't read
MOST_TRIES = 30
# words, and what may stand in their place
OTHER_WORDS = {
    "pass": ("block", "block return", "pass quick"), "block": ("pass", "block return", "block quick"),
    "return": ("drop",), "drop": ("return",), "in": ("out", ""), "out": ("in", ""), "quick": ("",),
    "tcp": ("udp", "{ tcp, udp }"), "udp": ("tcp", "{ tcp, udp }", "icmp"), "icmp": ("udp", "gre"),
    "em0": ("em1", "!em1", "192.0.2.1"), "em1": ("em0", "!em0"), "!em1": ("em0",), "any": ("10.0.0.5",),
    "10.0.0.5": ("10.0.0.6", "10.0.0.0/8"), "10.0.0.6": ("10.0.0.5", "any"), "10.0.0.0/8": ("10.0.0.5", "any"),
    "198.51.100.7": ("198.51.100.8", "any"), "192.0.2.9": ("em0",), "<hosts>": ("10.0.0.6", "!<hosts>"),
    "all": ("from 10.0.0.0/8",), "53": ("80", "53:80"), "80": ("53", "!= 80", "8080"), "1000": ("1001",),
    "50001": ("50002", "50001:50004"), "50001:50002": ("50001", "50001:50003"), "allow-opts": ("",),
    "static-port": ("",)}
OPTIONS = ('label "a"', 'label "b"', "allow-opts", "keep state (max 1)", "keep state (max 3)", "keep state (if-bound)",
           "no state", "flags any", "flags S/SA", "keep state (no-sync)", 'label ""')
SETTINGS = ("set block-policy return", "set state-policy if-bound", "set state-policy floating", "set skip on em0",
            "set skip on em1", "set limit states 1", "set limit states 3", "set timeout udp.first 2",
            "set timeout tcp.first 2", "set timeout { udp.single 3, udp.multiple 3, icmp.first 3, icmp.error 3 }",
            "set timeout other.first 1")
FAULTY = ("scrub in all", "pass from <none>", "pass in from $none", 'pass "')
LOGGED = re.compile(r"^((?:pass|block(?: drop| return)?)(?: in| out)?)(?= |$)")


# Lines

def is_of(line, words):
    """Whether a line begins with one of these words, and is a statement of its own."""
    return line.split(" ", 1)[0] in words and all(line.count(one) == line.count(other) for one, other in ("{}", "()"))


def places_of(lines, words):
    return [place for place, line in enumerate(lines) if is_of(line, words)]


def with_line(lines, place, *others):
    """Lines with others in the place of one."""
    return [*lines[:place], *others, *lines[place + 1:]]


def put_near(draw, lines, rule):
    """Lines with one more rule, before or behind one of its kind, or at the end."""
    kind = TRANSLATION if is_of(rule, TRANSLATION) else FILTER
    places = places_of(lines, kind)
    place = draw.choice(places) + draw.randrange(2) if places else len(lines)
    return [*lines[:place], rule, *lines[place:]]


def some_place(draw, lines, words=FILTER + TRANSLATION):
    """The place of a rule, or None."""
    places = places_of(lines, words)
    return draw.choice(places) if places else None


# Edits of rules

def inserted(draw, lines):
    if places_of(lines, TRANSLATION) and draw.random() < 0.5:
        return put_near(draw, lines, translation_texts.some_translation(draw))
    makes = (lambda: texts.some_rule(draw), lambda: draw.choice(texts.FIRST_RULES),
             lambda: draw.choice(place_texts.OWN_RULES[:4]))
    return put_near(draw, lines, draw.choice(makes)())


def removed(draw, lines):
    place = some_place(draw, lines)
    return None if place is None else with_line(lines, place)


def moved(draw, lines):
    place = some_place(draw, lines)
    return None if place is None else put_near(draw, with_line(lines, place), lines[place])


def changed_word(draw, lines):
    place = some_place(draw, lines)
    words = [] if place is None else lines[place].split(" ")
    known = [number for number, word in enumerate(words) if word in OTHER_WORDS]
    if not known:
        return None
    number = draw.choice(known)
    words[number] = draw.choice(OTHER_WORDS[words[number]])
    return with_line(lines, place, " ".join(word for word in words if word))


def with_option(draw, lines):
    place = some_place(draw, lines, FILTER)
    return None if place is None else with_line(lines, place, f"{lines[place]} {draw.choice(OPTIONS)}")


def with_setting(draw, lines):
    return [draw.choice(SETTINGS), *lines]


RULES = (inserted, removed, moved, changed_word, with_option, with_setting)


# Edits that leave all rules as they are

def with_empty_lines(draw, lines):
    places = [place for place in range(len(lines)) if not lines[place - 1].endswith("\\")]
    place = draw.choice(places) if places else 0
    return [*lines[:place], *draw.choice((("",), ("# more", "", ""), ("# \\", "# ", ""))), *lines[place:]]


def with_log(draw, lines):
    place = some_place(draw, lines, FILTER)
    if place is None or " log" in lines[place]:
        return None
    return with_line(lines, place, LOGGED.sub(r"\1 log", lines[place]))


def with_comment(draw, lines):
    place = some_place(draw, lines)
    return None if place is None else with_line(lines, place, f"{lines[place]} # why")


def in_an_anchor(draw, lines):
    place, begin = some_place(draw, lines, FILTER), draw.choice(("anchor {", 'anchor "a" {'))
    return None if place is None else with_line(lines, place, begin, lines[place], "}")


def with_rule_of_nothing(draw, lines):
    """A rule that holds for no packet."""
    return put_near(draw, lines, draw.choice(("block quick on nowhere0", "pass on nowhere0 label x")))


def without_an_edit(_draw, lines):
    return lines


IDLE = (with_empty_lines, with_log, with_comment, in_an_anchor, with_rule_of_nothing, without_an_edit)


# Edits that aren't read

def with_fault(draw, lines):
    place = draw.randint(0, len(lines))
    return [*lines[:place], draw.choice(FAULTY), *lines[place:]]


def is_read(text, interfaces):
    return isinstance(expand(text.encode(), interfaces), Ruleset)


def edited(draw, text, interfaces, kinds):
    """A text with an edit of one of these kinds, and the name of the kind; without one if none is found that is
    read."""
    for _ in range(MOST_TRIES):
        kind = draw.choice(kinds)
        lines = kind(draw, text.split("\n"))
        if lines is not None and is_read("\n".join(lines), interfaces):
            return "\n".join(lines), kind.__name__
    return text, without_an_edit.__name__
