"""What Python's reader of JSON says of what the command `rules` prints, and the lines of text that mean the same."""

import json

from telling.model import ANCHOR, FILTER, INDENT, note_of

OF_RULE = {"kind": str, "number": int, "line": int, "rule": str, "evaluations": int, "packets": int, "bytes": int,
           "shadowed_by": int}
OF_ANCHOR = {"kind": str, "anchor": str, "first": int, "last": int}
NUMBERS = ("evaluations", "packets", "bytes")
# what may be null, and what else may be only in an object of a filter rule
MAY_LACK = (*NUMBERS, "shadowed_by")
TRANSLATIONS = ("nat", "rdr", "binat")
UNCOUNTED = "no "


# What is wrong with an object

def faults_of(pairs):
    """What is wrong with the names, their order and their values in an object that is read as pairs."""
    found = dict(pairs)
    names = OF_ANCHOR if found.get("kind") == ANCHOR else OF_RULE
    if [name for name, _ in pairs] != list(names):
        return [f"the names {pairs}"]
    faults = [f"{name} of {pairs}" for name, value in pairs
              if type(value) is not names[name] and not (value is None and name in MAY_LACK)]
    if names is OF_RULE:
        are_there = {found[name] is not None for name in NUMBERS}
        faults += [f"some numbers of {pairs}"] if len(are_there) > 1 else []
        faults += [f"the kind of {pairs}"] if found["kind"] not in (*TRANSLATIONS, FILTER) else []
    return faults


def places_of(objects):
    """The places of objects among one another by their kinds: rules of translation, anchors, filter rules."""
    return [{ANCHOR: 1, FILTER: 2}.get(each["kind"], 0) for each in objects]


# The lines of text

def note_in(rule):
    """What stands behind a rule as text."""
    counts = tuple(rule[name] for name in NUMBERS)
    may_count = not rule["rule"].startswith(UNCOUNTED)
    return note_of(None if None in counts else counts, may_count, rule["shadowed_by"])


def rule_line(rule, depth):
    return f"@{rule['number']} L{rule['line']} {INDENT * depth}{rule['rule']}{note_in(rule)}"


def lines_in(objects):
    """The lines of text that mean the same as the objects. An anchor stands there before those in it."""
    by_place = [[each for each, place in zip(objects, places_of(objects)) if place == wanted] for wanted in range(3)]
    translations, waiting, rules = by_place
    open_anchors = []
    yield from (rule_line(rule, 0) for rule in translations)
    for rule in rules:
        while waiting and waiting[0]["first"] == rule["number"]:
            yield f"{INDENT * len(open_anchors)}{waiting[0]['anchor']} {{"
            open_anchors.append(waiting.pop(0))
        yield rule_line(rule, len(open_anchors))
        while open_anchors and open_anchors[-1]["last"] == rule["number"]:
            open_anchors.pop()
            yield INDENT * len(open_anchors) + "}"
    yield from (f"not ended or not begun: {anchor}" for anchor in (*open_anchors, *waiting))


def text_in(objects):
    return "".join(f"{line}\n" for line in lines_in(objects)).encode("latin-1")


def expect_objects(comparison, name, octets, text):
    """Python reads objects that mean the same as the lines of text for the same ruleset."""
    try:
        read = [json.loads(line, object_pairs_hook=list) for line in octets.splitlines()]
    except ValueError as why:
        comparison.expect(f"{name}, read as JSON", "objects", str(why))
        return
    faults = [fault for pairs in read for fault in faults_of(pairs)]
    comparison.expect(f"{name}, objects", [], faults)
    if not faults:
        objects = list(map(dict, read))
        comparison.expect(f"{name}, order of objects", sorted(places_of(objects)), places_of(objects))
        comparison.expect(f"{name}, as text", text, text_in(objects))
