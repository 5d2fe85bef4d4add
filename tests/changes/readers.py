"""What Python's reader of JSON reads of what the command `diff` prints, said again as lines of text."""

import json

from changes.printed import FILTER, counted, follow_words
from changes.unjudged import NAMES, WORDS
from listing.model import PROTOCOLS

KINDS = {NAMES[kind]: words for kind, words in WORDS.items()}


def decision_words(read):
    parts = [read["verdict"], read["reason"], read["line"] and f"L{read['line']}", read["translation"],
             read["translation_line"] and f"L{read['translation_line']}"]
    return " ".join(part for part in parts if part is not None)


def pair_words(read):
    return f"{decision_words(read['old'])} -> {decision_words(read['new'])}"


def end_words(end):
    return end["address"] if end["port"] is None else f"{end['address']}:{end['port']}"


def cause_line(read, has_several):
    mark = f" on {read['interface']}" if has_several else ""
    if read["protocol"] is None:
        flow = "short"
    else:
        protocol = PROTOCOLS.get(read["protocol"], read["protocol"])
        flow = f"{protocol} {end_words(read['source'])} > {end_words(read['destination'])}"
    return f"{flow}{mark}  {pair_words(read)}  1 packet, first {read['first']}{follow_words(read['follow'])}"


def decisions_line(read):
    return (f"{pair_words(read)}: {counted(read['packets'], 'packet')} in {counted(read['flows'], 'flow')}"
            f"{follow_words(read['follow'])}")


def rules_words(rules):
    return ", ".join(f"L{each['line']} of {each['ruleset'].upper()}" for each in rules)


def not_asked_line(read):
    if "option" in read:
        return f"not judged: {read['option']}: {read['why']}"
    kind = "" if read["of"] == FILTER else f"{read['of']}: "
    return f"not judged: {rules_words(read['rules'])}: {kind}{read['why']}"


def not_judged_line(read):
    """None if all packets are judged."""
    told = [f"{read[name]} {words[read[name] > 1]}" for name, words in KINDS.items() if read[name]]
    return f"not judged: {', '.join(told)}" if told else None


def all_line(read):
    parts = [f"{read['changed']} of {counted(read['packets'], 'packet')} change"
             + (f": {counted(read['causes'], 'cause')}" if read["changed"] else ""),
             f"{counted(read['differences'], 'difference')} not judged" if read["differences"] else None,
             "cut" if read["capture_cut"] else None]
    return ", ".join(part for part in parts if part)


def line_of(read, has_several):
    make = {"decisions": decisions_line, "not asked": not_asked_line, "not judged": not_judged_line, "all": all_line,
            "met by no packet": lambda met: f"met by no packet: {rules_words(met['rules'])}"}
    return cause_line(read, has_several) if read["kind"] == "cause" else make[read["kind"]](read)


def as_text(out, has_several):
    """The lines of text for what is printed as JSON; the run has several interfaces, or one."""
    lines = [line_of(json.loads(line), has_several) for line in out.splitlines()]
    return "".join(f"{line}\n" for line in lines if line is not None).encode("latin-1")
