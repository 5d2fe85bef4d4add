"""What comes up with the random questions to the command `report`, and what has to."""

from collections import Counter

from captures.frames import Packet
from reporting.model import AGES, all_told, answers, default_names, page_of, refused_states
from reporting.page import ROW_CLASSES
from showing.damage import KINDS
from showing.kinds import CUT, ENDINGS, JOINED, ending_of
from standby.many import told

# how many questions there are at most for each time that a thing comes up
EACH = 300
BAD_STATES = "a state refused"
STATES = ("without states", "states", "an empty file of states", *(name for name, _ in AGES[:4]))
# the classes of lines, and what is said of those that did nothing
CLASSES = {**{name: f"a line of class {name}" for name in ROW_CLASSES}, "": "a line without rules"}
WHYS = {"shadowed by ": "a shadowed line", "not asked: ": "a line that wasn't asked"}
LINES = (*CLASSES.values(), "a line that did nothing", "a line that was asked", *WHYS.values(),
         "a line of several rules", "a line of several rules that wasn't asked", "a line of translation")
# words of why a line wasn't asked. Rarer ones have rows of their own
WORDS = ("no capture of ", "no packet comes in", "no packet goes out", "nothing on ", "has a state or isn't filtered",
         "no connection comes in", "no connection goes out", "behind its translation", "isn't filtered")
# words of warnings
WARNINGS = ("no packet goes out", "no packet comes in", "no rule names ", "no capture is of ", "packets skipped: ",
            "packets cut by the snapshot length: ", "parts of packets: ", "packets midway in a TCP connection: ",
            ", and no connection begins", "states refused by a limit: ")
TOLD = (*(f"not asked: {words}" for words in WORDS), *(f"warned: {words}" for words in WARNINGS))
FLOWS = ("no blocked flow", "blocked flows", "a blocked flow of several packets", "a refused packet",
         "a blocked flow without a rule", "a short flow", "ties")
QUIET, LOUD = "without warnings on standard error", "with warnings on standard error"
PROMISED = (*ENDINGS[:3], *STATES[:4], *LINES, *FLOWS[:4], "several spans", "several interfaces", "no damage", QUIET,
            LOUD)
# each of these comes up once at least
ONCE = (*ENDINGS[3:], BAD_STATES, *STATES[4:], *FLOWS[4:], "no warning", *TOLD, "flows more",
        "translated packets", "parts", *sorted(KINDS))


def of_rules(page):
    yield from (CLASSES[kind] for kind, *_ in page.rules)
    for _, rules, why, _ in page.unused:
        name = next((name for words, name in WHYS.items() if why.startswith(words)), "a line that was asked")
        yield from ("a line that did nothing", name)
        if int(rules) > 1:
            yield from ("a line of several rules", f"a line of several rules{name.removeprefix('a line')}")
        yield from (f"not asked: {words}" for words in WORDS if words in why)


def of_warnings(page):
    yield from (f"warned: {words}" for words in WARNINGS for text in page.warnings if words in text)
    yield from [] if page.warnings else ["no warning"]


def of_flows(page):
    yield "blocked flows" if page.blocked else "no blocked flow"
    counts = [int(row[0]) for row in page.blocked]
    held = {"a blocked flow of several packets": max(counts, default=0) > 1, "ties": len(counts) > len(set(counts)),
            "a blocked flow without a rule": any(not row[4] for row in page.blocked),
            "a short flow": any(row[2] == "short" for row in page.blocked), "flows more": page.more}
    yield from (name for name, is_so in held.items() if is_so)


def of_page(page):
    """What comes up on a page."""
    yield from of_warnings(page)
    yield from of_rules(page)
    yield from of_flows(page)
    yield from ["several spans"] if len(page.spans) > 1 else []
    for name, count, *_ in page.states or ():
        yield from [name] if int(count) else []


def of_packets(question):
    for each in all_told(question):
        seen = each.packet.seen()
        yield from ["a refused packet"] if each.said.verdict == "return" else []
        yield from ["translated packets", "a line of translation"] if each.said.translation is not None else []
        yield from ["parts"] if isinstance(seen, Packet) and seen.is_fragment else []


def of_question(drawn, question, is_quiet):
    """What comes up with a question."""
    expected = answers(question)[0]
    yield drawn.damage or "no damage"
    yield QUIET if is_quiet else LOUD
    yield "without states" if question.states is None else "states"
    yield from ["an empty file of states"] if question.states == b"" else []
    yield from ["several interfaces"] if question.case.also else []
    if expected.status:
        yield BAD_STATES if refused_states(question) else ending_of(question.shown, expected)
        return
    yield CUT if question.shown.joined().is_cut() else JOINED
    yield from of_page(page_of(question, default_names(question)))
    yield from of_packets(question)


def counts_of(drawn, question, is_quiet=True):
    """How often each thing comes up with a question, once at most."""
    return Counter({*of_question(drawn, question, is_quiet)})


def told_drawn(title, found):
    """Prints how the random questions went, and whether something of them is wrong or comes up too seldom."""
    return told(title, found, PROMISED, EACH, ONCE)
