"""What comes up with the random questions to the command `diff`, and what has to."""

import re
from collections import Counter

from changes import edits, model
from changes.causes import BY_FLOW, BY_NEW, BY_OLD, traced
from changes.decisions import changes_of
from changes.model import NOTHING_CHANGES, REFUSED, SOMETHING_CHANGES, UNJUDGED
from changes.printed import JSON, TEXT
from changes.unjudged import WORDS
from runs.warnings import PPPOE
from standby.many import told
from steps.model import WIRE

# how many questions there are at most for each time that a thing comes up
EACH = 250
STATUSES = {NOTHING_CHANGES: "nothing changes", SOMETHING_CHANGES: "something changes", REFUSED: "refused",
            UNJUDGED: "nothing is judged"}
EDITS = (*(kind.__name__ for kind in (*edits.RULES, *edits.IDLE)), "unrelated")
REASONS = ("default", "skip-on", "short", "ip-option", "state-mismatch", "state-insert", "state-limit", "nat-exhausted",
           "return", "nat", "rdr", "binat")
FLOWS = ("tcp", "udp", "icmp", "gre", "a part without ports", "both ways", "two pairs in one flow",
         "on several interfaces", "the same verdict by another rule")
# how packets come to follow, what they come to then, and what comes first
FOLLOWERS = tuple(f"a packet follows {how}" for how in (BY_FLOW, BY_OLD, BY_NEW))
CAUSES = (*FOLLOWERS, "a packet of another flow follows", "a packet with other decisions follows", "several causes",
          "a later cause stands first")
SETTINGS = ("verdicts alone", "captured on the wire", "excepted networks", "link-level addresses",
            "several interfaces", "a capture that is cut", "JSON", "changes as JSON", "changes of several as JSON")
# what is told of packets that aren't judged, and of rules that differ. Rarer things have rows of their own
TOLD = {words: f"told: {words}" for words in (
    *(several for kind, (_, several) in WORDS.items() if kind != PPPOE), "no capture of", "no capture fits it",
    "isn't filtered", "no packet comes in", "no packet goes out", "nothing on", "nat: ", "rdr: ", "binat: ",
    "no connection comes in", "behind its translation", "set timeout: ", "set limit states: ", "set skip on ",
    "met by no packet: ", " of OLD", " of NEW")}
# words of warnings that are said, and what is said of an answer beside which there are none
WARNED = {words: f"warned: {words}" for words in (
    "no packet goes out", "no packet comes in", "no rule names", "no capture is of", "states refused by a limit")}
# those that come up once at least, since they are rarer
RARELY = {words: f"warned: {words}" for words in ("without --tap wire", "and no connection begins")}
LOUD, UNWARNED = "warnings aren't left out", "nothing to be warned of"
# no packet could have asked what differs, or nothing does
UNASKED = "nothing was asked"
PROMISED = (*STATUSES.values(), *TOLD.values(), *WARNED.values(), LOUD, UNWARNED, UNASKED, *EDITS, *REASONS, *FLOWS,
            *CAUSES, *SETTINGS)
# each of these comes up once at least
REFUSALS = {b"rules old": "the old ruleset is refused", b"rules new": "the new ruleset is refused",
            b"capture: record": "a record is too long", b"capture em": "a record of one of several is too long"}
PART = re.compile(r"(?:tcp|udp) [0-9.]+ >")
WORD = re.compile(r"[a-z][a-z-]*")


def not_judged(out):
    """The lines about what isn't judged or met."""
    return b"".join(line for line in out.splitlines() if line.startswith((b"not judged: ", b"met by no packet: ")))


def of_question(drawn, expected):
    """What comes up with a question and its answer as text."""
    question, case, is_json = drawn.question, drawn.question.case, drawn.question.form == JSON
    yield from drawn.edits
    yield STATUSES[expected.status]
    told = not_judged(expected.out).decode("latin-1")
    yield from (name for words, name in TOLD.items() if words in told)
    yield from (name for said, name in REFUSALS.items() if expected.err.startswith(b"pfreplay: " + said))
    yield from of_warnings(question, expected)
    is_changing = is_json and expected.status == SOMETHING_CHANGES
    held = (question.by_verdict, case.tap == WIRE, "!" in (case.inside or ""), case.addresses, case.also,
            expected.out.endswith(b", cut\n"), is_json, is_changing, is_changing and case.also)
    yield from (name for name, is_so in zip(SETTINGS, held) if is_so)


def of_warnings(question, expected):
    """What comes up with the warnings of an answer."""
    if question.is_quiet:
        return
    yield LOUD
    if expected.status != REFUSED:
        said = expected.err.decode("latin-1")
        yield from (name for words, name in (WARNED | RARELY).items() if words in said)
        yield from [] if said else [UNWARNED]


def of_change(change):
    """What comes up with a packet that changes."""
    yield change.flow.words.split(" ", 1)[0]
    yield from ["a part without ports"] if PART.match(change.flow.words) else []
    yield from WORD.findall(change.pair())
    yield from ["the same verdict by another rule"] if change.old.verdict == change.new.verdict else []


def of_flows(changes):
    """What comes up with all packets that change."""
    words = {}
    for each in changes:
        words.setdefault(each.flow.key, set()).add(each.flow.words)
    yield from ["both ways"] if any(len(each) > 1 for each in words.values()) else []
    pairs = {(each.flow.key, each.pair()) for each in changes}
    yield from ["two pairs in one flow"] if len(pairs) > len(words) else []
    interfaces = {each.flow.words.partition(" on ")[2] for each in changes}
    yield from ["on several interfaces"] if len(interfaces) > 1 else []


def of_causes(changes):
    """What comes up with causes and the packets that follow them."""
    found = traced(changes)
    by_number = {each.change.number: each.change for each in found}
    for each in found:
        cause = by_number[each.cause]
        yield from [f"a packet follows {each.how}"] if each.follows() else []
        yield from ["a packet of another flow follows"] if cause.flow.key != each.change.flow.key else []
        yield from ["a packet with other decisions follows"] if cause.pair() != each.change.pair() else []
    let_in = [each.change.is_let_in() for each in found if not each.follows()]
    yield from ["several causes"] if len(let_in) > 1 else []
    yield from ["a later cause stands first"] if (False, True) in zip(let_in, let_in[1:]) else []


def counts_of(drawn, outcomes, expected):
    """How often each thing comes up with a question, once at most, by what both runs left."""
    question = drawn.question
    as_text = model.answer(question._replace(form=TEXT), *outcomes) if question.form == JSON else expected
    changes = list(changes_of(question, *outcomes)) if expected.status == SOMETHING_CHANGES else []
    return Counter({*of_question(drawn, as_text), *of_flows(changes), *of_causes(changes),
                    *(each for one in changes for each in of_change(one))})


def told_drawn(title, found):
    """Prints how the random questions went, and whether something of them is wrong or comes up too seldom."""
    return told(title, found, PROMISED, EACH, (*REFUSALS.values(), *RARELY.values()))
