"""Made-up endings of the command `diff` under faults. Its judge has to allow the right ones and refuse the others. No
program is needed."""

import tempfile
from pathlib import Path

from captures.packets import record, udp
from changes.model import modelled
from changes.printed import JSON
from changes.row import capture_of, text_of
from faults import made_up
from faults.diff import NEW, OLD, judge, places, question_of, rulesets_of, texts_of
from faults.made_up import Trial, ending, lost
from faults.replay import ANSWER, CAPTURES, MEMORY
from faults.trial import Seen
from steps.translation_words import ANSWERED, ASKED, H, P

FIRST, SECOND = CAPTURES[:2]
# of each packet of the first capture, and where the second record of that ends
RECORD, BEHIND_TWO = 16 + len(ASKED), 24 + 2 * (16 + len(ASKED))
# three packets at the seconds 1, 3 and 5, and two at 2 and 4
CAPTURE = capture_of([(1, ASKED), (3, udp(H, 1001, P, 53)), (5, ASKED)])
OTHER = capture_of([(2, ASKED), (4, ANSWERED)])
RULES = {"old": b"pass no state", "new": b"pass no state\nblock in\nblock from any port 1000"}
TOO_LONG = record(9, 0, b"", captured=262145)
FLAGS = ["--interface", "em0", "--address", "192.0.2.1/24", "--inside", "10.0.0.0/8"]
QUIET = "--quiet"
FILES = {"capture": CAPTURE, "capture1": OTHER, **RULES}
WRITTEN = "write failed: standard output"
# what is left of a capture of which the header alone is there
NONE_AS_TEXT = ("not judged: L2 of NEW: no packet comes in on em0", "not judged: L3 of NEW: nothing on em0 is judged",
                "0 of 0 packets change, 2 differences not judged")
NONE_AS_JSON = (
    '{"kind":"not asked","rules":[{"ruleset":"new","line":2}],"of":"filter","why":"no packet comes in on em0"}',
    '{"kind":"not asked","rules":[{"ruleset":"new","line":3}],"of":"filter","why":"nothing on em0 is judged"}',
    '{"kind":"not judged","cut":0,"ipv6":0,"arp":0,"pppoe":0,"two_tags":0,"other":0,"midway":0,"parts":0}',
    '{"kind":"all","changed":0,"packets":0,"causes":0,"differences":2,"capture_cut":false}')


def trial_of(folder, texts, also, flags=(QUIET,)):
    """The run without a fault of files that hold these texts, over one capture or two, maybe with more flags."""
    for name, text in texts.items():
        (folder / name).write_bytes(text)
    more = ["--also", f"em1,203.0.113.2/24,{folder / 'capture1'}"] if also else []
    names = (str(folder / name) for name in ("capture", "old", "new"))
    command = ["pfreplay", "diff", *names, *FLAGS, *flags, *more]
    trial = Trial(command, None, places(command))
    out, err, status, _ = modelled(question_of(trial.command, texts_of(trial)), rulesets_of(trial))
    return trial._replace(clean=Seen(status, out, err))


def beginning(out, count):
    """The first lines of what is printed."""
    return b"".join(out.splitlines(keepends=True)[:count])


# One capture

def right_endings(trial):
    out, old, new = trial.clean.out, *rulesets_of(trial)
    yield ending("memory at first", MEMORY, "no memory, committed 0", 4)
    yield ending("memory", MEMORY, "no memory", 4)
    yield ending("memory behind a line", MEMORY, "no memory", 4, beginning(out, 1))
    yield ending("memory that isn't missed", MEMORY, "", 1, out)
    yield ending("the old ruleset", OLD, f"cannot open: {old}", 3)
    yield ending("the new ruleset", NEW, f"cannot open: {new}", 3, moved=5)
    for moved, count in ((0, 0), (23, 0), (24, 0), (BEHIND_TWO - 1, 1), (BEHIND_TWO, 2), (len(CAPTURE), 3)):
        yield ending(f"a read behind {moved} bytes", FIRST, f"read failed, committed {count}", 3, moved=moved)
    for target in (FIRST, OLD, NEW, ANSWER):
        yield ending(f"a {target.call} that is cut", target, "", 1, out, "cut")
    for deed in ("fail", "zero"):
        yield ending("a write", ANSWER, WRITTEN, 3, deed=deed)
    yield ending("a write behind a line", ANSWER, WRITTEN, 3, beginning(out, 2))


def right_ends(trial):
    """Files that end early."""
    first = ("udp 10.0.0.5:1000 > 198.51.100.7:53  pass L1 -> block L3  1 packet, first 1",
             "pass L1 -> block L3: 1 packet in 1 flow")
    untried = "not judged: L2 of NEW: no packet comes in on em0"
    yield ending("an end in the capture's header", FIRST, "capture: header cut", 2, deed="zero", moved=23)
    yield ending("an end behind the capture's header", FIRST, "", 5, text_of(*NONE_AS_TEXT), "zero", 24)
    yield ending("an end in a record", FIRST, "", 1, text_of(
        *first, untried, "1 of 1 packet change: 1 cause, 1 difference not judged, cut"), "zero", 24 + RECORD + 1)
    yield ending("an end behind a record", FIRST, "", 1, text_of(
        *first, untried, "1 of 1 packet change: 1 cause, 1 difference not judged"), "zero", 24 + RECORD)
    yield ending("an end of the new ruleset", NEW, "", 0, b"0 of 3 packets change\n", "zero", len(RULES["old"]) + 1)
    yield ending("an end in the new ruleset", NEW, f"rules {trial.name_of('new')} line 2: unknown word", 2, deed="zero",
                 moved=len(RULES["old"]) + 3)
    yield ending("no byte of the old ruleset", OLD, "", 1, text_of(
        "udp 10.0.0.5:1000 > 198.51.100.7:53  pass default -> block L3  1 packet, first 1, 1 follows",
        "udp 10.0.0.5:1001 > 198.51.100.7:53  pass default -> pass L1  1 packet, first 2",
        "pass default -> block L3: 2 packets in 1 flow, 1 follows", "pass default -> pass L1: 1 packet in 1 flow",
        untried, "3 of 3 packets change: 2 causes, 1 difference not judged"), "zero")


def wrong_endings(trial):
    out, old, new = trial.clean.out, *rulesets_of(trial)
    yield ending("all lines though memory was refused", MEMORY, "no memory", 4, out)
    yield ending("other lines", MEMORY, "no memory", 4, out[1:9])
    yield ending("another status after memory was refused", MEMORY, "no memory", 3)
    yield ending("packets that are told", MEMORY, "no memory, committed 3", 4)
    yield ending("a line before the words were read", MEMORY, "no memory, committed 0", 4, beginning(out, 1))
    yield ending("memory for a ruleset", MEMORY, f"rules {old} line 0: no memory", 4)
    yield ending("memory for a ruleset without a name", MEMORY, "rules line 0: no memory", 4)
    yield ending("lines are missing, and nothing is said", MEMORY, "", 1, beginning(out, 1))
    yield ending("another status, and nothing is said", MEMORY, "", 0, out)
    yield ending("a read of the old ruleset, told of the new one", OLD, f"cannot open: {new}", 3)
    yield ending("a read of a ruleset, told of the capture", NEW, "read failed, committed 0", 3)
    yield ending("a ruleset that isn't read, and a line", NEW, f"cannot open: {new}", 3, beginning(out, 1))
    yield ending("a ruleset that isn't read, with the status of a refusal", OLD, f"cannot open: {old}", 2)
    yield ending("flows of the packets before a read that failed", FIRST, "read failed, committed 2", 3,
                 beginning(out, 1), moved=BEHIND_TWO)
    yield ending("one packet too many before a read that failed", FIRST, "read failed, committed 2", 3,
                 moved=BEHIND_TWO - 1)
    yield ending("one packet too few before a read that failed", FIRST, "read failed, committed 1", 3, moved=BEHIND_TWO)
    yield ending("a read that failed, told of an interface", FIRST, "read failed: em0, committed 0", 3)
    yield ending("a read that failed as an end", FIRST, "", 0, b"0 of 0 packets change\n", moved=24)
    yield ending("an end as a read that failed", FIRST, "read failed, committed 0", 3, deed="zero", moved=24)
    yield ending("an end in a record that isn't told", FIRST, "", 5, b"0 of 0 packets change\n", "zero", 25)
    yield ending("no packet, and the status of no change", FIRST, "", 0, b"0 of 0 packets change\n", "zero", 24)
    yield ending("a read that is cut and ends the run", FIRST, "read failed, committed 0", 3, deed="cut", moved=24)
    yield ending("all lines though a write failed", ANSWER, WRITTEN, 3, out)
    yield ending("a write that failed and isn't told", ANSWER, "", 1, out)
    yield ending("a write that failed, with the status of a change", ANSWER, WRITTEN, 1)


# Two captures

def right_of_two(trial):
    yield ending("the first capture", FIRST, "read failed: em0, committed 3", 3, moved=BEHIND_TWO)
    yield ending("the second capture", SECOND, "read failed: em1, committed 2", 3, moved=24 + RECORD)
    yield ending("the second capture's header", SECOND, "read failed: em1, committed 0", 3, moved=10)
    yield ending("the end of the second capture", SECOND, "read failed: em1, committed 4", 3, moved=len(OTHER))
    yield ending("an end in the second capture's header", SECOND, "capture em1: header cut", 2, deed="zero", moved=10)
    yield ending("memory behind all packets", MEMORY, "no memory", 4, beginning(trial.clean.out, 2))


def wrong_of_two(_trial):
    yield ending("a read, told without its interface", FIRST, "read failed, committed 3", 3, moved=BEHIND_TWO)
    yield ending("a read, told of the other interface", FIRST, "read failed: em1, committed 3", 3, moved=BEHIND_TWO)
    yield ending("packets of the other capture behind the read", SECOND, "read failed: em1, committed 4", 3,
                 moved=24 + RECORD)


# JSON

def right_of_json(trial):
    yield ending("memory behind two lines of JSON", MEMORY, "no memory", 4, beginning(trial.clean.out, 2))
    yield ending("an end behind the capture's header, as JSON", FIRST, "", 5, text_of(*NONE_AS_JSON), "zero", 24)


def wrong_of_json(trial):
    yield ending("text in the place of JSON", FIRST, "", 5, text_of(*NONE_AS_TEXT), "zero", 24)
    yield ending("lines of JSON are missing, and nothing is said", MEMORY, "", 1, beginning(trial.clean.out, 2))


# Warnings

# the new ruleset names another interface alone
NAMING = {"new": b"pass on em1\nblock in"}
SAID = b"pfreplay: warning: em0: no packet comes in\n"


def warned_ending(name, target, warned, said, status, out=b"", **how):
    """An ending with warnings."""
    made = ending(name, target, said, status, out, **how)
    return made._replace(seen=made.seen._replace(err=warned + made.seen.err))


def right_of_warnings(trial):
    out, err, (first, *_) = trial.clean.out, trial.clean.err, trial.clean.err.splitlines(keepends=True)
    for name, warned in (("no warning", b""), ("a warning", first), ("all warnings", err)):
        yield warned_ending(f"memory behind {name}", MEMORY, warned, "no memory", 4)
    yield warned_ending("memory behind a line and all warnings", MEMORY, err, "no memory", 4, beginning(out, 1))
    yield ending("memory at first, without warnings", MEMORY, "no memory, committed 0", 4)
    yield warned_ending("a write behind all warnings", ANSWER, err, WRITTEN, 3)
    yield warned_ending("memory that isn't missed, with warnings", MEMORY, err, "", trial.clean.status, out)
    yield ending("a read that failed, without warnings", FIRST, "read failed, committed 2", 3, moved=BEHIND_TWO)
    yield ending("a ruleset that isn't read, without warnings", NEW, f"cannot open: {trial.name_of('new')}", 3)
    yield warned_ending("an end of the new ruleset, with the warnings of that", NEW, SAID, "", 1, text_of(
        "udp 10.0.0.5:1000 > 198.51.100.7:53  pass L1 -> pass default  1 packet, first 1, 1 follows",
        "udp 10.0.0.5:1001 > 198.51.100.7:53  pass L1 -> pass default  1 packet, first 2",
        "pass L1 -> pass default: 3 packets in 2 flows, 1 follows", "3 of 3 packets change: 2 causes"),
        deed="zero", moved=0)


def wrong_of_warnings(trial):
    out, err = trial.clean.out, trial.clean.err
    _, *others = err.splitlines(keepends=True)
    yield warned_ending("warnings before the words were read", MEMORY, err, "no memory, committed 0", 4)
    yield warned_ending("memory behind other warnings", MEMORY, others[0], "no memory", 4)
    yield warned_ending("memory behind one warning too many", MEMORY, err + SAID, "no memory", 4)
    yield warned_ending("a write behind some warnings", ANSWER, SAID, WRITTEN, 3)
    yield ending("a write, without warnings", ANSWER, WRITTEN, 3)
    yield ending("no warnings, and nothing is said", MEMORY, "", trial.clean.status, out)
    yield warned_ending("a read that failed behind warnings", FIRST, err, "read failed, committed 2", 3,
                        moved=BEHIND_TWO)
    yield warned_ending("a ruleset that isn't read, and warnings", NEW, err, f"cannot open: {trial.name_of('new')}", 3)
    yield warned_ending("an end of the new ruleset, with the warnings of all of it", NEW, err, "", 1, out, deed="zero",
                        moved=0)


# Runs that are refused

def compare_lost(comparison, trial):
    """Standard error gets nothing of a refusal, or a part; the status tells it all the same, and nothing is printed."""
    clean = trial.clean
    made_up.compare(comparison, judge, trial, lost(clean._replace(err=b""), clean._replace(err=clean.err[:9])),
                    lost(clean._replace(err=b"", status=0), clean._replace(err=b"", out=b"0 of 0 packets change\n")))


def compare_lost_warnings(comparison, trial):
    """Standard error gets nothing of a warning, or a part, and all of the others, or none behind it. The answer is
    there all the same."""
    clean, (first, second, third) = trial.clean, trial.clean.err.splitlines(keepends=True)
    right = (second + third, first[:9] + second + third, first + third, first + second[:-1] + third, first + second,
             first + second + third[:1], b"", first, first[:9])
    wrong = (third, first[:9] + second[:9] + third, first + second[1:] + third, second + first + third,
             SAID + clean.err)
    made_up.compare(comparison, judge, trial, lost(*(clean._replace(err=err) for err in right)), lost(
        *(clean._replace(err=err) for err in wrong), clean._replace(err=second + third, status=0),
        clean._replace(err=second + third, out=b"")))


def compare(comparison):
    """The comparison keeps how many endings there are, and which are judged wrongly."""
    with tempfile.TemporaryDirectory() as name:
        folder = Path(name)
        one = trial_of(folder, FILES, False)
        made_up.compare(comparison, judge, one, [*right_endings(one), *right_ends(one)], wrong_endings(one))
        two = trial_of(folder, FILES, True)
        made_up.compare(comparison, judge, two, right_of_two(two), wrong_of_two(two))
        as_json = trial_of(folder, FILES, False, (QUIET, "--format", JSON))
        made_up.compare(comparison, judge, as_json, right_of_json(as_json), wrong_of_json(as_json))
        warned = trial_of(folder, FILES | NAMING, False, ())
        made_up.compare(comparison, judge, warned, right_of_warnings(warned), wrong_of_warnings(warned))
        compare_lost_warnings(comparison, warned)
        for change in ({"capture": CAPTURE + TOO_LONG}, {"new": b"scrub in all"}):
            compare_lost(comparison, trial_of(folder, FILES | change, False))
