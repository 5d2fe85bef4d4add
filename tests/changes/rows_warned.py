"""Rows of the warnings that stand on standard error without `--quiet`. They are about the run with the new ruleset."""

from adapt.surroundings import NOTHING
from captures.packets import (ACK, ETHER_IPV4, ETHER_IPV6, LINKTYPE_ETHERNET, MORE_FRAGMENTS, SYN, UDP, capture_header,
                              ethernet, ipv4, record, tcp, udp)
from changes.model import NAMES
from changes.printed import JSON
from changes.row import CAME, FLOW_CAME, KNOCK, Row, capture_of, question_of
from changes.rows_json import BLOCKED, JUDGED, OF_CAME, PASSED, cause, of_all, pair, unasked
from changes.rows_refused import refused
from changes.rows_runs import OWN_INSIDE, several
from steps.model import WIRE
from steps.tap_cases import CAME as ASKED_OF_SERVER
from steps.translation_words import ASKED, E, H, P

PASS, BOTH = "pass", (ASKED, CAME)
NONE_OUT, NONE_IN, UNNAMED = "em0: no packet goes out", "em0: no packet comes in", "no rule names em0"
BEHIND = "em0: what goes out is shown behind its translation, without --tap wire"
MIDWAY = "packets midway in a TCP connection: {}, and no connection begins"
NAT = "nat on em0 from 10.0.0.0/8 to any -> em0\npass"
CHANGES = (f"{FLOW_CAME}  pass L1 -> block L1  1 packet, first 1", "pass L1 -> block L1: 1 packet in 1 flow",
           "1 of 1 packet change: 1 cause")
# a segment of a connection that began before
LATER = tcp(P, 4000, H, 22, ACK, 2, 2)


def lacks(name):
    return f"no capture is of {name}, which rules name"


def warned(name, old, new, capture, lines, *warnings, is_unjudged=False, **how):
    """A row over the bytes of a capture."""
    question = question_of(old, new, capture, is_quiet=False, **how)
    return Row(f"warnings: {name}", question, lines, is_unjudged=is_unjudged, warnings=warnings)


def same(name, rules, packets, *warnings, **how):
    """A row in which both rulesets are the same, and all packets are judged."""
    return warned(name, rules, rules, capture_of(packets), (f"0 of {len(packets)} packets change",), *warnings, **how)


def loud(row, *warnings):
    """A row of a run on several interfaces, with warnings."""
    return row._replace(name=f"warnings: {row.name}", question=row.question._replace(is_quiet=False), warnings=warnings)


# Captures

def captures():
    yield warned("an empty capture", PASS, PASS, capture_of([]), ("0 of 0 packets change",), NONE_OUT, NONE_IN,
                 is_unjudged=True)
    yield warned("an empty capture of an interface that isn't filtered", "set skip on em0", "set skip on em0",
                 capture_of([]), ("0 of 0 packets change",), is_unjudged=True)
    frames = capture_of([ethernet(ETHER_IPV6, bytes(40))] * 2, network=LINKTYPE_ETHERNET)
    yield warned("IPv6 alone", PASS, PASS, frames, ("not judged: 2 IPv6", "0 of 2 packets change"), NONE_OUT, NONE_IN,
                 is_unjudged=True)
    yield same("packets both ways", PASS, BOTH)
    yield warned("a capture that is cut", PASS, PASS, capture_of([CAME]) + record(1, 0, ASKED)[:-1],
                 ("0 of 1 packet change, cut",), NONE_OUT)
    yield warned("packets that change", "pass in", "block in", capture_of([CAME]), CHANGES, NONE_OUT)


def snapped():
    """Segments whose frames are cut behind 54 bytes: their ends aren't judged, and no connection is seen to begin."""
    answers = [tcp(H, 22, P, 4000, SYN | ACK, 1, 2, options=bytes([1] * 20)), tcp(H, 22, P, 4000, ACK, 2, 3)]
    frames = [ethernet(ETHER_IPV4, each) for each in (*answers, LATER, CAME)]
    capture = capture_header(network=LINKTYPE_ETHERNET) + b"".join(
        record(0, 0, frame[:54], original=len(frame)) for frame in frames)
    yield warned("a snapshot length of 54", PASS, PASS, capture,
                 ("not judged: 1 packet cut by the snapshot length", "0 of 4 packets change"), is_unjudged=True)
    yield warned("a snapshot length of 54, and a rule that blocks", "block in no state", "block in no state", capture,
                 ("not judged: 1 packet cut by the snapshot length, 1 midway", "0 of 4 packets change"),
                 MIDWAY.format(1), is_unjudged=True)


def midway():
    told = ("not judged: 1 midway",)
    yield warned("a connection that began before", "block in", "block in", capture_of([LATER, ASKED]),
                 (*told, "0 of 2 packets change"), MIDWAY.format(1))
    yield warned("a connection that began before, and another one", "block in", "block in",
                 capture_of([LATER, ASKED, KNOCK]), (*told, "0 of 3 packets change"))
    yield warned("a connection that began before, for the old ruleset", "block in\npass out", "pass no state",
                 capture_of([LATER, ASKED]),
                 ("tcp 198.51.100.7:4000 > 10.0.0.5:22  block L1 -> pass L1  1 packet, first 1",
                  "udp 10.0.0.5:1000 > 198.51.100.7:53  pass L2 -> pass L1  1 packet, first 2",
                  "block L1 -> pass L1: 1 packet in 1 flow", "pass L2 -> pass L1: 1 packet in 1 flow", *told,
                  "2 of 2 packets change: 2 causes"))
    first = ipv4(P, H, UDP, udp(P, 9, H, 9)[20:], fragment=MORE_FRAGMENTS)
    yield warned("a part of a packet", PASS, PASS, capture_of([first, ASKED]),
                 ("not judged: 1 part of a packet", "0 of 2 packets change"))
    limited = "set limit states 1\npass"
    yield same("a limit", limited, [*BOTH, CAME], "states refused by a limit: 2")


# Translation

def translations():
    sent_out = udp(E, 50001, P, 53)
    yield same("a capture of the wire", NAT, [sent_out, CAME], BEHIND, inside=OWN_INSIDE)
    yield same("a capture of the wire, at the stack", NAT, [sent_out, CAME], BEHIND, inside=OWN_INSIDE, tap="stack")
    yield same("a capture of the wire, on the wire", NAT, [sent_out, CAME], inside=OWN_INSIDE, tap=WIRE)
    yield same("a capture of the stack", NAT, [sent_out, *BOTH], inside=OWN_INSIDE)
    for ruleset, rules, more in (("OLD", (NAT, "\npass"), ()), ("NEW", ("\npass", NAT), (BEHIND,))):
        yield warned(f"a capture of the wire, and nat in {ruleset} alone", *rules, capture_of([sent_out, CAME]),
                     (f"not judged: L1 of {ruleset}: nat: em0 shows what goes out behind its translation",
                      "0 of 2 packets change, 1 difference not judged"), *more, is_unjudged=True, inside=OWN_INSIDE)


# Interfaces

def interfaces():
    yield same("an interface that is misspelt", "pass on emo\npass in on em9", BOTH, UNNAMED, lacks("emo"),
               lacks("em9"))
    yield same("no capture of an interface", "pass on em0\nblock on em1", BOTH, lacks("em1"))
    yield same("interfaces of each kind of rules",
               "nat on em4 from any to any -> em0\nrdr on em5 from any to any -> 10.0.0.1\n"
               "binat on em6 from 10.0.0.5 to any -> 192.0.2.9\nanchor on em2 {\npass on em3\n}\npass on !em1\n"
               "pass on { em2, em1 }", BOTH, UNNAMED, *map(lacks, ("em3", "em1", "em2", "em4", "em5", "em6")))
    yield loud(several("each interface", PASS, PASS, [capture_of([(1, ASKED)]), capture_of([(2, ASKED_OF_SERVER)])],
                       "0 of 2 packets change"), NONE_IN, "em1: no packet goes out")


# Forms

def forms():
    json = (cause(OF_CAME, PASSED, BLOCKED), pair(PASSED, BLOCKED), JUDGED, of_all(1, 1, 1))
    yield warned("JSON", "pass in", "block in", capture_of([CAME]), json, NONE_OUT, form=JSON)
    yield warned("JSON of no change", PASS, f"{PASS}\n{PASS} on em1", capture_of([CAME]),
                 (unasked("filter", "no capture of em1", ("new", 2)), JUDGED, of_all(0, 1, 0, 1)), NONE_OUT, UNNAMED,
                 lacks("em1"), form=JSON, is_unjudged=True)
    scrubbing = "scrub in all\npass on em1"
    yield same("an adapted ruleset", scrubbing, BOTH, UNNAMED, lacks("em1"), surroundings=NOTHING)._replace(
        remarks=tuple(f"{{{name}}}:{each}" for name in NAMES for each in ("1:1: warning: scrub", "2:9: warning: em1")))


def quiet():
    """With `--quiet` there are none, and refused commands say none."""
    for row in (*captures(), *midway(), *translations(), *interfaces(), *forms()):
        if row.warnings:
            yield row._replace(name=f"{row.name}, --quiet", question=row.question._replace(is_quiet=True), warnings=())
    whole = capture_of([CAME])
    for name, old, new, capture, said in (
            ("a fault of the old ruleset", "scrub in all", PASS, whole, "rules {old} line 1: left out: scrub"),
            ("a fault of the new ruleset", PASS, "scrub in all", whole, "rules {new} line 1: left out: scrub"),
            ("a header that is cut", PASS, PASS, whole[:23], "capture: header cut"),
            ("a record that is too long", PASS, PASS, whole + record(1, 0, b"", captured=262145),
             "capture: record too long 262145, committed 1")):
        yield refused(f"warnings: {name}", old, new, capture, said, is_quiet=False)


def rows():
    for make in (captures, snapped, midway, translations, interfaces, forms, quiet):
        yield from make()
