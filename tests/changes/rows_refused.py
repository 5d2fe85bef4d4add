"""Rows that are refused, of which nothing is printed, and rows of rulesets that are adapted.

A ruleset that is refused is told by the name of its file.
"""

from adapt.surroundings import NOTHING, Surroundings
from captures.packets import LINKTYPE_LOOPBACK, LINKTYPE_RAW, SYN, capture_header, record, tcp, udp
from changes.row import CAME, FLOW_CAME, NONE_OF_TRAFFIC, TRAFFIC, Row, capture_of, none, one_line, question_of, row
from changes.rows_runs import ADDRESSED, CLOSED, OPEN, several
from steps.translation_words import ASKED, E, H, P

BASE, BAD = "block in\npass out", "pass\nscrub in all"
FAULTS = (("pass\nscrub in all", "line 2: left out: scrub"), ("pass from <none>", "line 1: undefined table"),
          ("\n\npass in $x", "line 3: unknown word"), ("pass in from $x", "line 1: undefined macro"),
          ('pass all label "web', "line 1: unterminated"), ("pass\npass from em1", "line 2: left out: host name"),
          ("pass\nset skip on lo0", "line 2: out of order"), ("table <t> { 10.0.0.1, !10.0.0.1 }", "line 1: clash"),
          ("pass to port 65536", "line 1: bad number"), ("#".ljust(1048577, "x"), "line 1: too many"))
TOO_LONG = record(1, 0, b"", captured=262145)


def refused(name, old, new, capture, said, **how):
    return Row(name, question_of(old, new, capture, **how), said=said)


# Rulesets

def rulesets():
    whole = capture_of(TRAFFIC)
    for text, fault in FAULTS:
        title = f"{text[:30]!r}"
        yield refused(f"the old ruleset {title}", text, BASE, whole, f"rules {{old}} {fault}")
        yield refused(f"the new ruleset {title}", BASE, text, whole, f"rules {{new}} {fault}")
    yield refused("the same fault in both rulesets", BAD, BAD, whole, "rules {old} line 2: left out: scrub")
    yield refused("a fault on a later line of the old ruleset", f"pass\n{BAD}", BAD, whole,
                  "rules {old} line 3: left out: scrub")
    # rulesets come before captures
    for capture, title in ((b"", "no header"), (whole[:24] + TOO_LONG, "a record that is too long"),
                           (b"\x0a\x0d\x0d\x0a" + whole[4:], "no magic number")):
        yield refused(f"a fault of the old ruleset, and {title}", BAD, BASE, capture,
                      "rules {old} line 2: left out: scrub")
        yield refused(f"a fault of the new ruleset, and {title}", BASE, BAD, capture,
                      "rules {new} line 2: left out: scrub")
    yield refused("a fault of the new ruleset, and another link type", BASE, BAD, whole,
                  "rules {new} line 2: left out: scrub", **ADDRESSED)
    yield Row("a fault of a new ruleset for two interfaces",
              several("", OPEN, "nat on em0 from any to any -> self", [whole] * 2).question,
              said="rules {new} line 1: left out: pool")


# Captures

HEADERS = ((b"", "header cut"), (capture_header()[:23], "header cut"),
           (b"\x0a\x0d\x0d\x0a" + capture_header()[4:], "bad magic"), (capture_header(major=3), "bad version"),
           (capture_header(network=12), "link type 12"))


def headers():
    whole = capture_of(TRAFFIC)
    for capture, fault in HEADERS:
        yield refused(f"{fault}, {len(capture)} bytes", OPEN, CLOSED, capture, f"capture: {fault}")
        for place, captures in enumerate(([capture, whole], [whole, capture])):
            yield Row(f"{fault} of em{place}, {len(capture)} bytes", several("", OPEN, CLOSED, captures).question,
                      said=f"capture em{place}: {fault}")
    for link in (LINKTYPE_RAW, LINKTYPE_LOOPBACK):
        for inside in (None, "10.0.0.0/8"):
            yield refused(f"link type {link} of an interface with an address, inside {inside}", OPEN, CLOSED,
                          capture_of([], network=link), f"--mac em0: capture of link type {link}", inside=inside,
                          **ADDRESSED)


def too_long():
    """Nothing is printed, though packets before have changed."""
    whole = capture_of(TRAFFIC)
    yield refused("a record that is too long", OPEN, CLOSED, whole + TOO_LONG,
                  "capture: record too long 262145, committed 4")
    yield refused("a record that is too long, and nothing before", OPEN, OPEN, whole[:24] + TOO_LONG,
                  "capture: record too long 262145, committed 0")
    yield refused("a record that is too long, and nothing that changes", OPEN, OPEN,
                  capture_of([CAME] * 300) + record(1, 0, b"", captured=2**32 - 1),
                  "capture: record too long 4294967295, committed 300")
    second = capture_of([(2, ASKED)]) + TOO_LONG
    for name, first, count in (("a record that is too long in the second capture", [(1, ASKED), (5, ASKED)], 2),
                               ("a record that is too long in the second capture, and none in the first", [], 1)):
        yield Row(name, several("", OPEN, CLOSED, [capture_of(first), second]).question,
                  said=f"capture em1: record too long 262145, committed {count}")
    yield Row("a capture that is cut, and a record that is too long",
              several("", OPEN, CLOSED, [capture_of([(1, ASKED)])[:-1], second]).question,
              said="capture em1: record too long 262145, committed 1")


# Adapted rulesets

def adapted():
    scrubbing = f"scrub in all\n{BASE}"
    note = "2:1: warning: scrub"
    yield row("an old ruleset that is adapted", scrubbing, BASE, TRAFFIC, NONE_OF_TRAFFIC,
              surroundings=NOTHING)._replace(remarks=("{old}:1:1: warning: scrub",))
    yield row("a new ruleset that is adapted", BASE, f"\n{scrubbing}", TRAFFIC, NONE_OF_TRAFFIC,
              surroundings=NOTHING)._replace(remarks=(f"{{new}}:{note}",))
    yield row("two rulesets that are adapted", scrubbing, f"\n{scrubbing}", TRAFFIC, NONE_OF_TRAFFIC,
              surroundings=NOTHING)._replace(remarks=("{old}:1:1: warning: scrub", f"{{new}}:{note}"))
    yield none("nothing to be adapted", BASE, BASE, [CAME], surroundings=NOTHING)
    yield refused("a ruleset that is refused though it is adapted", BASE, f"{scrubbing}\npass bogus",
                  capture_of(TRAFFIC), "rules {new} line 4: unknown word", surroundings=NOTHING)._replace(
                      remarks=("{new}:1:1: warning: scrub",))
    yield refused("a ruleset that would have to be adapted", scrubbing, BASE, capture_of(TRAFFIC),
                  "rules {old} line 1: left out: scrub")


def adapted_rules():
    """What rules say once they are adapted, and where they stand then."""
    knock = tcp(P, 4000, E, 25, SYN, 1)
    yield one_line("an adapted ruleset that changes a packet", "scrub in all\nblock return-rst in\npass out",
                   "block in\npass out", [knock], "tcp 198.51.100.7:4000 > 192.0.2.1:25", "return L2 -> block L1",
                   surroundings=NOTHING)._replace(remarks=("{old}:1:1: warning: scrub", "{old}:2:7: note: return-rst"))
    keeping = "block in\npass in proto tcp from any to any port 25 {}"
    yield none("a rule that says the same once it is adapted", keeping.format("modulate state"),
               keeping.format("keep state"), [knock], surroundings=NOTHING)._replace(
                   remarks=("{old}:2:43: note: modulate",))
    yield row("a statement that becomes two rules on a line each", 'antispoof quick for em0\npass in allow-opts',
              'pass in', [udp(E, 9, H, 9), CAME],
              "udp 192.0.2.1:9 > 10.0.0.5:9  block L1 -> pass L1  1 packet, first 1",
              f"{FLOW_CAME}  pass L2 -> pass L1  1 packet, first 2",
              "block L1 -> pass L1: 1 packet in 1 flow", "pass L2 -> pass L1: 1 packet in 1 flow",
              "2 of 2 packets change: 2 causes", surroundings=NOTHING)._replace(remarks=("{old}:1:1: note: antispoof",))
    given = Surroundings(interfaces=(("em1", "10.0.0.1/24"),))
    yield none("a word that surroundings give an address", "pass in from em1:network\npass in to 192.0.2.1",
               "pass in from 10.0.0.0/24\npass in to 192.0.2.1", [CAME], surroundings=given)._replace(
                   remarks=("{old}:1:14: note: em1:network",))


def rows():
    for make in (rulesets, headers, too_long, adapted, adapted_rules):
        yield from make()
