"""Rows of several interfaces, and of rulesets that are adapted."""

from adapt.surroundings import NOTHING, Surroundings
from captures.packets import (ETHER_IPV4, LINKTYPE_ETHERNET, LINKTYPE_LOOPBACK, NANOSECONDS, ethernet, loopback)
from runs.case import INSIDE, Case
from runs.interface_rows import Taken
from showing.model import COUNT, JSON, PFLOG, Asked, Question
from showing.row import (ASKED_WORDS, KNOCK, KNOCK_WORDS, Row, also_of, capture_of, fault, line_of, question_of,
                         several, text_of, verdicts_of)
from showing.rows_asked import network
from showing.rows_json import with_pieces
from showing.rows_pflog import BEFORE, HEADER, fields, octets
from steps.run import EIGHT, THREE
from steps.translation_words import ASKED

RULES = "block in\npass out on em0\npass out log on { em1 em2 }"
OUT = "out pass rule r=1 t=- s="


def at(second, fraction="000000"):
    return f"1970-01-01 00:00:0{second}.{fraction}"


def lines_of(*told):
    """Lines of verdicts, each by its clock, the rest, and the place of its interface."""
    return text_of(*(f"{number} {clock} {rest} i=em{place}" for number, (clock, rest, place) in enumerate(told, 1)))


# Several interfaces

def two():
    captures = [capture_of((1, ASKED), (3, KNOCK)), capture_of((2, ASKED), (3, ASKED))]
    lines = lines_of((1, f"{OUT}1", 0), (2, "out pass state r=1 t=- s=1", 1), (3, "in block rule r=0 t=- s=-", 0),
                     (3, "out pass rule r=2 t=- s=-", 1))
    printed = (line_of(f"rule 1 L2 (rule, state 1): pass out on em0: {ASKED_WORDS}", 1, at(1)),
               line_of(f"rule 1 L2 (state, state 1): pass out on em1: {ASKED_WORDS}", 2, at(2)),
               line_of(f"rule 0 L1 (rule): block in on em0: {KNOCK_WORDS}", 3, at(3)),
               line_of(f"rule 2 L3 (rule): pass out on em1: {ASKED_WORDS}", 4, at(3)))
    for asked, numbers in (({}, (1, 2, 3, 4)), ({"rule": 1}, (1, 2)), ({"line": 3}, (4,)), ({"logged": True}, (4,)),
                           ({"only": ("block",)}, (3,)), ({"host": network("10.0.0.5")}, (1, 2, 3, 4))):
        yield Row(f"two interfaces, asked for {asked}", several(RULES, captures, lines, **asked),
                  text_of(*(printed[number - 1] for number in numbers)))
        yield Row(f"two interfaces, counted, asked for {asked}", several(RULES, captures, lines, COUNT, **asked),
                  text_of(f"{len(numbers)} of 4 packets"))


def orders():
    """Records by their times, those of an earlier interface first; fractions of a second aren't carried there."""
    small = Taken(((5, 1, KNOCK), (5, 2000000, KNOCK))).bytes()
    fine = Taken(((5, 999, KNOCK), (5, 1000, KNOCK), (6, 0, KNOCK)), magic=NANOSECONDS, order=">").bytes()
    lines = lines_of(*((clock, "in block rule r=0 t=- s=-", place)
                       for clock, place in ((5, 1), (5, 0), (5, 1), (5, 0), (6, 1))))
    words = f"rule 0 L1 (rule): block in on em{{}}: {KNOCK_WORDS}"
    yield Row("microseconds beside nanoseconds", several(RULES, [small, fine], lines), text_of(*(
        line_of(words.format(place), number, f"1970-01-01 00:00:0{time}") for number, (place, time) in enumerate((
            (1, "5.000000999"), (0, "5.000001"), (1, "5.000001000"), (0, "7.000000"), (1, "6.000000000")), 1))))
    back = [capture_of((5, KNOCK), (1, KNOCK)), capture_of((5, KNOCK), (6, KNOCK))]
    yield Row("seconds that go back on one of two interfaces",
              several(RULES, back, lines_of(*((clock, "in block rule r=0 t=- s=-", place)
                                              for clock, place in ((5, 0), (5, 0), (5, 1), (6, 1))))), text_of(*(
                  line_of(words.format(place), number, at(second))
                  for number, (place, second) in enumerate(((0, 5), (0, 1), (1, 5), (1, 6)), 1))))


def more():
    links = [capture_of((2, loopback(KNOCK)), link=LINKTYPE_LOOPBACK),
             capture_of((1, ethernet(ETHER_IPV4, KNOCK, [9])), link=LINKTYPE_ETHERNET),
             capture_of((3, 5, KNOCK), order=">", magic=NANOSECONDS)]
    told = lines_of(*((clock, "in block rule r=0 t=- s=-", place) for clock, place in ((1, 1), (2, 0), (3, 2))))
    words = f"rule 0 L1 (rule): block in on em{{}}: {KNOCK_WORDS}"
    yield Row("three interfaces of all link types", several(RULES, links, told, interfaces=THREE), text_of(
        line_of(words.format(1), 1, at(1)), line_of(words.format(0), 2, at(2)),
        line_of(words.format(2), 3, at(3, "000000005"))))
    yield Row("eight interfaces", several("block", [capture_of(KNOCK)] * 8, lines_of(*(
        (0, "in block rule r=0 t=- s=-", place) for place in range(8))), interfaces=EIGHT), text_of(*(
            line_of(words.format(place), place + 1) for place in range(8))))
    yield Row("two empty captures", several(RULES, [capture_of()] * 2, b""))
    yield Row("one of two captures has no packet", several(RULES, [capture_of(), capture_of(KNOCK)], lines_of(
        (0, "in block rule r=0 t=- s=-", 1))), text_of(line_of(words.format(1))))
    yield Row("the second interface isn't filtered",
              several(f"set skip on em1\n{RULES}", [capture_of(), capture_of(KNOCK)],
                      lines_of((0, "- pass skip-on r=- t=- s=-", 1))),
              text_of(line_of(f"no rule (skip-on): pass on em1: {KNOCK_WORDS}")))
    own = [capture_of(KNOCK), capture_of()]
    yield Row("JSON of two interfaces", several("block", own, lines_of((0, "in block rule r=0 t=- s=-", 0)), JSON),
              text_of(with_pieces()))
    yield fault("a rule for one interface fewer", several("block from self", own, lines_of((
        0, "in block rule r=1 t=- s=-", 0))), "packet 1: not of this ruleset")


def named(first, second):
    """A question about two interfaces of any names, whose packets come one after the other."""
    case = Case("", b"block", INSIDE, capture_of((1, KNOCK)), first, also=(also_of(second, capture_of((2, KNOCK))),))
    lines = (f"1 1 in block rule r=0 t=- s=- i={first}\n2 2 in block rule r=0 t=- s=- i={second}\n").encode()
    return Question(case, lines, Asked())


def names():
    for first, second in (("a", "b"), ("i=a", "i="), ("-", "--"), ("é\"\\~", "a_name_of_15_by"), ("em0", "EM0")):
        question = named(first, second)
        yield Row(f"interfaces called {first!r} and {second!r}", question, text_of(*(
            line_of(f"rule 0 L1 (rule): block in on {name}: {KNOCK_WORDS}", number, at(number))
            for number, name in ((1, first), (2, second)))))
    yield Row("JSON of hostile names", named("\"}", "é\\")._replace(form=JSON), text_of(
        with_pieces(('"seconds":0', '"seconds":1'), ('"em0"', '"\\u0022}"')),
        with_pieces(('"number":1,"seconds":0', '"number":2,"seconds":2'), ('"em0"', '"\\u00c3\\u00a9\\u005c"'))))
    before = BEFORE.format("0100", "{}", "00000000", "01")
    yield Row("pflog of hostile names", named("\"}", "é\\")._replace(form=PFLOG), octets(
        HEADER, fields(1, 0, 104, 104), before.format("227d" + "00" * 14), KNOCK, fields(2, 0, 104, 104),
        before.format("c3a95c" + "00" * 13), KNOCK))


# Rulesets that are adapted

def adapted(name, rules, verdict, words, *remarks, surroundings=NOTHING, **asked):
    """A row of one packet by a ruleset that is rewritten."""
    question = question_of(rules, capture_of(KNOCK), verdicts_of(verdict), surroundings=surroundings, **asked)
    return Row(name, question, text_of(*([line_of(f"{words} on em0: {KNOCK_WORDS}")] if words else [])), "", remarks)


SCRUBBING = "scrub in all\nblock in\npass out"


def of_adapted():
    """Lines are those of the file, and numbers those of the rules that are run."""
    yield adapted("an adapted ruleset", SCRUBBING, "in block rule r=0 t=- s=-", "rule 0 L2 (rule): block in",
                  "{rules}:1:1: warning: scrub")
    yield adapted("an adapted ruleset by a line", SCRUBBING, "in block rule r=0 t=- s=-", "rule 0 L2 (rule): block in",
                  "{rules}:1:1: warning: scrub", line=2)
    yield adapted("an adapted ruleset by another line", SCRUBBING, "in block rule r=0 t=- s=-", "",
                  "{rules}:1:1: warning: scrub", line=1)
    yield adapted("nothing to be adapted", "block in", "in block rule r=0 t=- s=-", "rule 0 L1 (rule): block in")
    yield adapted("a statement that becomes rules on a line each", "antispoof log quick for em0\npass in",
                  "in pass rule r=2 t=- s=1", "rule 2 L2 (rule, state 1): pass in", "{rules}:1:1: note: antispoof")
    for number in (0, 1):
        yield adapted(f"rule {number} of an antispoof that logs", "antispoof log quick for em0\npass in",
                      f"in block rule r={number} t=- s=-", f"rule {number} L1 (rule): block in",
                      "{rules}:1:1: note: antispoof", logged=True)
        yield adapted(f"rule {number} of an antispoof that doesn't log", "antispoof quick for em0\npass in log",
                      f"in block rule r={number} t=- s=-", "", "{rules}:1:1: note: antispoof", logged=True)
    yield adapted("a rule behind an antispoof that logs", "antispoof log quick for em0\npass in",
                  "in pass rule r=2 t=- s=1", "", "{rules}:1:1: note: antispoof", logged=True)
    yield adapted("log with words in brackets", "block in log (all, to pflog1)\npass out", "in block rule r=0 t=- s=-",
                  "rule 0 L1 (rule): block in", "{rules}:1:10: note: log", logged=True)
    yield adapted("log with words in brackets, by another rule", "block in log (all)\npass in",
                  "in pass rule r=1 t=- s=1", "", "{rules}:1:10: note: log", logged=True)
    given = Surroundings(interfaces=(("em1", "10.0.0.1/24"),))
    yield adapted("an address of the surroundings", "pass in from em1:network\nblock in", "in block rule r=1 t=- s=-",
                  "rule 1 L2 (rule): block in", "{rules}:1:14: note: em1:network", surroundings=given)


def of_refused():
    """Rulesets that are refused though they are adapted, or since they aren't."""
    packet = capture_of(KNOCK), verdicts_of("in block rule r=0 t=- s=-")
    yield fault("a ruleset that would have to be adapted", question_of(SCRUBBING, *packet),
                "rules line 1: left out: scrub")
    yield fault("log with words in brackets that aren't adapted", question_of("block in log (all)", *packet),
                "rules line 1: left out: log")
    yield fault("a ruleset that is refused though it is adapted",
                question_of(f"{SCRUBBING}\npass bogus", *packet, surroundings=NOTHING),
                "rules line 4: unknown word")._replace(remarks=("{rules}:1:1: warning: scrub",))
    yield fault("an adapted ruleset that makes fewer rules",
                question_of(SCRUBBING, packet[0], verdicts_of("in block rule r=2 t=- s=-"), surroundings=NOTHING),
                "packet 1: not of this ruleset")._replace(remarks=("{rules}:1:1: warning: scrub",))


def rows():
    for make in (two, orders, more, names, of_adapted, of_refused):
        yield from make()
