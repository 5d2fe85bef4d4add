"""Rows of states by their ages."""

from itertools import count

from reporting.row import BLOCK, BLOCKED, KNOCK, Row, capture_of, fault, of_captures, question_of, text_of, timed

NAMES = ("under 1 minute", "1 to 10 minutes", "10 to 60 minutes", "1 to 24 hours", "1 day and more")
NONE = ("0", "0", "0", "0.0 %")
# a state of UDP, by its number, the clock when it was made, and packets and bytes both ways
STATE = ("{} 17 out 198.51.100.7:53,10.0.0.5:1000 198.51.100.7:53,10.0.0.5:1000 r=1 t=- 1/0/0/0/- 0/0/0/0/- {} "
         "4294967400 {} {} {} {}")
CLOCK = 100000
# ages of states, and the place of each among those that are told
AGES = ((0, 0), (1, 0), (59, 0), (60, 1), (61, 1), (599, 1), (600, 2), (601, 2), (3599, 2), (3600, 3), (3601, 3),
        (86399, 3), (86400, 4), (86401, 4), (100000, 4))


def states_of(*made):
    """Lines of states by the clocks when they were made; packets and bytes may stand behind each clock."""
    each = (clock if isinstance(clock, tuple) else (clock, 1, 28, 0, 0) for clock in made)
    return text_of(*(STATE.format(number, *counts) for number, counts in zip(count(1), each)))


def by_age(*cells):
    """The rows of all ages, where those that aren't told have no state."""
    told = {NAMES.index(name): rest for name, *rest in cells}
    return tuple((name, *told.get(place, NONE)) for place, name in enumerate(NAMES))


def aged(name, states, *cells, clock=CLOCK, rules=BLOCK):
    return timed(name, rules, (clock, KNOCK, BLOCKED), states=states, states_=by_age(*cells))


def of_ages():
    for age, place in AGES:
        yield aged(f"a state that is {age} seconds old", states_of(CLOCK - age),
                   (NAMES[place], "1", "1", "28", "100.0 %"))
    yield aged("a state that was made behind the last packet", states_of(CLOCK + 1),
               (NAMES[0], "1", "1", "28", "100.0 %"))
    yield aged("a state that was made at the last second", states_of(4294967295),
               (NAMES[0], "1", "1", "28", "100.0 %"))
    yield aged("a state at the last second", states_of(0), (NAMES[4], "1", "1", "28", "100.0 %"), clock=4294967295)


def of_counts():
    yield aged("no states", b"")
    yield aged("a state of each age", states_of(*(CLOCK - age for age in (1, 100, 1000, 10000, 100000))),
               *((name, "1", "1", "28", "20.0 %") for name in NAMES))
    yield aged("packets and bytes both ways", states_of((CLOCK, 3, 160, 2, 1500), (CLOCK - 5, 1, 40, 0, 0),
                                                        (CLOCK - 60, 0, 0, 7, 9)),
               (NAMES[0], "2", "6", "1700", "66.6 %"), (NAMES[1], "1", "7", "9", "33.3 %"))
    yield aged("many packets", states_of((0, 2**63, 2**62, 2**62, 2**63)),
               (NAMES[4], "1", str(2**63 + 2**62), str(2**63 + 2**62), "100.0 %"))
    yield aged("many states", states_of(*[CLOCK - 600] * 999, CLOCK), (NAMES[0], "1", "1", "28", "0.1 %"),
               (NAMES[2], "999", "999", "27972", "99.9 %"))
    # the same lines in another order, and lines that are the same
    lines = states_of(CLOCK, CLOCK - 60).splitlines(keepends=True)
    yield aged("states in any order, one twice", b"".join([lines[1], lines[0], lines[1]]),
               (NAMES[0], "1", "1", "28", "33.3 %"), (NAMES[1], "2", "2", "56", "66.6 %"))


def of_kinds():
    """States of other protocols, translated ones and those with an interface count alike."""
    lines = text_of("11 6 in 198.51.100.7:50600,192.0.2.1:22 198.51.100.7:50600,192.0.2.1:22 r=- t=9 "
                    "10/1000/66281/502/7 9/5041/69297/510/- 99990 100100 3 128 2 96 i=em0",
                    "12 1 out 198.51.100.7:7,192.0.2.1:7 198.51.100.7:7,10.0.0.5:7 r=0 t=- 0/0/0/0/- 0/0/0/0/- 99000 "
                    "100010 5 420 5 420 i=-")
    yield aged("states of all kinds", lines, (NAMES[0], "1", "5", "224", "50.0 %"),
               (NAMES[2], "1", "10", "840", "50.0 %"))


def of_clocks():
    """The clock is that at the last packet, which may be on another interface and skipped."""
    yield timed("the clock of the last of some packets", BLOCK, (0, KNOCK, BLOCKED), (60, KNOCK, BLOCKED),
                (3, KNOCK, BLOCKED), states=states_of(0, 1))._replace(
        question=question_of(BLOCK, capture_of((0, KNOCK), (60, KNOCK), (3, KNOCK)), text_of(
            *(f"{number} {clock} {BLOCKED}" for number, clock in ((1, 0), (2, 60), (3, 60)))), states_of(0, 1)),
        parts={"states": by_age((NAMES[0], "1", "1", "28", "50.0 %"), (NAMES[1], "1", "1", "28", "50.0 %"))})
    yield of_captures("the clock of another interface", BLOCK, [capture_of((0, KNOCK)), capture_of((600, KNOCK))],
                      text_of(f"1 0 {BLOCKED} i=em0", f"2 600 {BLOCKED} i=em1"), states_of(0),
                      parts={"states": by_age((NAMES[2], "1", "1", "28", "100.0 %"))})
    yield Row("states without packets", question_of(BLOCK, capture_of(), b"", states_of(0, 5)),
              {"states": by_age((NAMES[0], "2", "2", "56", "100.0 %"))})
    yield Row("neither states nor packets", question_of(BLOCK, capture_of(), b"", b""), {"states": by_age()})
    yield timed("the states aren't asked for", BLOCK, (0, KNOCK, BLOCKED), states_=None)


def of_refused():
    """What isn't a state, in the first line or a later one."""
    capture, lines = capture_of(KNOCK), text_of(f"1 0 {BLOCKED}")
    good = states_of(0)
    for name, octets, line in (("no newline", good[:-1], 1), ("an empty line", b"\n", 1), ("two blanks", good.replace(
            b" out ", b"  out "), 1), ("a line of verdicts", lines, 1), ("a second line", good + b"x\n", 2),
                               ("a third line", good + good + good[:40], 3), ("no UTF-8", b"\xff\n", 1),
                               ("CRLF", good.replace(b"\n", b"\r\n"), 1), ("a zero", b"\0", 1),
                               ("an address", good.replace(b"10.0.0.5", b"10.0.0.256"), 1),
                               ("a protocol", good.replace(b" 17 ", b" 256 "), 1)):
        yield fault(f"states with {name}", question_of(BLOCK, capture, lines, octets), f"states line {line}: no state")


def rows():
    for make in (of_ages, of_counts, of_kinds, of_clocks, of_refused):
        yield from make()
