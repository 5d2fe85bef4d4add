"""Runs of the program on several interfaces, each with a capture, whose texts are written by hand: those of
commits.place_rows, the order in which records are taken, and how captures end.

H is inside and P outside. ASKED goes from port 1000 of H to port 53 of P, and REPLY is its answer.
"""

from typing import NamedTuple

from captures.packets import LINKTYPE_RAW, MICROSECONDS, NANOSECONDS, capture_header, record
from commits import place_rows
from commits.place_rows import BOUND, FRESH, REPLY, TWO, UDP_KEYS
from matrix.scene import PASSED, Scene, text_of
from runs.case import EMPTIED, INSIDE, NO_SEED, Also, Case
from steps.run import THREE
from steps.translation_words import ASKED

TOO_LONG = 262145
UNTOUCHED = dict.fromkeys(EMPTIED)
# what is said of a packet that comes in or goes out under `block in` and `pass out no state`
PASSING, IN, OUT = "block in\npass out no state", "in block rule r=0 t=- s=-", "out pass rule r=1 t=- s=-"


class Taken(NamedTuple):
    """A capture: of each record the second, the fraction of a second and the frame, the capture's form, and bytes behind
    the last record."""
    records: tuple
    behind: bytes = b""
    order: str = "<"
    magic: int = MICROSECONDS
    link: int = LINKTYPE_RAW

    def header(self):
        return capture_header(self.order, self.magic, network=self.link)

    def pieces(self):
        return [record(*each, order=self.order) for each in self.records]

    def bytes(self):
        return self.header() + b"".join(self.pieces()) + self.behind


def asked(*seconds, **how):
    """A capture of ASKED at each of some seconds."""
    return Taken(tuple((second, 0, ASKED) for second in seconds), **how)


def too_long(captured=TOO_LONG):
    return record(0, 0, b"", captured=captured)


def cut(count):
    """A record that is cut by `count` bytes."""
    return record(0, 0, ASKED)[:-count]


def case_of(name, rules, captures, interfaces, seed=NO_SEED):
    """The run of a ruleset over the bytes of captures, one for each interface."""
    named = [(each.name, f"{each.address}/{each.bits}") for each in interfaces]
    also = tuple(Also(*words, capture) for words, capture in zip(named[1:], captures[1:], strict=True))
    return Case(name, rules.encode(), INSIDE, captures[0], *named[0], seed, also)


def passed_of(captures, interfaces, lines):
    """The packets of each interface, as the lines say which pass. No frame is translated."""
    for taken, interface in zip(captures, interfaces):
        own = [line for line in lines if line.endswith(f" i={interface.name}")]
        yield taken.header() + b"".join(piece for piece, line in zip(taken.pieces(), own)
                                        if line.split(" ")[3] in PASSED)


def committed(count, tail=""):
    return {"out": f"committed {count}{tail}\n".encode(), "err": b"", "status": 2 if tail else 0}


def refused(said):
    return {"out": b"", "err": f"pfreplay: {said}\n".encode(), "status": 1, "counters": b"", "states": b""}


def scene(name, rules, captures, lines, end=None, interfaces=TWO, counters=None, states=None, **more):
    """A run over captures with all its lines, and how it ends if that isn't a clean end."""
    parts = {**(end or committed(len(lines))), "verdicts": text_of(lines)}
    parts["packets"], *others = passed_of(captures, interfaces, lines)
    parts["others"] = tuple(others)
    parts |= {} if counters is None else {"counters": text_of(counters)}
    parts |= {} if states is None else {"states": text_of(states)}
    return Scene(case_of(name, rules, [taken.bytes() for taken in captures], interfaces), parts, **more)


def untold(name, rules, captures, said, interfaces=TWO, files=None):
    """A run that is refused before anything is written."""
    others = tuple((None if files is None else b"",) * (len(interfaces) - 1))
    parts = {"out": b"", "err": f"pfreplay: {said}\n".encode(), "status": 1, **(files or UNTOUCHED), "others": others}
    return Scene(case_of(name, rules, captures, interfaces), parts)


# The answers of a book

def is_ordered(answer):
    """Whether all packets of an answer are on interfaces of its run, which are several."""
    interfaces = answer.run.interfaces
    return len(interfaces) > 1 and all(each.place < len(interfaces) for each in answer.came)


def scene_of(answer):
    """The run of an answer. Records have their numbers as their microseconds."""
    run, texts = answer.run, answer.texts()
    headers = [capture_header(network=run.link_at(place)) for place in range(len(run.interfaces))]
    captures = list(headers)
    for number, each in enumerate(answer.came):
        captures[each.place] += record(each.second, number, each.frame)
    first, *others = (header + b"".join(bytes.fromhex(texts[number]) for number in answer.packets.get(place, ()))
                      for place, header in enumerate(headers))
    of_rules = [line for line in answer.ending if line.split()[0] in ("filter", "translation", "total")]
    parts = {**committed(len(answer.came)), "verdicts": text_of([each.line for each in answer.came]), "packets": first,
             "others": tuple(others), "counters": text_of(of_rules),
             "states": text_of(answer.ending[len(of_rules):])}
    sizes = [size for _, closed in sorted(answer.closed.items()) for size in closed]
    return Scene(case_of(run.name, run.rules, captures, run.interfaces), parts, sizes=[*sizes, *answer.last])


def of_answers():
    return map(scene_of, filter(is_ordered, place_rows.answers()))


# States on two interfaces

def bindings():
    asked_and_answered = [asked(0), Taken(((1, 0, REPLY),))]
    yield scene("a reply on another interface", "block in\npass out on em0", asked_and_answered,
                ["1 0 out pass rule r=1 t=- s=1 i=em0", "2 1 in pass state r=1 t=- s=1 i=em1"],
                counters=["filter 0 1 0 0", "filter 1 1 2 56", "total 2 2 0 0 0"],
                states=[f"1 17 out {UDP_KEYS} r=1 t=- 2/0/0/0/- 1/0/0/0/- 0 31 1 28 1 28 i=-"], sizes=[290, 132])
    yield scene("a reply on another interface than that of its state", f"{BOUND}block in\npass out on em0",
                asked_and_answered,
                ["1 0 out pass rule r=1 t=- s=1 i=em0", "2 1 in block rule r=0 t=- s=- i=em1"],
                counters=["filter 0 2 1 28", "filter 1 2 1 28", "total 2 1 1 0 0"],
                states=[f"1 17 out {UDP_KEYS} r=1 t=- {FRESH} i=em0"], sizes=[290])
    both = [asked(0), asked(0)]
    yield scene("one connection at one second on two interfaces", f"{BOUND}pass out", both,
                ["1 0 out pass rule r=0 t=- s=1 i=em0", "2 0 out pass rule r=0 t=- s=2 i=em1"],
                counters=["filter 0 2 2 56", "total 2 2 0 0 0"],
                states=[f"1 17 out {UDP_KEYS} r=0 t=- {FRESH} i=em0", f"2 17 out {UDP_KEYS} r=0 t=- {FRESH} i=em1"],
                sizes=[532])
    yield scene("a state for all behind one that is bound", "pass out on em0 keep state (if-bound)\npass out on em1", both,
                ["1 0 out pass rule r=0 t=- s=1 i=em0", "2 0 out block state-insert r=1 t=- s=- i=em1"],
                counters=["filter 0 2 1 28", "filter 1 2 0 0", "total 2 1 1 0 0"],
                states=[f"1 17 out {UDP_KEYS} r=0 t=- {FRESH} i=em0"], sizes=[290])


def names_in_messages():
    """INS names the interface that made the state. The IP header has the address of the first one."""
    replies = Taken(((1, 0, REPLY),)), Taken(((2, 0, REPLY),))
    captures = [asked(0)._replace(records=asked(0).records + replies[0].records),
                asked(0)._replace(records=asked(0).records + replies[1].records)]
    yield scene("messages that name two interfaces", f"{BOUND}block in\npass out", captures,
                ["1 0 out pass rule r=1 t=- s=1 i=em0", "2 0 out pass rule r=1 t=- s=2 i=em1",
                 "3 1 in pass state r=1 t=- s=1 i=em0", "4 2 in pass state r=1 t=- s=2 i=em1"],
                sizes=[532, 132, 132], last=({"INS": [1, 2]}, {"UPD_C": [1]}, {"UPD_C": [2]}),
                # a message has 20 bytes of an IP header, 20 of its own and 4 before its first record
                octets=((0, 12, "c0000201"), (0, 44, "0000000000000001" + "656d30" + "00" * 13),
                        (0, 44 + 242, "0000000000000002" + "656d31" + "00" * 13), (1, 12, "c0000201"), (2, 12, "c0000201")))


# The order of records

def lines_of(*came):
    """Lines of packets that all go out: of each the clock and the place of the interface."""
    return [f"{number} {clock} {OUT} i=em{place}" for number, (clock, place) in enumerate(came, 1)]


def orders():
    yield scene("seconds that go back on one of two interfaces", PASSING, [asked(5, 1), asked(5, 6)],
                lines_of((5, 0), (5, 0), (5, 1), (6, 1)))
    yield scene("seconds that go back behind those of the other interface", PASSING, [asked(5, 6), asked(7, 1)],
                lines_of((5, 0), (6, 0), (7, 1), (7, 1)))
    small, fine = ((5, count, ASKED) for count in (1, 2)), ((5, count, ASKED) for count in (999, 1000, 2001))
    yield scene("microseconds beside nanoseconds", PASSING, [Taken(tuple(small)), Taken(tuple(fine), magic=NANOSECONDS)],
                lines_of((5, 1), (5, 0), (5, 1), (5, 0), (5, 1)))
    yield scene("microseconds past a second", PASSING, [Taken(((5, 2000000, ASKED),)), asked(6)], lines_of((5, 0), (6, 1)))
    yield scene("nanoseconds past a second, and the greatest fraction", PASSING,
                [Taken(((5, 2**32 - 1, ASKED), (6, 0, ASKED))), Taken(((5, 2**32 - 1, ASKED), (6, 0, ASKED)), magic=NANOSECONDS)],
                lines_of((5, 1), (5, 0), (6, 0), (6, 1)))
    yield scene("records of one time on three interfaces", PASSING, [asked(1, 1, 3), asked(0, 1), asked(1, 3)],
                lines_of((0, 1), (1, 0), (1, 0), (1, 1), (1, 2), (3, 0), (3, 2)), interfaces=THREE)
    yield scene("captures of both byte orders", PASSING, [asked(1, 3, order=">"), asked(2, 4)],
                lines_of((1, 0), (2, 1), (3, 0), (4, 1)))
    yield scene("one packet on the second interface", PASSING, [asked(), asked(1)], lines_of((1, 1)))
    yield scene("two empty captures", "pass", [asked(), asked()], [], counters=["filter 0 0 0 0", "total 0 0 0 0 0"],
                states=[], sizes=[])


# Captures that end early

def cuts():
    yield scene("the second capture is cut", PASSING, [asked(1, 2, 5), asked(2, behind=cut(3))],
                lines_of((1, 0), (2, 0), (2, 1), (5, 0)), committed(4, ", cut"),
                counters=["filter 0 4 0 0", "filter 1 4 4 112", "total 4 4 0 0 0"], states=[])
    yield scene("the first capture is cut", PASSING, [asked(1, behind=cut(28)), asked(2)], lines_of((1, 0), (2, 1)),
                committed(2, ", cut"))
    yield scene("both captures are cut in a record's header", PASSING,
                [asked(2, behind=cut(29)), asked(1, behind=cut(43))], lines_of((1, 1), (2, 0)), committed(2, ", cut"))
    yield scene("a capture that is cut before its first record", PASSING, [asked(behind=cut(1)), asked(1, 2)],
                lines_of((1, 1), (2, 1)), committed(2, ", cut"))


def told(name, count, captured=TOO_LONG):
    return refused(f"capture {name}: record too long {captured}, committed {count}")


def long_records():
    end = too_long()
    yield scene("a record too long in the second capture", PASSING, [asked(1, 2, 5), asked(2, behind=end)],
                lines_of((1, 0), (2, 0), (2, 1)), told("em1", 3))
    yield scene("a record too long in the first capture", PASSING, [asked(5, behind=end), asked(5, 5)], lines_of((5, 0)),
                told("em0", 1))
    yield scene("a record too long at the beginning of the second capture", PASSING, [asked(5), asked(behind=end)], [],
                told("em1", 0), sizes=[])
    yield scene("records too long at the beginning of both captures", PASSING,
                [asked(behind=end), asked(behind=too_long(2**32 - 1))], [], told("em0", 0))
    yield scene("a record too long in each capture, the second one's first", PASSING,
                [asked(1, 4, behind=end), asked(2, 3, behind=too_long(300000))], lines_of((1, 0), (2, 1), (3, 1)),
                told("em1", 3, 300000))
    yield scene("a capture that is cut, and then a record too long", PASSING,
                [asked(2, 3, behind=end), asked(1, behind=cut(3))], lines_of((1, 1), (2, 0), (3, 0)), told("em0", 3))
    yield scene("a record too long behind seconds that go back", PASSING, [asked(3, 1, behind=end), asked(2, 4)],
                lines_of((2, 1), (3, 0), (3, 0)), told("em0", 3))
    yield scene("a record too long while a message is open", "pass out", [asked(0), asked(0, behind=end)],
                ["1 0 out pass rule r=0 t=- s=1 i=em0", "2 0 out pass state r=0 t=- s=1 i=em1"], told("em1", 2), sizes=[])
    yield scene("a record too long behind a message that is closed", "pass out", [asked(0), asked(1, behind=end)],
                ["1 0 out pass rule r=0 t=- s=1 i=em0", "2 1 out pass state r=0 t=- s=1 i=em1"], told("em1", 2),
                sizes=[290])


def headers():
    """All headers are read before anything is written."""
    good, other = asked(1).bytes(), bytes.fromhex("0a0d0d0a") + asked(1).bytes()[4:]
    for captures, said in (([good, other], "em1: bad magic"), ([other, good], "em0: bad magic"),
                           ([other, good[:23]], "em0: bad magic"), ([good[:23], other], "em0: header cut"),
                           ([good, good[:23]], "em1: header cut"), ([good, b""], "em1: header cut"),
                           ([good, capture_header(major=3)], "em1: bad version"),
                           ([good, capture_header(network=12)], "em1: link type 12"),
                           ([good + too_long(), other], "em1: bad magic")):
        yield untold(f"headers, {said}", PASSING, captures, f"capture {said}", files=EMPTIED)
    yield untold("three headers, of which the last is refused", PASSING, [good, good, other], "capture em2: bad magic", THREE,
                 EMPTIED)


# Texts

TEXTS_REFUSED = (
    ("table <t> { self, !203.0.113.2 }", "line 1: clash"), ("nat on em0 from any to any -> self", "line 1: left out: pool"),
    ("binat on em0 from self to any -> 192.0.2.9", "line 1: left out: pool"),
    ('own = "self"\nnat on em0 from any to any -> $own', "line 2: left out: pool"),
    ("rdr on em1 from any to em0 -> em1:network", "line 1: left out: pool"),
    ("table <t> { %s, self }" % ", ".join(f"10.{place >> 8}.{place & 255}.0/24" for place in range(65535)),
     "line 1: too many"))
TEXTS_TAKEN = (
    ("no binat on em0 from self to any", 0, 1), ("rdr on em0 from any to any -> em1", 0, 1),
    ("pass from { self em1 }", 2, 0), ("pass from self to self", 1, 0), ("pass from em1:network to em0", 1, 0))


def texts():
    """Rulesets that mean something else, or are refused, on two interfaces."""
    captures = [asked(), asked()]
    for text, said in TEXTS_REFUSED:
        yield untold(f"{text[:60]!r} on two interfaces", text, [each.bytes() for each in captures], f"rules {said}")
    for text, rules, translations in TEXTS_TAKEN:
        counters = [*(f"filter {number} 0 0 0" for number in range(rules)),
                    *(f"translation {number} 0 0 0" for number in range(translations)), "total 0 0 0 0 0"]
        yield scene(f"{text!r} on two interfaces", text, captures, [], counters=counters, states=[])


MAKERS = (of_answers, bindings, names_in_messages, orders, cuts, long_records, headers, texts)


def rows():
    for make in MAKERS:
        yield from make()
