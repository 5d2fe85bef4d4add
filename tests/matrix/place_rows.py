"""The scenes on several interfaces: those of the runs that are written by hand, one in which many packets come on three
interfaces, and some in which a read or a write fails.

Without another one the ruleset blocks what comes in, and passes what goes out without a state.
"""

from captures.packets import udp
from matrix.scene import Failing, Scene
from runs import interface_rows
from runs.interface_rows import PASSING, Taken, asked, case_of, lines_of, scene
from steps.run import THREE
from steps.translation_words import H, P

ALL_BATCHES = (1, 2, 256)


def many_packets_on_three_interfaces():
    """More packets than workers are ahead, by turns; of each connection a packet comes on each interface."""
    captures, lines = [], []
    for place in range(3):
        captures.append(Taken(tuple((number, place, udp(H, 1000 + number, P, 53)) for number in range(100))))
    for number in range(100):
        first = 3 * number + 1
        lines += [f"{first} {number} out pass rule r=0 t=- s={first} i=em0",
                  f"{first + 1} {number} out pass state r=0 t=- s={first} i=em1",
                  f"{first + 2} {number} out pass state r=0 t=- s={first} i=em2"]
    yield scene("", "pass out", captures, lines, interfaces=THREE,
                counters=["filter 0 100 300 8400", "total 300 300 0 0 0"])


# Calls that fail

def stopped(name, captures, lines, said, headers=True):
    """What is left of a run that a failing call stops behind these lines; maybe with no headers."""
    end = {"out": b"", "err": f"pfreplay: {said}, committed {len(lines)}\n".encode(), "status": 3, "counters": b"",
           "states": b""}
    left = scene(name, PASSING, captures, lines, end)
    return left if headers else left._replace(parts=left.parts | {"packets": b"", "others": (b"",)})


def a_read_of_one_of_two_captures_fails():
    """The first read gives all bytes that there are, and the next one fails."""
    yield Failing(stopped("the second", [asked(1, 2, 5), asked(2)], lines_of((1, 0), (2, 0), (2, 1)), "read failed: em1"),
                  "capture1", 2, ALL_BATCHES)
    yield Failing(stopped("the first", [asked(1, 3), asked(2, 4)], lines_of((1, 0), (2, 1), (3, 0)), "read failed: em0"),
                  "capture", 2, ALL_BATCHES)
    yield Failing(stopped("the first, behind the end of the second", [asked(1, 5, 9), asked(2)],
                          lines_of((1, 0), (2, 1), (5, 0), (9, 0)), "read failed: em0"), "capture", 2, ALL_BATCHES)
    yield Failing(stopped("the second, behind the end of the first", [asked(1), asked(2, 5, 9)],
                          lines_of((1, 0), (2, 1), (5, 1), (9, 1)), "read failed: em1"), "capture1", 2, ALL_BATCHES)


def a_read_behind_a_header_fails():
    for place, name in enumerate(("capture", "capture1")):
        yield Failing(stopped(f"of {name}", [asked(*[1] * place), asked(*[1] * (1 - place))], [], f"read failed: em{place}"),
                      name, 2, ALL_BATCHES)
    # the reads of both headers come first, and then all fail
    yield Failing(stopped("of both captures", [asked(), asked()], [], "read failed: em0"), "capture", 3, ALL_BATCHES,
                  "onward", True)


def a_read_of_a_header_fails():
    """Nothing is written, not even the header of the first capture."""
    for place, name in enumerate(("capture", "capture1")):
        yield Failing(stopped(f"of {name}", [asked(1), asked(1)], [], f"read failed: em{place}", False), name, 1, ALL_BATCHES)
    yield Failing(stopped("of both captures", [asked(1), asked(1)], [], "read failed: em0", False), "capture", 1, ALL_BATCHES,
                  "onward", True)


def a_write_of_packets_fails():
    """A header is the first write to each file. With batches of two packets each file gets one packet of each batch."""
    captures, lines = [asked(0, 1, 2), asked(0, 1, 2)], lines_of((0, 0), (0, 1), (1, 0), (1, 1), (2, 0), (2, 1))
    header, first, second = captures[0].header(), captures[0].pieces(), captures[1].pieces()
    for file, number, batches, count, packets, other in (
            ("packets", 1, ALL_BATCHES, 0, b"", b""), ("packets1", 1, ALL_BATCHES, 0, header, b""),
            ("packets", 2, (2,), 2, header, header), ("packets1", 2, (2,), 2, header + first[0], header),
            ("packets", 3, (2,), 4, header + first[0], header + second[0]),
            ("packets1", 3, (2,), 4, header + b"".join(first[:2]), header + second[0]),
            ("packets1", 2, (256,), 6, header + b"".join(first), header)):
        committed = 0 if number == 1 or batches == (256,) else count - 2
        parts = {"out": b"", "err": f"pfreplay: write failed: packets, committed {committed}\n".encode(), "status": 3,
                 "verdicts": interface_rows.text_of(lines[:count]), "packets": packets, "others": (other,),
                 "counters": b"", "states": b"", "messages": b""}
        case = case_of(f"number {number} of {file}", PASSING, [taken.bytes() for taken in captures], THREE[:2])
        yield Failing(Scene(case, parts), file, number, batches)


SCENES = (interface_rows.bindings, interface_rows.names_in_messages, interface_rows.orders, interface_rows.cuts,
          interface_rows.long_records, interface_rows.headers, many_packets_on_three_interfaces)
FAILING_SCENES = (a_read_of_one_of_two_captures_fails, a_read_behind_a_header_fails, a_read_of_a_header_fails,
                  a_write_of_packets_fails)
