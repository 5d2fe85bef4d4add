"""The form of a scene: a run whose outputs are worked out by hand, and the packets that most scenes share."""

from typing import NamedTuple

from captures.packets import capture_header, record
from runs.case import INSIDE, NO_SEED, Case
from runs.message_rows import numbers_of, pieces
from runs.model import FILE

PASSED = ("pass", "skip")


class Scene(NamedTuple):
    """A run, and what is worked out of it: parts of its outcome by their names, the sizes of its messages with their IP
    headers, bytes by the place of the message and the offset in it, and the numbers in the records of each kind of the
    last messages. If a pick of ports leaves a choice, `packets` are all lawful ones."""
    case: Case
    parts: dict
    sizes: list | None = None
    octets: tuple = ()
    last: tuple = ()
    packets: tuple = ()

    def facts(self, outcome):
        """What is worked out and what an outcome has of it, each pair with a title."""
        seen = outcome.parts()
        yield "outcome", self.parts, {name: seen[name] for name in self.parts}
        if self.packets:
            yield "packets", True, seen["packets"] in self.packets
        found = pieces(outcome.files.messages or b"")
        if self.sizes is not None:
            yield "sizes of messages", self.sizes, [len(piece) for piece in found]
        for place, offset, digits in self.octets:
            piece = b"".join(found[place:place + 1])
            length = len(bytes.fromhex(digits))
            yield f"message {place} at {offset}", bytes.fromhex(digits), piece[offset:offset + length]
        if self.last:
            yield "last messages", list(self.last), [numbers_of(piece, FILE) for piece in found[-len(self.last):]]


class Failing(NamedTuple):
    """A scene in which one call fails: the output of which a write fails or the capture, as the judge of faults names
    it, the number of the call, and the sizes of batches with which it fails so. The deed tells if all later ones fail
    too. All captures may be one file, the first one's."""
    scene: Scene
    file: str
    number: int
    batches: tuple
    deed: str = "fail"
    has_one_capture: bool = False


def timed(records):
    """The records as pairs of a second and a packet; one without a second is of second 0."""
    return [each if isinstance(each, tuple) else (0, each) for each in records]


def capture_of(records):
    return capture_header() + b"".join(record(second, 0, packet) for second, packet in timed(records))


def passed_of(records, lines, written):
    """The capture of the packets whose lines say that they are written; some are written with other bytes."""
    frames = {number: written.get(number, packet) for number, (_, packet) in enumerate(timed(records), 1)}
    numbers = [number for number, line in enumerate(lines, 1) if line.split(" ")[3] in PASSED]
    return capture_header() + b"".join(record(timed(records)[number - 1][0], 0, frames[number]) for number in numbers)


def text_of(lines):
    return "".join(f"{line}\n" for line in lines).encode()


def scene(rules, records, lines, counters=None, states=None, written=None, seed=NO_SEED, **more):
    """A whole run of these packets with a line for each of them, and the other texts if they are worked out."""
    case = Case("", rules.encode(), INSIDE, capture_of(records), seed=seed)
    parts = {"out": f"committed {len(timed(records))}\n".encode(), "err": b"", "status": 0, "verdicts": text_of(lines)}
    if not more.get("packets"):
        parts["packets"] = passed_of(records, lines, written or {})
    parts |= {} if counters is None else {"counters": text_of(counters)}
    parts |= {} if states is None else {"states": text_of(states)}
    return Scene(case, parts, **more)
