"""A run over devices in memory, as `run_answers devices` is told it, and what it answers."""

from typing import NamedTuple

from runs.case import INSIDE, Case

OUTPUTS = ("verdicts", "packets", "counters", "states", "messages")


class Limits(NamedTuple):
    """How many bytes a device moves a call at most, and after how many calls one fails; None for neither."""
    most: int | None = None
    calls: int | None = None

    def words(self):
        return " ".join("-" if number is None else str(number) for number in self)


FREE = Limits()


class Scene(NamedTuple):
    """A run: its ruleset, its capture, and the limits of the source and of one output. Its interface and its inside are
    those of the program."""
    name: str
    rules: bytes
    capture: bytes
    batch: int
    workers: int = 0
    source: Limits = FREE
    output: str = OUTPUTS[0]
    sink: Limits = FREE

    def case(self):
        """The run without devices that fail, as the model of the program has it, the same for scenes with the same
        packets."""
        return Case("devices", self.rules, INSIDE, self.capture)

    def script(self):
        return "\n".join((f"rules {self.rules.hex() or '-'}", f"capture {self.capture.hex() or '-'}",
                          f"batch {self.batch}", f"workers {self.workers}", f"source {self.source.words()}",
                          f"sink {self.output} {self.sink.words()}", "end", "")).encode()


class Left(NamedTuple):
    """What a run left: how it ended, and the bytes of its outputs."""
    end: str
    verdicts: bytes = b""
    packets: bytes = b""
    counters: bytes = b""
    states: bytes = b""
    messages: bytes = b""

    def lines(self):
        return [self.end, *(f"{name} {getattr(self, name).hex() or '-'}" for name in OUTPUTS)]

    def files(self):
        return self[1:]


def left_of(lines):
    """What a run left by the lines of its answer; ValueError if they are none. Which packets were evaluated again, as the
    last one tells, depends on the workers."""
    end, *outputs, again = lines
    names, texts = zip(*(line.split(" ") for line in outputs), strict=True)
    if names != OUTPUTS or not again.startswith("again "):
        raise ValueError(f"no answer: {lines}")
    return Left(end, *(b"" if text == "-" else bytes.fromhex(text) for text in texts))
