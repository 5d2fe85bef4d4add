"""What the verdicts of a run say of each packet, as the models of the command `diff` read them."""

import re
from typing import NamedTuple

LINE = re.compile(r"(\d+) \d+ (in|out|-) ([a-z]+) ([a-z-]+) r=(\d+|-) t=(\d+|-) s=(\d+|-)(?: i=.+)?")


class Said(NamedTuple):
    """A packet: its number, which way it goes, its verdict and its reason, and the numbers of its rules and its state.
    What isn't there is None."""
    number: int
    way: str | None
    verdict: str
    reason: str
    rule: int | None
    translation: int | None
    state: int | None

    def met(self):
        """The number of the state that the packet met, which is that of the packet that made it. One that the packet
        makes itself isn't met."""
        return None if self.state == self.number else self.state


def number_of(word):
    return None if word == "-" else int(word)


def said_in(line):
    number, way, verdict, reason, *others = LINE.fullmatch(line).groups()
    return Said(int(number), None if way == "-" else way, verdict, reason, *map(number_of, others))


def said_by(outcome):
    """What is said of the packets of a run, one by one."""
    return map(said_in, outcome.files.verdicts.decode("latin-1").splitlines())
