"""The lines that the command `diff` prints, as text and as JSON: a second implementation, written from docs/FORMATS.md,
section "What another ruleset changes".

Each kind of line has its words and what its object has, by the names of JSON and in their order. What no packet tried
is told by places: of a rule whether it is of the new ruleset, and its line.
"""

from typing import NamedTuple

from changes.decisions import Change
from listing.model import spelled
from showing.printed import end_object

TEXT, JSON = "text", "json"
RULESETS = ("OLD", "NEW")
FILTER = "filter"


def counted(number, thing):
    """A number of things; of one thing the word has no `s`."""
    return f"{number} {thing}{'' if number == 1 else 's'}"


# What changes

def follow_words(count):
    """How many packets follow, if any do."""
    if count == 0:
        return ""
    return ", 1 follows" if count == 1 else f", {count} follow"


def both_of(change):
    return {"old": change.old.object(), "new": change.new.object()}


class Cause(NamedTuple):
    """A packet that changes, and how many follow it."""
    change: Change
    follow: int

    def text(self):
        return (f"{self.change.flow.words}  {self.change.pair()}  1 packet, first {self.change.number}"
                f"{follow_words(self.follow)}")

    def object(self):
        flow = self.change.flow
        source, destination = (end and end_object(*end) for end in (flow.source, flow.destination))
        return {"kind": "cause", "interface": flow.name, "protocol": flow.protocol, "source": source,
                "destination": destination, **both_of(self.change), "first": self.change.number,
                "follow": self.follow}


class Pair(NamedTuple):
    """The line of a pair of decisions: the first packet that comes to it, the number of its packets and of their flows,
    and the number of packets that follow a cause."""
    change: Change
    packets: int
    flows: int
    follow: int

    def text(self):
        return (f"{self.change.pair()}: {counted(self.packets, 'packet')} in {counted(self.flows, 'flow')}"
                f"{follow_words(self.follow)}")

    def object(self):
        return {"kind": "decisions", **both_of(self.change), "packets": self.packets, "flows": self.flows,
                "follow": self.follow}


# What no packet tried

def places_words(places):
    return ", ".join(f"L{line} of {RULESETS[which]}" for which, line in places)


def places_objects(places):
    return [{"ruleset": RULESETS[which].lower(), "line": line} for which, line in places]


class Unasked(NamedTuple):
    """Rules of a kind that no packet could have asked, and why."""
    kind: str
    places: list
    why: str

    def text(self):
        kind = "" if self.kind == FILTER else f"{self.kind}: "
        return f"not judged: {places_words(self.places)}: {kind}{self.why}"

    def object(self):
        return {"kind": "not asked", "rules": places_objects(self.places), "of": self.kind, "why": self.why}


class Idle(NamedTuple):
    """An option that says nothing about the packets, and why."""
    option: str
    why: str

    def text(self):
        return f"not judged: {self.option}: {self.why}"

    def object(self):
        return {"kind": "not asked", "option": self.option, "why": self.why}


class Unmet(NamedTuple):
    """Rules that no packet met."""
    places: list

    def text(self):
        return f"met by no packet: {places_words(self.places)}"

    def object(self):
        return {"kind": "met by no packet", "rules": places_objects(self.places)}


# All packets

class Unjudged(NamedTuple):
    """How many packets of each kind aren't judged: the name of the kind, the words for one and for several, and the
    number."""
    kinds: list

    def text(self):
        """Nothing if all packets are judged."""
        told = [f"{count} {words[count > 1]}" for _, words, count in self.kinds if count]
        return f"not judged: {', '.join(told)}" if told else ""

    def object(self):
        return {"kind": "not judged", **{name: count for name, _, count in self.kinds}}


class All(NamedTuple):
    """How many packets change, how many there are, how many are causes, how many differences couldn't be asked, and
    whether a capture is cut."""
    changed: int
    packets: int
    causes: int
    differences: int
    is_cut: bool

    def text(self):
        causes = f": {counted(self.causes, 'cause')}" if self.changed else ""
        open_ends = f", {counted(self.differences, 'difference')} not judged" if self.differences else ""
        cut = ", cut" if self.is_cut else ""
        return f"{self.changed} of {counted(self.packets, 'packet')} change{causes}{open_ends}{cut}"

    def object(self):
        return {"kind": "all", "changed": self.changed, "packets": self.packets, "causes": self.causes,
                "differences": self.differences, "capture_cut": self.is_cut}


def printed(form, lines):
    """The bytes of lines in a form."""
    told = [spelled(line.object()) for line in lines] if form == JSON else filter(None, (line.text() for line in lines))
    return "".join(f"{each}\n" for each in told).encode("latin-1")
