"""Runs for the comparison of packet steps: their form, and what is expected of some of them."""

from typing import NamedTuple

from captures.packets import LINKTYPE_RAW, capture_header, record
from expansions.hosts import Interface
from rulesets.tree import Network
from steps.model import STACK
from steps.picks import ZERO_SEED
from steps.replay import job_of

# the one of most runs, and those of a run on several
INTERFACE = Interface("em0", "192.0.2.1", 24)
THREE = (INTERFACE, Interface("em1", "203.0.113.2", 24), Interface("em2", "198.18.0.1", 24))
EIGHT = (*THREE, *(Interface(f"em{place}", f"198.19.{place}.1", 24) for place in range(3, 8)))
INSIDE = (Network(0x0A000000, 8),)


def seed_of(byte):
    """The seed of which each byte is this one."""
    return bytes([byte]) * len(ZERO_SEED)


class Run(NamedTuple):
    """A ruleset, and records: the second and the captured bytes of each. The places are those of the interfaces on which
    they were captured, and 0 for each if there are none; the links are the types of these interfaces, if they differ.
    Only pfreplay takes a seed whose bytes differ. The tap says where packets were captured, the networks that are
    excepted stand beside those of the inside, and the addresses are the link-level ones of interfaces by their places,
    None for one that isn't known."""
    name: str
    rules: str
    records: list
    link: int = LINKTYPE_RAW
    interfaces: tuple = (INTERFACE,)
    inside: tuple = INSIDE
    seed: bytes = ZERO_SEED
    places: tuple = ()
    links: tuple = ()
    tap: str = STACK
    excepted: tuple = ()
    addresses: tuple = ()

    def link_at(self, place):
        """The type of the packets of an interface."""
        return self.links[place] if self.links else self.link

    def job(self):
        """What its packets are evaluated by; a fault of the ruleset refuses it."""
        return job_of(self.rules.encode(), self.interfaces, self.inside, self.seed, self.tap, self.excepted,
                      self.addresses)

    def placed(self):
        """Of each record the second, the captured bytes and the place."""
        places = self.places or (0,) * len(self.records)
        return [(*each, place) for each, place in zip(self.records, places, strict=True)]

    def capture(self):
        """The capture as bytes."""
        return capture_header(network=self.link) + b"".join(record(second, 0, frame) for second, frame in self.records)


class Expected(NamedTuple):
    """A run and what is written out of it: words for each packet as `words_of` gives them; and where they are written,
    the texts of the states, the counters and the verdicts, the numbers of the packets that are written, and by their
    numbers the frames of those that a translation writes into and the bindings of the states, as `binding_words` gives
    them."""
    run: Run
    words: list
    states: str | None = None
    counters: str | None = None
    verdicts: str | None = None
    passed: list | None = None
    written: dict | None = None
    bindings: dict | None = None


def words_of(line):
    """The words of a packet's line for which outcomes are written out: `DIR VERDICT REASON r=R s=S; VISITED; CHANGE`.
    Of a change these are what it is and the number of the state, since the rest stands in the text of the states. Where
    translation has to do with the packet, they are `DIR VERDICT REASON r=R t=T s=S; VISITED VISITED; CHANGE; WRITTEN`:
    visited are rules of the filter and of translation."""
    verdict, visited, change, written = line.split("; ")
    _, _, direction, said, reason, rule, translation, state = verdict.split(" ")
    changed, (rules, translations) = " ".join(change.split(" ")[:2]), visited.split(" ")
    if (translation, translations, written) == ("t=-", "-", "-"):
        return f"{direction} {said} {reason} {rule} {state}; {rules}; {changed}"
    return f"{direction} {said} {reason} {rule} {translation} {state}; {visited}; {changed}; {written}"
