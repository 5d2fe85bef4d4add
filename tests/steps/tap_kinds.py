"""What comes up in runs that are captured on the wire, and in runs with link-level addresses or excepted networks, by
kinds that are counted: packets that go out behind their translation, and what says which way a packet goes."""

from captures.frames import Packet, datagram_of, view
from steps import translation
from steps.filter import network_holds
from tracking.connections import connection, told_connection

# what is counted, by titles
COUNTED = {
    "packets that go out behind their translation": (
        *(f"by a translated state: {end}" for end in ("pass state", "pass state-error", "block state-mismatch",
                                                     "block ip-option")),
        "by a state of one key", "an error about the key on the stack of a translated state",
        "the key on the stack of a translated state", "state-insert beside a translated state", "a state is made",
        "a rule of translation isn't asked", "a fragment", "by a state of another interface",
        "a state on the wire is bound elsewhere"),
    "ways": (
        *(f"by a link address: {direction}, {source}" for direction in ("out", "in") for source in (
            "from the inside", "from the outside")),
        "no link address beside others", "by networks behind the last interface with a link address",
        "in, as an excepted network is longer", "out, as a network of the inside is longer",
        "in, by an excepted network alone"),
}


class TapKinds:
    """The kinds of the packets of a run, which are asked for before the table takes over what they change."""

    def __init__(self, job, link, table):
        self.job, self.link, self.table = job, link, table

    def of(self, step):
        """The kinds of a packet."""
        seen, datagram = view(self.link, step.record.frame), datagram_of(self.link, step.record.frame)
        if not isinstance(seen, Packet) or step.outcome.reason == "skip-on":
            return
        yield from self.of_way(seen, step)
        if self.job.is_behind(step.outcome.direction):
            yield from self.of_behind(seen, datagram, step)

    # Ways

    def of_way(self, seen, step):
        if not self.job.addresses:
            yield from self.of_networks(seen)
        elif self.job.address_at(step.record.place):
            source = "inside" if self.job.is_inside(seen.source) else "outside"
            yield f"by a link address: {step.outcome.direction}, from the {source}"
        elif step.record.place < len(self.job.addresses):
            yield "no link address beside others"
        else:
            yield "by networks behind the last interface with a link address"

    def of_networks(self, seen):
        inside, excepted = ([each for each in networks if network_holds(each, seen.source)]
                            for networks in (self.job.inside, self.job.excepted))
        if excepted and not inside:
            yield "in, by an excepted network alone"
        elif excepted:
            is_inside = self.job.is_inside(seen.source)
            yield "out, as a network of the inside is longer" if is_inside else "in, as an excepted network is longer"

    # Packets that go out behind their translation

    def of_behind(self, seen, datagram, step):
        place = step.record.place
        told, key = told_connection(seen, datagram, "out"), connection(seen, datagram, "out")
        if seen.is_fragment:
            yield "a fragment"
        if not told and not key:
            return
        entry, of_stack = self.table.at("in", told or key, place), self.table.at("out", told or key, place)
        if entry:
            yield from self.of_state(entry, step.outcome, place)
            return
        if self.table.all_at("in", told or key):
            yield "a state on the wire is bound elsewhere"
        if of_stack:
            yield f"{'an error about ' if told else ''}the key on the stack of a translated state"
        if key:
            yield from self.of_first(seen, key, step.outcome, place)

    def of_state(self, entry, outcome, place):
        if entry.wire == entry.stack:
            yield "by a state of one key"
        else:
            yield f"by a translated state: {outcome.verdict} {outcome.reason}"
        if entry.interface != place:
            yield "by a state of another interface"

    def of_first(self, seen, key, outcome, place):
        if translation.find(self.job.ruleset, seen, place, "out").rule:
            yield "a rule of translation isn't asked"
        if outcome.change:
            yield "a state is made"
        others = self.table.all_at("out", key)
        if outcome.reason == "state-insert" and any(entry.wire != entry.stack for entry in others):
            yield "state-insert beside a translated state"
