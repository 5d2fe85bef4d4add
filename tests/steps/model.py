"""What one packet comes to in a model of the run with states and translation.

A packet comes on an interface, which has a place, and is looked up for that place. Rules that name an interface are
asked for the name of that one, which is empty at a place behind the last interface.

Which way a packet goes depends on the link-level address of its interface, if that is known: then it goes out if its
frame was sent from this address. Else it goes out if its source is inside: of the networks of the inside and those that
are excepted the one with the longest prefix that holds the source decides. All other packets come in.

Captures are taken at the stack or on the wire. A packet that goes out and was captured on the wire stands behind its
translation. Its state is the one with this key on the wire; for an ICMP error that is the key of the packet that it
embeds. Nothing is written into it, and step 6 is left out: no rule of translation is asked. So a state that it makes
has its key on both sides.

A packet goes through these steps, in this order, until one of them says what becomes of it:

1. One that is no IPv4 packet is skipped (`not-ip`).
2. One of an interface that `set skip on` names passes (`skip-on`).
3. One that is too short is blocked (`short`).
4. A fragment, and an ICMP message that is no echo, is filtered and makes no state. But an ICMP error that embeds the
   connection of a state passes (`state-error`), and leaves the state as it is.
5. One of the connection of a state does to the state what tracking says: where it is accepted it passes (`state`), else it
   is blocked (`state-mismatch`), and maybe the state is removed.
6. Any other may be translated. Where a rule picks from ports and none is free, it is blocked (`nat-exhausted`). A port is
   free if no state has it, wherever that is bound.
7. It passes where the rule that translates it says so (`nat-pass`). Else it is filtered, with the end that it has
   behind its translation, and by the direction in which it came.
   A rule of the filter with `max N` holds only if fewer than N states name it as their rule. In step 4 that isn't asked,
   as the packet makes no state.
8. Where it passes, a state is made if it was translated, or if a rule decides that keeps state. The state is bound to the
   packet's place if its policy is `if-bound`, and to all places if that is `floating`. The policy is that of the rule
   that keeps state; without such a rule it is that of `set state-policy`. The packet is blocked where a state has one
   of both keys on the same side, and their bindings meet (`state-insert`), or else there are as many as there may be
   (`state-limit`).

A packet with IP options that would pass by 4, 5 or 7 may be blocked (`ip-option`), and then changes nothing. It is
where the rule that decides, or by which the state was made, doesn't allow them. It is as well where no rule decides.

Into a packet that passes by a state, or makes one, the inside end is written that it has on the state's other side,
unless it stands behind its translation already.
"""

from typing import NamedTuple

import tracking.model
from captures.frames import Packet
from expansions.model import Ruleset
from steps import translation
from steps.filter import filtered, network_holds
from steps.states import ALL, Entry
from steps.translation import Passage
from tracking.connections import connection, told_connection, tracked_packet

# the verdict of a rule by what it does
VERDICTS = {"pass": "pass", "drop": "block", "return": "return"}
# where captures are taken
STACK, WIRE = "stack", "wire"


class Job(NamedTuple):
    """What all packets of a run are evaluated by: the ruleset, the networks of the inside, the seed, 32 bytes, where
    the captures are taken, the networks that are excepted from the inside, and the link-level addresses of the first
    interfaces by their places, None for one that isn't known."""
    ruleset: Ruleset
    inside: list
    seed: bytes
    tap: str = STACK
    excepted: tuple = ()
    addresses: tuple = ()

    def interfaces(self):
        return self.ruleset.hosts.run.interfaces

    def is_skipped(self, place):
        return self.ruleset.hosts.run.name_at(place) in self.ruleset.options.skipped

    def seconds(self):
        """The timeouts in the order of their codes."""
        return tuple(self.ruleset.options.timeouts.values())

    def policy(self, rule):
        """The policy of a state by the number of its rule of the filter, or None for none."""
        binding = None if rule is None else self.ruleset.rules.filter[rule].binding
        return binding or self.ruleset.options.values["state-policy"]

    def address_at(self, place):
        """The link-level address of the interface at a place, None if it isn't known."""
        return self.addresses[place] if place < len(self.addresses) else None

    def is_inside(self, source):
        """Whether the longest network that holds an address is one of the inside. Of two of one length, which no run of
        pfreplay has, the excepted one decides."""
        every = *((network, False) for network in self.inside), *((network, True) for network in self.excepted)
        holding = [(network.bits, is_excepted) for network, is_excepted in every if network_holds(network, source)]
        _, is_excepted = max(holding, default=(0, True))
        return not is_excepted

    def direction_of(self, packet, place):
        address = self.address_at(place)
        goes_out = self.is_inside(packet.source) if address is None else packet.sender == address
        return "out" if goes_out else "in"

    def is_behind(self, direction):
        """Whether a packet of a direction was captured behind its translation."""
        return self.tap == WIRE and direction == "out"

    def side_of(self, direction):
        """The direction on whose side a packet of a direction is looked up."""
        return "in" if self.is_behind(direction) else direction

    def translation_of(self, packet, place, direction):
        """What the rules of translation say of the first packet of a connection."""
        if self.is_behind(direction):
            return translation.Found(())
        return translation.find(self.ruleset, packet, place, direction)


class Outcome(NamedTuple):
    """What a packet comes to: the words of its line, the numbers of the rules of the filter and of translation that are
    visited, and what it changes in the table: None, or a pair of `made` or `touched` and a state, or of `removed` and a
    number. Where the passage is there, an end is written into the packet by it. Rooms are those of the rules of the
    filter that are asked for it."""
    direction: str
    verdict: str
    reason: str
    rule: int | None = None
    translation: int | None = None
    state: int | None = None
    visited: tuple = ()
    visited_translation: tuple = ()
    change: tuple | None = None
    passage: Passage | None = None
    rooms: tuple = ()

    def lacks_room(self):
        """Whether a rule is visited that would hold, and has no room."""
        return not all(room.is_left for room in self.rooms)


def written(outcome, passage):
    """The outcome of a packet that passes on this passage."""
    return outcome._replace(passage=passage if passage.writes() else None)


class Arrival(NamedTuple):
    """An IPv4 packet that is evaluated: its number, the clock at it, the place of its interface, its bytes and the way it
    goes."""
    job: Job
    number: int
    clock: int
    place: int
    packet: Packet
    datagram: bytes
    direction: str

    def tracked(self):
        return tracked_packet(self.packet, self.datagram, self.direction, self.clock)

    def blocked(self, outcome, reason):
        """The outcome of a packet that would pass, but is blocked."""
        return outcome._replace(verdict="block", reason=reason, change=None, passage=None)

    def unless_options(self, outcome, allowed):
        """The outcome, but that a packet with IP options passes only where they are allowed."""
        if outcome.verdict == "pass" and self.packet.has_options and not allowed:
            return self.blocked(outcome, "ip-option")
        return outcome

    def filtered(self, table):
        """By the filter alone."""
        found = filtered(self.job.ruleset, self.packet, self.place, self.direction, table.has_rule_room)
        rule = None if found.place is None else self.job.ruleset.rules.filter[found.place]
        verdict, reason = ("pass", "default") if rule is None else (VERDICTS[rule.action], "rule")
        outcome = Outcome(self.direction, verdict, reason, found.place, visited=found.visited, rooms=found.rooms)
        return self.unless_options(outcome, rule is not None and rule.allow_opts)

    def by_state(self, entry, verdict, reason, change=None):
        return Outcome(self.direction, verdict, reason, entry.rule, entry.translation, entry.number, change=change)

    def is_behind(self):
        return self.job.is_behind(self.direction)

    def state_with(self, key, table):
        """The state with a key on the side on which the packet was captured."""
        return table.at(self.job.side_of(self.direction), key, self.place)

    def passed_by_state(self, entry, reason, change=None):
        outcome = self.by_state(entry, "pass", reason, change)
        if not self.is_behind():
            outcome = written(outcome, Passage(entry.wire, entry.stack))
        return self.unless_options(outcome, entry.allows_options)

    def followed(self, entry):
        """By the state of its connection."""
        state = tracking.model.touch(entry.state, self.tracked(), self.job.seconds())
        if state is None:
            return self.by_state(entry, "block", "state-mismatch")
        if state == tracking.model.REMOVED:
            return self.by_state(entry, "block", "state-mismatch", ("removed", entry.number))
        return self.passed_by_state(entry, "state", ("touched", entry._replace(state=state)))

    def opened(self, key, table):
        """As the first packet of its connection."""
        found = self.job.translation_of(self.packet, self.place, self.direction)
        passage = translation.passage(found, key, self.direction, self.job.seed, self.number, table)
        if passage is None:
            outcome = Outcome(self.direction, "block", "nat-exhausted")
        else:
            packet = translation.translated(self.packet, self.direction, passage.beyond(self.direction))
            outcome = self._replace(packet=packet).judged(found.rule, passage, table)
        return outcome._replace(translation=found.rule and found.rule.number, visited_translation=found.visited)

    def judged(self, translating, passage, table):
        """As the first packet of its connection, behind its translation by a rule, if one translates it."""
        if translating and translating.passes:
            outcome = self.unless_options(Outcome(self.direction, "pass", "nat-pass"), False)
        else:
            outcome = self.filtered(table)
        rule = None if outcome.rule is None else self.job.ruleset.rules.filter[outcome.rule]
        if outcome.verdict != "pass" or not translating and (rule is None or rule.binding is None):
            return outcome
        binding = self.place if self.job.policy(outcome.rule) == "if-bound" else ALL
        # both keys are asked for, whatever the first answer is
        if any([table.at("in", passage.wire, binding), table.at("out", passage.stack, binding)]):
            return self.blocked(outcome, "state-insert")
        if table.is_full():
            return self.blocked(outcome, "state-limit")
        state = tracking.model.first(self.tracked(), self.job.seconds())
        entry = Entry(self.number, *passage, outcome.rule, translating and translating.number,
                      rule is not None and rule.allow_opts, self.place, binding, state)
        return written(outcome._replace(state=self.number, change=("made", entry)), passage)

    def outcome(self, table):
        told = told_connection(self.packet, self.datagram, self.direction)
        if told:
            entry = self.state_with(told, table)
            if entry:
                return self.passed_by_state(entry, "state-error")
        key = connection(self.packet, self.datagram, self.direction)
        if key is None:
            return self.filtered(table)
        entry = self.state_with(key, table)
        return self.followed(entry) if entry else self.opened(key, table)


def step(job, number, clock, place, seen, datagram, table):
    """What packet `number` comes to at a clock, on the interface of a place, where `seen` is what its record shows. The
    states whose deadline is at most the clock are gone from the table."""
    if seen == "skip":
        return Outcome("-", "skip", "not-ip")
    if job.is_skipped(place):
        return Outcome("-", "pass", "skip-on")
    if seen == "short":
        return Outcome("-", "block", "short")
    return Arrival(job, number, clock, place, seen, datagram, job.direction_of(seen, place)).outcome(table)
