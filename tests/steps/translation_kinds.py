"""What comes up in runs with translation, by kinds that are counted: what a rule makes of a first packet and what
becomes of it, the packets of translated connections, the errors about them, and rules with `max` that are asked for room."""

from captures.frames import ICMP, TCP, UDP, Packet, datagram_of, view
from steps import translation
from steps.picks import IDENTIFIERS, PORTS, range_of, tried_ports, walks_range
from tracking.connections import connection, told_connection

WAYS = ("nat", "rdr", "binat out", "binat in")
TRANSPORTS, OTHER_TRANSPORT = {TCP: "TCP", UDP: "UDP", ICMP: "an echo"}, "another protocol"
DIRECTIONS = ("in", "out")
# the most ports of a range of few
FEW = 8

# what is counted, by titles
COUNTED = {
    "verdicts": ("pass", "block", "return", "skip"),
    "reasons": ("not-ip", "skip-on", "short", "state-error", "state", "state-mismatch", "rule", "nat-pass", "default",
                "ip-option", "nat-exhausted", "state-insert", "state-limit"),
    "first packets": (
        *(f"{way} of {transport}" for way in WAYS for transport in (*TRANSPORTS.values(), OTHER_TRANSPORT)),
        *(f"translated: {end}" for end in (
            "pass rule", "pass default", "pass nat-pass", "block rule", "return rule", "block ip-option",
            "block state-insert", "block state-limit", "block nat-exhausted")),
        *(f"no {kind} that holds" for kind in ("nat", "rdr", "binat")), "a translation behind a kind that is ended",
        "translated to what stands there", "a state without a rule", "a state by a rule without state"),
    "ports": ("one port", "few ports", "the default ports", "all identifiers", "static-port", "the cut",
              "a port behind the cut", "a port before the cut", "a port that came free", "rdr to the same port",
              "rdr to one port", "rdr to a moved port"),
    "packets of translated connections": (
        *(f"{way}: state, {side}" for way in WAYS for side in ("there", "back")), "translated: state-mismatch",
        "translated: ip-option of a state"),
    "errors about translated connections": (
        *(f"{way}: error {direction} about {transport}" for way in WAYS for direction in DIRECTIONS
          for transport in TRANSPORTS.values()),
        *(f"error {direction} at {own} address" for direction in DIRECTIONS for own in ("the translated", "another"))),
    "rules that are asked for room": (
        *(f"{room}, {state}" for room in ("room", "no room") for state in ("translated", "not translated")),
        "several rules are asked", "a rule behind one without room", "no rule behind one without room"),
}


def range_kind(rule, protocol):
    low, high = found = range_of(rule, protocol)
    if found == PORTS:
        return "the default ports"
    if found == IDENTIFIERS:
        return "all identifiers"
    return "one port" if low == high else "few ports" if high - low < FEW else "many ports"


def rdr_kind(rule):
    if rule.ports is None:
        return "rdr to the same port"
    return "rdr to a moved port" if rule.ports[1] == "*" else "rdr to one port"


def rooms_of(outcome):
    """The kinds of the rules that a packet asks for room."""
    way = "not translated" if outcome.translation is None else "translated"
    yield from (f"{'room' if room.is_left else 'no room'}, {way}" for room in outcome.rooms)
    if len(outcome.rooms) > 1:
        yield "several rules are asked"
    if outcome.lacks_room():
        yield f"{'no' if outcome.rule is None else 'a'} rule behind one without room"


class Kinds:
    """The kinds of the packets of a run, which are asked for before the table takes over what they change."""

    def __init__(self, job, link, table):
        self.job, self.link, self.table = job, link, table
        self.rules = {rule.number: (kind, rule) for kind, rules in job.ruleset.rules.translation.items()
                      for rule in rules}
        # the keys on the wire of all states that were made
        self.wires = set()

    def of(self, step):
        """The kinds of a packet."""
        seen, datagram = view(self.link, step.record.frame), datagram_of(self.link, step.record.frame)
        if not isinstance(seen, Packet) or step.outcome.reason == "skip-on":
            return
        direction = step.outcome.direction
        told, key = told_connection(seen, datagram, direction), connection(seen, datagram, direction)
        side = self.job.side_of(direction)
        entry = self.table.at(side, told or key, step.record.place) if told or key else None
        if entry and entry.translation is not None:
            yield from self.of_error(step.outcome, seen, entry) if told else self.of_state(step.outcome, entry)
        elif key and not entry:
            yield from self.of_first(step, seen, key)

    def way(self, number, direction):
        """How a rule translates the packets of a connection whose first has this direction."""
        kind, _ = self.rules[number]
        return f"binat {direction}" if kind == "binat" else kind

    # Connections

    def of_state(self, outcome, entry):
        if outcome.reason == "state":
            side = "there" if outcome.direction == entry.state.direction else "back"
            yield f"{self.way(entry.translation, entry.state.direction)}: state, {side}"
        elif outcome.reason == "state-mismatch":
            yield "translated: state-mismatch"
        else:
            yield "translated: ip-option of a state"

    def of_error(self, outcome, seen, entry):
        if outcome.reason != "state-error":
            return
        direction, way = outcome.direction, self.way(entry.translation, entry.state.direction)
        yield f"{way}: error {direction} about {TRANSPORTS[entry.wire.protocol]}"
        address, _ = translation.Passage(entry.wire, entry.stack).before(direction)
        own = seen.source if direction == "out" else seen.destination
        yield f"error {direction} at {'the translated' if own == address else 'another'} address"

    # First packets

    def of_first(self, step, seen, key):
        outcome = step.outcome
        place = step.record.place
        found = self.job.translation_of(seen, place, outcome.direction)
        yield from self.of_ended(found, seen, place, outcome.direction)
        if found.rule is None:
            return
        yield f"translated: {outcome.verdict} {outcome.reason}"
        passage = translation.passage(found, key, outcome.direction, self.job.seed, step.number, self.table)
        if passage:
            way = self.way(found.rule.number, outcome.direction)
            yield f"{way} of {TRANSPORTS.get(key.protocol, OTHER_TRANSPORT)}"
            yield from self.of_port(found, key, passage, step.number)
        if outcome.change:
            yield from self.of_made(outcome.change[1], passage)

    def of_ended(self, found, seen, place, direction):
        """Rules that say no."""
        visited = [self.rules[number] for number in found.visited]
        ended = [kind for kind, rule in visited
                 if rule.is_no_rule and translation.rule_holds(self.job.ruleset, kind, rule, seen, place, direction)]
        yield from (f"no {kind} that holds" for kind in ended)
        if ended and found.rule:
            yield "a translation behind a kind that is ended"

    def of_port(self, found, key, passage, number):
        rule, port = found.rule, passage.wire.inside[1]
        if found.kind == "rdr" and key.protocol in (TCP, UDP):
            yield rdr_kind(rule)
        if found.kind != "nat":
            return
        if passage.wire in self.wires:
            yield "a port that came free"
        if walks_range(rule, key.protocol):
            yield range_kind(rule, key.protocol)
            cut = next(iter(tried_ports(rule, key, self.job.seed, number)))
            yield "the cut" if port == cut else f"a port {'behind' if port > cut else 'before'} the cut"
        elif rule.keeps_port:
            yield "static-port"

    def of_made(self, entry, passage):
        self.wires.add(entry.wire)
        if not passage.writes():
            yield "translated to what stands there"
        if entry.rule is None:
            yield "a state without a rule"
        elif self.job.ruleset.rules.filter[entry.rule].binding is None:
            yield "a state by a rule without state"
