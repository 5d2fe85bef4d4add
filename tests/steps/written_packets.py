"""What has to hold of each packet that passes in a run, whatever its rules are.

- A checksum that was right in the captured packet is right in the written one. Both are recomputed in full: those of
  the IPv4 header and of TCP, UDP and ICMP, and of the packet that an ICMP error embeds, as far as it is quoted. Only an
  embedded checksum of TCP may be wrong then. A UDP datagram without a checksum has none afterwards.
- A packet of a state has the key of the state's other side, so that what answers it comes to the state. An error embeds
  a packet with the key that it has there.
- A state stays bound as it was made. No two states whose bindings meet have a key in common on one side.
- A port is one of those that the rule picks from, and no state has it, wherever that is bound.
- A packet that was captured behind its translation stays as it is, and visits no rule of translation. A state that it
  makes has one key.
"""

from captures.frames import ICMP, TCP, UDP, datagram_of, view
from captures.packets import checksum
from steps.picks import range_of, walks_range
from tracking.connections import ERRORS, connection, header_length, told_connection

NAMES, SUMS = {TCP: "TCP", UDP: "UDP"}, {TCP: 16, UDP: 6}


# Checksums

def is_right(octets):
    """Whether the sum of these bytes is all ones, their checksum among them."""
    return checksum(octets) == 0


def carries_embedded(segment):
    """Whether an ICMP error holds all that is written into the packet that it embeds: the header, and 8 bytes. One whose
    total length ends before has its checksum mended for more than it is over."""
    return segment[0] not in ERRORS or len(segment) < 9 or len(segment) >= 8 + header_length(segment[8:]) + 8


def transport_sums(datagram, segment, prefix):
    """Which checksums of a whole segment are right, and of what it embeds."""
    protocol, place = datagram[9], SUMS.get(datagram[9], len(segment))
    if protocol == ICMP and len(segment) >= 8:
        if is_right(segment) and carries_embedded(segment):
            yield f"{prefix}ICMP"
        if segment[0] in ERRORS and not prefix:
            yield from right_sums(segment[8:], "embedded ")
    if place + 2 > len(segment):
        return
    if protocol == UDP and segment[place:place + 2] == b"\0\0":
        yield f"{prefix}UDP that isn't there"
    elif is_right(datagram[12:20] + bytes([0, protocol]) + len(segment).to_bytes(2) + segment):
        yield f"{prefix}{NAMES[protocol]}"


def right_sums(datagram, prefix=""):
    """The names of the checksums of a datagram that are right, of those that are over captured bytes alone."""
    if len(datagram) < 20 or len(datagram) < header_length(datagram):
        return
    head, total = header_length(datagram), int.from_bytes(datagram[2:4], "big")
    if is_right(datagram[:head]):
        yield f"{prefix}IPv4"
    is_fragment = int.from_bytes(datagram[6:8], "big") % 16384 != 0
    if not is_fragment and head <= total <= len(datagram):
        yield from transport_sums(datagram, datagram[head:total], prefix)


def spoilt_sums(link, step):
    """The checksums of a packet that were right and aren't as it is written."""
    if step.frame == step.record.frame:
        return []
    before, after = (set(right_sums(datagram_of(link, frame))) for frame in (step.record.frame, step.frame))
    return sorted(before - after - {"embedded TCP"})


# Keys

def key_faults(link, step, entry):
    """What is wrong with a packet that passes by a state, or makes it."""
    direction = step.outcome.direction
    key_in = told_connection if step.outcome.reason == "state-error" else connection
    if key_in(view(link, step.frame), datagram_of(link, step.frame), direction) != (
            entry.stack if direction == "in" else entry.wire):
        yield "it isn't written with the key of its state's other side"


def pick_faults(rules, entry, table):
    """What is wrong with the key on the wire of a state that is made."""
    kind, rule = rules.get(entry.translation, (None, None))
    port = entry.wire.inside[1]
    if kind == "nat" and table.all_at("in", entry.wire):
        yield "its port is taken"
    if kind == "nat" and walks_range(rule, entry.wire.protocol):
        low, high = range_of(rule, entry.wire.protocol)
        if not low <= port <= high:
            yield "its port is outside of the range"
    elif kind in ("nat", "binat") and port != entry.stack.inside[1]:
        yield "its port had to stay"


def is_bound_alike(entry, before):
    return (entry.interface, entry.binding) == (before.interface, before.binding)


def made_faults(rules, entry, table):
    """What is wrong with a state that is made beside those of a table."""
    yield from pick_faults(rules, entry, table)
    if not all(map(entry.stands_beside, table.by_number())):
        yield "its state has the key of another one"


def faults_of(job, rules, link, step, table):
    """What is wrong with a packet of a run of a job; the table is as it was before. `rules` are the kinds and the rules
    of translation by their numbers."""
    outcome = step.outcome
    if job.is_behind(outcome.direction) and (step.frame != step.record.frame or outcome.visited_translation):
        yield "it was captured behind its translation, and is translated"
    yield from (f"its checksum of {name} was right" for name in spoilt_sums(link, step))
    if outcome.verdict != "pass" and step.frame != step.record.frame:
        yield "it doesn't pass and is written otherwise"
    kind, changed = outcome.change or (None, None)
    if kind == "made":
        yield from made_faults(rules, changed, table)
        if job.is_behind(outcome.direction) and changed.wire != changed.stack:
            yield "it was captured behind its translation, and its state has two keys"
    if kind == "touched" and not is_bound_alike(changed, table.entries[changed.number]):
        yield "its state is bound otherwise"
    entry = changed if kind in ("made", "touched") else table.entries.get(outcome.state)
    if outcome.verdict == "pass" and entry:
        yield from key_faults(link, step, entry)
