"""Which of the packets that change are causes, and which follow one, as the command `diff` tells it: a second
implementation, written from docs/FORMATS.md, section "What another ruleset changes".

- A packet follows if one before it changes that is of its flow, or that made the state which it met in one of the runs.
- Then its cause is that of the flow, else that of the packet which made the state of OLD, and else that of the packet
  which made the state of NEW. So all packets of a flow that change have one cause, which may be of another flow.
- Each cause has a line, and so has each pair of decisions. What is newly let in comes first. Else causes are ordered by
  their numbers, and pairs by their first packets.
"""

from collections import Counter
from typing import NamedTuple

from changes.decisions import Change
from changes.printed import Cause, Pair

# how a packet comes to follow
BY_FLOW, BY_OLD, BY_NEW = "by its flow", "by the state of OLD", "by the state of NEW"


class Traced(NamedTuple):
    """A packet that changes, the number of its cause, and how it comes to follow that; a cause has its own number and
    follows by nothing."""
    change: Change
    cause: int
    how: str | None

    def follows(self):
        return self.how is not None


def traced(changes):
    """All packets that change, which come in their order, with their causes."""
    of_packets, of_flows, found = {}, {}, []
    for each in changes:
        before = {BY_FLOW: of_flows.get(each.flow.key), BY_OLD: of_packets.get(each.old.met),
                  BY_NEW: of_packets.get(each.new.met)}
        how = next((how for how, cause in before.items() if cause is not None), None)
        cause = each.number if how is None else before[how]
        of_packets[each.number] = of_flows[each.flow.key] = cause
        found.append(Traced(each, cause, how))
    return found


def in_order(lines):
    """Lines about packets by the packets that they name."""
    return sorted(lines, key=lambda line: (not line.change.is_let_in(), line.change.number))


def cause_lines(found):
    following = Counter(each.cause for each in found if each.follows())
    return in_order(Cause(each.change, following[each.change.number]) for each in found if not each.follows())


def pair_lines(found):
    of_pairs = {}
    for each in found:
        of_pairs.setdefault(each.change.pair(), []).append(each)
    return in_order(Pair(packets[0].change, len(packets), len({each.change.flow.key for each in packets}),
                         sum(each.follows() for each in packets)) for packets in of_pairs.values())
