"""Which filter rules of a ruleset are shadowed, and by which: a second implementation, written from docs/FORMATS.md,
section "Rules one by one".

A rule is shadowed by another one that holds wherever it does and comes to decide in its place. That is asked criterion
by criterion, and of one other rule at a time. A rule with `max` may have no room, and then the rule decides itself. So
it shadows none.
"""

from expansions.rules import EVERYWHERE
from rulesets.parts import MOST_BITS
from rulesets.tree import Network
from steps.filter import PORT_SIGNS, host_holds, network_holds

# in a ruleset of more filter rules none is looked for
MOST_RULES = 2048


# At one criterion: what the other rule asks, and what is asked of a rule

def is_as_wide(other, asked):
    """Whether the other one asks nothing, or the same."""
    return other is None or other == asked


def flags_are_as_wide(other, rule):
    """The flags that a rule asks by itself are another criterion than the same ones that are written."""
    return other.flags is None or ((other.flags, other.has_default_flags) == (rule.flags, rule.has_default_flags))


def ports_are_as_wide(other, asked):
    if is_as_wide(other, asked):
        return True
    return asked is not None and asked.sign == "=" and PORT_SIGNS[other.sign](asked.low, other.low, other.high)


def is_same_host(other, asked):
    """A network and a range aren't the same, whatever their numbers."""
    return type(other.what) is type(asked.what) and other == asked


def holds_network(other, network):
    """Whether a host is a network without `!` that holds another one."""
    if other.negated or not isinstance(other.what, Network):
        return False
    return other.what.bits <= network.bits and network_holds(other.what, network.address)


def hosts_are_as_wide(other, asked, tables):
    if other == EVERYWHERE or is_same_host(other, asked):
        return True
    if asked.negated or not isinstance(asked.what, Network):
        return False
    is_address = asked.what.bits == MOST_BITS
    return holds_network(other, asked.what) or is_address and host_holds(other, tables, asked.what.address)


def match_is_as_wide(other, match, tables):
    """What rules and anchors ask alike."""
    return (is_as_wide(other.protocol, match.protocol) and is_as_wide(other.interface, match.interface)
            and is_as_wide(other.icmp, match.icmp)
            and ports_are_as_wide(other.source_port, match.source_port)
            and ports_are_as_wide(other.destination_port, match.destination_port)
            and hosts_are_as_wide(other.source, match.source, tables)
            and hosts_are_as_wide(other.destination, match.destination, tables))


def asks_no_more(other, rule, tables):
    """Whether the other rule holds wherever the rule does, as far as both are written, and always has room."""
    return (other.most is None and is_as_wide(other.direction, rule.direction)
            and match_is_as_wide(other.match, rule.match, tables) and flags_are_as_wide(other, rule))


# Where both stand

def stands_well(other, rule):
    """Whether the other rule stands in no anchor, or in just those of the rule."""
    return other.anchors in ((), rule.anchors)


def is_in_quick_anchors(rules, other, rule):
    """Whether the other rule stands in each quick anchor in which the rule does."""
    return all(anchor in other.anchors for anchor in rule.anchors if rules.anchors[anchor].quick)


def rivals(rules, number):
    """The rules that come to decide in the place of one, if they hold where it does, by their numbers."""
    rule = rules.filter[number]
    for place, other in enumerate(rules.filter[:number]):
        if other.quick and stands_well(other, rule):
            yield place
    if not rule.quick:
        for place, other in enumerate(rules.filter[number + 1:], number + 1):
            if stands_well(other, rule) and is_in_quick_anchors(rules, other, rule):
                yield place


def shadow_of(ruleset, number):
    """The least number of a rule by which one is shadowed, None if it isn't."""
    rules, tables = ruleset.rules, ruleset.hosts.tables
    return next((place for place in rivals(rules, number)
                 if asks_no_more(rules.filter[place], rules.filter[number], tables)), None)


def shadows_of(ruleset):
    """The same of each filter rule, by their numbers."""
    count = len(ruleset.rules.filter)
    return [shadow_of(ruleset, number) if count <= MOST_RULES else None for number in range(count)]
