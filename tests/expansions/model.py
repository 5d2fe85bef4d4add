"""A model of the expansion of rulesets: from the bytes of a text to its flat rules, or its first fault.

    python3 -m expansions.model FILE [INTERFACE ADDRESS/BITS ..]

in the folder `tests` prints the dump of a text for some interfaces, or `line L: KIND` for its first fault. Without any
it is em0 with 192.0.2.1/24.

The dump has one line for each option, table, rule and anchor, of words with single blanks between them. All numbers
are decimal, addresses are a.b.c.d, and what is in square brackets here is written only where it is so.

    timeout NAME SECONDS      each timeout that has an effect, in their order; then the options that follow
    limit states NUMBER
    block-policy drop|return
    state-policy if-bound|floating
    hostid NUMBER
    skip [NAME ..]            the interfaces as they are written, each as often as it is
    table NAME [ENTRY ..]     the table `self`, whose entries are the addresses of all interfaces, and the others in the
                              order of the text. An entry is [!]a.b.c.d/bits; a table has each once, those with fewer
                              bits first, then those with lesser addresses
    nat N [no] [pass] MATCH [-> a.b.c.d [port P:P] [static-port]] line LINE
    rdr N [no] [pass] MATCH [-> a.b.c.d [port P] or [port P:*]] line LINE
    binat N [no] [pass] MATCH [-> a.b.c.d] line LINE
                              all nat rules, then all rdr rules, then all binat rules; N counts all kinds together
    anchor K [inside K] rules FIRST LAST [in|out] [quick] MATCH
                              before its first rule, an outer one before those inside it. K counts the anchors as they
                              begin, `inside` names the one next round it, FIRST and LAST are numbers of filter rules
    filter N pass|drop|return [in|out] [quick] MATCH [flags SET MASK [default]]
             [state if-bound|floating [no-sync] [max NUMBER]] [allow-opts] line LINE [label BYTES] [anchors K ..]
                              BYTES are those of its label in hexadecimal digits, `-` if it is empty. The anchors
                              round it come from the outermost on

MATCH is `[on [!]NAME] [proto NUMBER] [icmp TYPE [code CODE]] from HOST [port PORT] to HOST [port PORT]`. HOST is [!]
and one of `any`, a.b.c.d/bits, a.b.c.d-a.b.c.d, <NAME>. PORT is =P, !=P, <P, <=P, >P, >=P, P:P, P><P or P<>P.

LINE is where the first word of the rule stands in the text, whose first line is 1. All that lists and anchors make of a
rule has its line and its label.
"""

import sys
from pathlib import Path

sys.dont_write_bytecode = True

from expansions.hosts import Hosts, Run, interface_of
from expansions.options import Options
from expansions.rules import Rules
from expansions.values import Macros
from rulesets.model import tree_of, worded
from rulesets.tree import ANY, Macro, Network, Option, Range, Table
from rulesets.words import Fault


class Ruleset:
    """What a text means for the interfaces of a run."""

    def __init__(self, run):
        self.macros = Macros()
        self.hosts = Hosts(run, self.macros)
        self.options = Options()
        self.rules = Rules(self.hosts, self.options)

    def take(self, statement):
        """Takes a statement; its first fault is raised."""
        faults = []
        if isinstance(statement, Macro):
            self.macros.define(statement)
        elif isinstance(statement, Option):
            faults = self.options.take(statement, self.macros)
        elif isinstance(statement, Table):
            faults = self.hosts.define(statement)
        else:
            faults = self.rules.take(statement)
        if faults:
            raise faults[0]

    def counts(self):
        """The numbers of filter rules and of rules of translation."""
        return len(self.rules.filter), self.rules.translation_count


def expand(text, interfaces, run_of=Run):
    """The Ruleset of the bytes of a text, or ('fault', its line, its kind)."""
    ruleset = Ruleset(run_of(tuple(interfaces)))
    try:
        for statement in tree_of(text):
            ruleset.take(statement)
    except Fault as fault:
        return "fault", fault.line, fault.kind
    return ruleset


# The dump

def dotted(address):
    return ".".join(str(octet) for octet in address.to_bytes(4, "big"))


def network_words(network):
    return f"{dotted(network.address)}/{network.bits}"


def host_words(host):
    if host.what == ANY:
        words = "any"
    elif isinstance(host.what, Network):
        words = network_words(host.what)
    elif isinstance(host.what, Range):
        words = f"{dotted(host.what.first)}-{dotted(host.what.last)}"
    else:
        words = f"<{host.what}>"
    return "!" * host.negated + words


def port_words(port):
    if port.sign in (":", "><", "<>"):
        return f"{port.low}{port.sign}{port.high}"
    return f"{port.sign}{port.low}"


def side_words(side, host, port):
    yield f"{side} {host_words(host)}"
    if port is not None:
        yield f"port {port_words(port)}"


def match_words(match):
    if match.interface is not None:
        yield f"on {'!' * match.interface.negated}{match.interface.name}"
    if match.protocol is not None:
        yield f"proto {match.protocol}"
    if match.icmp is not None:
        yield f"icmp {match.icmp.number}"
        if match.icmp.code is not None:
            yield f"code {match.icmp.code}"
    yield from side_words("from", match.source, match.source_port)
    yield from side_words("to", match.destination, match.destination_port)


def rule_words(number, rule):
    yield f"filter {number} {rule.action}"
    yield from [rule.direction] if rule.direction else []
    yield from ["quick"] if rule.quick else []
    yield from match_words(rule.match)
    if rule.flags is not None:
        yield f"flags {rule.flags[0]} {rule.flags[1]}" + " default" * rule.has_default_flags
    if rule.binding is not None:
        yield f"state {rule.binding}" + " no-sync" * rule.no_sync
        yield from [f"max {rule.most}"] if rule.most is not None else []
    yield from ["allow-opts"] if rule.allow_opts else []
    yield f"line {rule.line}"
    if rule.label is not None:
        yield f"label {rule.label.encode('latin-1').hex() or '-'}"
    yield from ["anchors", *map(str, rule.anchors)] if rule.anchors else []


def anchor_words(number, anchor):
    yield f"anchor {number}"
    yield from [f"inside {anchor.parent}"] if anchor.parent is not None else []
    yield f"rules {anchor.first} {anchor.last}"
    yield from [anchor.direction] if anchor.direction else []
    yield from ["quick"] if anchor.quick else []
    yield from match_words(anchor.match)


def target_ports(kind, ports):
    low, high = ports
    if kind == "nat":
        return f"port {low}:{low if high is None else high}"
    return f"port {low}" if high is None else f"port {low}:{high}"


def translation_words(kind, rule):
    yield f"{kind} {rule.number}"
    yield from ["no"] if rule.is_no_rule else []
    yield from ["pass"] if rule.passes else []
    yield from match_words(rule.match)
    if rule.target is not None:
        yield f"-> {dotted(rule.target.address)}"
    yield from [target_ports(kind, rule.ports)] if rule.ports else []
    yield from ["static-port"] if rule.keeps_port else []
    yield f"line {rule.line}"


def option_lines(options):
    for name, seconds in options.timeouts.items():
        yield f"timeout {name} {seconds}"
    yield f"limit states {options.values['states']}"
    for name in ("block-policy", "state-policy", "hostid"):
        yield f"{name} {options.values[name]}"
    yield " ".join(["skip", *options.skipped])


def table_line(name, entries):
    """A table, whose entries don't clash, so that equal networks have equal signs."""
    distinct = {(entry.network.bits, entry.network.address): entry for entry in entries}
    words = ["!" * entry.negated + network_words(entry.network) for _, entry in sorted(distinct.items())]
    return " ".join([f"table {name}", *words])


def filter_lines(rules):
    """The filter rules, with the anchors that begin at a rule before it."""
    place = 0
    for number, rule in enumerate(rules.filter):
        while place < len(rules.anchors) and rules.anchors[place].first == number:
            yield " ".join(anchor_words(place, rules.anchors[place]))
            place += 1
        yield " ".join(rule_words(number, rule))


def dump(ruleset):
    """The lines of a ruleset."""
    yield from option_lines(ruleset.options)
    for name, entries in ruleset.hosts.tables.items():
        yield table_line(name, entries)
    for kind, rules in ruleset.rules.translation.items():
        for rule in rules:
            yield " ".join(translation_words(kind, rule))
    yield from filter_lines(ruleset.rules)


def main():
    if len(sys.argv) % 2:
        sys.exit(__doc__)
    words = sys.argv[2:] or ["em0", "192.0.2.1/24"]
    answer = expand(Path(sys.argv[1]).read_bytes(), map(interface_of, words[::2], words[1::2]))
    if isinstance(answer, Ruleset):
        print("\n".join(dump(answer)))
    else:
        print(worded(answer))


if __name__ == "__main__":
    main()
