"""Rulesets by hand in which rules are shadowed, or just aren't. Each has the reason as its name.

Most rules are written as they are printed. Where two stand alone, the first one is quick unless the order is what is
asked: then the second one is shadowed if the first one asks no more.
"""

from telling.row import ONE, THREE, TWO, Row, told
from telling.rows_counters import counters_of

# the most filter rules among which shadows are looked for
MOST_RULES = 2048
TABLES = ("table <empty>", "table <own> { 10.0.0.0/8, !10.0.0.7 }", "table <same> { 10.0.0.0/8, !10.0.0.7 }")


# Rules as they are printed

def is_rule(line):
    return not line.strip().startswith(("anchor", "}"))


def printed_of(lines, first, marks):
    """The lines with the numbers of rules, the first line's number, and the marks of some rules by their numbers."""
    number = 0
    for place, line in enumerate(lines, first):
        if is_rule(line):
            mark = f"  # shadowed by @{marks[number]}" if number in marks else ""
            yield f"@{number} L{place} {line}{mark}"
            number += 1
        else:
            yield line


def shaded(reason, lines, marks, interfaces=ONE, tables=()):
    """Rules behind tables. The marks say by which rule each is shadowed that is."""
    text = "\n".join((*tables, *lines))
    return Row(reason, text, tuple(printed_of(lines, len(tables) + 1, marks)), interfaces)


def pair(reason, first, second, is_shadowed, interfaces=ONE, tables=()):
    """Two rules, of which the second one is shadowed by the first one, or none is."""
    return shaded(reason, (first, second), {1: 0} if is_shadowed else {}, interfaces, tables)


# The order of rules

QUICK, PLAIN = "block drop quick all", "block drop all"


def order_rows():
    yield shaded("a quick rule before one that isn't", (QUICK, PLAIN), {1: 0})
    yield shaded("a quick rule before a quick one", (QUICK, QUICK), {1: 0})
    yield shaded("a rule before, which isn't quick: the later one decides", (PLAIN, PLAIN), {0: 1})
    yield shaded("a later rule, and a quick one: the quick one stops first", (QUICK, "block drop in all"), {1: 0})
    yield shaded("a quick rule isn't shadowed by a later one", ("block drop in quick all", PLAIN), {})
    yield shaded("nor by a later quick one", ("block drop in quick all", QUICK), {})
    yield shaded("a later rule that is quick", ("block drop in all", QUICK), {0: 1})
    yield shaded("a quick rule that asks more stands between both",
                 ("pass all no state", "block drop in quick all", "block return all"), {0: 2})
    yield shaded("a rule alone", (PLAIN,), {})
    yield shaded("what is done, labels, options and states aren't asked",
                 ('block return quick all allow-opts label "a"', "pass all no state",
                  "pass all flags any keep state (no-sync, if-bound)", "block drop all"), {1: 0, 2: 0, 3: 0})


def room_rows():
    """A rule with `max` may have no room. Then it doesn't hit, and what comes behind it decides."""
    yield pair("a rule with max before one that asks the same", "pass quick all keep state (max 1)",
               "pass all keep state", False)
    yield pair("a rule with max before one with max", "pass quick all keep state (max 1)",
               "pass in all keep state (max 1)", False)
    yield pair("a rule with max, flags any and the most states", "pass quick all flags any keep state (max 4294967295)",
               PLAIN, False)
    yield pair("a rule before one with max", "pass quick all keep state", "pass all keep state (max 1)", True)
    yield shaded("a later rule with max", ("pass all keep state", "pass all keep state (max 1)"), {})
    yield shaded("a later rule with max, and another one behind it",
                 ("pass all keep state", "pass all keep state (max 1)", "pass all keep state"), {0: 2, 1: 2})


def least_rows():
    """N is the least number of several."""
    yield shaded("of two quick ones before the first one", (QUICK, "block return quick all", "pass in all no state"),
                 {1: 0, 2: 0})
    yield shaded("the first one asks more", ("block drop out quick all", "block drop quick proto udp all",
                                             "block return quick proto udp all", "pass in proto udp all no state"),
                 {2: 1, 3: 1})
    yield shaded("of one before and one behind the one before",
                 ("block drop in quick all", "pass in all no state", PLAIN), {1: 0})
    yield shaded("of two behind the nearer one", ("pass in all no state", "block drop in all", "block return all"),
                 {0: 1, 1: 2})
    yield shaded("the nearer one asks more", ("pass in all no state", "block drop out all", "block return all"),
                 {0: 2, 1: 2})
    yield shaded("by one that is shadowed itself", ("block drop in proto tcp all", "block drop in all", PLAIN),
                 {0: 1, 1: 2})
    yield shaded("two rules hold together, and none alone",
                 ("block drop in quick all", "block drop out quick all", PLAIN), {})


# Criteria: the first rule asks nothing, the same, more, something else

DIRECTIONS = (
    ("no direction before one", QUICK, "block drop in all", True),
    ("the same direction", "block drop out quick all", "block drop out all", True),
    ("a direction before none", "block drop in quick all", PLAIN, False),
    ("another direction", "block drop in quick all", "block drop out all", False),
)
FLAGS = (
    ("no flags before written ones", QUICK, "block drop all flags S/SA", True),
    ("no flags before the default", QUICK, "pass all keep state", True),
    ("flags any before written ones", "pass quick all flags any keep state", "pass all flags A/A keep state", True),
    ("flags any before the default", "pass quick all flags any keep state", "pass all keep state", True),
    ("flags any before none", "pass quick all flags any keep state", PLAIN, True),
    ("no state and no flags before flags any", "pass quick all no state", "pass all flags any keep state", True),
    ("the default before the default", "pass quick all keep state", "pass in all keep state", True),
    ("the default before the same flags, written", "pass quick all keep state", "pass all flags S/SA keep state",
     False),
    ("flags S/SA, written, before the default", "pass quick all flags S/SA keep state", "pass all keep state", False),
    ("the default before flags any", "pass quick all keep state", "pass all flags any keep state", False),
    ("the default before a rule without flags", "pass quick all keep state", PLAIN, False),
    ("the default before a pass rule without a state", "pass quick all keep state", "pass all no state", False),
    ("written flags before the same", "block drop quick all flags S/SA", "pass all flags S/SA no state", True),
    ("written flags before none", "block drop quick all flags S/SA", PLAIN, False),
    ("other flags", "block drop quick all flags S/SA", "block drop all flags A/SA", False),
    # each packet with SYN alone of these four has SYN alone of the two, and still the criteria aren't the same
    ("fewer flags are looked at", "block drop quick all flags S/SA", "block drop all flags S/FSRA", False),
)
PROTOCOLS = (
    ("no protocol before one", QUICK, "block drop proto tcp all", True),
    ("the same protocol", "block drop quick proto 89 all", "block drop proto 89 all", True),
    ("a protocol before none", "block drop quick proto tcp all", PLAIN, False),
    ("another protocol", "block drop quick proto tcp all", "block drop proto udp all", False),
    # packets of the same transport alone hold, but that isn't one criterion
    ("ICMP before a type of ICMP", "block drop quick proto icmp all", "block drop all icmp-type echoreq", False),
    ("no protocol, with the same type", "block drop quick all icmp-type echoreq",
     "block drop proto icmp all icmp-type echoreq", True),
)
INTERFACES = (
    ("no interface before one", QUICK, "block drop on em0 all", True),
    ("no interface before one with !", QUICK, "block drop on ! em0 all", True),
    ("the same interface", "block drop quick on em0 all", "block drop on em0 all", True),
    ("the same interface with !", "block drop quick on ! em0 all", "block drop on ! em0 all", True),
    ("an interface before none", "block drop quick on em0 all", PLAIN, False),
    ("another interface", "block drop quick on em0 all", "block drop on em1 all", False),
    ("an interface, and the same with !", "block drop quick on em0 all", "block drop on ! em0 all", False),
    # em0 isn't em1, and still the criteria aren't the same
    ("an interface with !, and another one", "block drop quick on ! em1 all", "block drop on em0 all", False),
    ("an interface that the run doesn't have", "block drop quick on lo0 all", "block drop on lo0 all", True),
)
TYPES = (
    ("no type before one", QUICK, "block drop all icmp-type echoreq", True),
    ("no type before one with a code", QUICK, "block drop all icmp-type unreach code 4", True),
    ("the same type", "block drop quick all icmp-type echoreq", "block drop all icmp-type echoreq", True),
    ("the same type and code", "block drop quick all icmp-type unreach code 4",
     "block drop all icmp-type unreach code 4", True),
    ("a type before none", "block drop quick all icmp-type echoreq", PLAIN, False),
    ("another type", "block drop quick all icmp-type echoreq", "block drop all icmp-type echorep", False),
    ("a code before none", "block drop quick all icmp-type unreach code 4", "block drop all icmp-type unreach", False),
    ("another code", "block drop quick all icmp-type unreach code 4", "block drop all icmp-type unreach code 3", False),
    # a type and its code are one criterion, of which the code isn't left out
    ("a type before the same with a code", "block drop quick all icmp-type unreach",
     "block drop all icmp-type unreach code 4", False),
)


def criteria_rows():
    for group in (DIRECTIONS, FLAGS, PROTOCOLS, INTERFACES, TYPES):
        yield from (pair(*each) for each in group)
    yield pair("less at one criterion and more at another", "block drop quick proto tcp all", "block drop in all",
               False)
    yield pair("less at each criterion", "block drop quick all",
               "pass in on em0 inet proto tcp from 10.0.0.1 port = 1 to 10.0.0.2 port = 2 flags S/SA no state", True)
    yield pair("the same at each criterion",
               "pass in quick on em0 inet proto tcp from 10.0.0.1 port = 1 to 10.0.0.2 port = 2 flags S/SA no state",
               "pass in on em0 inet proto tcp from 10.0.0.1 port = 1 to 10.0.0.2 port = 2 flags S/SA no state", True)


# Ports: what the first rule asks, what the second one asks, and whether that is shadowed

PORTS = (
    (None, "= 80", True), (None, "!= 80", True), (None, "80:90", True), ("= 80", None, False), ("!= 80", None, False),
    ("0:65535", None, False),
    # one port, which is among those of the first rule or isn't
    ("= 80", "= 80", True), ("= 80", "= 81", False), ("!= 80", "= 81", True), ("!= 80", "= 80", False),
    ("< 80", "= 79", True), ("< 80", "= 80", False), ("<= 80", "= 80", True), ("<= 80", "= 81", False),
    ("> 80", "= 81", True), ("> 80", "= 80", False), (">= 80", "= 80", True), (">= 80", "= 79", False),
    ("80:90", "= 80", True), ("80:90", "= 90", True), ("80:90", "= 79", False), ("80:90", "= 91", False),
    ("80 >< 90", "= 81", True), ("80 >< 90", "= 89", True), ("80 >< 90", "= 80", False), ("80 >< 90", "= 90", False),
    ("80 <> 90", "= 79", True), ("80 <> 90", "= 91", True), ("80 <> 90", "= 80", False), ("80 <> 90", "= 90", False),
    ("80:80", "= 80", True), ("0:65535", "= 0", True), ("90 >< 80", "= 85", False), ("90 <> 80", "= 85", True),
    # what has other signs isn't one port, also where all of its ports are held
    ("!= 80", "!= 80", True), ("!= 80", "!= 81", False), ("80:90", "80:90", True), ("80:90", "81:89", False),
    ("= 80", "80:80", False), ("80:90", "80:80", False), ("< 80", "< 79", False), ("<= 79", "< 80", False),
    ("80 >< 90", "80 >< 90", True), ("80:90", "80 >< 90", False), ("0:65535", "!= 80", False),
)


def port_words(ports):
    return "" if ports is None else f" port {ports}"


def port_rule(words, source, destination):
    """A rule that asks for ports of either end, or for none."""
    hosts = "all" if source is None and destination is None else (
        f"from any{port_words(source)} to any{port_words(destination)}")
    return f"{words} {hosts}"


def port_rows():
    for first, second, is_shadowed in PORTS:
        name = f"port {first or 'any'} before {second or 'any'}"
        yield pair(f"source {name}", port_rule("block drop quick", first, None), port_rule("block drop", second, None),
                   is_shadowed)
        yield pair(f"destination {name}", port_rule("block drop quick", None, first),
                   port_rule("block drop", None, second), is_shadowed)
    yield pair("the same port of the other end", "block drop quick from any port = 80 to any",
               "block drop from any to any port = 80", False)
    yield pair("a port of one end, and one of both", "block drop quick from any port < 81 to any",
               "block drop from any port = 80 to any port = 80", True)
    yield pair("ports of both ends, and one of one", "block drop quick from any port < 81 to any port = 80",
               "block drop from any port = 80 to any", False)


# Hosts of the first rule and of the second one, and whether that is shadowed

HOSTS = (
    ("any", "10.0.0.1", True), ("any", "10.0.0.0/8", True), ("any", "! 10.0.0.1", True), ("any", "<own>", True),
    ("any", "! any", True), ("any", "10.0.0.1 - 10.0.0.9", True), ("10.0.0.1", "any", False),
    ("0.0.0.0/0", "any", False), ("! any", "any", False), ("! any", "! any", True), ("! any", "10.0.0.1", False),
    ("<own>", "any", False),
    # networks in networks
    ("10.0.0.0/8", "10.0.0.0/8", True), ("10.0.0.0/8", "10.1.0.0/16", True), ("10.1.0.0/16", "10.0.0.0/8", False),
    ("10.0.0.0/8", "11.0.0.0/8", False), ("10.0.0.0/8", "10.255.255.254/31", True), ("0.0.0.0/0", "10.0.0.0/8", True),
    ("10.0.0.0/9", "10.128.0.0/9", False), ("10.0.0.0/16", "10.0.0.0/8", False), ("! 10.0.0.0/8", "! 10.0.0.0/8", True),
    ("! 10.1.0.0/16", "! 10.0.0.0/8", False), ("! 10.0.0.0/8", "11.0.0.0/8", False),
    ("10.0.0.0/8", "! 10.0.0.0/8", False), ("! 10.0.0.0/8", "10.0.0.0/8", False),
    # a network isn't looked for in ranges and tables
    ("10.0.0.0 - 10.255.255.255", "10.0.0.0/8", False), ("<own>", "10.1.0.0/16", False),
    ("! <empty>", "10.0.0.0/8", False),
    # single addresses
    ("10.0.0.1", "10.0.0.1", True), ("10.0.0.1", "10.0.0.2", False), ("10.0.0.0/8", "10.0.0.1", True),
    ("10.0.0.0/31", "10.0.0.2", False), ("! 10.0.0.1", "10.0.0.2", True), ("! 10.0.0.1", "10.0.0.1", False),
    ("! 10.0.0.0/8", "11.0.0.1", True), ("! 10.0.0.0/8", "10.0.0.1", False), ("10.0.0.1 - 10.0.0.9", "10.0.0.1", True),
    ("10.0.0.1 - 10.0.0.9", "10.0.0.9", True), ("10.0.0.1 - 10.0.0.9", "10.0.0.10", False),
    ("! 10.0.0.1 - 10.0.0.9", "10.0.0.10", True), ("! 10.0.0.1 - 10.0.0.9", "10.0.0.5", False),
    ("10.0.0.1 - 10.0.0.1", "10.0.0.1", True), ("10.0.0.1", "10.0.0.0/31", False),
    ("! 10.0.0.1", "! 10.0.0.1", True), ("10.0.0.0/8", "! 10.0.0.1", False), ("! 10.0.0.2", "! 10.0.0.1", False),
    # in tables the entry with the most bits decides
    ("<own>", "10.0.0.1", True), ("<own>", "10.0.0.7", False), ("<own>", "11.0.0.1", False),
    ("! <own>", "10.0.0.7", True), ("! <own>", "11.0.0.1", True), ("! <own>", "10.0.0.1", False),
    ("<empty>", "10.0.0.1", False), ("! <empty>", "10.0.0.1", True), ("<own>", "<own>", True),
    ("! <own>", "! <own>", True), ("<own>", "! <own>", False),
    # tables are the same by their names, and not by their entries
    ("<own>", "<same>", False), ("10.0.0.0/8", "<own>", False), ("! <empty>", "<own>", False),
    # ranges are the same alone
    ("10.0.0.1 - 10.0.0.9", "10.0.0.1 - 10.0.0.9", True), ("10.0.0.1 - 10.0.0.9", "10.0.0.2 - 10.0.0.8", False),
    ("10.0.0.0/8", "10.0.0.1 - 10.0.0.9", False), ("10.0.0.0 - 10.0.0.255", "10.0.0.0/24", False),
    # the same two numbers, once as an address with bits, and once as two addresses
    ("0.0.0.0 - 0.0.0.8", "0.0.0.0/8", False), ("0.0.0.0/8", "0.0.0.0 - 0.0.0.8", False),
)


def host_rule(words, source, destination):
    """A rule that asks for hosts of either end."""
    if (source, destination) == ("any", "any"):
        return f"{words} all"
    inet = " inet" if any(part[:1].isdigit() for host in (source, destination) for part in host.split(" ")) else ""
    return f"{words}{inet} from {source} to {destination}"


def host_rows():
    for first, second, is_shadowed in HOSTS:
        yield pair(f"from {first} before {second}", host_rule("block drop quick", first, "any"),
                   host_rule("block drop", second, "any"), is_shadowed, tables=TABLES)
        yield pair(f"to {first} before {second}", host_rule("block drop quick", "any", first),
                   host_rule("block drop", "any", second), is_shadowed, tables=TABLES)
    yield pair("the same host at the other end", "block drop quick inet from 10.0.0.1 to any",
               "block drop inet from any to 10.0.0.1", False)
    yield pair("a host of one end, and hosts of both", "block drop quick inet from 10.0.0.0/8 to any",
               "block drop inet from 10.1.0.0/16 to 10.0.0.1", True)


# One interface is an address by `self`, and several are a table
OWN_HOSTS = (
    ("self", "192.0.2.1", True), ("self", "203.0.113.2", True), ("self", "192.0.2.2", False), ("self", "self", True),
    ("! self", "! self", True), ("! self", "192.0.2.2", True), ("! self", "203.0.113.2", False), ("any", "self", True),
    ("self", "any", False), ("192.0.2.0/24", "self", False), ("self", "! self", False), ("self", "192.0.2.0/24", False),
)


def own_rows():
    for first, second, is_shadowed in OWN_HOSTS:
        yield pair(f"from {first} before {second}, of two interfaces", host_rule("block drop quick", first, "any"),
                   host_rule("block drop", second, "any"), is_shadowed, TWO)
    yield told("block quick from self\nblock from em0\nblock to self",
               "@0 L1 block drop quick inet from 192.0.2.1 to any",
               "@1 L2 block drop inet from 192.0.2.1 to any  # shadowed by @0",
               "@2 L3 block drop inet from any to 192.0.2.1")
    yield told("block quick from em0:network\nblock from self", "@0 L1 block drop quick inet from 192.0.2.0/24 to any",
               "@1 L2 block drop inet from 192.0.2.1 to any  # shadowed by @0")
    yield shaded("the addresses of three interfaces",
                 ("block drop inet from 198.18.0.1 to any", "block drop from self to any",
                  "block drop inet from 198.18.0.2 to any", "block drop from ! self to any"), {0: 1, 2: 3}, THREE)


# Anchors

def anchor_rows():
    """The other rule stands in no anchor, or in just those of the rule."""
    yield shaded("a quick rule in no anchor, before one in an anchor",
                 (QUICK, "anchor in all {", "  block drop all", "}"), {1: 0})
    yield shaded("a later rule in no anchor", ("anchor in all {", "  block drop all", "}", PLAIN), {0: 1})
    yield shaded("a quick rule in the same anchor",
                 ("anchor in all {", "  block drop quick all", "  block drop all", "}"), {1: 0})
    yield shaded("a later rule in the same anchor",
                 ("anchor in all {", "  block drop all", "  block drop all", "}"), {0: 1})
    yield shaded("a rule in another anchor that asks the same",
                 ("anchor all {", "  block drop quick all", "}", "anchor all {", "  block drop all", "}"), {})
    yield shaded("a later rule in another anchor", ("anchor all {", "  block drop all", "}", "anchor all {",
                                                    "  block drop all", "}"), {})
    yield shaded("a rule in an anchor before one in none", ("anchor all {", "  block drop quick all", "}", PLAIN), {})
    yield shaded("a rule in an anchor behind one in none", (PLAIN, "anchor all {", "  block drop all", "}"), {})
    yield shaded("a rule in the outer one of two anchors",
                 ("anchor all {", "  block drop quick all", "  anchor all {", "    block drop all", "  }", "}"), {})
    yield shaded("a rule in the inner one of two anchors",
                 ("anchor all {", "  anchor all {", "    block drop quick all", "  }", "  block drop all", "}"), {})
    yield shaded("a rule behind an inner anchor, in the same",
                 ("anchor all {", "  block drop in all", "  anchor all {", "    block drop all", "  }",
                  "  block drop all", "}"), {0: 2})
    yield shaded("what the anchor asks isn't asked by the rule",
                 ("block drop in quick all", "anchor in all {", "  block drop all", "}"), {})


def quick_anchor_rows():
    """A rule in a quick anchor isn't shadowed by one behind the anchor."""
    yield shaded("a quick anchor, with the other rule behind it",
                 ("anchor quick all {", "  block drop all", "}", PLAIN), {})
    yield shaded("a quick anchor, with the other rule in it",
                 ("anchor quick all {", "  block drop all", "  block drop all", "}"), {0: 1})
    yield shaded("a quick anchor, with rules in it and behind it",
                 ("anchor quick all {", "  block drop in all", "  block drop all", "}", PLAIN), {0: 1})
    yield shaded("a quick rule before a quick anchor", (QUICK, "anchor quick all {", "  block drop all", "}"), {1: 0})
    yield shaded("a rule before a quick anchor, which isn't quick",
                 (PLAIN, "anchor quick all {", "  block drop all", "}"), {})
    yield shaded("a quick anchor round another one",
                 ("anchor quick all {", "  anchor all {", "    block drop in all", "    block drop all", "  }", "}",
                  PLAIN), {0: 1})
    yield shaded("a quick anchor in another one",
                 ("anchor all {", "  anchor quick all {", "    block drop all", "  }", "  block drop all", "}", PLAIN),
                 {1: 2})
    yield shaded("a rule in no anchor, and a quick anchor beside that of the rule",
                 ("anchor all {", "  block drop all", "}", "anchor quick all {", "  block drop all", "}", PLAIN),
                 {0: 2})
    yield shaded("a quick rule in a quick anchor",
                 ("anchor quick all {", "  block drop in quick all", "  block drop all", "}"), {})


# Lists, translation and the lines of texts

def list_rows():
    yield told("block quick proto { tcp udp }\npass in proto { udp icmp tcp } no state",
               "@0 L1 block drop quick proto tcp all", "@1 L1 block drop quick proto udp all",
               "@2 L2 pass in proto udp all no state  # shadowed by @1", "@3 L2 pass in proto icmp all no state",
               "@4 L2 pass in proto tcp all no state  # shadowed by @0")
    yield told("block from { 10.0.0.1, 10.0.0.0/8, 10.0.0.1 }",
               "@0 L1 block drop inet from 10.0.0.1 to any  # shadowed by @1",
               "@1 L1 block drop inet from 10.0.0.0/8 to any", "@2 L1 block drop inet from 10.0.0.1 to any")
    yield told("block quick to port { 80, 80, 70:90 }\nblock to port { 75 80 95 }",
               "@0 L1 block drop quick from any to any port = 80",
               "@1 L1 block drop quick from any to any port = 80  # shadowed by @0",
               "@2 L1 block drop quick from any to any port 70:90",
               "@3 L2 block drop from any to any port = 75  # shadowed by @2",
               "@4 L2 block drop from any to any port = 80  # shadowed by @0",
               "@5 L2 block drop from any to any port = 95")
    yield told("anchor on { em0 em0 } {\nblock in\nblock\n}", "anchor on em0 all {",
               "@0 L2   block drop in all  # shadowed by @1", "@1 L3   block drop all", "}", "anchor on em0 all {",
               "@2 L2   block drop in all  # shadowed by @3", "@3 L3   block drop all", "}")
    # flags are the same in whichever order they are written, and networks whatever stands behind their bits
    yield told("block quick from 10.9.9.9/8 flags AS/FSA\npass from 10.0.0.0/8 flags SA/SAF",
               "@0 L1 block drop quick inet from 10.0.0.0/8 to any flags SA/FSA",
               "@1 L2 pass inet from 10.0.0.0/8 to any flags SA/FSA keep state  # shadowed by @0")
    # rules of translation have no marks, and have numbers of their own
    yield told("nat -> em0\nnat -> em0\nblock\nblock", "@0 L1 nat inet all -> 192.0.2.1",
               "@1 L2 nat inet all -> 192.0.2.1", "@0 L3 block drop all  # shadowed by @1", "@1 L4 block drop all")
    # a label may look like a mark
    yield told('block label "  # shadowed by @7"\nblock label "  # shadowed by @7"',
               '@0 L1 block drop all label "  # shadowed by @7"  # shadowed by @1',
               '@1 L2 block drop all label "  # shadowed by @7"')


# Counters

COUNTED_TEXT = "block quick proto udp\npass in proto udp no state\nblock in proto udp\nblock"
COUNTED = ("@0 L1 block drop quick proto udp all", "@1 L2 pass in proto udp all no state",
           "@2 L3 block drop in proto udp all", "@3 L4 block drop all")


def counter_rows():
    yield Row("marks behind counters", COUNTED_TEXT, (
        f"{COUNTED[0]}  # 9 evaluations, 9 packets, 900 bytes",
        f"{COUNTED[1]}  # 0 evaluations, 0 packets, 0 bytes: counts no packet, shadowed by @0",
        f"{COUNTED[2]}  # 4 evaluations, 3 packets, 90 bytes: shadowed by @0",
        f"{COUNTED[3]}  # 4 evaluations, 0 packets, 0 bytes: counts no packet"),
              counters=counters_of("filter 0 9 9 900", "filter 1 0 0 0", "filter 2 4 3 90", "filter 3 4 0 0",
                                   "total 12 3 9 0 0"))
    yield Row("the same rules without counters", COUNTED_TEXT, (
        COUNTED[0], f"{COUNTED[1]}  # shadowed by @0", f"{COUNTED[2]}  # shadowed by @0", COUNTED[3]))
    yield Row("marks behind counters, with translation", "no nat\nblock\nblock", (
        "@0 L1 no nat all  # 1 evaluations, 0 packets, 0 bytes",
        "@0 L2 block drop all  # 1 evaluations, 0 packets, 0 bytes: counts no packet, shadowed by @1",
        "@1 L3 block drop all  # 1 evaluations, 1 packets, 28 bytes"),
              counters=counters_of("filter 0 1 0 0", "filter 1 1 1 28", "translation 0 1 0 0", "total 1 0 1 0 0"))
    yield Row("marks behind counters, of two interfaces", "block from em1\nblock from self", (
        "@0 L1 block drop inet from 203.0.113.2 to any  # 2 evaluations, 0 packets, 0 bytes: counts no packet, "
        "shadowed by @1",
        "@1 L2 block drop from self to any  # 2 evaluations, 1 packets, 28 bytes"), TWO,
              counters_of("filter 0 2 0 0", "filter 1 2 1 28", "total 2 1 1 0 0"))


# Many rules

def many_rules(count, text="block quick"):
    """As many equal quick rules, of which the first one shadows all others unless they are too many."""
    return "\n".join([text] * count)


def many_printed(count, first=1):
    return tuple(f"@{number} L{number + first} {QUICK}{'  # shadowed by @0' if number and count <= MOST_RULES else ''}"
                 for number in range(count))


def many_rows():
    for count in (MOST_RULES, MOST_RULES + 1):
        yield Row(f"{count} filter rules", many_rules(count), many_printed(count))
    # rules of translation aren't counted
    yield Row(f"{MOST_RULES} filter rules and one of translation", f"no rdr\n{many_rules(MOST_RULES)}",
              ("@0 L1 no rdr all", *many_printed(MOST_RULES, 2)))
    zeros = [f"filter {number} 0 0 0" for number in range(MOST_RULES + 1)]
    yield Row(f"{MOST_RULES + 1} filter rules with counters", many_rules(MOST_RULES + 1), tuple(
        f"{line}  # 0 evaluations, 0 packets, 0 bytes: counts no packet" for line in many_printed(MOST_RULES + 1)),
              counters=counters_of(*zeros, "total 0 0 0 0 0"))


def rows():
    for group in (order_rows, room_rows, least_rows, criteria_rows, port_rows, host_rows, own_rows, anchor_rows,
                  quick_anchor_rows, list_rows, counter_rows, many_rows):
        yield from group()
