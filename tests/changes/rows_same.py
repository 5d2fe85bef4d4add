"""Rows in which no packet changes, since the rules say the same, or decide on no packet.

One packet of each goes out, its answer and two others come in, unless it is said otherwise.
"""

from changes.row import NONE_OF_TRAFFIC, TRAFFIC, none, row
from steps.translation_words import ASKED, H

BASE = "block in\npass out"
OF_TABLE = "table <far> {{ {} }}\npass in\nblock in from <far>\npass out"

# by name, two texts whose rules say the same
SAID_ALIKE = {
    "the same text": (BASE, BASE),
    "no rule at all": ("", "# nothing\n"),
    "the order of rules for different ways": (BASE, "pass out\nblock in"),
    "comments and empty lines": (BASE, "# first\n\nblock in # second\n\n\npass out\n"),
    "a continued line": (BASE, "block \\\n  in\npass \\\n  out"),
    "a macro": ("block in on em0\npass out", 'own = "em0"\nblock in on $own\npass out'),
    "a list, and its rules one by one": ("block\npass in proto { tcp, udp } to port { 9, 22 }",
                                         "block\npass in proto tcp to port 9\npass in proto tcp to port 22\n"
                                         "pass in proto udp to port 9\npass in proto udp to port 22"),
    "names and numbers": ("block\npass in proto tcp to port ssh", "block\npass in proto 6 to port 22"),
    "a port, and that port behind a sign": ("block\npass in proto tcp to port 22",
                                            "block\npass in proto tcp to port = 22"),
    "all hosts, any host and nothing": ("block in all\npass out all", "block in\npass out from any to any"),
    "inet without an address": (BASE, "block in inet all\npass out inet all"),
    "an address with all its bits": ("block in\npass out from 10.0.0.5", "block in\npass out from 010.0.0.5/32"),
    "a network by another of its addresses": ("block in\npass out from 10.0.0.0/8",
                                              "block in\npass out from 10.9.9.9/8"),
    "the interface's address": ("block in\npass in to 192.0.2.1 no state\npass out",
                                "block in\npass in to em0 no state\npass out"),
    "the interface's network": ("block in\npass in to 192.0.2.0/24 no state\npass out",
                                "block in\npass in to (em0:network) no state\npass out"),
    "drop": (BASE, "block drop in\npass out"),
    "drop as the policy": (BASE, "set block-policy drop\nblock in\npass out"),
    "return, and return as the policy": ("block return in\npass out", "set block-policy return\nblock in\npass out"),
    "state that is kept anyway": (BASE, "block in\npass out keep state"),
    "states bound to none": (BASE, "block in\npass out keep state (floating)"),
    "states bound by the rule and by the policy": ("block in\npass out keep state (if-bound)",
                                                   "set state-policy if-bound\nblock in\npass out"),
    "any flags, without state": ("block in\npass out no state", "block in\npass out flags any no state"),
    "state options of a rule that blocks": (BASE, "block in keep state (max 5)\npass out"),
    "a letter of flags twice": ("block in\npass out flags S/SA", "block in\npass out flags SS/SAS"),
    "a label in quotes": ("block in label web\npass out", 'block in label "web"\npass out'),
    "log": (BASE, "block in log\npass out log"),
    "an anchor round a rule": (BASE, 'anchor "a" {\nblock in\n}\npass out'),
    "other anchors round the rules": ("anchor in {\nblock in\n}\npass out",
                                      "anchor on em0 {\nanchor {\nblock in\n}\n}\nanchor out quick {\npass out\n}"),
    "an anchor without a rule": (BASE, f'anchor "none"\n{BASE}'),
}
# by name, two texts with rules that don't decide on these packets, or with options that don't matter to them
WITHOUT_EFFECT = {
    "a rule before the one that decides": (BASE, f"pass in\n{BASE}"),
    "a rule for other packets": (BASE, f"{BASE}\npass in proto tcp to port 23"),
    "a rule that is gone": (f"pass in\npass in proto gre\n{BASE}", BASE),
    "a rule behind a quick one": ("block in quick\npass out", "block in quick\npass in\npass out"),
    "a rule that moved past another": (f"pass in proto gre\n{BASE}", f"{BASE}\npass in proto gre"),
    "an option of a rule that doesn't decide": (f"{BASE}\npass in proto gre", f"{BASE}\npass in proto gre label x"),
    "a table that holds the same host": (OF_TABLE.format("198.51.100.0/24"), OF_TABLE.format("198.51.100.7 !10.0.0.5")),
    "settings": (BASE, "set limit states 10\nset timeout { udp.first 10, udp.single 10 }\nset hostid 7\n"
                 f"set skip on lo0\nset loginterface em0\n{BASE}"),
    "a rule that translates nothing": (BASE, f"nat on em1 from any to any -> em0\nrdr to 192.0.2.9 -> {H}\n{BASE}"),
    "a rule that forbids translation": (BASE, f"no nat on em0 from any to any\nno rdr all\nno binat all\n{BASE}"),
}


def said_alike():
    for name, (old, new) in (SAID_ALIKE | WITHOUT_EFFECT).items():
        yield row(name, old, new, TRAFFIC, NONE_OF_TRAFFIC)
        yield row(f"{name}, the other way round", new, old, TRAFFIC, NONE_OF_TRAFFIC)


def by_state():
    """A packet passes by a state in one run, and in the other by the rule that makes such states."""
    short, long = "set timeout udp.first 10\nblock in\npass out", "block in\npass out"
    packets = [(0, ASKED), (20, ASKED), (21, ASKED)]
    yield none("a state that has run out, and one that hasn't", short, long, packets)
    yield none("a state that hasn't run out, and one that has", long, short, packets)
    yield none("a state that has run out in both", short, "set timeout udp.first 5\nblock in\npass out",
               [(0, ASKED), (70, ASKED)])


def rows():
    yield from said_alike()
    yield from by_state()
