"""Short rulesets for several interfaces, or for one of another name, with what each of them means: forms of
each, and `self`, which is the addresses of all of them."""

from expansions.cases import EM0
from expansions.hosts import Interface
from expansions.row import ALL, Row, sources_of

EM1, EM2 = Interface("em1", "203.0.113.2", 24), Interface("em2", "198.18.0.1", 24)
ONE, TWO, THREE = (EM0,), (EM0, EM1), (EM0, EM1, EM2)
OWN_TWO, OWN_THREE = "table self 192.0.2.1/32 203.0.113.2/32", "table self 192.0.2.1/32 198.18.0.1/32 203.0.113.2/32"
POOL, CLASH, HOST_NAME = "left out: pool", "clash", "left out: host name"


def on_two(text, *lines):
    """What a text means for two interfaces, behind their table."""
    return Row(text, [OWN_TWO, *lines], TWO)


def fault(text, line, kind, interfaces=TWO):
    return Row(text, f"line {line}: {kind}", interfaces)


RULES = (
    on_two("block from self", *sources_of(1, "<self>")),
    on_two("block from ! self", *sources_of(1, "!<self>")),
    # one rule, however many interfaces there are
    on_two("block from self to self", "filter 0 drop from <self> to <self> line 1"),
    Row("block from self to !self", [OWN_THREE, "filter 0 drop from <self> to !<self> line 1"], THREE),
    on_two("block from { self em1 }", *sources_of(1, "<self>", "203.0.113.2/32")),
    on_two("block from { 10.0.0.1, !self, any }", *sources_of(1, "10.0.0.1/32", "!<self>", "any")),
    on_two('own = "self"\nblock from $own', *sources_of(2, "<self>")),
    on_two('own = "self"\nblock from !$own', *sources_of(2, "!<self>")),
    on_two('own = "{ !self em0 }"\nblock from { 10.0.0.1 $own }',
           *sources_of(2, "10.0.0.1/32", "!<self>", "192.0.2.1/32")),
    # it goes before the tables of the text
    on_two("table <a> { 10.0.0.1 }\ntable <b>\nblock from { <b> self <a> }", "table a 10.0.0.1/32", "table b",
           *sources_of(3, "<b>", "<self>", "<a>")),
    Row("table <a> { 10.0.0.1 }\nblock from { self <a> }",
        ["table a 10.0.0.1/32", *sources_of(2, "192.0.2.1/32", "<a>")]),
    on_two("anchor from self {\nblock to !self\n}", "anchor 0 rules 0 0 from <self> to any",
           "filter 0 drop from any to !<self> line 2 anchors 0"),
    on_two("nat from self to any -> em0", "nat 0 from <self> to any -> 192.0.2.1 line 1"),
    on_two("rdr from any to !self port 80 -> 10.0.0.1", "rdr 0 from any to !<self> port =80 -> 10.0.0.1 line 1"),
    # the options name interfaces that the run may have or not
    on_two("set skip on { em1 em9 }\nblock on { em1 !em9 }", "skip em1 em9", f"filter 0 drop on em1 {ALL} line 2",
           f"filter 1 drop on !em9 {ALL} line 2"),
    # lesser addresses first, and equal ones once
    Row("block from self", ["table self 192.0.2.1/32 203.0.113.2/32", *sources_of(1, "<self>")], (EM1, EM0)),
    Row("block from self", ["table self 192.0.2.1/32", *sources_of(1, "<self>")],
        (EM0, Interface("em1", "192.0.2.1", 16))),
    Row("block from self", ["table self 10.0.0.1/32 192.0.2.1/32", *sources_of(1, "<self>")],
        (EM0, Interface("em1", "10.0.0.1", 8), Interface("em2", "192.0.2.1", 30))),
)
# forms of two interfaces, and what they mean; none where no interface has them
FORMS = (("em0", "192.0.2.1/32"), ("em1", "203.0.113.2/32"), ("em1:0", "203.0.113.2/32"), ("(em1)", "203.0.113.2/32"),
         ("em0:network", "192.0.2.0/24"), ("em1:network", "203.0.113.0/24"), ("(em1:network)", "203.0.113.0/24"),
         ("!em1:network", "!203.0.113.0/24"), ("em2", None), ("(em2:0)", None), ("em", None), ("em1:1", None))
# interfaces one of which is called as a form of the other; the first of which a word is a form counts
SUFFIXED = Interface("em0:0", "203.0.113.2", 24)
CALLED_SELF = (EM0, EM1._replace(name="self"))
NAMES = (
    ((EM0, SUFFIXED), "em0:0", "192.0.2.1/32"), ((SUFFIXED, EM0), "em0:0", "203.0.113.2/32"),
    ((EM0, SUFFIXED), "(em0:0)", "192.0.2.1/32"), ((SUFFIXED, EM0), "(em0:0)", "203.0.113.2/32"),
    ((EM0, SUFFIXED), "em0:0:0", "203.0.113.2/32"), ((EM0, SUFFIXED), "em0:0:network", "203.0.113.0/24"),
    ((SUFFIXED, EM0), "em0:network", "192.0.2.0/24"), ((SUFFIXED, EM0), "em0", "192.0.2.1/32"),
    ((EM0._replace(name="em0:network"), SUFFIXED._replace(name="em0")), "em0:network", "192.0.2.1/32"),
    (CALLED_SELF, "self", "<self>"), (CALLED_SELF, "self:0", "203.0.113.2/32"),
)
TABLES = (
    on_two("table <t> { self }", "table t 192.0.2.1/32 203.0.113.2/32"),
    on_two("table <t> { !self 203.0.113.0/24 }", "table t 203.0.113.0/24 !192.0.2.1/32 !203.0.113.2/32"),
    on_two("table <t> { self, em1 self 192.0.2.1/32 !em1:network }",
           "table t !203.0.113.0/24 192.0.2.1/32 203.0.113.2/32"),
    on_two("table <t> { self, !203.0.113.0/24 }", "table t !203.0.113.0/24 192.0.2.1/32 203.0.113.2/32"),
    Row("table <t> { 10.0.0.1, self }", [OWN_THREE, "table t 10.0.0.1/32 192.0.2.1/32 198.18.0.1/32 203.0.113.2/32"],
        THREE),
    Row("table <t> { self }", ["table self 192.0.2.1/32", "table t 192.0.2.1/32"],
        (EM0, EM1._replace(address="192.0.2.1"))),
    on_two('own = "self"\ntable <t> { !$own }', "table t !192.0.2.1/32 !203.0.113.2/32"),
    on_two('own = "{ 10.0.0.1 !self }"\ntable <t> { $own }', "table t 10.0.0.1/32 !192.0.2.1/32 !203.0.113.2/32"),
    # with one interface it is one address
    Row("table <t> { self, !203.0.113.2 }", ["table t 192.0.2.1/32 !203.0.113.2/32"]),
    fault("table <t> { self, !203.0.113.2 }", 1, CLASH),
    fault("table <t> { self, !192.0.2.1 }", 1, CLASH),
    fault("table <t> { self, !198.18.0.1 }", 1, CLASH, THREE),
    fault("table <t> { self, !em2 }", 1, CLASH, THREE),
    # at the line of the entry with which it comes
    fault("table <t> { !203.0.113.2\nself }", 2, CLASH),
    fault("table <t> {\nself\n10.0.0.1\n!203.0.113.2\n!192.0.2.1 }", 4, CLASH),
    fault("table <t> { !self\n203.0.113.2 }", 2, CLASH),
    fault("table <t> { self\n!self }", 2, CLASH),
    fault('own = "self"\ntable <t> { !203.0.113.2,\n$own }', 3, CLASH),
    fault('own = "{ self !203.0.113.2 }"\ntable <t> { 10.0.0.1\n$own }', 3, CLASH),
    fault("table <t> { self\ngateway\n!203.0.113.2 }", 2, HOST_NAME),
    fault("table <t> { self\n!203.0.113.2\ngateway }", 2, CLASH),
)
# rules to one address, with an `@` in its place, and what they mean where it is 192.0.2.1
SINGLE_RULES = (
    ("nat from any to any -> @", f"nat 0 {ALL} -> 192.0.2.1 line 2"),
    ("rdr from any to any port 80 -> @ port 8080", f"rdr 0 {ALL} port =80 -> 192.0.2.1 port 8080 line 2"),
    ("binat from 10.0.0.5 to any -> @", "binat 0 from 10.0.0.5/32 to any -> 192.0.2.1 line 2"),
    ("binat from @ to any -> 10.0.0.9", "binat 0 from 192.0.2.1/32 to any -> 10.0.0.9 line 2"),
)
SINGLE = (
    on_two("no binat from self", "binat 0 no from <self> to any line 1"),
    on_two("no nat from any to self", "nat 0 no from any to <self> line 1"),
    on_two("rdr from any to any -> em1", f"rdr 0 {ALL} -> 203.0.113.2 line 1"),
    Row("rdr from any to any -> em1", "line 1: left out: host name"),
    on_two("nat on em1 from any to any -> (em0:0)", f"nat 0 on em1 {ALL} -> 192.0.2.1 line 1"),
    on_two("binat from em1 to any -> em0", "binat 0 from 203.0.113.2/32 to any -> 192.0.2.1 line 1"),
    fault("rdr from any to any -> em1:network", 1, POOL),
    Row("rdr from any to any -> em1:network", [OWN_TWO, f"rdr 0 {ALL} -> 203.0.113.2 line 1"],
        (EM0, EM1._replace(bits=32))),
    fault("rdr from any to any -> em2", 1, HOST_NAME),
    # equal addresses are those of several interfaces too
    fault("nat from any to any -> self", 1, POOL, (EM0, Interface("em1", "192.0.2.1", 24))),
    # its fault stands where the rule does, and goes by the order of the text
    fault("\nnat from any to any \\\n-> \\\nself", 2, POOL),
    fault("\nbinat \\\nfrom \\\nself to any -> em0", 2, POOL),
    fault("nat from <nowhere> to any -> self", 1, "undefined table"),
    fault("binat from self to <nowhere> -> self", 1, POOL),
    fault("rdr to port { 80\n65536 } -> self", 2, "bad number"),
    fault('x = "!self"\nnat from any to any -> $x', 2, POOL),
    fault('x = "!self"\nnat from any to any -> $x', 2, "bad address", ONE),
    fault('x = "!self"\nbinat from $x to any -> em0', 2, POOL),
    fault('x = "self self"\nnat from any to any -> $x', 2, "unknown word"),
)


def rows():
    for group in (RULES, TABLES, SINGLE):
        yield from group
    for form, network in FORMS:
        text = f"block from {form}"
        yield on_two(text, *sources_of(1, network)) if network else fault(text, 1, HOST_NAME)
    for interfaces, form, network in NAMES:
        yield Row(f"block from {form}", [OWN_TWO, *sources_of(1, network)], interfaces)
    for rule, line in SINGLE_RULES:
        for before, word in (('x = "self"\n', "$x"), ("\n", "self")):
            text = before + rule.replace("@", word)
            yield Row(text, [line])
            yield fault(text, 2, POOL)
            yield fault(text, 2, POOL, THREE)
