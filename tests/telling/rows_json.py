"""Rulesets by hand that are printed as JSON: each name, the order of the objects, and strings with what is escaped."""

from telling.model import JSON
from telling.row import THREE, TWO, Row, as_json
from telling.rows_counters import GOOD, LINES, MOST, TEXT, counters_of
from telling.rows_shadows import MOST_RULES, many_rules

NO_NUMBERS = '"evaluations":null,"packets":null,"bytes":null'


def rule(kind, number, line, words, numbers=NO_NUMBERS, shadow="null"):
    """The object of a rule, whose words stand there as they are escaped."""
    return (f'{{"kind":"{kind}","number":{number},"line":{line},"rule":"{words}",{numbers},"shadowed_by":{shadow}}}')


def numbers_of(evaluations, packets, octets):
    return f'"evaluations":{evaluations},"packets":{packets},"bytes":{octets}'


def anchor(words, first, last):
    return f'{{"kind":"anchor","anchor":"{words}","first":{first},"last":{last}}}'


PASS, BLOCK = "pass all keep state", "block drop all"


# Kinds of rules

def kind_rows():
    yield as_json("a filter rule", "block in on em0",
                  '{"kind":"filter","number":0,"line":1,"rule":"block drop in on em0 all","evaluations":null,'
                  '"packets":null,"bytes":null,"shadowed_by":null}')
    yield as_json("nat", "\nnat on em0 from 10.0.0.0/8 to any -> em0",
                  '{"kind":"nat","number":0,"line":2,"rule":"nat on em0 inet from 10.0.0.0/8 to any -> 192.0.2.1",'
                  '"evaluations":null,"packets":null,"bytes":null,"shadowed_by":null}')
    yield as_json("rdr", "rdr pass proto tcp to port 80 -> 10.0.0.5 port 8080",
                  rule("rdr", 0, 1, "rdr pass inet proto tcp from any to any port = 80 -> 10.0.0.5 port 8080"))
    yield as_json("binat", "binat from 10.0.0.5 -> em0",
                  rule("binat", 0, 1, "binat inet from 10.0.0.5 to any -> 192.0.2.1"))
    for kind in ("nat", "rdr", "binat"):
        yield as_json(f"no {kind}", f"no {kind} all", rule(kind, 0, 1, f"no {kind} all"))
    # numbers go over all kinds of translation as they are written, and filter rules have their own
    yield as_json("rules of all kinds", "rdr -> 10.0.0.5\nno nat\nbinat from 10.0.0.9 -> em0\n"
                  "nat from { 10.0.0.1 10.0.0.2 } -> em0\nblock in\npass out no state",
                  rule("rdr", 0, 1, "rdr inet all -> 10.0.0.5"), rule("nat", 1, 2, "no nat all"),
                  rule("binat", 2, 3, "binat inet from 10.0.0.9 to any -> 192.0.2.1"),
                  rule("nat", 3, 4, "nat inet from 10.0.0.1 to any -> 192.0.2.1"),
                  rule("nat", 4, 4, "nat inet from 10.0.0.2 to any -> 192.0.2.1"),
                  rule("filter", 0, 5, "block drop in all"), rule("filter", 1, 6, "pass out all no state"))
    yield as_json("lists and macros", 'p = "{ 80, 443 }"\npass in proto tcp to port $p',
                  rule("filter", 0, 2, "pass in proto tcp from any to any port = 80 keep state"),
                  rule("filter", 1, 2, "pass in proto tcp from any to any port = 443 keep state"))


# Anchors

def anchor_rows():
    # they stand behind the rules of translation, and before all filter rules
    yield as_json("the example", "nat -> em0\n\n\n\n\n\nblock in on em0\nanchor in on em0 {\npass\n}\nblock out",
                  rule("nat", 0, 1, "nat inet all -> 192.0.2.1"), anchor("anchor in on em0 all", 1, 1),
                  rule("filter", 0, 7, "block drop in on em0 all"), rule("filter", 1, 9, PASS),
                  rule("filter", 2, 11, "block drop out all"))
    yield as_json("an anchor of several rules, and one that follows",
                  "anchor quick {\nblock\nblock in\nblock out\n}\nanchor out proto udp to port 53 {\nblock\n}",
                  anchor("anchor quick all", 0, 2), anchor("anchor out proto udp from any to any port = 53", 3, 3),
                  rule("filter", 0, 2, BLOCK), rule("filter", 1, 3, "block drop in all"),
                  rule("filter", 2, 4, "block drop out all"), rule("filter", 3, 7, BLOCK))
    # anchors that begin and end at the same rule
    yield as_json("anchors in one another that begin at one rule",
                  "block\nanchor on em0 {\nanchor proto tcp {\nanchor quick {\npass\n}\n}\nblock\n}",
                  anchor("anchor on em0 all", 1, 2), anchor("anchor proto tcp all", 1, 1),
                  anchor("anchor quick all", 1, 1), rule("filter", 0, 1, BLOCK), rule("filter", 1, 5, PASS),
                  rule("filter", 2, 8, BLOCK))
    yield as_json("an anchor with others beside one another",
                  "anchor in {\nanchor out {\npass\n}\npass quick\nanchor quick {\nblock\n}\n}",
                  anchor("anchor in all", 0, 2), anchor("anchor out all", 0, 0), anchor("anchor quick all", 2, 2),
                  rule("filter", 0, 3, PASS), rule("filter", 1, 5, "pass quick all keep state"),
                  rule("filter", 2, 7, BLOCK))
    yield as_json("sixteen anchors in one another", "anchor {\n" * 16 + "pass\n" + "}\n" * 16,
                  *[anchor("anchor all", 0, 0)] * 16, rule("filter", 0, 17, PASS))
    # an anchor with lists stands there once for each combination
    yield as_json("an anchor with lists", "anchor on { em0, !em1 } proto { tcp udp } {\nblock\nblock in\n}", *(
        anchor(f"anchor on {interface} proto {protocol} all", first, first + 1)
        for interface, protocol, first in (("em0", "tcp", 0), ("em0", "udp", 2), ("! em1", "tcp", 4),
                                           ("! em1", "udp", 6))), *(
        rule("filter", number, 2 + number % 2, ("block drop in all" if number % 2 else BLOCK)) for number in range(8)))
    yield as_json("an anchor with lists in another one",
                  "anchor in {\nanchor from { 10.0.0.1, 10.0.0.2 } {\nblock\n}\n}",
                  anchor("anchor in all", 0, 1), anchor("anchor inet from 10.0.0.1 to any", 0, 0),
                  anchor("anchor inet from 10.0.0.2 to any", 1, 1), rule("filter", 0, 3, BLOCK),
                  rule("filter", 1, 3, BLOCK))
    yield as_json("anchors without rules",
                  "anchor a\npass\nanchor {\n}\nanchor {\nanchor quick {\n}\npass in\nanchor b\n}",
                  anchor("anchor all", 1, 1), rule("filter", 0, 2, PASS),
                  rule("filter", 1, 8, "pass in all keep state"))


# Strings

# labels as they are written, and as they stand in JSON
LABELS = {'"web"': "\\u0022web\\u0022", "web": "\\u0022web\\u0022", '""': "\\u0022\\u0022",
          '"a\\b\\"': "\\u0022a\\u005cb\\u005c\\u0022", '"\\u0041"': "\\u0022\\u005cu0041\\u0022",
          '"a\\\nb"': "\\u0022a b\\u0022", '"a \\\n\\\n b"': "\\u0022a    b\\u0022",
          '"\ta\r"': "\\u0022\\u0009a\\u000d\\u0022", '"~ \'/"': "\\u0022~ \'/\\u0022",
          '"{},:[]"': "\\u0022{},:[]\\u0022", '"  # shadowed by @7"': "\\u0022  # shadowed by @7\\u0022",
          '"null"': "\\u0022null\\u0022"}


def string_rows():
    for written, escaped in LABELS.items():
        yield as_json(f"the label {written!r}", f"block label {written}",
                      rule("filter", 0, 1, f"block drop all label {escaped}"))
    # a rule behind a label that goes on
    yield as_json("a rule behind a label that goes on", 'block in label "a\\\nb"\nblock out',
                  rule("filter", 0, 1, "block drop in all label \\u0022a b\\u0022"),
                  rule("filter", 1, 3, "block drop out all"))
    yield as_json("signs in a rule", "table <t> { 10.0.0.1 }\nblock from !<t> port 1 >< 9 to <t> port 1 <> 9",
                  rule("filter", 0, 2, "block drop from ! <t> port 1 >< 9 to <t> port 1 <> 9"))


# Counters and shadows

def counter_rows():
    yield as_json("counters of each kind", TEXT,
                  rule("nat", 0, 1, "nat on em0 inet all -> 192.0.2.1", numbers_of(4, 2, 100)),
                  rule("rdr", 1, 2, "rdr inet from any to any port = 80 -> 10.0.0.5", numbers_of(0, 0, 0)),
                  rule("filter", 0, 3, BLOCK, numbers_of(12, 9, 540)),
                  rule("filter", 1, 4, "pass out all keep state label \\u0022web\\u0022", numbers_of(12, 3, 180)),
                  counters=GOOD)
    yield as_json("numbers at their limits", "block", rule("filter", 0, 1, BLOCK, numbers_of(MOST, MOST, MOST)),
                  counters=counters_of(f"filter 0 {MOST} {MOST} {MOST}", f"total {MOST} 0 {MOST} 0 0"))
    yield as_json("counters of a rule that translates nothing", "no nat", rule("nat", 0, 1, "no nat all", numbers_of(
        5, 0, 0)), counters=counters_of("translation 0 5 0 0", "total 5 5 0 0 0"))
    yield as_json("counters of rules in anchors", "anchor {\nblock in\nblock\n}", anchor("anchor all", 0, 1),
                  rule("filter", 0, 2, "block drop in all", numbers_of(7, 0, 0), 1),
                  rule("filter", 1, 3, BLOCK, numbers_of(7, 7, 280)),
                  counters=counters_of("filter 0 7 0 0", "filter 1 7 7 280", "total 7 0 7 0 0"))
    for line, counters in ((1, ""), (4, counters_of(*LINES[:3])), (6, f"{GOOD}\n")):
        yield Row(f"JSON, counters that are refused on line {line}", TEXT, counters=counters, form=JSON,
                  said=f"counters line {line}: not of this ruleset")


def shadow_rows():
    yield as_json("rules that are shadowed", "block quick proto udp\npass in proto udp\npass\nblock",
                  rule("filter", 0, 1, "block drop quick proto udp all"),
                  rule("filter", 1, 2, "pass in proto udp all keep state", shadow=0),
                  rule("filter", 2, 3, PASS, shadow=3), rule("filter", 3, 4, BLOCK))
    # rules of translation are never shadowed
    yield as_json("equal rules of translation", "nat -> em0\nnat -> em0", *(
        rule("nat", number, number + 1, "nat inet all -> 192.0.2.1") for number in range(2)))
    for count in (MOST_RULES, MOST_RULES + 1):
        yield as_json(f"{count} filter rules", many_rules(count), *(
            rule("filter", number, number + 1, "block drop quick all",
                 shadow=0 if number and count <= MOST_RULES else "null") for number in range(count)))


# Interfaces, and nothing

def other_rows():
    yield as_json("the addresses of two interfaces", "block from self to em1",
                  rule("filter", 0, 1, "block drop inet from self to 203.0.113.2"), interfaces=TWO)
    yield as_json("an anchor of three interfaces", "anchor from self {\nblock on em2\n}",
                  anchor("anchor from self to any", 0, 0), rule("filter", 0, 2, "block drop on em2 all"),
                  interfaces=THREE)
    yield as_json("the counters of a run on two interfaces", "block from self",
                  rule("filter", 0, 1, "block drop from self to any", numbers_of(3, 2, 56)), interfaces=TWO,
                  counters=counters_of("filter 0 3 2 56", "total 5 1 2 0 2"))
    for text in ("", "# nothing", "set skip on lo0\ntable <t> { 10.0.0.1 }", 'anchor "ftp/*"', "anchor {\nanchor a\n}"):
        yield as_json(f"no rule, {text!r}", text)
    yield as_json("no rule, with counters", "", counters=counters_of("total 8 8 0 0 0"))
    for text, said in (("pass\npass to", "line 2: unknown word"), ("scrub in all", "line 1: left out: scrub"),
                       ("pass\n" * 65537, "line 65537: too many")):
        yield Row(f"JSON, {text[:40]!r}", text, said=f"rules {said}", form=JSON)


def rows():
    for group in (kind_rows, anchor_rows, string_rows, counter_rows, shadow_rows, other_rows):
        yield from group()
