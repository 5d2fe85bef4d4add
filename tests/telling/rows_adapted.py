"""Rulesets as they are written, which are given with `--adapt`: what is printed of each, and a text in the words that
are read which has the same rules, on other lines.

A line is that of the file. If a rule stands in another file, it is the line on which the file names that one.
"""

from typing import NamedTuple

from telling.model import JSON, TEXT
from telling.row import ONE, Row, fault
from telling.rows_json import anchor, numbers_of, rule
from telling.rows_shadows import MOST_RULES, many_printed, many_rules


class Adapted(NamedTuple):
    """A text, the same rules in the words that are read, and what is printed or said; with the words behind `--adapt`,
    and what the files hold that they name."""
    text: str
    strict: str
    printed: tuple
    flags: tuple
    files: dict
    counters: str | None = None
    said: str = ""
    form: str = TEXT

    def row(self):
        """The row of what is printed or said."""
        return Row(f"{self.text[:60]!r} with --adapt", self.text, self.printed, ONE, self.counters, self.said,
                   self.form)


def adapted(text, strict, *printed, flags=(), counters=None, **files):
    return Adapted(text, strict, printed, flags, files, counters)


def included(text, strict, *printed, **files):
    """A text that includes files by their names."""
    flags = tuple(word for name in files for word in ("--include", f"{name}={name}"))
    return Adapted(text, strict, printed, flags, files)


def refused(text, said, flags=(), **files):
    return Adapted(text, text, (), flags, files, None, fault(text, said).said)


def word_rows():
    """Words that are rewritten, and statements that are left out."""
    yield adapted("pass in", "pass in", "@0 L1 pass in all keep state")
    yield adapted("scrub in all\npass in proto tcp modulate state", "pass in proto tcp",
                  "@0 L2 pass in proto tcp all keep state")
    yield adapted("block return-rst in\npass inet6\npass out user root\nblock label a label b",
                  "block return in\nblock label a", "@0 L1 block return in all  # shadowed by @1",
                  '@1 L4 block drop all label "a"')
    yield adapted("set optimization aggressive\npass keep state (sloppy)\npass keep state (max 5, pflow)",
                  "pass\npass keep state (max 5)", "@0 L2 pass all keep state",
                  "@1 L3 pass all keep state (max 5)")
    yield adapted("pass proto carp\npass proto tcp to port imaps\npass proto icmp icmp-type timereq",
                  "pass proto 112\npass proto tcp to port 993\npass proto icmp icmp-type 13",
                  "@0 L1 pass proto 112 all keep state", "@1 L2 pass proto tcp from any to any port = 993 keep state",
                  "@2 L3 pass proto icmp all icmp-type 13 keep state")
    yield adapted("pass quick on em1 dup-to (em1 10.0.0.1) all", "pass quick on em1 all",
                  "@0 L1 pass quick on em1 all keep state")
    yield adapted("table <bad-hosts>\nblock from <bad-hosts>", "table <bad_hosts>\nblock from <bad_hosts>",
                  "@0 L2 block drop from <bad_hosts> to any")
    yield adapted("match all\nanchor x {\npass tag y\nscrub\nblock\n}\npass", "anchor {\npass\nblock\n}\npass",
                  "anchor all {", "@0 L3   pass all keep state  # shadowed by @1", "@1 L5   block drop all", "}",
                  "@2 L7 pass all keep state")
    yield adapted("scrub in\nblock", "block",
                  "@0 L2 block drop all  # 5 evaluations, 0 packets, 0 bytes: counts no packet",
                  counters="filter 0 5 0 0\ntotal 5 0 0 0 5\n")


def line_rows():
    """Texts of which what is read has other lines than the file."""
    yield adapted("scrub in all\nantispoof for em0\npass out",
                  "block in on !em0 from em0:network\nblock in from em0\npass out",
                  "@0 L2 block drop in on ! em0 inet from 192.0.2.0/24 to any",
                  "@1 L2 block drop in inet from 192.0.2.1 to any", "@2 L3 pass out all keep state")
    yield adapted("antispoof quick \\\n for { em0 lo0 } \\\n label \"spoof\"\nblock",
                  'block in quick on !em0 from em0:network label "spoof"\nblock in quick from em0 label "spoof"\n'
                  'block in quick on !lo0 from 127.0.0.0/8 label "spoof"\nblock',
                  '@0 L1 block drop in quick on ! em0 inet from 192.0.2.0/24 to any label "spoof"',
                  '@1 L1 block drop in quick inet from 192.0.2.1 to any label "spoof"',
                  '@2 L1 block drop in quick on ! lo0 inet from 127.0.0.0/8 to any label "spoof"',
                  "@3 L4 block drop all")
    yield adapted("pass in \\\n  tag x \\\n  to any\nblock", "pass in to any\nblock",
                  "@0 L1 pass in all keep state  # shadowed by @1", "@1 L4 block drop all")
    yield adapted("rdr proto tcp to port 80 -> { 10.0.0.5,\n 10.0.0.6 }\npass",
                  "rdr proto tcp to port 80 -> 10.0.0.5\npass",
                  "@0 L1 rdr inet proto tcp from any to any port = 80 -> 10.0.0.5", "@0 L3 pass all keep state")
    yield adapted('p = "{ imaps, \\\n smtps }"\npass proto tcp to port $p\nblock',
                  "pass proto tcp to port { 993 465 }\nblock",
                  "@0 L3 pass proto tcp from any to any port = 993 keep state  # shadowed by @2",
                  "@1 L3 pass proto tcp from any to any port = 465 keep state  # shadowed by @2",
                  "@2 L4 block drop all")


def surrounded_rows():
    """Texts with surroundings."""
    yield adapted("pass to { web,\n10.0.0.9 }\nblock", "pass to { 10.0.0.5, 10.0.0.9 }\nblock",
                  "@0 L1 pass inet from any to 10.0.0.5 keep state  # shadowed by @2",
                  "@1 L1 pass inet from any to 10.0.0.9 keep state  # shadowed by @2",
                  "@2 L3 block drop all", flags=("--hosts", "known"), known="10.0.0.5 web\n")
    yield adapted("pass proto tcp to port backup", "pass proto tcp to port 7777",
                  "@0 L1 pass proto tcp from any to any port = 7777 keep state", flags=("--services", "known"),
                  known="backup 7777/tcp\n")
    yield adapted('table <bad> file "/etc/bad"\nblock from <bad>', "table <bad>\nblock from <bad>",
                  "@0 L2 block drop from <bad> to any", flags=("--table", "bad=listed"), listed="10.0.0.1\n")
    yield adapted("pass on egress\nblock from egress", "pass on em0\nblock from em0",
                  "@0 L1 pass on em0 all keep state",
                  "@1 L2 block drop inet from 192.0.2.1 to any", flags=("--group", "egress=em0"))
    yield adapted("rdr on em1 to em1 port 80 -> 10.0.0.5", "rdr on em1 to 203.0.113.2 port 80 -> 10.0.0.5",
                  "@0 L1 rdr on em1 inet from any to 203.0.113.2 port = 80 -> 10.0.0.5",
                  flags=("--interface-address", "em1=203.0.113.2/24"))


def included_rows():
    yield included('pass in\ninclude "more"\npass out', "pass in\nblock\npass to port 80\npass out",
                   "@0 L1 pass in all keep state  # shadowed by @1", "@1 L2 block drop all",
                   "@2 L2 pass from any to any port = 80 keep state", "@3 L3 pass out all keep state",
                   more="\nblock\n\npass to port 80\n")
    # a file that is named by another one has the line of that one
    yield included('pass in\n\ninclude "more"\npass out', "pass in\nblock return\nblock\npass out",
                   "@0 L1 pass in all keep state  # shadowed by @1", "@1 L3 block return all  # shadowed by @2",
                   "@2 L3 block drop all",
                   "@3 L4 pass out all keep state", more='\ninclude "other"\nblock\n', other="\n\nblock return\n")
    yield included('include "first"\nblock\ninclude "second"', "nat -> em0\npass in\nblock\npass out",
                   "@0 L1 nat inet all -> 192.0.2.1", "@0 L1 pass in all keep state  # shadowed by @1",
                   "@1 L2 block drop all", "@2 L3 pass out all keep state", first="nat -> em0\npass in\n",
                   second="pass out")
    yield included('include "more"\npass from $clients', "pass from { 10.0.0.1, 10.0.0.2 }",
                   "@0 L2 pass inet from 10.0.0.1 to any keep state", "@1 L2 pass inet from 10.0.0.2 to any keep state",
                   more='clients = "{ 10.0.0.1, 10.0.0.2 }"\n')
    yield included('anchor x\n\nload anchor x from "more"\nblock', "anchor {\npass\npass out\n}\nblock",
                   "anchor all {", "@0 L1   pass all keep state  # shadowed by @2",
                   "@1 L1   pass out all keep state  # shadowed by @2", "}",
                   "@2 L4 block drop all", more="pass\npass out\n")


def shadowed_rows():
    """Rules that are shadowed, or aren't, in texts as they are written."""
    yield adapted("scrub in\nblock log (all) quick proto udp\npass in proto udp to port imaps modulate state",
                  "block quick proto udp\npass in proto udp to port 993", "@0 L2 block drop quick proto udp all",
                  "@1 L3 pass in proto udp from any to any port = 993 keep state  # shadowed by @0")
    # a rule that is left out shadows none
    yield adapted("block quick inet6\nblock", "block", "@0 L2 block drop all")
    yield adapted("table <bad> file \"/etc/bad\"\nblock quick from <bad>\npass from { 10.0.0.1 10.0.0.2 }",
                  "table <bad> { 10.0.0.1 }\nblock quick from <bad>\npass from { 10.0.0.1 10.0.0.2 }",
                  "@0 L2 block drop quick from <bad> to any",
                  "@1 L3 pass inet from 10.0.0.1 to any keep state  # shadowed by @0",
                  "@2 L3 pass inet from 10.0.0.2 to any keep state", flags=("--table", "bad=listed"),
                  listed="10.0.0.1\n")
    # a file that is loaded into a quick anchor
    yield included('anchor x quick\nload anchor x from "more"\nblock', "anchor quick {\nblock in\nblock\n}\nblock",
                   "anchor quick all {", "@0 L1   block drop in all  # shadowed by @1", "@1 L1   block drop all", "}",
                   "@2 L3 block drop all", more="block in\nblock\n")
    yield adapted("scrub in\nblock quick\nblock", "block quick\nblock",
                  "@0 L2 block drop quick all  # 5 evaluations, 5 packets, 140 bytes",
                  "@1 L3 block drop all  # 0 evaluations, 0 packets, 0 bytes: counts no packet, shadowed by @0",
                  counters="filter 0 5 5 140\nfilter 1 0 0 0\ntotal 5 0 5 0 0\n")
    for count in (MOST_RULES, MOST_RULES + 1):
        rules = many_rules(count)
        yield adapted(f"scrub in # {count} rules\n{rules}", rules, *many_printed(count, 2))


def json_rows():
    """Lines are those of the file, as in lines of text."""
    yield adapted("scrub in all\nantispoof for em0\npass out",
                  "block in on !em0 from em0:network\nblock in from em0\npass out",
                  rule("filter", 0, 2, "block drop in on ! em0 inet from 192.0.2.0/24 to any"),
                  rule("filter", 1, 2, "block drop in inet from 192.0.2.1 to any"),
                  rule("filter", 2, 3, "pass out all keep state"))._replace(form=JSON)
    yield adapted("scrub in\nblock quick label a label b\nblock", "block quick label a\nblock",
                  rule("filter", 0, 2, "block drop quick all label \\u0022a\\u0022", numbers_of(5, 5, 140)),
                  rule("filter", 1, 3, "block drop all", numbers_of(0, 0, 0), 0),
                  counters="filter 0 5 5 140\nfilter 1 0 0 0\ntotal 5 0 5 0 0\n")._replace(form=JSON)
    yield included('anchor x\n\nload anchor x from "more"\nblock', "anchor {\npass\npass out\n}\nblock",
                   anchor("anchor all", 0, 1), rule("filter", 0, 1, "pass all keep state", shadow=2),
                   rule("filter", 1, 1, "pass out all keep state", shadow=2), rule("filter", 2, 4, "block drop all"),
                   more="pass\npass out\n")._replace(form=JSON)
    yield refused("scrub\npass from nowhere", "line 2: left out: host name")._replace(form=JSON)


def refused_rows():
    yield refused("scrub\npass from nowhere", "line 2: left out: host name")
    yield refused("block\n\nantispoof for em0\npass to", "line 4: unknown word")
    yield refused('scrub\ninclude "more"\npass', "line 2: bad address", ("--include", "more=more"),
                  more="pass\n\npass from 10.0.0.256\n")
    yield refused('include "missing"', "line 1: left out: include")


def rows():
    for group in (word_rows, line_rows, surrounded_rows, included_rows, shadowed_rows, json_rows,
                  refused_rows):
        yield from group()
