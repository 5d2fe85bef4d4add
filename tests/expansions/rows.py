"""Short rulesets, written out by hand as in pf.conf(5), with what each of them means on em0 with 192.0.2.1/24. Those
for several interfaces stand in interface_rows.py.

An answer is the line of the first fault, or the lines of the dump but those of options that nothing sets, and of the
table `self` of one interface.
"""

from expansions import interface_rows
from expansions.cases import EM0
from expansions.row import ALL, STATE, Row, sources_of


def protocols_of(line, *protocols):
    """The rules of `block proto` on a line, one a protocol."""
    return [f"filter {number} drop proto {protocol} {ALL} line {line}" for number, protocol in enumerate(protocols)]


def ports_of(line, *ports):
    """The rules of `block to port` on a line, one a port."""
    return [f"filter {number} drop {ALL} port {port} line {line}" for number, port in enumerate(ports)]


PROTOCOLS = (
    Row("block proto {tcp,17 gre}", protocols_of(1, 6, 17, 47)),
    Row('x = "{ udp 47 }"\nblock proto { tcp $x }', protocols_of(2, 6, 17, 47)),
    Row("block icmp-type { 3 , unreach code 0 }",
        [f"filter 0 drop icmp 3 {ALL} line 1", f"filter 1 drop icmp 3 code 0 {ALL} line 1"]),
    Row('x = "{ unreach code 0, 8 }"\nblock icmp-type $x',
        [f"filter 0 drop icmp 3 code 0 {ALL} line 2", f"filter 1 drop icmp 8 {ALL} line 2"]),
)
PORTS = (
    Row("block to port { <= 01024 http:443, domain <> 0 }", ports_of(1, "<=1024", "80:443", "53<>0")),
    Row("block to port != ssh", ports_of(1, "!=22")),
    # of two faults at one word the first kind
    Row("block to port { 80,\n99999:gopher }", "line 2: left out: service"),
    Row("block to port tag", "line 1: left out: tag"),
    Row("block to port { 80\n\n65536 }", "line 3: bad number"),
    Row("block to port 443:80", "line 1: bad number"),
    Row('p = "{ 80, 443 }"\npass in proto tcp to port $p\n',
        [f"filter {number} pass in proto 6 {ALL} port ={port}{STATE} line 2" for number, port in enumerate((80, 443))]),
)
REPLACED = (
    Row('x = "{ 80, 443 }"\nblock to port $x', ports_of(2, "=80", "=443")),
    Row('x = "{ 80, 443 }"\nblock to port { 22 $x, 25 }', ports_of(2, "=22", "=80", "=443", "=25")),
    # from its place on the later definition counts
    Row('x = "{ 80, 443 }"\ny = $x\nx = "80"\nz = "{" $x ", 443 }"\n'
        "block to port $x\nblock to port $y\nblock to port $z",
        [f"filter {number} drop {ALL} port ={port} line {line}"
         for number, (port, line) in enumerate(((80, 5), (80, 6), (443, 6), (80, 7), (443, 7)))]),
    Row('x = "em0"\nblock from $x:network', sources_of(2, "192.0.2.0/24")),
    Row('x = "em0"\nblock from $x:0', sources_of(2, "192.0.2.1/32")),
    Row('x = "em0"\nblock from ($x)', sources_of(2, "192.0.2.1/32")),
    Row('x = "em0"\nblock from ($x:0)', sources_of(2, "192.0.2.1/32")),
    Row('x = "em0"\nblock from !$x', sources_of(2, "!192.0.2.1/32")),
    Row('x = "10.1.2.3"\nblock from !$x', sources_of(2, "!10.1.2.3/32")),
    Row('x = "10.1.2.3"\nblock from $x/8', sources_of(2, "10.0.0.0/8")),
    Row('x = "em1"\nset skip on { em0 $x }', ["skip em0 em1"]),
    Row('x = "em1"\nblock on { em0 !$x }',
        [f"filter 0 drop on em0 {ALL} line 2", f"filter 1 drop on !em1 {ALL} line 2"]),
    Row('dmz = "em1"\ntable <bad>\nblock on { em0 !$dmz } inet proto tcp from <bad> to port { 80 }',
        ["table bad", "filter 0 drop on em0 proto 6 from <bad> to any port =80 line 3",
         "filter 1 drop on !em1 proto 6 from <bad> to any port =80 line 3"]),
)
# the value of a macro, its use on line 3, and the fault that is told there
VALUES = (
    # of all faults of a value the lowest is told
    ("{ 10.0.0.256 10/8 }", "$x", "left out: short address"),
    ("{ 10.0.0.256 gateway }", "$x", "left out: host name"),
    ("{ <nowhere> 10.0.0.256 }", "$x", "bad address"),
    ("{ 10.0.0.256 10/8 tag }", "$x", "left out: short address"),
    ("<nowhere>", "$x", "undefined table"),
    ("em1", "($x)", "left out: host name"),
    ("em0", "$x:peer", "left out: host name"),
    # a value is one item, or one list of items
    ("10.0.0.1 # gateway", "$x", "unknown word"),
    ("$y", "$x", "unknown word"),
    ("{", "$x", "unknown word"),
    ("} {", "$x", "unknown word"),
    ("", "$x", "unknown word"),
    ("{ 10.0.0.1 { 10.0.0.2 } }", "$x", "unknown word"),
    ("80 443", "$x", "unknown word"),
    # a suffix or a `!` asks for one word
    ("10.0.0.1 10.0.0.2", "$x/8", "unknown word"),
    ("{ 10.0.0.1 }", "!$x", "unknown word"),
    ("em0 em1", "($x)", "unknown word"),
    ("em0", "$y", "undefined macro"),
    ("em0", "($y)", "undefined macro"),
)
PORT_VALUES = (
    ("80 443", "unknown word"),
    ("{ 99999 gopher }", "left out: service"),
    # no word is lower
    ("{ 99999 gopher port }", "unknown word"),
)
FREE_WORDS = (("em0", []), ("em0 em1", "line 2: unknown word"), ("{ em0 }", "line 2: unknown word"),
              ("<", "line 2: unknown word"))
FIRST_FAULTS = (
    Row('x = "{ 10.0.0.256 }"\nblock from { 10.0.0.1\nem1 <nowhere> }', "line 3: left out: host name"),
    Row("block from { <nowhere>\nem1 }", "line 1: undefined table"),
    Row('x = "{ 10.0.0.256 }"\ntable <a>\nblock from { <a>\n\n<c> $x }', "line 5: undefined table"),
    Row('x = "{ 10.0.0.256 }"\nblock from { $x <nowhere> }', "line 2: bad address"),
    Row("table <b>\nblock from { any 10.0.0.1 - 10.0.0.9 <b> }",
        ["table b", *sources_of(2, "any", "10.0.0.1-10.0.0.9", "<b>")]),
    Row("pass in from $x to any", "line 1: undefined macro"),
    Row("pass from <nowhere> to any", "line 1: undefined table"),
    Row("table <t> { 10.0.0.1, !10.0.0.1 }", "line 1: clash"),
    Row("table <t> { 10.0.0.1 }\n\ntable <t> { 10.0.0.2 }", "line 3: clash"),
    Row("block all\nanchor {\npass from <t>\npass to $x\n}", "line 3: undefined table"),
)
# forms of the interface, and networks
FORMS = (("em0", "192.0.2.1/32"), ("em0:0", "192.0.2.1/32"), ("(em0)", "192.0.2.1/32"), ("self", "192.0.2.1/32"),
         ("em0:network", "192.0.2.0/24"), ("10.1.2.3/8", "10.0.0.0/8"), ("10.1.2.3/0", "0.0.0.0/0"),
         ("10.1.2.3/32", "10.1.2.3/32"), ("! 010.0.0.1", "!10.0.0.1/32"), ("10.0.0.1", "10.0.0.1/32"))
NO_FORMS = ("em1", "em", "em00", "em1:network", "em0:1", "em0:0:0")
LONG_NAME = (EM0._replace(name="interface-fifte"),)
LONG_NAMES = (
    Row("block from interface-fifte", sources_of(1, "192.0.2.1/32"), LONG_NAME),
    Row("block from interface-fifte:0", sources_of(1, "192.0.2.1/32"), LONG_NAME),
    Row("block from interface-fiftee", "line 1: left out: host name", LONG_NAME),
)
TABLES = (
    Row('table <a>\ntable <b>\nx = "{ !<b> any }"\nblock from { <a> $x !10.0.0.1 - 10.0.0.9 }',
        ["table a", "table b", *sources_of(4, "<a>", "!<b>", "any", "!10.0.0.1-10.0.0.9")]),
    Row('x = "em0"\ntable <t> { !$x:network, $x, !10.0.0.0/8 }', ["table t !10.0.0.0/8 !192.0.2.0/24 192.0.2.1/32"]),
    Row("table <t> { !10.0.0.0/8 }", ["table t !10.0.0.0/8"]),
    # a network that stands there already stands there once
    Row("table <t> { !10.1.9.9/16 192.0.2.1 10.2.3.4/8 !10.1.0.0/16 }",
        ["table t 10.0.0.0/8 !10.1.0.0/16 192.0.2.1/32"]),
    Row("table <t> { 192.0.2.1\n!192.0.2.1/32 }", "line 2: clash"),
    Row("table <t> { 10.0.0.0/8, !10.1.0.0/16, 10.1.2.0/24 }", ["table t 10.0.0.0/8 !10.1.0.0/16 10.1.2.0/24"]),
    # a table is defined before it is used
    Row('table <a>\nx = "{ <a> <later> }"\nblock from $x\ntable <later>', "line 3: undefined table"),
    Row("table <a>\nblock from <later>\ntable <later>", "line 2: undefined table"),
    Row('table <a>\nx = "{ <a> <later> }"\nblock from { <a> $x }\ntable <later>', "line 3: undefined table"),
    Row('table <a>\nx = "{ <a> <later> }"\ntable <later>\nblock from { <later> $x }',
        ["table a", "table later", *sources_of(4, "<later>", "<a>", "<later>")]),
)
LISTS = (
    # the last list changes first
    Row("pass out proto { tcp, udp } from any to { 198.51.100.7, 198.51.100.8 } port { 80, 443 }", [
        f"filter {number} pass out proto {protocol} from any to {host}/32 port ={port}{STATE} line 1"
        for number, (protocol, host, port) in enumerate((
            (6, "198.51.100.7", 80), (6, "198.51.100.7", 443), (6, "198.51.100.8", 80), (6, "198.51.100.8", 443),
            (17, "198.51.100.7", 80), (17, "198.51.100.7", 443), (17, "198.51.100.8", 80),
            (17, "198.51.100.8", 443)))]),
)
ANCHORS = (
    Row('block all\nanchor "a" {\npass quick all\n}\nblock quick all\n', [
        f"filter 0 drop {ALL} line 1", f"anchor 0 rules 1 1 {ALL}",
        f"filter 1 pass quick {ALL}{STATE} line 3 anchors 0", f"filter 2 drop quick {ALL} line 5"]),
    Row("block all\nanchor proto { tcp, udp } {\npass all\nanchor from { 10.0.0.1, 10.0.0.2 } {\nblock all\npass all\n}\n"
        "}\nanchor {\n}\n", [
            f"filter 0 drop {ALL} line 1", f"anchor 0 rules 1 5 proto 6 {ALL}",
            f"filter 1 pass {ALL}{STATE} line 3 anchors 0",
            "anchor 1 inside 0 rules 2 3 from 10.0.0.1/32 to any", f"filter 2 drop {ALL} line 5 anchors 0 1",
            f"filter 3 pass {ALL}{STATE} line 6 anchors 0 1",
            "anchor 2 inside 0 rules 4 5 from 10.0.0.2/32 to any", f"filter 4 drop {ALL} line 5 anchors 0 2",
            f"filter 5 pass {ALL}{STATE} line 6 anchors 0 2",
            f"anchor 3 rules 6 10 proto 17 {ALL}", f"filter 6 pass {ALL}{STATE} line 3 anchors 3",
            "anchor 4 inside 3 rules 7 8 from 10.0.0.1/32 to any", f"filter 7 drop {ALL} line 5 anchors 3 4",
            f"filter 8 pass {ALL}{STATE} line 6 anchors 3 4",
            "anchor 5 inside 3 rules 9 10 from 10.0.0.2/32 to any", f"filter 9 drop {ALL} line 5 anchors 3 5",
            f"filter 10 pass {ALL}{STATE} line 6 anchors 3 5"]),
)
LABELS = (
    # 61 to 65 are the letters from `a` on
    Row("block\npass label a\nblock\nblock label b", [
        f"filter 0 drop {ALL} line 1", f"filter 1 pass {ALL}{STATE} line 2 label 61", f"filter 2 drop {ALL} line 3",
        f"filter 3 drop {ALL} line 4 label 62"]),
    Row("block label a\npass label b\npass allow-opts label a\nblock label c", [
        f"filter 0 drop {ALL} line 1 label 61", f"filter 1 pass {ALL}{STATE} line 2 label 62",
        f"filter 2 pass {ALL}{STATE} allow-opts line 3 label 61", f"filter 3 drop {ALL} line 4 label 63"]),
    # plain words, and what a quoted text may hold
    Row("block label http\nblock label web-1.a/b:*", [
        f"filter 0 drop {ALL} line 1 label 68747470", f"filter 1 drop {ALL} line 2 label 7765622d312e612f623a2a"]),
    Row('block label ""\nblock\nblock label " "', [
        f"filter 0 drop {ALL} line 1 label -", f"filter 1 drop {ALL} line 2", f"filter 2 drop {ALL} line 3 label 20"]),
    Row('block label " a  # b" # c\nblock label "\t{$x\\ ~"\nblock label d # "e\u00e9"', [
        f"filter 0 drop {ALL} line 1 label 20612020232062", f"filter 1 drop {ALL} line 2 label 097b24785c207e",
        f"filter 2 drop {ALL} line 3 label 64"]),
    Row('block label a\nblock label "caf\u00e9"', "line 2: bad byte"),
    Row('block label "a\x7f"', "line 1: bad byte"),
    Row(f'block label "{"a" * 300}"\nblock', [f"filter 0 drop {ALL} line 1 label {'61' * 300}",
                                              f"filter 1 drop {ALL} line 2"]),
    # all rules that lists make of one have its label
    Row("block label c\nblock from { 10.0.0.1, 10.0.0.2 } to port { 80, 443 } label a\nblock label b", [
        f"filter 0 drop {ALL} line 1 label 63",
        "filter 1 drop from 10.0.0.1/32 to any port =80 line 2 label 61",
        "filter 2 drop from 10.0.0.1/32 to any port =443 line 2 label 61",
        "filter 3 drop from 10.0.0.2/32 to any port =80 line 2 label 61",
        "filter 4 drop from 10.0.0.2/32 to any port =443 line 2 label 61",
        f"filter 5 drop {ALL} line 3 label 62"]),
    # so have those in copies of an anchor
    Row("block label a\nanchor on { em0, em1 } {\nblock label b\nblock\nblock proto { tcp, udp } label c\n}\n"
        "block label d", [
            f"filter 0 drop {ALL} line 1 label 61", f"anchor 0 rules 1 4 on em0 {ALL}",
            f"filter 1 drop {ALL} line 3 label 62 anchors 0", f"filter 2 drop {ALL} line 4 anchors 0",
            f"filter 3 drop proto 6 {ALL} line 5 label 63 anchors 0",
            f"filter 4 drop proto 17 {ALL} line 5 label 63 anchors 0", f"anchor 1 rules 5 8 on em1 {ALL}",
            f"filter 5 drop {ALL} line 3 label 62 anchors 1", f"filter 6 drop {ALL} line 4 anchors 1",
            f"filter 7 drop proto 6 {ALL} line 5 label 63 anchors 1",
            f"filter 8 drop proto 17 {ALL} line 5 label 63 anchors 1", f"filter 9 drop {ALL} line 7 label 64"]),
    # and in copies within copies; those behind an inner anchor keep their own
    Row("anchor proto { tcp, udp } {\nblock label a\nanchor on { em0, em1 } {\nblock label b\nblock\n}\n"
        "block label c\n}\nblock label d\nblock", [
            f"anchor 0 rules 0 5 proto 6 {ALL}", f"filter 0 drop {ALL} line 2 label 61 anchors 0",
            f"anchor 1 inside 0 rules 1 2 on em0 {ALL}", f"filter 1 drop {ALL} line 4 label 62 anchors 0 1",
            f"filter 2 drop {ALL} line 5 anchors 0 1", f"anchor 2 inside 0 rules 3 4 on em1 {ALL}",
            f"filter 3 drop {ALL} line 4 label 62 anchors 0 2", f"filter 4 drop {ALL} line 5 anchors 0 2",
            f"filter 5 drop {ALL} line 7 label 63 anchors 0", f"anchor 3 rules 6 11 proto 17 {ALL}",
            f"filter 6 drop {ALL} line 2 label 61 anchors 3", f"anchor 4 inside 3 rules 7 8 on em0 {ALL}",
            f"filter 7 drop {ALL} line 4 label 62 anchors 3 4", f"filter 8 drop {ALL} line 5 anchors 3 4",
            f"anchor 5 inside 3 rules 9 10 on em1 {ALL}", f"filter 9 drop {ALL} line 4 label 62 anchors 3 5",
            f"filter 10 drop {ALL} line 5 anchors 3 5", f"filter 11 drop {ALL} line 7 label 63 anchors 3",
            f"filter 12 drop {ALL} line 9 label 64", f"filter 13 drop {ALL} line 10"]),
    # anchors without rules have no part in it
    Row("block label a\nanchor {\n}\nanchor proto { tcp, udp } {\nanchor {\n}\n}\nanchor e\nblock label b\n"
        "anchor {\nanchor {\n}\nblock label c\n}\nblock label d", [
            f"filter 0 drop {ALL} line 1 label 61", f"filter 1 drop {ALL} line 9 label 62",
            f"anchor 0 rules 2 2 {ALL}", f"filter 2 drop {ALL} line 13 label 63 anchors 0",
            f"filter 3 drop {ALL} line 15 label 64"]),
    # more labels than a byte counts
    Row("".join(f"block label r{number}\n" for number in range(300)), [
        f"filter {number} drop {ALL} line {number + 1} label {f'r{number}'.encode().hex()}" for number in range(300)]),
)
LINES = (
    # a rule has the line of its first word
    Row("\n# c\n\nblock \\\n to \\\n10.0.0.1 \\\nlabel a\nblock", [
        "filter 0 drop from any to 10.0.0.1/32 line 4 label 61", f"filter 1 drop {ALL} line 8"]),
    Row(" \\\n \\\n block\n# c \\\nblock\nblock", [f"filter 0 drop {ALL} line 3", f"filter 1 drop {ALL} line 6"]),
    Row("block to {\n10.0.0.1\n\n10.0.0.2 # c\n}\r\n\r\nblock", [
        "filter 0 drop from any to 10.0.0.1/32 line 1", "filter 1 drop from any to 10.0.0.2/32 line 1",
        f"filter 2 drop {ALL} line 7"]),
    # neither that of a macro's definition, nor that of its use
    Row('x = "{ 80 \\\n443 }"\nblock to \\\nport $x\nblock', [
        f"filter 0 drop {ALL} port =80 line 3", f"filter 1 drop {ALL} port =443 line 3",
        f"filter 2 drop {ALL} line 5"]),
    Row("anchor on { em0,\nem1 } \\\n{\n\nblock \\\nall\n\nblock\n}\nblock", [
        f"anchor 0 rules 0 1 on em0 {ALL}", f"filter 0 drop {ALL} line 5 anchors 0",
        f"filter 1 drop {ALL} line 8 anchors 0", f"anchor 1 rules 2 3 on em1 {ALL}",
        f"filter 2 drop {ALL} line 5 anchors 1", f"filter 3 drop {ALL} line 8 anchors 1",
        f"filter 4 drop {ALL} line 10"]),
    Row("\nrdr to port {\n80, 443 } \\\n-> \\\n10.0.0.1\nbinat from 10.0.0.5 -> em0\n\nno \\\nrdr\nnat -> em0 # c\n"
        'nat-anchor "a"\nno nat\nbinat \\\nfrom 10.0.0.6 -> em0\nblock', [
            f"nat 4 {ALL} -> 192.0.2.1 line 10", f"nat 5 no {ALL} line 12",
            f"rdr 0 {ALL} port =80 -> 10.0.0.1 line 2", f"rdr 1 {ALL} port =443 -> 10.0.0.1 line 2",
            f"rdr 3 no {ALL} line 8", "binat 2 from 10.0.0.5/32 to any -> 192.0.2.1 line 6",
            "binat 6 from 10.0.0.6/32 to any -> 192.0.2.1 line 13",
            f"filter 0 drop {ALL} line 15"]),
)
OPTIONS = (
    Row("pass all", [f"filter 0 pass {ALL}{STATE} line 1"]),
    Row("set timeout { tcp.first 5, other.multiple 7 }\nset timeout { interval 3, tcp.first 6 }\nset limit states 10\n"
        "set limit { states 20, frags 30 }\nset block-policy return\nset block-policy drop\nset state-policy floating\n"
        "set state-policy if-bound\nset hostid 2\nset hostid 3\nset skip on lo0\nset skip on { em1, lo0 }",
        ["timeout tcp.first 6", "timeout other.multiple 7", "limit states 20", "state-policy if-bound", "hostid 3",
         "skip lo0 em1 lo0"]),
    Row("set timeout { tcp.first 5,\n  frag 030 }\n\n", ["timeout tcp.first 5"]),
    Row("set timeout { tcp.first 5,\n  icmp.error 030 }\n\n", ["timeout tcp.first 5", "timeout icmp.error 30"]),
)
RULES = (
    Row("pass all flags any", [f"filter 0 pass {ALL} state floating line 1"]),
    Row("pass all flags S/SA", [f"filter 0 pass {ALL} flags 2 18 state floating line 1"]),
    Row("pass all no state", [f"filter 0 pass {ALL} line 1"]),
    Row("pass all keep state (if-bound)", [f"filter 0 pass {ALL} flags 2 18 default state if-bound line 1"]),
    Row("set state-policy if-bound\npass all",
        ["state-policy if-bound", f"filter 0 pass {ALL} flags 2 18 default state if-bound line 2"]),
    Row("pass all keep state (max 1)", [f"filter 0 pass {ALL}{STATE} max 1 line 1"]),
    Row("set state-policy if-bound\npass all keep state (max 010)",
        ["state-policy if-bound", f"filter 0 pass {ALL} flags 2 18 default state if-bound max 10 line 2"]),
    Row("pass flags any keep state (max 4294967295 no-sync, if-bound) allow-opts",
        [f"filter 0 pass {ALL} state if-bound no-sync max 4294967295 allow-opts line 1"]),
    # each of the rules has the limit for itself
    Row("anchor on { em0, em1 } {\npass proto { tcp, udp } keep state (no-sync max 7)\n}", [
        f"anchor 0 rules 0 1 on em0 {ALL}", f"filter 0 pass proto 6 {ALL}{STATE} no-sync max 7 line 2 anchors 0",
        f"filter 1 pass proto 17 {ALL}{STATE} no-sync max 7 line 2 anchors 0",
        f"anchor 1 rules 2 3 on em1 {ALL}", f"filter 2 pass proto 6 {ALL}{STATE} no-sync max 7 line 2 anchors 1",
        f"filter 3 pass proto 17 {ALL}{STATE} no-sync max 7 line 2 anchors 1"]),
    # on a rule that keeps no state it has no effect
    Row("block all keep state (max 1)", [f"filter 0 drop {ALL} line 1"]),
    Row("block return all keep state (if-bound, max 1)", [f"filter 0 return {ALL} line 1"]),
    Row("block all keep state (max 0)", "line 1: bad number"),
    Row("block all", [f"filter 0 drop {ALL} line 1"]),
    Row("block return all", [f"filter 0 return {ALL} line 1"]),
    Row("set block-policy return\nblock all", ["block-policy return", f"filter 0 return {ALL} line 2"]),
    Row('block return in log quick on em0 all keep state (floating no-sync) label "a b" allow-opts',
        [f"filter 0 return in quick on em0 {ALL} allow-opts line 1 label 612062"]),
)
MANY = "pass from {" + " 10.0.0.1" * 256 + " } to {" + " 10.0.0.1" * 256 + " }"
TOO_MANY = (
    Row(f"{MANY}\n", "65536 filter, 0 translation"),
    Row(f"{MANY}\nblock all\n", "line 2: too many"),
    Row(f"block all\n{MANY}\n", "line 2: too many"),
    Row(f"\nanchor {{\n{MANY}\nblock all\n}}\n", "line 2: too many"),
    Row(f"block all\nanchor {{\nanchor {{\n{MANY}\n}}\n}}\n", "line 2: too many"),
)
TRANSLATION = (
    Row("no nat on em0 from 10.0.0.7 to any\n"
        "rdr pass on em0 proto tcp from any to self port 2000:2999 -> 10.0.0.1 port 4000:*\n"
        "nat on em0 from { 10.0.0.0/8, 172.16.0.0/12 } to any -> em0 port 1024:2048 static-port\n"
        'nat-anchor "ftp"\nbinat on em0 from 10.0.0.5 to any -> 192.0.2.9/32\n'
        "rdr on em0 from any to any -> 10.0.0.2 port ssh\n", [
            "nat 0 no on em0 from 10.0.0.7/32 to any line 1",
            "nat 2 on em0 from 10.0.0.0/8 to any -> 192.0.2.1 port 1024:2048 static-port line 3",
            "nat 3 on em0 from 172.16.0.0/12 to any -> 192.0.2.1 port 1024:2048 static-port line 3",
            "rdr 1 pass on em0 proto 6 from any to 192.0.2.1/32 port 2000:2999 -> 10.0.0.1 port 4000:* line 2",
            f"rdr 5 on em0 {ALL} -> 10.0.0.2 port 22 line 6",
            "binat 4 on em0 from 10.0.0.5/32 to any -> 192.0.2.9 line 5"]),
    Row("rdr pass on em0 proto tcp from any to 192.0.2.1 port 2000:2999 -> 10.0.0.1 port 4000:*",
        ["rdr 0 pass on em0 proto 6 from any to 192.0.2.1/32 port 2000:2999 -> 10.0.0.1 port 4000:* line 1"]),
    Row("nat on em0 from any to any -> em0", [f"nat 0 on em0 {ALL} -> 192.0.2.1 line 1"]),
    Row("nat from any to any -> em0:network", "line 1: left out: pool"),
    Row("nat from any to any -> gateway", "line 1: left out: host name"),
    Row("nat from any to any -> $x", "line 1: undefined macro"),
    Row("binat from em0:network to any -> 10.0.0.1", "line 1: left out: pool"),
    Row("rdr proto tcp from any to any -> 10.0.0.1 port 4000:*", "line 1: bad number"),
    Row("rdr proto tcp from any to any port > 80 -> 10.0.0.1 port 4000:*", "line 1: bad number"),
    Row("rdr proto tcp from any to any port 65000:65500 -> 10.0.0.1 port 65100:*", "line 1: bad number"),
    Row("rdr from any to $x -> 10.0.0.1 port 4000:*", "line 1: undefined macro"),
)
# targets, each the value of a macro and its use; then targets as they are written
TARGETS = (
    ("10.0.0.1/32", "$x", "10.0.0.1"),
    ("em0", "$x:0", "192.0.2.1"),
    # more than one
    ("em0:network", "($x)", "left out: pool"),
    # a table is more than one, and isn't looked up
    ("!<nowhere>", "$x", "left out: pool"),
    # no address that may stand there
    ("any", "$x", "bad address"),
    ("10.0.0.1 - 10.0.0.9", "$x", "bad address"),
    ("! 10.0.0.1", "$x", "bad address"),
    # of all faults of a value the lowest is told, and of equals the first
    ("{ 10/8 }", "$x", "left out: pool"),
    ("10.0.0.1 10.0.0.2", "$x", "unknown word"),
)
WRITTEN_TARGETS = (("self", "192.0.2.1"), ("(em0:network)", "left out: pool"), ("10.0.0.0/31", "left out: pool"))
# sources of `binat`, where a table is none that may stand there
SOURCES = (("{ 10.0.0.1 }", "left out: pool"), ("<nowhere>", "bad address"))


def target_row(before, target, answer, line):
    """A rule on this line to a target, which is at fault or not."""
    expected = [f"nat 0 {ALL} -> {answer} line {line}"] if answer[0].isdigit() else f"line {line}: {answer}"
    return Row(f"{before}nat from any to any -> {target}", expected)


def rows():
    """All rows."""
    for group in (PROTOCOLS, PORTS, REPLACED, FIRST_FAULTS, LONG_NAMES, TABLES, LISTS, ANCHORS, LABELS, LINES, OPTIONS,
                  RULES, TOO_MANY, TRANSLATION):
        yield from group
    for value, use, kind in VALUES:
        yield Row(f'x = "{value}"\nblock from {{ 10.0.0.1,\n{use} }}', f"line 3: {kind}")
    for value, kind in PORT_VALUES:
        yield Row(f'x = "{value}"\nblock to port $x', f"line 2: {kind}")
    for value, answer in FREE_WORDS:
        yield Row(f'x = "{value}"\nset debug $x', answer)
    for form, network in FORMS:
        yield Row(f"block from {form}", sources_of(1, network))
    for form in NO_FORMS:
        yield Row(f"block from {form}", "line 1: left out: host name")
    for value, use, answer in TARGETS:
        yield target_row(f'x = "{value}"\n', use, answer, 2)
    for target, answer in WRITTEN_TARGETS:
        yield target_row("", target, answer, 1)
    for value, kind in SOURCES:
        yield Row(f'x = "{value}"\nbinat from $x to any -> 10.0.0.9', f"line 2: {kind}")
    yield from interface_rows.rows()
