"""Rulesets with lists, macros and anchors, and with nothing to print; and the lines on which rules stand."""

from telling.row import told

PASS, BLOCK = "pass all keep state", "block drop all"


def list_rows():
    yield told("pass proto { tcp, udp } from any to { 198.51.100.7, 198.51.100.8 } port { 80, 443 }",
               *(f"@{number} L1 pass inet proto {protocol} from any to {host} port = {port} keep state"
                 for number, (protocol, host, port) in enumerate((
                     ("tcp", "198.51.100.7", 80), ("tcp", "198.51.100.7", 443), ("tcp", "198.51.100.8", 80),
                     ("tcp", "198.51.100.8", 443), ("udp", "198.51.100.7", 80), ("udp", "198.51.100.7", 443),
                     ("udp", "198.51.100.8", 80), ("udp", "198.51.100.8", 443)))))
    # the last list changes first: interface, protocol, ICMP type, source, its port, destination, its port
    yield told("block on { a b } icmp-type { 0 8 }",
               "@0 L1 block drop on a all icmp-type echorep", "@1 L1 block drop on a all icmp-type echoreq",
               "@2 L1 block drop on b all icmp-type echorep", "@3 L1 block drop on b all icmp-type echoreq")
    yield told("block from { 10.0.0.1 10.0.0.2 } icmp-type { 0 8 }",
               *(f"@{number} L1 block drop inet from {host} to any icmp-type {kind}" for number, (host, kind) in
                 enumerate((("10.0.0.1", "echorep"), ("10.0.0.2", "echorep"), ("10.0.0.1", "echoreq"),
                            ("10.0.0.2", "echoreq")))))
    yield told("block proto { 6 17 } from port { 1 2 } to port { 3 4 }",
               *(f"@{number} L1 block drop proto {protocol} from any port = {first} to any port = {second}"
                 for number, (protocol, first, second) in enumerate((
                     ("tcp", 1, 3), ("tcp", 1, 4), ("tcp", 2, 3), ("tcp", 2, 4), ("udp", 1, 3), ("udp", 1, 4),
                     ("udp", 2, 3), ("udp", 2, 4)))))


def element_rows():
    """Each of the rules says what it asks itself."""
    # the last one asks nothing, and comes to decide in the place of all others
    yield told("block from { any, 10.0.0.1, ! 10.0.0.0/8, any } to any", f"@0 L1 {BLOCK}  # shadowed by @3",
               "@1 L1 block drop inet from 10.0.0.1 to any  # shadowed by @3",
               "@2 L1 block drop inet from ! 10.0.0.0/8 to any  # shadowed by @3", f"@3 L1 {BLOCK}")
    # the table has no entry, so all that isn't in it is every address
    yield told("table <t>\nblock to { <t>, em0, !<t> }", "@0 L2 block drop from any to <t>",
               "@1 L2 block drop inet from any to 192.0.2.1  # shadowed by @2", "@2 L2 block drop from any to ! <t>")
    yield told("block on { em0, !em1 lo0 }", "@0 L1 block drop on em0 all", "@1 L1 block drop on ! em1 all",
               "@2 L1 block drop on lo0 all")
    yield told("pass proto icmp icmp-type { echoreq, unreach code 4, 11 13 }",
               *(f"@{number} L1 pass proto icmp all icmp-type {kind} keep state"
                 for number, kind in enumerate(("echoreq", "unreach code 4", "timex", "13"))))
    yield told('pass to port { 22, 80 } keep state (max 3) label "both"',
               '@0 L1 pass from any to any port = 22 keep state (max 3) label "both"',
               '@1 L1 pass from any to any port = 80 keep state (max 3) label "both"')


def macro_rows():
    yield told('p = "{ 80, 443 }"\npass in proto tcp to port $p',
               "@0 L2 pass in proto tcp from any to any port = 80 keep state",
               "@1 L2 pass in proto tcp from any to any port = 443 keep state")
    # that what isn't 10.0.0.2 holds 10.0.0.1 too
    yield told('a = "10.0.0.1"\nb = "{" $a "! 10.0.0.2 }"\n\nblock from { any $b }\na = "10.0.0.9"\nblock from $a',
               f"@0 L4 {BLOCK}", "@1 L4 block drop inet from 10.0.0.1 to any  # shadowed by @2",
               "@2 L4 block drop inet from ! 10.0.0.2 to any", "@3 L6 block drop inet from 10.0.0.9 to any")
    yield told('w = "{ tcp udp }"\ni = em1\nblock on $i proto $w\nblock on !$i proto { icmp $w }',
               "@0 L3 block drop on em1 proto tcp all", "@1 L3 block drop on em1 proto udp all",
               "@2 L4 block drop on ! em1 proto icmp all", "@3 L4 block drop on ! em1 proto tcp all",
               "@4 L4 block drop on ! em1 proto udp all")


def line_rows():
    """The line is that of a rule's first word."""
    yield told("\n# a comment\n\npass # and another one\n\n\nblock\n\n", f"@0 L4 {PASS}  # shadowed by @1",
               f"@1 L7 {BLOCK}")
    yield told("pass \\\n  in \\\n  quick\nblock", "@0 L1 pass in quick all keep state", f"@1 L4 {BLOCK}")
    yield told("block from { 10.0.0.1,\n  10.0.0.2\n}\npass", "@0 L1 block drop inet from 10.0.0.1 to any",
               "@1 L1 block drop inet from 10.0.0.2 to any", f"@2 L4 {PASS}")
    yield told("# one \\\n still the comment\npass\r\n\tblock\r", f"@0 L3 {PASS}  # shadowed by @1", f"@1 L4 {BLOCK}")
    yield told("x = \"a \\\n b\"\npass", f"@0 L3 {PASS}")
    # the end of a line in a label is shown as a blank
    yield told('pass label "a\\\nb"\nblock', f'@0 L1 {PASS} label "a b"  # shadowed by @1', f"@1 L3 {BLOCK}")
    yield told("pass", f"@0 L1 {PASS}")
    # of equal rules that aren't quick the next one is the first behind a rule
    yield told("\n" * 9 + "pass\n" * 12,
               *(f"@{number} L{number + 10} {PASS}  # shadowed by @{number + 1}" for number in range(11)),
               f"@11 L21 {PASS}")


# Anchors

EXAMPLE = ("nat on em0 from 10.0.0.0/8 to any -> 192.0.2.1\n\n\n\nblock in on em0\nanchor in on em0 {\n"
           "pass quick proto tcp to 10.0.0.5 port 8080 label web\n}\nblock out")
DEEP = "anchor {\n" * 16 + "pass\n" + "}\n" * 16


def anchor_rows():
    yield told('anchor "a" {\npass\n}', "anchor all {", f"@0 L2   {PASS}", "}")
    yield told(EXAMPLE, "@0 L1 nat on em0 inet from 10.0.0.0/8 to any -> 192.0.2.1", "@0 L5 block drop in on em0 all",
               "anchor in on em0 all {",
               '@1 L7   pass quick inet proto tcp from any to 10.0.0.5 port = 8080 keep state label "web"', "}",
               "@2 L9 block drop out all")
    yield told("block\nanchor out quick {\npass\nblock\n}\npass", f"@0 L1 {BLOCK}", "anchor out quick all {",
               f"@1 L3   {PASS}  # shadowed by @2", f"@2 L4   {BLOCK}", "}", f"@3 L6 {PASS}")
    yield told('table <t>\nanchor "a/b" in quick on !em1 inet proto udp from <t> to !em0 port 53 {\n\npass\n\n}',
               "anchor in quick on ! em1 inet proto udp from <t> to ! 192.0.2.1 port = 53 {", f"@0 L4   {PASS}", "}")
    yield told("anchor quick {\nblock\n}\nanchor {\nblock\n}", "anchor quick all {", f"@0 L2   {BLOCK}", "}",
               "anchor all {", f"@1 L5   {BLOCK}", "}")


def nested_rows():
    yield told("anchor in {\npass\nanchor out {\nblock\n}\npass quick\n}\nblock", "anchor in all {",
               f"@0 L2   {PASS}  # shadowed by @2", "  anchor out all {", f"@1 L4     {BLOCK}  # shadowed by @3", "  }",
               "@2 L6   pass quick all keep state", "}", f"@3 L8 {BLOCK}")
    # anchors that begin and end at the same rule
    yield told("anchor on em0 {\nanchor proto tcp {\nanchor quick {\npass\n}\n}\n}", "anchor on em0 all {",
               "  anchor proto tcp all {", "    anchor quick all {", f"@0 L4       {PASS}", "    }", "  }", "}")
    yield told("anchor in {\nanchor out {\npass\n}\nanchor quick {\nblock\n}\n}", "anchor in all {",
               "  anchor out all {", f"@0 L3     {PASS}", "  }",
               "  anchor quick all {", f"@1 L6     {BLOCK}", "  }", "}")
    yield told(DEEP, *(f"{'  ' * depth}anchor all {{" for depth in range(16)), f"@0 L17 {'  ' * 16}{PASS}",
               *(f"{'  ' * depth}}}" for depth in reversed(range(16))))
    # of lists each combination has the whole body
    yield told("anchor on { em0, !em1 } {\npass\nblock\n}", "anchor on em0 all {",
               f"@0 L2   {PASS}  # shadowed by @1", f"@1 L3   {BLOCK}", "}", "anchor on ! em1 all {",
               f"@2 L2   {PASS}  # shadowed by @3", f"@3 L3   {BLOCK}", "}")
    yield told("block\nanchor proto { tcp, udp } {\npass to port { 1 2 }\n"
               "anchor from { 10.0.0.1, 10.0.0.2 } {\nblock\n}\n}",
               f"@0 L1 {BLOCK}",
               "anchor proto tcp all {",
               "@1 L3   pass from any to any port = 1 keep state", "@2 L3   pass from any to any port = 2 keep state",
               "  anchor inet from 10.0.0.1 to any {", f"@3 L5     {BLOCK}", "  }",
               "  anchor inet from 10.0.0.2 to any {", f"@4 L5     {BLOCK}", "  }", "}",
               "anchor proto udp all {",
               "@5 L3   pass from any to any port = 1 keep state", "@6 L3   pass from any to any port = 2 keep state",
               "  anchor inet from 10.0.0.1 to any {", f"@7 L5     {BLOCK}", "  }",
               "  anchor inet from 10.0.0.2 to any {", f"@8 L5     {BLOCK}", "  }", "}")


def empty_rows():
    """Anchors that hold no rule aren't printed, and nothing at all is printed of a ruleset without rules."""
    for text in ("", "\n\n", "# nothing", "set skip on lo0\nx = 5\ntable <t> { 10.0.0.1 }", 'anchor "ftp/*"',
                 "anchor in on { em0 em1 } {\n}", "anchor {\nanchor {\n\n# nothing\n}\nanchor b\n}",
                 'nat-anchor "ftp-proxy/*"\nrdr-anchor "ftp-proxy/*"\nbinat-anchor a'):
        yield told(text)
    yield told("anchor a\npass\nanchor {\n}\nblock\nanchor {\nanchor quick {\n}\npass\nanchor b\n}",
               f"@0 L2 {PASS}  # shadowed by @1", f"@1 L5 {BLOCK}", "anchor all {", f"@2 L9   {PASS}", "}")


def rows():
    for group in (list_rows, element_rows, macro_rows, line_rows, anchor_rows, nested_rows, empty_rows):
        yield from group()
