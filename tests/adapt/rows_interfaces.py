"""Short texts with the rules of other interfaces than em0: the text, and what is said of them. A third text has flags.

They are written as those of `rows`. Nothing else is said of these texts but what stands here, and what was rewritten.
"""

ROWS = (
    ("pass on em0", ""),
    ("pass on em1⏎block in on lo0 all", "1:9: em1 | 2:13: lo0"),
    ("pass on ! em1⏎pass on { em1, ! em0 }", ""),
    ("pass on { em1, lo0 }⏎pass on { em1, em0 }", "1:11: em1"),
    ("nat on em1 from any to any -> em0⏎no rdr on lo0 all", "1:8: em1 | 2:11: lo0"),
    ("anchor a on em1 {⏎ pass on lo0⏎}", "1:13: em1 | 2:10: lo0"),
    ("i = em1⏎pass on $i⏎i = em0⏎pass on $i", "2:9: $i"),
    ("i = \"{ em1, lo0 }\"⏎pass on $i⏎pass on { $i em0 }", "2:9: $i"),
    ("pass on $i", ""),
    ("pass on egress", "1:9: egress"),
    # nothing is rewritten here, so a group is an interface by itself
    ("pass on egress", "1:9: egress", "--group egress=em0"),
    ("pass on egress", "1:9: egress", "--group egress=em1"),
    ("pass on egress tag x", "1:9: egress", "--group egress=em1"),
    ("pass on egress tag x", "", "--group egress=em1 | --group egress=em0"),
    ("set skip on em1⏎table <on> { em0 }⏎pass label on⏎x = \"pass on em1\"", ""),
    ("pass on em1⏎}", ""),
)
