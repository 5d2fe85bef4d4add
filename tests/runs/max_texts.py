"""Rulesets with the word `max`: those with a fault, with the line and the kind, and those without one."""

# what stands in the brackets behind `keep state`, with the kind of fault that it has
BAD_OPTIONS = (
    ("max 0", "bad number"), ("max 4294967296", "bad number"), ("max 1, max 2", "unknown word"), ("max", "unknown word"),
    ("max five", "unknown word"), ("max 0x10", "unknown word"), ("max -1", "unknown word"), ("max 1,", "unknown word"),
    ("max $n", "unknown word"), ("max 1 2", "unknown word"), ("max 7 no-sync, max 8", "unknown word"),
    ("sloppy, max 1", "left out: sloppy"), ("max 1, max-src-states 5", "left out: max-src-states"),
    ("max-src-states 5", "left out: max-src-states"), ("max 1 tcp.first 5", "left out: timeout"),
)
BAD_STATEMENTS = (
    ('max = "1"', "unknown word"), ("pass max 5", "unknown word"), ("pass from max", "unknown word"),
    ("pass on max", "unknown word"), ("anchor max", "unknown word"), ("pass label max", "unknown word"),
    ("table <max>", "unknown word"), ("pass no state (max 1)", "unknown word"), ("set max 5", "left out: set max"),
)
MAX_FAULTS = (
    *((f"pass out all keep state ({options})", 1, kind) for options, kind in BAD_OPTIONS),
    *((text, 1, kind) for text, kind in BAD_STATEMENTS),
    ("block all\npass keep state (no-sync,\\\n max 0)", 3, "bad number"), ("block keep state (max 0)", 1, "bad number"),
    # a word of the grammar is no value that stands for a host
    ("x = max\npass from $x", 2, "unknown word"),
)
# with how many rules of the filter they make, and their checksum as md5sum tells it
MAX_TEXTS = (
    ("pass out all keep state (max 1)", 1, "e6c03bd6ce2cc5bb76cbdd5bd2faca80"),
    ("pass out all keep state (max 4294967295)", 1, "8a3990547585333caf43ac914149b1bc"),
    ("pass out all keep state (max 010)", 1, "b43a7d76a56c1086620b92c3c0b9ac3d"),
    ("pass out all keep state (max 7 no-sync, if-bound)", 1, "685625e614564716cddc09c3d05eaf03"),
    ("pass out all keep state (floating max 3)", 1, "aeaa42d98c28183b196f83ed09a5c159"),
    ("pass out all keep state (if-bound, no-sync, max 2)", 1, "8aa6489aeb6774bd922034bcf73c8f98"),
    ("block all keep state (max 1)", 1, "f0f92a38d54caa91a40d8a8055557da5"),
    ("pass out all label x keep state (max 1)", 1, "20a8e4d862408249d85eabc0e4ac83ff"),
    ("x = max", 0, "3082f1791f091f1c7b3c45738b6bab68"),
    ("set loginterface max", 0, "134a65b91b88997d81452f6034115a0c"),
    ("pass out proto { tcp, udp } keep state (max 1)\npass in keep state (max 2)\n", 3, "05bdb87e1acf4aaffd2a735bc90a73f0"),
)
