"""Short texts that include files, or would have to be rewritten again: the text, what is printed, what is said, and each
file as `NAME=TEXT`.

They are written as those of `rows`. What is said of a file's words begins with its name, which stands for the path.
"""

TAGS = "a=pass from 10/8 tag x⏎block⏎"

ROWS = (
    ("include \"a\"⏎pass tag y⏎", "pass from 10.0.0.0/8⏎block⏎⏎pass⏎",
     "1:1: note: include: the text of a stands here | a:1:11: note: 10/8 | a:1:16: warning: tag | 2:6: warning: tag",
     TAGS),
    ("include \"b\"⏎pass tag y⏎", "pass from 10.0.0.0/8⏎block⏎⏎pass⏎⏎pass⏎",
     "1:1: note: include: the text of b stands here | b:1:1: note: include: the text of a stands here |"
     " a:1:11: note: 10/8 | a:1:16: warning: tag | 2:6: warning: tag", TAGS, "b=include \"a\"⏎pass⏎"),
    ("include \"b\"⏎pass tag y⏎", "include \"a\"⏎pass⏎⏎pass⏎",
     "1:1: note: include: the text of b stands here | 2:6: warning: tag | b:1:1: error: include: left out: include",
     "b=include \"a\"⏎pass⏎"),
    ("anchor x⏎load anchor x from \"a\"⏎pass tag y⏎", "anchor x {⏎pass from 10.0.0.0/8⏎block⏎}⏎⏎pass⏎",
     "1:1: note: include: the text of a stands here | a:1:11: note: 10/8 | a:1:16: warning: tag | 3:6: warning: tag",
     TAGS),
    ("include \"a\"⏎pass", "include \"a\"⏎pass", "1:1: error: include: left out: include"),
    ("include \"d\"⏎pass tag x", "no newline 10/8⏎⏎pass",
     "1:1: note: include: the text of d stands here | 2:6: warning: tag | d:1:4: error: newline: unknown word",
     "d=no newline 10/8"),
    ("x = 1⏎include \"c\"⏎pass label $x", "x = 1⏎⏎pass from 10.0.0.0/8⏎⏎pass label 1",
     "2:1: note: include: the text of c stands here | c:1:7: warning: tagged | c:2:11: note: 10/8 | 3:12: note: $x",
     "c=block tagged x⏎pass from 10/8⏎"),
    ("include \"m\"⏎pass to port $p", "p = imaps⏎⏎pass to port 993",
     "1:1: note: include: the text of m stands here | 2:14: note: $p | 2:14: note: $p | 2:9: warning: port",
     "m=p = imaps⏎"),
    ("include a⏎block", "block⏎⏎block", "1:1: note: include: the text of a stands here", "a=block⏎"),
    ("w = \"10.0.0.0/24 port imaps\"⏎rdr on em0 proto tcp from any to any port 80 -> $w⏎pass tag x",
     "w = \"10.0.0.0/24 port imaps\"⏎rdr on em0 proto tcp from any to any port 80 -> $w⏎pass tag x",
     "2:49: error: $w: what stands for it would have to be rewritten again, so nothing of the text is rewritten |"
     " 2:49: error: $w: unknown word | 3:6: error: tag: left out: tag"),
)
