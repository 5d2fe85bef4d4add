"""Rows of rulesets whose bytes aren't those of a page: marks of HTML, bytes that are no character, ends of lines."""

from reporting.row import BLOCKED, KNOCK, NONE_OUT, one

BAD = "\ufffd"
# comments, and what is shown of them
COMMENTS = (
    (b"# <script>alert(1)</script>", "# <script>alert(1)</script>"),
    (b"# </td></tr></table></section></body></html>", "# </td></tr></table></section></body></html>"),
    (b"# &amp; &lt; &#39; &#x27; &nbsp; &copy &", "# &amp; &lt; &#39; &#x27; &nbsp; &copy &"),
    (b"# <!-- --> <![CDATA[ ]]> <?php ?>", "# <!-- --> <![CDATA[ ]]> <?php ?>"),
    (b"# \"two\" 'one' `none`", "# \"two\" 'one' `none`"),
    (b"# <img src=x onerror=alert(1)>", "# <img src=x onerror=alert(1)>"),
    (b"#\ttabs\tand  blanks  ", "#\ttabs\tand  blanks  "),
    (b"# http://192.0.2.1/ url(x)", "# http://192.0.2.1/ url(x)"),
    # bytes that belong to no character
    (b"# \xff", f"# {BAD}"), (b"# \xff\xfe\x80", f"# {BAD * 3}"), (b"# a\x80b", f"# a{BAD}b"),
    (b"# \xc3", f"# {BAD}"), (b"# \xc3(", f"# {BAD}("), (b"# \xc0\x80", f"# {BAD * 2}"),
    (b"# \xe2\x82", f"# {BAD * 2}"), (b"# \xe2\x82x", f"# {BAD * 2}x"), (b"# \xe0\x80\x80", f"# {BAD * 3}"),
    (b"# \xed\xa0\x80", f"# {BAD * 3}"), (b"# \xed\xa0\xbd\xed\xb8\x80", f"# {BAD * 6}"),
    (b"# \xf0\x9f\x98", f"# {BAD * 3}"), (b"# \xf0\x80\x80\x80", f"# {BAD * 4}"),
    (b"# \xf4\x90\x80\x80", f"# {BAD * 4}"), (b"# \xf8\x88\x80\x80\x80", f"# {BAD * 5}"),
    (b"# \xf0\x9f\xc3\xa9", f"# {BAD * 2}\u00e9"), (b"# \xe2\xe2\x82\xac", f"# {BAD}\u20ac"),
    # characters that are some
    ("# \u00e9 \u20ac \U0001f600 \u4e2d".encode(), "# \u00e9 \u20ac \U0001f600 \u4e2d"),
    ("# \u00a0\u00ad\u200b\u2028\u2029\u202e\u0301".encode(), "# \u00a0\u00ad\u200b\u2028\u2029\u202e\u0301"),
    ("# \ufffd \ue000 \U0010fffd \ufffc".encode(), "# \ufffd \ue000 \U0010fffd \ufffc"),
    (b"# ~ ", "# ~ "),
    # control characters
    (b"# \0", f"# {BAD}"), (b"# \x01\x08\x0b\x0c\x0e\x1b\x1f", f"# {BAD * 7}"), (b"# \x7f", f"# {BAD}"),
    (b"# a\rb", f"# a{BAD}b"), ("# \x80\x85\x9f".encode(), f"# {BAD * 3}"), (b"# \x1b[31m", f"# {BAD}[31m"),
    # a byte order mark, and characters that stand for none
    ("# \ufeff".encode(), f"# {BAD}"), (b"#\xef\xbb\xbf#", f"#{BAD}#"), ("# \ufffe\uffff".encode(), f"# {BAD * 2}"),
    ("# \ufdcf\ufdd0\ufdef\ufdf0".encode(), f"# \ufdcf{BAD * 2}\ufdf0"),
    ("# \U0001fffe\U0001ffff\U0010fffe\U0010ffff".encode(), f"# {BAD * 4}"))
# rulesets of one rule, on their first line, and what is shown of it
STATEMENTS = (
    (b'block in label "<b>&amp;</b>"', 'block in label "<b>&amp;</b>"'),
    (b"block in label \"it's & that's\"", "block in label \"it's & that's\""),
    (b'block in label "</td>"# <', 'block in label "</td>"# <'),
    (b" \t block\tin  ", " \t block\tin  "), (b"block in\r", f"block in{BAD}"),
    (b"block in # \xff\xfe", f"block in # {BAD * 2}"))


def row(kind, number, *cells):
    return (kind, str(number), *cells)


USED, EMPTY = ("1", "40", "100.0 %"), ("", "", "")


def of_comments():
    for octets, shown in COMMENTS:
        yield one(f"the comment {octets!r}", octets + b"\nblock in\n", KNOCK, BLOCKED, unused=(), rules_=(
            row("", 1, *EMPTY, shown), row("block", 2, *USED, "block in")))
    every = bytes(range(256)).replace(b"\n", b"")
    yield one("each byte", b"#" + every + b"\nblock in", KNOCK, BLOCKED, rules_=(
        row("", 1, *EMPTY, "#" + "".join(chr(byte) if 32 <= byte < 127 or byte == 9 else BAD for byte in every)),
        row("block", 2, *USED, "block in")))


def of_statements():
    for octets, shown in STATEMENTS:
        yield one(f"the statement {octets!r}", octets, KNOCK, BLOCKED, unused=(),
                  rules_=(row("block", 1, *USED, shown),))
        # the same line where it does nothing
        yield one(f"the statement {octets!r}, which does nothing", octets + b"\nblock", KNOCK,
                  "in block rule r=1 t=- s=-", rules_=(row("unused", 1, "0", "0", "0.0 %", shown),
                                                       row("block", 2, *USED, "block")))
    macro = b'm = "</td><script>"\nblock in'
    yield one("a macro of marks", macro, KNOCK, BLOCKED, rules_=(
        row("", 1, *EMPTY, 'm = "</td><script>"'), row("block", 2, *USED, "block in")))


def of_ends():
    """Ends of lines as in DOS, and a text that ends in the midst of one."""
    dos = b"block in\r\n\r\npass out\r\n"
    yield one("lines as in DOS", dos, KNOCK, BLOCKED, rules_=(
        row("block", 1, *USED, f"block in{BAD}"), row("", 2, *EMPTY, BAD),
        row("unused", 3, "0", "0", "0.0 %", f"pass out{BAD}")), unused=(("3", "1", NONE_OUT, f"pass out{BAD}"),))
    yield one("a carriage return at the end", b"block in\n\r", KNOCK, BLOCKED, rules_=(
        row("block", 1, *USED, "block in"), row("", 2, *EMPTY, BAD)))
    yield one("a comment without its end", b"block in\n# the end", KNOCK, BLOCKED, rules_=(
        row("block", 1, *USED, "block in"), row("", 2, *EMPTY, "# the end")))
    yield one("newlines before", b"\n\n\nblock in", KNOCK, BLOCKED, rules_=(
        row("", 1, *EMPTY, ""), row("", 2, *EMPTY, ""), row("", 3, *EMPTY, ""), row("block", 4, *USED, "block in")))


def of_lengths():
    long = "#" + "<&\u00e9\">'" * 20000
    yield one("a very long line", long.encode() + b"\nblock in", KNOCK, BLOCKED, rules_=(
        row("", 1, *EMPTY, long), row("block", 2, *USED, "block in")))
    many = b"#\n" * 5000 + b"block in\n"
    yield one("many lines", many, KNOCK, BLOCKED, rules_=(
        *(row("", number, *EMPTY, "#") for number in range(1, 5001)), row("block", 5001, *USED, "block in")))
    # of more rules than 2048 none is looked at whether it is shadowed
    for count, why in ((300, "shadowed by 2"), (2100, "")):
        listed = f"block in proto tcp to port {{ {' '.join(map(str, range(1, count + 1)))} }}"
        yield one(f"a line of {count} rules", f"{listed}\nblock".encode(), KNOCK, f"in block rule r={count} t=- s=-",
                  unused=(("1", str(count), why, listed),))


def rows():
    for make in (of_comments, of_statements, of_ends, of_lengths):
        yield from make()
