"""Rulesets for the comparison of their reader with its model: those of the folder `texts`, and what is made of them.

The file `expected` of the folder has the answer to each of its texts, a line each.
"""

import random
import re
import sys
from pathlib import Path
from typing import NamedTuple

from rulesets import words

TEXTS = Path(__file__).resolve().parent / "texts"
# for the same texts on every run
SEED = 1961
LARGE = 1 << 20
# changed texts of each file, and of each file that is an example
CHANGES, EXAMPLE_CHANGES = 15, 250

SHORT_RULESETS = (
    b'x="a b"\npass from{<t>,!$x/8}port 80:90\n',
    b'table <t> { 10.0.0.1, !em0 }\nanchor "a" {\nblock in\n}\n',
    b'set limit states 5\npass to 1.2.3.4 - 1.2.3.5 \\\nport>9 # "c{\n',
)
# Places for one word, at the `@` (`|` is a newline), and what is put there beside all words that the language knows.
PLACES = """
    @; @ = 5; x = @; x = 5 @; x = $@; $@; @ all; pass @; pass in @; pass in log @; pass in quick @; block @; pass all @;
    pass inet @; pass on @; pass on !@; pass on { em0 @ }; pass on { @, em0 }; pass proto @; pass proto { tcp, @ };
    pass from @; pass from !@; pass from (@); pass from <@>; pass from @ - 10.0.0.9; pass from 10.0.0.1 - @;
    pass from { 10.0.0.1, @ }; pass from { @ 10.0.0.1 }; pass from any @; pass to @; pass to port @; pass to port > @;
    pass to port != @; pass to port 80 >< @; pass to port @ <> 80; pass to port @:80; pass to port 1:@;
    pass to port { 80 @ }; pass to port { @, 80 }; pass to port 80 @; pass flags @; pass flags any @; pass flags S/@;
    pass icmp-type @; pass icmp-type { 3 @ }; pass icmp-type 3 code @; pass icmp-type 3 @; pass no @; pass keep @;
    pass no state @; pass keep state @; pass keep state (@); pass keep state (no-sync, @); pass keep state (@ 5);
    pass keep state (no-sync @); pass keep state (max @); pass keep state (max 5, @); pass allow-opts @; pass label @;
    pass label "a" @; anchor @; anchor "a" @; anchor "a" in @; anchor "a" quick @; anchor { @; anchor {|@ all|};
    anchor {|} @; anchor {|pass all @|}; table @;
    table <@; table <@>; table <t> @; table <t> persist @; table <t> { @ }; table <t> { !@ }; table <t> { 10.0.0.1, @ };
    table <t> { } @; set @; set @ x; set @ 5; set @ on lo0; set @ tcp.first 5; set skip @; set skip on @;
    set skip on { lo0 @ }; set timeout @; set timeout @ 5; set timeout tcp.first @; set timeout { tcp.first 5, @ 5 };
    set timeout { tcp.first 5 @ }; set limit @; set limit @ 5; set limit states @; set limit frags @;
    set limit { states 5, @ 5 }; set block-policy @; set state-policy @; set hostid @; set optimization @;
    set require-order @; set loginterface @; set debug @; set ruleset-optimization @; set debug x @; nat @; no @;
    no nat @; nat pass @; nat pass log @; nat all @; nat -> @; nat -> em0 @; nat -> em0 port @; nat -> em0 port 5:@;
    rdr -> em0 port @; rdr -> em0 port @:*; rdr -> em0 port 5 @; binat from @ -> em0; binat from em0 @ -> em0;
    binat from em0 -> @; binat @ -> em0; nat-anchor @; rdr-anchor a @
    """.replace("|", "\n").split(";")
OTHER_WORDS = """
    em0 em0:0 em0:network vlan_5 a-b a.b a/b *  S S/SA s/sa S/ F/FSRPAUEW network 0 1 5 32 33 255 256 65535 65536
    1000000 1000001 2147483647 2147483648 4294967295 4294967296 0x0 0x1f 0xffffffff 0x100000000 0xg 00000000000000080
    10.0.0.1 10.0.0.2/32 10.0.0.0/8 10.0.0.0/33 10.0.0.256 10.0.0.256/33 10.0.0 10/8 10. 1.2.3.4.5 ... 80:90 90:80 80:
    :80 80:* ssh:http http:ssh foo:99999 99999:foo 99999:1 1:2:3 www.example.com a23456789012345 a234567890123456
    a234567890123456789012345678901 a2345678901234567890123456789012 adaptive "a" "" " 'a' $x $x:0 $x/24 $ $tag
    { } {} {5} {em0} {any,} ( ) () (em0) (no-sync) , = != < <= > >= >< <> ! -> - <t> !10.0.0.1 ; / : \\ ~ \x01 \xe9 #
    """.split()
PIECE = re.compile(rb'"[^"\n]*"|[A-Za-z0-9_./:*-]+|[ \t\r]+|.', re.DOTALL)
BLANKS = b" \t\r"


class Ruleset(NamedTuple):
    """A text with its answer. One without is answered by the model."""
    name: str
    text: bytes
    answer: str | None = None


def written():
    """The texts of the folder with the answers written for them, which the model has to give too."""
    table = {}
    for line in (TEXTS / "expected").read_text().splitlines():
        name, _, answer = line.partition(": ")
        table[name] = answer
    found = {path.name for path in TEXTS.glob("*.conf")}
    if found != table.keys():
        sys.exit(f"files without an answer, or answers without a file: {sorted(found ^ table.keys())}")
    return [Ruleset(name, (TEXTS / name).read_bytes(), answer) for name, answer in sorted(table.items())]


def short():
    """Short texts with the line of the first fault, and some whose faults only the expansion finds."""
    rows = (
        ("pass all\nset skip on lo0", "line 2: out of order"),
        ("scrub in all", "line 1: left out: scrub"),
        ('\nset fingerprints "x"', "line 2: left out: set fingerprints"),
        ("pass log (all)", "line 1: left out: log"),
        ("nat on em0 from any to any -> em0", "1 statements"),
        ("pass in from $x to any", "1 statements"),
        ("table <t> { 10.0.0.1, !10.0.0.1 }", "1 statements"),
        ("pass from gateway to <nowhere>", "1 statements"),
        ('p = "{ 80, 443 }"\npass in proto tcp to port $p\n', "2 statements"),
        ("set timeout { tcp.first 5,\n  frag 030 }\n\n", "1 statements"),
    )
    for number, (text, answer) in enumerate(rows):
        yield Ruleset(f"short text {number}", text.encode(), answer)


# How bytes make words: texts with the line of the first fault, mostly a word behind those that are asked for.
BLANK_TEXTS = (
    ("", "0 statements"), (" \t\r ", "0 statements"), ("# a comment", "0 statements"), ("#", "0 statements"),
    ("\\\n", "0 statements"), (" \\\n # a \\\n comment", "0 statements"),
    ("set skip on lo0\n\npass\tin quick\r\nsurplus", "line 4: unknown word"),
    # a newline behind a backslash ends no line, and a backslash before anything else is no word
    ("pass \\\nin\\\nquick", "1 statements"), ("pass \\\nin\\\nquick\\\nsurplus", "line 4: unknown word"),
    ("pass \\\nin\\\nquick\n\\\r\nall", "line 4: unknown word"), ("pass\n\\\nall\\", "line 3: unknown word"),
    # a comment ends before the newline, goes on behind a backslash, and may hold any bytes
    ('pass# { " \x00\xff\npass # c \\\nd \\\\\n# e\npass #', "3 statements"),
    ("pass # c \\\nd \\\\\n# e\nsurplus", "line 4: unknown word"),
)
QUOTED_TEXTS = (
    ('pass label "a # b"\npass label ""\npass label "c\\\nd"\npass label "\\"\nsurplus', "line 6: unknown word"),
    ('pass label "f\ng', "line 1: unterminated"), ('pass label "\n"open\n', "line 1: unterminated"),
    ('pass\npass label "open\n', "line 2: unterminated"), ('pass label "op\x01en\n', "line 1: bad byte"),
    ('pass\npass label "\xe9"\n', "line 2: bad byte"), ('pass label "\x7f"', "line 1: bad byte"),
)
SIGN_TEXTS = (
    # two bytes are one sign if they can be, from the left
    ("pass to port 1><9\npass to port 1<>9\npass to port >=1\npass to port !=1\npass to port <=1", "5 statements"),
    ("pass to port !=80\npass to port ><80", "line 2: unknown word"),
    ("pass to port <=80\npass to port <>80", "line 2: unknown word"),
    ("pass to port ! = 80", "line 1: unknown word"), ("pass to port > = 80", "line 1: unknown word"),
    ("pass to port >=<80", "line 1: unknown word"), ("pass to port !==80", "line 1: unknown word"),
    # an arrow is no part of the word before it
    ("rdr to em0 port 1024->192.0.2.1 port 1024:*", "1 statements"),
    ("nat from 10.0.0.1->192.0.2.1\nnat to a-->192.0.2.1\nnat to a-b-1/8->192.0.2.1", "3 statements"),
    ("nat from 10.0.0.1-192.0.2.1", "line 1: unknown word"), ("pass from 10.0.0.1 -> 10.0.0.9", "line 1: unknown word"),
)
USE_TEXTS = (
    ("pass from $net/24 to $if:network\npass from { $a, $d:0/8 $b }\npass from {$f}", "3 statements"),
    ("nat from $d:0/8->$e", "1 statements"), ("pass from $a234567890123456789012345678901", "1 statements"),
    ("pass from $a2345678901234567890123456789012", "line 1: unknown word"),
    # a point or a dash ends a name
    ("pass from $b.c", "line 1: unknown word"), ("pass from $_x1-y", "line 1: unknown word"),
    ("pass from $", "line 1: unknown word"), ("pass from $tag", "line 1: unknown word"),
    ("pass from $tcp/24", "line 1: unknown word"), ("pass from :1", "line 1: unknown word"),
    ("pass from /2", "line 1: unknown word"),
)
STRAY_TEXTS = (
    ("@", "line 1: unknown word"), ("~", "line 1: unknown word"), ("\\", "line 1: unknown word"),
    ("\x00", "line 1: bad byte"), ("\x1f", "line 1: bad byte"), ("\x7f", "line 1: bad byte"),
    ("\xff", "line 1: bad byte"),
    # a brace in a quote or a comment closes none
    ("{ { }", "line 1: unterminated"), ("} { }", "line 1: unknown word"),
    ('pass to { 1.2.3.4\n, "}" } }', "line 2: unknown word"),
    ('pass to { 1.2.3.4\n, 1.2.3.5 } # }\npass label "}"\npass to { 1.2.3.4 # }', "line 4: unterminated"),
    ('pass to { 1.2.3.4\n, 1.2.3.5 "}"', "line 1: unterminated"),
)
NUMBER_TEXTS = (
    ("set timeout tcp.first 4294967297", "line 1: bad number"), ("pass from 198.51.100.256", "line 1: bad address"),
    ("pass proto ah\npass to port https\npass to port http\npass icmp-type echorep", "4 statements"),
    ("pass proto icmp6", "line 1: unknown word"), ("pass icmp-type echo", "line 1: unknown word"),
)


def spelled():
    """How bytes make words, and words names and numbers."""
    for text, answer in (*BLANK_TEXTS, *QUOTED_TEXTS, *SIGN_TEXTS, *USE_TEXTS, *STRAY_TEXTS, *NUMBER_TEXTS):
        yield Ruleset(f"the text {text!r}", text.encode("latin-1"), answer)


def large():
    """Texts of a mebibyte, and anchors as deep as they may be and one deeper."""
    yield Ruleset("one large word", b"a" * LARGE, "line 1: unknown word")
    yield Ruleset("a large value", b"x=" + b"a" * (LARGE - 2), "1 statements")
    yield Ruleset("a large host name", b"pass from " + b"a-" * (LARGE // 2), "1 statements")
    yield Ruleset("a large number", b"pass to port " + b"9" * LARGE, "line 1: bad number")
    yield Ruleset("open braces", b"{" * LARGE, "line 1: unterminated")
    yield Ruleset("braces in braces", b"{" * (LARGE // 2) + b"}" * (LARGE // 2), "line 1: unknown word")
    yield Ruleset("closing braces", b"}" * LARGE, "line 1: unknown word")
    yield Ruleset("open brackets", b"(" * LARGE, "line 1: unknown word")
    yield Ruleset("newlines", b"\n" * LARGE, "0 statements")
    yield Ruleset("newlines and a fault", b"\n" * LARGE + b"/", f"line {LARGE + 1}: unknown word")
    yield Ruleset("continuations", b"\\\n" * (LARGE // 2), "0 statements")
    yield Ruleset("dollars", b"$" * LARGE, "line 1: unknown word")
    yield Ruleset("quotes", b'"' * LARGE, "line 1: unknown word")
    yield Ruleset("a large open quote", b'x="' + b"\\\n" * (LARGE // 2), "line 1: unterminated")
    yield Ruleset("backslashes", b"\\" * LARGE, "line 1: unknown word")
    entries = LARGE // len(b"10.0.0.1,\n")
    yield Ruleset("a large list", b"pass from {\n" + b"10.0.0.1,\n" * entries + b"any }", "1 statements")
    yield Ruleset("a large list with a last comma", b"pass from {\n" + b"10.0.0.1,\n" * entries + b"}",
                  f"line {entries + 2}: unknown word")
    yield Ruleset("anchors 16 deep", b"anchor {\n" * 16 + b"pass\n" + b"}\n" * 16, "17 statements")
    yield Ruleset("anchors 17 deep", b"anchor {\n" * 17 + b"pass\n" + b"}\n" * 17, "line 17: too deep")


def each_byte():
    """Every byte in place of, and before, every byte of some short texts."""
    for number, text in enumerate(SHORT_RULESETS):
        for place in range(len(text) + 1):
            for byte in range(256):
                new = bytes([byte])
                yield Ruleset(f"short {number}, {byte} at {place}", text[:place] + new + text[place:])
                if place < len(text):
                    yield Ruleset(f"short {number}, {byte} for {place}", text[:place] + new + text[place + 1:])


def each_word():
    """Every word of the language, and some others, in every place."""
    known = words.TAKEN_NAMES | words.TIMEOUTS | words.ADAPTIVE
    for word in (*sorted(known), *OTHER_WORDS):
        for place in PLACES:
            text = place.strip().replace("@", word) + "\npass all\n"
            yield Ruleset(f"{word} in {place.strip()}", text.encode("latin-1"))


def is_example(ruleset):
    return ruleset.name.startswith(("example_", "written_"))


def beginnings(rulesets):
    """Every beginning of the examples."""
    for ruleset in filter(is_example, rulesets):
        for length in range(len(ruleset.text)):
            yield Ruleset(f"first {length} bytes of {ruleset.name}", ruleset.text[:length])


def change_pieces(draw, text, vocabulary):
    """A text with one of its words or signs dropped, doubled, exchanged or replaced."""
    pieces = PIECE.findall(text)
    places = [place for place, piece in enumerate(pieces) if piece.strip(BLANKS)]
    if not places:
        return draw.choice(vocabulary)
    place, other = draw.choice(places), draw.choice(places)
    way = draw.randrange(6)
    if way == 0:
        pieces[place] = b""
    elif way == 1:
        pieces[place] += pieces[place]
    elif way == 2:
        pieces[place] += b" " + pieces[place]
    elif way == 3:
        pieces[place], pieces[other] = pieces[other], pieces[place]
    elif way == 4:
        pieces[place] = draw.choice(vocabulary)
    else:
        pieces[place] += draw.choice((b"", b" ")) + draw.choice(vocabulary)
    return b"".join(pieces)


def change_lines(draw, text):
    """A text with lines exchanged, dropped, doubled or joined."""
    lines = text.split(b"\n")
    place, other = draw.randrange(len(lines)), draw.randrange(len(lines))
    way = draw.randrange(4)
    if way == 0:
        lines[place], lines[other] = lines[other], lines[place]
    elif way == 1:
        del lines[place]
    elif way == 2:
        lines.insert(other, lines[place])
    else:
        lines[place:place + 2] = [b" ".join(lines[place:place + 2])]
    return b"\n".join(lines)


def changed(rulesets):
    """Texts that come from the files by one to three random changes."""
    draw = random.Random(SEED)
    vocabulary = sorted({piece for ruleset in rulesets for piece in PIECE.findall(ruleset.text)
                         if piece.strip(BLANKS) and len(piece) <= 40})
    for ruleset in rulesets:
        for number in range(EXAMPLE_CHANGES if is_example(ruleset) else CHANGES):
            text = ruleset.text
            for _ in range(draw.choice((1, 1, 1, 2, 3))):
                if draw.randrange(4):
                    text = change_pieces(draw, text, vocabulary)
                else:
                    text = change_lines(draw, text)
            yield Ruleset(f"{ruleset.name}, change {number}", text)
