"""Rulesets with the counters of a run, and counters that no run with the ruleset writes."""

from listing.rows import UDP
from telling.row import TWO, Row

TEXT = 'nat on em0 from any to any -> em0\nrdr to port 80 -> 10.0.0.5\nblock\npass out label "web"\n'
NAT, RDR = "nat on em0 inet all -> 192.0.2.1", "rdr inet from any to any port = 80 -> 10.0.0.5"
BLOCK, PASS = "block drop all", 'pass out all keep state label "web"'
LINES = ("filter 0 12 9 540", "filter 1 12 3 180", "translation 0 4 2 100", "translation 1 0 0 0", "total 12 3 9 0 0")
MOST, TOO_MUCH = 18446744073709551615, 18446744073709551616


def counters_of(*lines):
    return "".join(f"{line}\n" for line in lines)


GOOD = counters_of(*LINES)


def changed(place, line):
    """The good lines, of which the one at a place is another one."""
    return counters_of(*LINES[:place], line, *LINES[place + 1:])


def right_rows():
    yield Row("counters of each kind", TEXT, (
        f"@0 L1 {NAT}  # 4 evaluations, 2 packets, 100 bytes",
        f"@1 L2 {RDR}  # 0 evaluations, 0 packets, 0 bytes: counts no packet",
        f"@0 L3 {BLOCK}  # 12 evaluations, 9 packets, 540 bytes",
        f"@1 L4 {PASS}  # 12 evaluations, 3 packets, 180 bytes"), counters=GOOD)
    yield Row("counters of a run without packets", "pass", (
        "@0 L1 pass all keep state  # 0 evaluations, 0 packets, 0 bytes: counts no packet",),
              counters=counters_of("filter 0 0 0 0", "total 0 0 0 0 0"))
    yield Row("a rule that was visited, and for which no packet counts", "pass\nblock", (
        "@0 L1 pass all keep state  # 7 evaluations, 0 packets, 0 bytes: counts no packet, shadowed by @1",
        "@1 L2 block drop all  # 7 evaluations, 7 packets, 280 bytes"),
              counters=counters_of("filter 0 7 0 0", "filter 1 7 7 280", "total 7 0 7 0 0"))
    yield Row("numbers at their limits", "block", (
        f"@0 L1 block drop all  # {MOST} evaluations, {MOST} packets, {MOST} bytes",),
              counters=counters_of(f"filter 0 {MOST} {MOST} {MOST}", f"total {MOST} 0 {MOST} 0 0"))
    yield Row("counters of no rule", "", (), counters=counters_of("total 8 8 0 0 0"))
    yield Row("counters of a run on several interfaces", "block from self", (
        "@0 L1 block drop from self to any  # 3 evaluations, 2 packets, 56 bytes",), TWO,
              counters_of("filter 0 3 2 56", "total 5 1 2 0 2"))
    yield Row("what looks like counters in a label", 'block label "  # 2 evaluations"', (
        '@0 L1 block drop all label "  # 2 evaluations"  # 4 evaluations, 4 packets, 80 bytes',),
              counters=counters_of("filter 0 4 4 80", "total 4 0 4 0 0"))


def rows_of_copies():
    """Rules that lists and anchors make, and rules of several kinds."""
    # The lines of anchors have none, and rules in them have theirs. Which run wrote the counters isn't asked, so they
    # may say that packets count for a rule that never decides.
    yield Row("counters of rules in anchors", "anchor on { em0 em1 } {\npass\n}\nblock return", (
        "anchor on em0 all {",
        "@0 L2   pass all keep state  # 10 evaluations, 10 packets, 400 bytes: shadowed by @2", "}",
        "anchor on em1 all {",
        "@1 L2   pass all keep state  # 0 evaluations, 0 packets, 0 bytes: counts no packet, shadowed by @2", "}",
        "@2 L4 block return all  # 12 evaluations, 2 packets, 80 bytes"),
              counters=counters_of("filter 0 10 10 400", "filter 1 0 0 0", "filter 2 12 2 80", "total 12 10 0 2 0"))
    yield Row("counters of rules of a list", "no nat from { 10.0.0.1 10.0.0.2 }", (
        "@0 L1 no nat inet from 10.0.0.1 to any  # 5 evaluations, 0 packets, 0 bytes",
        "@1 L1 no nat inet from 10.0.0.2 to any  # 4 evaluations, 0 packets, 0 bytes"),
              counters=counters_of("translation 0 5 0 0", "translation 1 4 0 0", "total 5 5 0 0 0"))
    # translation rules are counted by their numbers, whatever their kinds
    yield Row("counters of several kinds of translation", "rdr -> 10.0.0.5\nbinat from 10.0.0.5 -> em0\nnat -> em0", (
        "@0 L1 rdr inet all -> 10.0.0.5  # 10 evaluations, 2 packets, 200 bytes",
        "@1 L2 binat inet from 10.0.0.5 to any -> 192.0.2.1  # 20 evaluations, 0 packets, 0 bytes: counts no packet",
        "@2 L3 nat inet all -> 192.0.2.1  # 30 evaluations, 3 packets, 300 bytes"),
              counters=counters_of("translation 0 10 2 200", "translation 1 20 0 0", "translation 2 30 3 300",
                                   "total 60 60 0 0 0"))


# what stands in the place of a line, by its place
WRONG = {
    0: ("", "filter 0 12 9", "filter 0 12 9 540 0", "filter 00 12 9 540", "filter 0 012 9 540", "filter 0 12 9 540 ",
        " filter 0 12 9 540", "filter  0 12 9 540", "filter 0 12 9 -540", "filter 0 12 9 +540", "filter 0 12 9 0x1",
        "filter 0 12 9 5.4", "filter 0 12 9 x", "filter 0 12 9 ", "Filter 0 12 9 540", "filter 1 12 9 540",
        "translation 0 12 9 540", "rule 0 12 9 540", "filter 0 12 9 540\r", "filter\t0 12 9 540", "filter 0 12 9 540\0",
        f"filter 0 {TOO_MUCH} 9 540", f"filter 0 12 {TOO_MUCH} 540", f"filter 0 12 9 {TOO_MUCH}",
        f"filter 0 12 9 {'9' * 5000}", "total 12 3 9 0 0", "\xe9"),
    1: ("filter 0 12 3 180", "filter 2 12 3 180", "filter 1 12 3", "translation 0 4 2 100"),
    2: ("filter 2 4 2 100", "translation 1 4 2 100", "nat 0 4 2 100", f"translation 0 {TOO_MUCH} 2 100",
        "total 12 3 9 0 0"),
    3: ("translation 0 0 0 0", "translation 2 0 0 0", "translation 1 0 0", ""),
    4: ("total 12 3 9 0", "total 12 3 9 0 0 0", "total 012 3 9 0 0", f"total {TOO_MUCH} 3 9 0 0", "filter 0 12 9 540",
        "total 12 3 9 0 x", "Total 12 3 9 0 0", "total", "", "translation 2 0 0 0"),
}


def refusal(name, counters, line, text=TEXT):
    return Row(f"counters with {name}", text, counters=counters, said=f"counters line {line}: not of this ruleset")


def wrong_rows():
    for place, lines in WRONG.items():
        for line in lines:
            yield refusal(f"{line[:40]!r} on line {place + 1}", changed(place, line), place + 1)
    for count in range(len(LINES)):
        yield refusal(f"{count} lines", counters_of(*LINES[:count]), count + 1)
    yield refusal("one line more", GOOD + "total 12 3 9 0 0\n", 6)
    yield refusal("an empty line more", GOOD + "\n", 6)
    yield refusal("a byte more", GOOD + "x", 6)
    yield refusal("no newline at the end", GOOD[:-1], 5)
    yield refusal("no newline behind the only line", "total 0 0 0 0 0", 1, "")
    yield refusal("a line that is cut", GOOD[:25], 2)
    yield refusal("no line, for a ruleset without rules", "", 1, "")
    yield refusal("one filter rule too many", counters_of("filter 0 1 1 28", "filter 1 1 0 0", "total 1 1 0 0 0"), 2,
                  "pass")
    yield refusal("one filter rule too few", counters_of("filter 0 1 1 28", "total 1 1 0 0 0"), 2, "pass\nblock")
    yield refusal("a translation rule too many", counters_of("translation 0 1 1 28", "total 1 1 0 0 0"), 1, "")
    yield refusal("the states of a run", counters_of(UDP), 1)
    yield refusal("bytes of a capture", "\xd4\xc3\xb2\xa1\2\0\4\0", 1)
    yield refusal("a zero byte", "\0", 1)
    yield refusal("filter and translation rules by turns", counters_of(*(LINES[place] for place in (0, 2, 1, 3, 4))), 2)
    yield refusal("the total first", counters_of(LINES[4], *LINES[:4]), 1)


def rows():
    yield from right_rows()
    yield from rows_of_copies()
    yield from wrong_rows()
