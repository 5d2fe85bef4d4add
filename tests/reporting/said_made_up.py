"""Made-up texts on standard error and on terminals: what reads them has to take the right ones, and not the others."""

from reporting.said import Said, are_in_order, lines_in, said_in, terminal_lines

SAID = b"pfreplay: 1234567 packets, 512345 a second, 43 %, 1234 states made"
SHARELESS = b"pfreplay: 9 packets, 0 a second, 0 states made"
FULL, LESS = Said(1234567, 512345, 43, 1234), Said(9, 0, None, 0)
NO_LINES = (b"", SAID + b"\n", b" " + SAID, SAID + b".", SAID[10:], SAID.replace(b" %", b"%"),
            SAID.replace(b"43 %", b"43.0 %"), SAID.replace(b"1234567", b"1,234,567"), SAID.replace(b"43 %, ", b", "),
            SAID.replace(b"1234 states", b"01234 states"), SAID.replace(b"states made", b"states"),
            SAID.replace(b"packets", b"packet"), SAID.replace(b"512345", b"-1"))
ERROR = b"pfreplay: packet 3: no line of verdicts\n"
# what stands on a terminal, the lines that were seen there, and what was said besides
TERMINALS = (
    (b"", [], b""), (ERROR, [], ERROR), (b"\r" + SAID + b"\n", [FULL], b""), (SAID + b"\r\n", [FULL], b""),
    (SAID + b"\n" + ERROR, [FULL], ERROR),
    (SHARELESS + b"\r" + SAID + b"\n", [LESS, FULL], b""),
    (b"\r" + SHARELESS + b"\r" + SAID + b"\n", [LESS, FULL], b""),
    (SAID + b"\r" + SHARELESS + b"\x1b[K\n", [FULL, LESS], b""),
    (SAID + b"\r\x1b[K" + SHARELESS + b"\r\n" + ERROR, [FULL, LESS], ERROR),
    (SAID + b"\r" + SHARELESS + b" " * 40 + b"\n", [FULL, LESS], b""))
# without a newline, a line under the one before, and the rest of a longer line behind a shorter one
BAD_TERMINALS = (SAID, b"\r" + SAID, SAID + b"\r", SAID + b"\r" + SHARELESS + b"\n", SAID + ERROR, b"\n" + SAID + b"\n")


def compare(comparison):
    comparison.expect("a line", FULL, said_in(SAID))
    comparison.expect("a line without a share", LESS, said_in(SHARELESS))
    for line in NO_LINES:
        comparison.expect(f"no line: {line}", None, said_in(line))
    for octets, lines, rest in ((b"", [], b""), (SAID + b"\n" + SHARELESS + b"\n" + ERROR, [FULL, LESS], ERROR),
                                (SAID, [], SAID), (ERROR + SAID + b"\n", [], ERROR + SAID + b"\n")):
        comparison.expect(f"lines of {octets}", (lines, rest), lines_in(octets))
    for octets, lines, rest in TERMINALS:
        comparison.expect(f"a terminal with {octets}", (lines, rest), terminal_lines(octets))
    for octets in BAD_TERMINALS:
        comparison.expect(f"a bad terminal with {octets}", ([], octets), terminal_lines(octets))
    for lines, is_so in (([], True), ([LESS, FULL], True), ([FULL, LESS], False), ([FULL._replace(share=101)], False),
                         ([FULL, FULL._replace(states=0)], False), ([FULL, FULL._replace(share=42)], False)):
        comparison.expect(f"the order of {lines}", is_so, are_in_order(lines))
