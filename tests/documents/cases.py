"""Wrong names in short texts, each with what has to be found of it, by hand."""

from typing import NamedTuple

from documents.checks import Fault


class Row(NamedTuple):
    """A text that stands in the place of a document, and its faults."""
    name: str
    text: str
    faults: tuple = ()


RIGHT = """\
# Right

The walk of pfr_rules (`specs/Filter.antt`) is `filter` of pfr_rules, and `pfr_rules::filter` calls it. `Vec::new` and
`NAME.conf` are of others. [A title](PROOF.md#what-is-proved), [this one](#right), `tests/compare.py --model`.

    $ ./pfreplay run examples/first.pcap examples/first.conf --interface em0 --address 192.0.2.1/24 | cut --fields 3
    $ tests/hostile/run.py 1000 7 --only 4711 && rt check --nothing

| Name | File |
|---|---|
| `decision_of` | pfr_rules `specs/Filter.antt` |
"""

ROWS = (
    Row("docs/DEFINITIONS.md", RIGHT),
    # a letter is another one, the rest is as above
    Row("docs/DEFINITIONS.md", RIGHT.replace("of pfr_rules, and", "of pfr_rule, and"),
        (Fault(3, "crate", "pfr_rule"),)),
    Row("docs/DEFINITIONS.md", RIGHT.replace("specs/Filter.antt`)", "specs/Filters.antt`)"),
        (Fault(3, "file", "specs/Filters.antt of pfr_rules"),)),
    Row("docs/DEFINITIONS.md", RIGHT.replace("`pfr_rules::filter`", "`pfr_rules::filtre`"),
        (Fault(3, "name", "pfr_rules::filtre"),)),
    Row("docs/DEFINITIONS.md", RIGHT.replace("#what-is-proved", "#what-is-prooved"),
        (Fault(4, "title", "PROOF.md#what-is-prooved"),)),
    Row("docs/DEFINITIONS.md", RIGHT.replace("(#right)", "(#wrong)"), (Fault(4, "title", "#wrong"),)),
    Row("docs/DEFINITIONS.md", RIGHT.replace("tests/compare.py", "tests/compares.py"),
        (Fault(4, "file", "tests/compares.py"),)),
    Row("docs/DEFINITIONS.md", RIGHT.replace("--address", "--adress"), (Fault(6, "flag", "--adress"),)),
    Row("docs/DEFINITIONS.md", RIGHT.replace("--only", "--many"), (Fault(7, "flag", "--many"),)),
    Row("docs/DEFINITIONS.md", RIGHT.replace("examples/first.conf", "examples/frist.conf"),
        (Fault(6, "file", "examples/frist.conf"),)),
    Row("docs/DEFINITIONS.md", RIGHT.replace("decision_of", "decisions_of"),
        (Fault(11, "name", "decisions_of"), Fault(11, "name", "decisions_of of crates/pfr_rules/specs/Filter.antt"))),
    # there, but not in that file, nor in that crate
    Row("docs/DEFINITIONS.md", RIGHT.replace("decision_of", "view_of"),
        (Fault(11, "name", "view_of of crates/pfr_rules/specs/Filter.antt"),)),
    Row("docs/PROOF.md", "`one_view` in pfr_states, and pfr_headers `one_view`, `one_table`\n",
        (Fault(1, "name", "one_table of pfr_headers"), Fault(1, "name", "one_view of pfr_states"))),
    # in the folder of the row, or of the title, alone
    Row("tests/README.md", "## steps and manners\n\n`tools.py`, `cases.py`, `damage.py`\n",
        (Fault(3, "file", "damage.py"),)),
    Row("tests/README.md", "| steps | a row in `rows.py` or `tools.py` |\n| manners | one in `tools.py` |\n",
        (Fault(1, "file", "tools.py"),)),
    Row("tests/README.md", "`captures/merging.py`, `captures/merge.py`, `--workers 0` and `--worker 0`\n",
        (Fault(1, "file", "captures/merge.py"), Fault(1, "flag", "--worker"))),
    Row("bench/README.md", "    bench/rules.py --unchecked --states 7\n", (Fault(1, "flag", "--states"),)),
    Row("README.md", "[one](docs/ARCHITECTURE.md) and [two](docs/ARCHITECTURES.md)\n",
        (Fault(1, "file", "docs/ARCHITECTURES.md"), Fault(1, "link", "docs/ARCHITECTURES.md"))),
    Row("README.md", "x" * 121 + "\n\n    " + "x" * 121 + "\n\n|" + "x" * 121 + "|\n", (Fault(1, "line", "121 letters"),)),
)
