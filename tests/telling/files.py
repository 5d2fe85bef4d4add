"""The command `rules` with files that aren't there, with outputs that fail, with rulesets of as many rules as there may
be, and with a fault at each call."""

from expansions.hostile import addresses, nested
from faults.command import ends_lawfully
from runs.check_cases import FITTING, RULES
from runs.model import Outcome, cannot_open, failed
from telling import model, rows_counters
from telling.asking import answered, words_of
from telling.expecting import expect_told
from telling.model import JSON, Asked
from telling.row import ONE, TOGETHER, TOGETHER_COUNTERS, TWO
from workers.pipes import without_reader

UNWRITTEN = failed("write failed: standard output")
MANY_HOSTS, SOME_HOSTS = 40, 12


def rules_between(hosts):
    """A ruleset with a rule for each pair of this number of hosts."""
    return (f"table <t>\npass from {{ {addresses(hosts)} }} to {{ {addresses(hosts)} }}\nanchor quick {{\n"
            "block from <t>\n}\n").encode()


# so many lines are written in several pieces
MANY = rules_between(MANY_HOSTS)
OF_EACH_KIND = (b't = "{ tcp udp }"\ntable <t> { 10.0.0.1 }\nno binat all\nrdr -> em0 port 5\n'
                b'anchor on { em0 em1 } {\npass proto $t from <t> to 10.0.0.0/8 label "a" keep state (max 5)\n}\n')


# Files and outputs

def files(comparison):
    """Files that aren't there or can't be read."""
    folder, asked = comparison.folder, Asked(b"pass\n", ONE, b"filter 0 0 0 0\ntotal 0 0 0 0 0\n")
    words_of(comparison, asked)
    for name in (folder / "missing", folder / RULES / "below", folder, "."):
        comparison.expect(f"rules from {name}", cannot_open(name), comparison.execute(["rules", name, *FITTING]))
        seen = answered(comparison, asked._replace(counters=None), ["--counters", name])
        comparison.expect(f"counters from {name}", cannot_open(name), seen)
    nothing = "/dev/null"
    comparison.expect("no ruleset", Outcome(b"", b"", 0), comparison.execute(["rules", nothing, *FITTING]))
    comparison.expect("no counters", model.answer(asked._replace(counters=b"")),
                      answered(comparison, asked._replace(counters=None), ["--counters", nothing]))


def outputs(comparison):
    """A full disk in place of standard output, and a pipe that nobody reads. Where nothing is printed nothing fails."""
    for name, asked in (("two rules", Asked(TOGETHER, TWO, TOGETHER_COUNTERS)), ("many rules", Asked(MANY)),
                        ("many rules as JSON", Asked(MANY, form=JSON)), ("no rule as JSON", Asked(b"", form=JSON)),
                        ("no rule", Asked(b"set skip on lo0\n")), ("a refused ruleset", Asked(b"scrub\n")),
                        ("refused counters", Asked(TOGETHER, TWO, b"total 0 0 0 0 0\n"))):
        answer = model.answer(asked)
        expected = UNWRITTEN if answer.out else answer
        with open("/dev/full", "wb") as full:
            comparison.expect(f"{name} to a full disk", expected, answered(comparison, asked, out=full))
        with without_reader() as gone:
            comparison.expect(f"{name} that nobody reads", expected, answered(comparison, asked, out=gone))
    for form in model.FORMS:
        expect_told(comparison, f"many rules, {form}", Asked(MANY, form=form))


def long_rulesets(comparison):
    """Rulesets of as many rules as there may be. More is printed of them than a text may have."""
    hosts = addresses(256)
    pairs = f"pass from {{ {hosts} }} to {{ {hosts} }}\n"
    counters = "".join(f"filter {number} 0 0 0\n" for number in range(65536)) + "total 0 0 0 0 0\n"
    for name, text, told_counters in (
            ("65536 rules", "pass\n" * 65536, None), ("256 by 256 hosts", pairs, None),
            ("256 by 256 hosts with counters", pairs, counters.encode()),
            ("16 anchors of two", nested("anchor proto { tcp, udp }", "pass\n"), None),
            ("256 by 256 hosts, translated", pairs.replace("pass", "no nat"), None)):
        expect_told(comparison, name, Asked(text.encode(), ONE, told_counters))


def faults(comparison):
    """Each allocation, read and write goes wrong in turn."""
    counted = Asked(rows_counters.TEXT.encode(), ONE, rows_counters.GOOD.encode())
    for name, asked in (
            ("rules of each kind", Asked(OF_EACH_KIND)), ("two interfaces", Asked(TOGETHER, TWO)),
            ("counters", counted), ("as JSON", counted._replace(form=JSON)),
            ("refused counters", counted._replace(counters=counted.counters[:-1])),
            ("a refused ruleset", Asked(b"pass\npass from nowhere\n")), ("no rule", Asked(b"")),
            ("some rules", Asked(rules_between(SOME_HOSTS)))):
        print(f"rules, {name}", flush=True)
        words = words_of(comparison, asked)
        comparison.expect(f"{name}, with faults", True, ends_lawfully("rules", [comparison.program, *words]))
