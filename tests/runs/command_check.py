"""Runs the program's command `check` on many rulesets and compares each run with the model."""

from runs import check_cases, model
from runs.check_cases import FITTING, RULES
from runs.comparison import a_line
from runs.model import Outcome


def compare_model(comparison):
    """What the model says to the cases with a written outcome, which shows that it is right too."""
    for case, *written in check_cases.rows():
        comparison.expect(f"model: check: {case.name}", Outcome(*written),
                          model.check(case.text, case.interface, case.network))


def compare(comparison):
    """All checks; the comparison keeps their number and what went wrong."""
    for case, *written in check_cases.rows():
        compare_case(comparison, case, Outcome(*written))
    for case in check_cases.all_cases():
        compare_case(comparison, case, model.check(case.text, case.interface, case.network))
    orders(comparison)
    files(comparison)
    command_lines(comparison)


def compare_case(comparison, case, expected):
    comparison.prepare()
    comparison.rules.write_bytes(case.text)
    words = ["check", comparison.rules, "--interface", case.interface, "--address", case.network]
    comparison.expect(f"check: {case.name}", expected, comparison.execute(words))


def orders(comparison):
    """The flags in another order, and before the ruleset's name."""
    comparison.rules.write_bytes(b"pass from em0:network")
    expected = model.check(b"pass from em0:network", "em0", "192.0.2.1/24")
    rules = [comparison.rules]
    for words in ([*rules, *FITTING[2:], *FITTING[:2]], [*FITTING, *rules], [*FITTING[:2], *rules, *FITTING[2:]]):
        comparison.expect(f"check: words {words}", expected, comparison.execute(["check", *words]))


def files(comparison):
    """Files that can't be read, and a full disk."""
    for rules in (comparison.folder / "missing", comparison.folder, comparison.rules / "below"):
        comparison.expect(f"check: rules from {rules}", model.cannot_open(rules),
                          comparison.execute(["check", rules, *FITTING]))
    comparison.rules.write_bytes(b"pass\n")
    with open("/dev/full", "wb") as full:
        seen = comparison.execute(["check", comparison.rules, *FITTING], out=full)
        comparison.expect("check: a full disk", Outcome(b"", a_line(seen, b"pfreplay: write failed"), 3), seen)


def command_lines(comparison):
    """Command lines that don't fit. Of the wording what is at fault is fixed; the ruleset isn't looked at."""
    comparison.rules.write_bytes(b"scrub in all\n")
    places = {RULES: comparison.rules, "missing": comparison.folder / "missing"}
    for line, said in check_cases.bad_command_lines():
        words = [places.get(word, word) for word in line]
        seen = comparison.execute(["check", *words])
        comparison.expect_refused(f"check: words {line}", seen, said)
