"""Runs of the program with link-level addresses whose captures come otherwise than from a file, or beside which another
file can't be opened."""

from captures.packets import LINKTYPE_ETHERNET
from runs import model
from runs.also_files import CAPTURE, execute
from runs.case import capture_of
from runs.interface_rows import TWO, case_of
from runs.setting_rows import BY_LINK, EM0, EM1, OF_BOTH, OTHER_LINKS
from runs.standard_streams import STANDARD, piped, printed
from steps.translation_words import ASKED
from steps.way_cases import OWN1, RULES, framed

# a run on two interfaces with addresses
SECOND_CAPTURE = capture_of([framed(ASKED, OWN1), framed(ASKED, bytes(6))], network=LINKTYPE_ETHERNET)
CASE = case_of("addresses of two interfaces", RULES, [OF_BOTH, SECOND_CAPTURE], TWO)._replace(
    addresses=(EM0, EM1), inside=None)


def compare(comparison):
    """All of these runs."""
    streams(comparison)
    refusals(comparison)


def streams(comparison):
    """Each capture as standard input, with the outputs in files or one of them printed."""
    whole = model.run(CASE)
    for name, octets in (("capture", OF_BOTH), (CAPTURE, SECOND_CAPTURE)):
        comparison.expect(f"addresses, and {name} through a pipe", whole,
                          piped(comparison, CASE, {name: STANDARD}, octets))
        comparison.expect(f"addresses, {name} through a pipe and printed verdicts", printed(whole, "verdicts"),
                          piped(comparison, CASE, {name: STANDARD, "verdicts": STANDARD}, octets))


def refusals(comparison):
    """A capture of another link type is refused before any output is made, and behind the other files of the run."""
    second = CASE.also[0]
    for link in OTHER_LINKS:
        first = CASE._replace(capture=BY_LINK[link])
        other = CASE._replace(also=(second._replace(capture=BY_LINK[link]),))
        for case, name, place in ((first, "capture", 0), (other, CAPTURE, 1)):
            refused = model.refused(f"--mac em{place}: capture of link type {link}", model.untouched(case))
            title = f"addresses, and {name} of link type {link}"
            for output in ("verdicts", "packets", "states"):
                comparison.expect(f"{title}, and no {output}", refused,
                                  execute(comparison, case, {output: "missing/file"}))
            comparison.expect(f"{title} with old files", refused, execute(comparison, case, {}, is_old=True))
            comparison.expect(f"{title} through a pipe", refused,
                              piped(comparison, case, {name: STANDARD}, BY_LINK[link]))
            comparison.expect(f"{title}, and one file twice", model.refused("same file: rules", model.untouched(case)),
                              execute(comparison, case, {"packets": "rules"}))
            comparison.expect(f"{title}, and no ruleset", model.cannot_open("missing", model.untouched(case)),
                              execute(comparison, case, {"rules": "missing"}))
