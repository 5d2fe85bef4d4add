"""Rules of several kinds on one line of a ruleset, on which a file is included. Behind it stands a line for packets
that go out."""

from reporting.asking import flags, lay_out, page_read
from reporting.row import NONE_IN, NONE_OUT, question_of
from reporting.rows_rules import EMPTY, PASSES, UNUSED, used
from showing.asking import CAPTURE, LINES
from showing.model import NAME
from showing.row import KNOCK, capture_of, verdicts_of

INCLUDE, LAST = 'include "more"', "pass out"
RULES = f"# <&>\n{INCLUDE}\n{LAST}"
NO_NAT, RDR = "no nat on em0 from 10.0.0.1 to any", "rdr on em0 from any to em0 -> 10.0.0.1"
ELSEWHERE = {"nat": "nat on em1 from any to any -> 192.0.2.1", "rdr": "rdr on em2 from any to any -> 10.0.0.1",
             "binat": "binat on em3 from 10.0.0.9 to any -> 192.0.2.9"}
BLOCKS = ("block in log (all)", "block in")
# what is included where the line is used, what is said of a packet, and the class of the line
USED = (((NO_NAT, RDR, *BLOCKS), "in block rule r=0 t=1 s=-", "block"),
        ((NO_NAT, RDR, *BLOCKS), "in block rule r=1 t=- s=-", "block"),
        ((NO_NAT, RDR), "in pass default r=- t=1 s=1", "used"),
        ((*BLOCKS, "pass in"), "in block rule r=1 t=- s=-", "used"),
        (("block in", "block return in"), "in return rule r=1 t=- s=-", "used"),
        ((RDR, "block return in", "block return out"), "in return rule r=0 t=- s=-", "return"),
        ((RDR, "pass in", "pass"), "in pass rule r=1 t=- s=1", "pass"))
# what is included where a packet goes out by the last line, and why the line did nothing
DID_NOTHING = (((NO_NAT, RDR, *BLOCKS), "not asked: no connection comes in on em0"), ((NO_NAT, *BLOCKS), NONE_IN),
               # the kinds have an order of their own
               ((ELSEWHERE["rdr"], ELSEWHERE["nat"], *BLOCKS), "not asked: no capture of em1"),
               ((ELSEWHERE["binat"], ELSEWHERE["rdr"], *BLOCKS), "not asked: no capture of em2"),
               ((ELSEWHERE["binat"], *BLOCKS), "not asked: no capture of em3"),
               # a packet could have asked one of them
               ((RDR, "block in", "block"), ""), ((ELSEWHERE["nat"], "block out", "block in"), ""),
               (("binat on em0 from 10.0.0.9 to any -> 192.0.2.9", "block in"), ""))


def seen_of(comparison, more, said):
    """The lines of a page, and those that did nothing, where these lines are included, and this is said of a packet."""
    question = question_of(RULES, capture_of(KNOCK), verdicts_of(said))
    lay_out(comparison, question)
    (comparison.folder / "more").write_text("".join(f"{line}\n" for line in more))
    words = ["report", CAPTURE, LINES, NAME, *flags(comparison, question), "--adapt", "--include", "more=more"]
    seen = comparison.execute(words, home=comparison.folder)
    page = page_read(seen.out) if seen else None
    return page and (page.rules, page.unused)


def lines(included, last):
    """All lines, by the classes and the cells of two of them."""
    return (("", "1", *EMPTY, "# <&>"), (included[0], "2", *included[1:], INCLUDE), (last[0], "3", *last[1:], LAST))


def compare(comparison):
    """Rules that begin with `no` don't count, and a packet of two rules of the line counts once."""
    for more, said, kind in USED:
        comparison.expect(f"a line of several kinds of rules, {more}, {said}",
                          (lines(used(kind=kind), UNUSED), (("3", "1", NONE_OUT, LAST),)),
                          seen_of(comparison, more, said))
    for more, why in DID_NOTHING:
        number = sum(line.startswith(("pass", "block")) for line in more)
        count = sum(not line.startswith("no ") for line in more)
        comparison.expect(f"a line of several kinds of rules that did nothing, {more}",
                          (lines(UNUSED, PASSES), (("2", str(count), why, INCLUDE),)),
                          seen_of(comparison, more, f"out pass rule r={number} t=- s=1"))
