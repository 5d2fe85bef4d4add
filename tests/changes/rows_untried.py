"""Rows of differences between rulesets that no packet could have asked, or that none met."""

from captures.packets import fragments, udp
from changes.row import CAME, FLOW_CAME, Row, capture_of, none, question_of
from changes.rows_runs import several
from runs.case import INSIDE
from steps.model import WIRE
from steps.translation_words import ANSWERED, ASKED, OPTIONS, E, H, P

OWN_INSIDE = f"{INSIDE},{E}"
NAT = "nat on em0 from 10.0.0.0/24 to any -> em0"
NAT_HIDDEN = "nat: em0 shows what goes out behind its translation"
# a packet as nat sends it on, and an answer to it
SENT, BACK = udp(E, 50001, P, 53), udp(P, 53, E, 50001)
REPLY = udp(E, 9, P, 9)


def untried(name, old, new, packets, *lines, count=1, **how):
    """A row in which nothing changes, and `count` differences couldn't be asked."""
    said = "1 difference" if count == 1 else f"{count} differences"
    end = f"0 of {'1 packet' if len(packets) == 1 else f'{len(packets)} packets'} change"
    return Row(name, question_of(old, new, capture_of(packets), **how),
               (*lines, f"{end}, {said} not judged" if count else end), is_unjudged=count > 0)


# Translation

def translation():
    yield untried("the nat of a gateway, which shows what it sends on", f"{NAT}\npass", "pass", [SENT, BACK],
                  f"not judged: L1 of OLD: {NAT_HIDDEN}", inside=OWN_INSIDE)
    yield untried("nat to an address that the other ruleset has", f"{NAT}\npass",
                  "nat on em0 from 10.0.0.0/24 to any -> 203.0.113.9\npass", [udp("203.0.113.9", 50001, P, 53)],
                  f"not judged: L1 of OLD, L1 of NEW: {NAT_HIDDEN}", count=2, inside=f"{INSIDE},203.0.113.9")
    yield untried("nat on the wire", f"{NAT}\npass", "pass", [ASKED], f"not judged: L1 of OLD: {NAT_HIDDEN}", tap=WIRE)
    yield untried("nat, and no packet goes out", f"{NAT}\npass", "pass", [CAME],
                  "not judged: L1 of OLD: nat: no connection goes out of em0")
    yield none("nat for other hosts", "nat on em0 from 10.9.0.0/24 to any -> em0\npass out", "pass out",
               [ASKED])._replace(lines=("met by no packet: L1 of OLD", "0 of 1 packet change"))
    rdr = "rdr on em0 proto tcp from any to any port 80 -> 10.0.0.5"
    yield untried("rdr, and no packet comes in", "pass", f"{rdr}\npass", [ASKED],
                  "not judged: L1 of NEW: rdr: no connection comes in on em0")
    yield untried("rdr, and what comes in has a state", "pass", f"{rdr}\npass", [ASKED, ANSWERED],
                  "not judged: L1 of NEW: rdr: no connection comes in on em0")
    yield untried("rdr for other packets", "pass", f"{rdr}\npass", [CAME], "met by no packet: L1 of NEW", count=0)
    yield untried("a rule that forbids rdr", "pass", f"no {rdr.split(' ->')[0]}\npass", [CAME], count=0)
    yield untried("rdr on an interface without a capture", "pass", f"{rdr.replace('em0', 'em1')}\npass", [CAME],
                  "not judged: L1 of NEW: rdr: no capture of em1")
    first, last = fragments(udp(P, 4000, H, 53, bytes(32)), 16)
    binat = "binat on em0 from 10.0.0.5 to any -> 192.0.2.9"
    yield untried("binat, and no packet opens a connection", "pass", f"{binat}\npass", [first, last],
                  "not judged: L1 of NEW: binat: no connection begins on em0",
                  "not judged: 2 parts of packets")
    places = ("rdr on em0 proto tcp to port 1 -> 10.0.0.5", "rdr on em0 proto udp to port 2 -> 10.0.0.6")
    first, second = ("\n".join((*each, "pass")) for each in (places, places[::-1]))
    yield untried("two rules of rdr change places", first, second, [ASKED],
                  "not judged: L1 of OLD, L2 of OLD, L1 of NEW, L2 of NEW: rdr: no connection comes in on em0", count=4)
    yield untried("two rules of rdr change places, and packets come in", first, second, [CAME],
                  "met by no packet: L1 of OLD, L2 of OLD, L1 of NEW, L2 of NEW", count=0)


# Rules of the filter

def interfaces():
    yield untried("a rule for an interface without a capture", "pass", "pass\nblock in on em1", [CAME],
                  "not judged: L2 of NEW: no capture of em1")
    yield untried("a rule for all interfaces but the one there is", "pass", "pass\nblock in on !em0", [CAME],
                  "not judged: L2 of NEW: no capture fits it")
    yield untried("a rule in an anchor for an interface without a capture", "pass",
                  "pass\nanchor on em1 {\nblock in\n}", [CAME], "not judged: L3 of NEW: no capture of em1")
    yield untried("a rule in an anchor for the other direction", "pass", "pass\nanchor out {\nblock in\n}", [CAME],
                  "not judged: L3 of NEW: no capture fits it")
    yield untried("an anchor that is for another interface now", "anchor on em1 {\nblock in\n}\npass",
                  "anchor on em2 {\nblock in\n}\npass", [CAME], "not judged: L2 of OLD: no capture of em1",
                  "not judged: L2 of NEW: no capture of em2", count=2)
    yield untried("rules for interfaces that are skipped", "set skip on em0\nblock in", "set skip on em0\nblock out",
                  [CAME], "not judged: L2 of OLD, L2 of NEW: em0 isn't filtered", count=2)
    captures = [capture_of([(1, ASKED)]), capture_of([(2, CAME)])]
    yield several("a rule for what doesn't come in there", "pass no state", "pass no state\nblock in on em0", captures,
                  "not judged: L2 of NEW: no packet comes in on em0",
                  "0 of 2 packets change, 1 difference not judged")._replace(is_unjudged=True)
    yield several("rules that are for packets of both", "pass no state",
                  "pass no state\nblock in proto gre\nblock out proto gre", captures,
                  "met by no packet: L2 of NEW, L3 of NEW", "0 of 2 packets change")
    yield several("a rule for which nothing is there", "pass no state", "pass no state\nblock out",
                  [capture_of([(1, CAME)]), capture_of([(2, CAME)])], "not judged: L2 of NEW: no packet goes out",
                  "0 of 2 packets change, 1 difference not judged")._replace(is_unjudged=True)


def ways():
    yield untried("a rule for the other way", "pass", "pass\nblock out", [CAME],
                  "not judged: L2 of NEW: no packet goes out of em0")
    yield untried("rules for the other way, and one that no packet meets", "pass in",
                  "pass in\nblock out\nblock in proto gre\nblock out to port 9", [CAME],
                  "not judged: L2 of NEW, L4 of NEW: no packet goes out of em0", "met by no packet: L3 of NEW",
                  count=2)
    yield untried("a rule for packets that have a state", "pass in\npass out", "pass in\npass out quick", [CAME, REPLY],
                  "not judged: L2 of OLD, L2 of NEW: each packet that goes out of em0 has a state or isn't filtered",
                  count=2, inside=OWN_INSIDE)
    passing = "nat pass on em0 from 10.0.0.0/24 to any -> em0\n"
    yield untried("a rule for packets that nat lets pass", passing, f"{passing}block out", [ASKED],
                  "not judged: L2 of NEW: each packet that goes out of em0 has a state or isn't filtered")
    came = udp(P, 9, E, 9, **OPTIONS)
    yield untried("a rule that is asked about IP options", "pass in", "pass in\npass in proto gre", [came],
                  "met by no packet: L2 of NEW", count=0)


def rules():
    table = "table <far> {{ {} }}\npass\nblock out from <far>"
    yield untried("a table that holds something else", table.format("10.1.1.1"), table.format("10.1.1.2"), [CAME],
                  "not judged: L3 of OLD, L3 of NEW: no packet goes out of em0", count=2)
    yield none("a table that holds the same in another order", table.format("10.1.1.1 10.1.1.2"),
               table.format("10.1.1.2 10.1.1.1"), [CAME])
    other = "table <near> { 10.9.9.9 }\n" + table.format("10.1.1.1")
    yield none("tables in another order", other,
               "table <far> { 10.1.1.1 }\ntable <near> { 10.9.9.9 }\npass\nblock out from <far>", [CAME])
    yield none("a label of a rule that no packet asks", "pass in\nblock out label a", "pass in\nblock out label b",
               [CAME])
    yield untried("a rule that is logged now", "pass in\nblock out", "pass in\nblock out log", [CAME],
                  "not judged: L2 of OLD, L2 of NEW: no packet goes out of em0", count=2)
    yield none("a rule that is logged now, and decides", "pass in", "pass in log", [CAME])
    yield none("a rule that another one like it stands behind", "pass in\nblock out", "pass in\nblock out\n", [CAME])
    yield untried("one rule more of those that are alike", "pass in\nblock out", "pass in\nblock out\nblock out",
                  [CAME], "not judged: L3 of NEW: no packet goes out of em0")
    yield untried("a rule that moved into an anchor", "pass in\nblock out", "pass in\nanchor {\nblock out\n}", [CAME],
                  "not judged: L2 of OLD, L3 of NEW: no packet goes out of em0", count=2)
    yield untried("an anchor that is quick now", "anchor {\npass in\n}\nblock out",
                  "anchor quick {\npass in\n}\nblock out", [CAME], count=0)
    changed = question_of("pass in", "block in\nblock out", capture_of([CAME]))
    yield Row("a packet that changes beside a rule that isn't asked", changed,
              (f"{FLOW_CAME}  pass L1 -> block L1  1 packet, first 1", "pass L1 -> block L1: 1 packet in 1 flow",
               "not judged: L2 of NEW: no packet goes out of em0",
               "1 of 1 packet change: 1 cause, 1 difference not judged"))
    cut = capture_of([CAME, CAME])[:-1]
    yield Row("a rule that isn't asked, and a capture that is cut", question_of("pass", "pass\nblock out", cut),
              ("not judged: L2 of NEW: no packet goes out of em0",
               "0 of 1 packet change, 1 difference not judged, cut"), is_unjudged=True)


# Options

def options():
    stateless = "pass no state"
    yield untried("options about states, and no state", stateless,
                  f"set limit states 7\nset timeout udp.first 9\n{stateless}", [CAME],
                  "not judged: set timeout: no packet has a state",
                  "not judged: set limit states: no packet has a state", count=2)
    yield none("options about states, and a state", "pass", "set limit states 7\nset timeout udp.first 9\npass", [CAME])
    yield untried("interfaces without a capture that aren't filtered", "set skip on { em1, em2 }\npass",
                  "set skip on em2\npass", [CAME], "not judged: set skip on em1: no capture of em1")
    yield none("options that say the same", "set timeout udp.first 60\npass no state", "pass no state", [CAME])


def rows():
    for make in (translation, interfaces, ways, rules, options):
        yield from make()
