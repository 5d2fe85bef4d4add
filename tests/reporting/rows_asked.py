"""Rows of lines that no packet could have asked, and of those that some could have."""

from captures.packets import fragments, icmp_error, udp
from reporting.row import NONE_IN, NONE_OUT, capture_of, of_captures, text_of, timed
from reporting.rows_rules import NAT, NO_CONNECTION, RDR
from reporting.rows_summary import PASSED, SKIP_ON
from showing.row import KNOCK
from showing.rows_text import SHORT, SKIPPED
from steps.translation_words import ANSWERED, ASKED, E, H, P

CAME, LET_IN, WENT = "in pass rule r={} t=- s=-", "in pass default r=- t=- s=-", "out pass default r=- t=- s=-"
HIDDEN = "not asked: em0 shows what goes out behind its translation"
# a packet as nat sends it on
SENT = udp(E, 50001, P, 53)
BINAT = "binat on em0 from 10.0.0.5 to any -> 192.0.2.9"
STATE_IN = "not asked: each packet that comes in on em0 has a state or isn't filtered"


def told_of(rules, lines):
    """The rows of lines that did nothing, each told as a number, why, and maybe how many rules stand there."""
    texts = rules.split("\n")
    return tuple((str(number), str(*count or (1,)), why, texts[number - 1]) for number, why, *count in lines)


def lines(name, rules, packets, *told):
    """A row of packets, each a frame and what its line says, with the lines that did nothing."""
    return timed(name, rules, *((0, *each) for each in packets), unused=told_of(rules, told))


# The filter

def of_interfaces():
    knock = [(KNOCK, CAME.format(0))]
    for name, more, why in (("another interface", "block in on em1", "no capture of em1"),
                            ("all interfaces but the one there is", "block in on ! em0", "no capture fits it")):
        yield lines(f"a rule for {name}", f"pass in\n{more}", knock, (2, f"not asked: {why}"))
    for name, anchor, why in (("another interface", "on em1", "no capture of em1"),
                              ("the other direction", "out", "no capture fits it"),
                              ("all interfaces but the one there is", "on ! em0", "no capture fits it")):
        yield lines(f"a rule in an anchor for {name}", f"pass in\nanchor {anchor} {{\nblock in proto tcp\n}}", knock,
                    (3, f"not asked: {why}"))
    yield lines("an interface that isn't filtered", "set skip on em0\nblock in\nblock in on em1", [(KNOCK, SKIP_ON)],
                (2, "not asked: em0 isn't filtered"), (3, "not asked: no capture of em1"))


def of_ways():
    rules = "pass in proto tcp\nblock in proto udp\nblock out proto udp\nblock proto gre"
    nothing = "not asked: nothing on em0 is judged"
    yield lines("a packet that comes in", rules, [(KNOCK, CAME.format(0))], (2, ""), (3, NONE_OUT), (4, ""))
    yield lines("a packet that goes out", rules, [(ASKED, WENT)], (1, NONE_IN), (2, NONE_IN), (3, ""), (4, ""))
    for name, packets in (("no packet", []), ("packets that aren't judged", [(KNOCK[:30], SHORT), (b"", SKIPPED)])):
        yield lines(f"{name}, and rules for all ways", rules, packets, (1, NONE_IN), (2, NONE_IN), (3, NONE_OUT),
                    (4, nothing))


def of_states():
    """Packets that have a state don't come to the filter."""
    out = (ASKED, PASSED.format(1).replace("r=1", "r=0"))
    rules = "pass out\nblock in\nblock proto gre"
    for said in ("in pass state r=0 t=- s=1", "in block state-mismatch r=0 t=- s=1", "in pass state-error r=0 t=- s=1",
                 "in block ip-option r=0 t=- s=1"):
        yield lines(f"a packet that has a state, {said}", rules, [out, (ANSWERED, said)], (2, STATE_IN), (3, ""))
    for said in ("in block state-limit r=0 t=- s=-", "in block state-insert r=0 t=- s=-",
                 "in block ip-option r=- t=- s=-", LET_IN):
        yield lines(f"a packet that comes to the filter, {said}", rules, [out, (KNOCK, said)], (2, ""), (3, ""))


# Translation

def of_nat():
    for name, target, source in (("of the interface", "em0", E), ("of the rule", "203.0.113.9", "203.0.113.9")):
        rules = f"nat on em0 from 10.0.0.0/24 to any -> {target}\npass in"
        yield lines(f"nat behind its translation, by the address {name}", rules,
                    [(udp(source, 50001, P, 53), WENT)], (1, HIDDEN), (2, NONE_IN))
    rules = f"{NAT}\n{BINAT}\npass in"
    yield lines("nat and binat behind their translation", rules, [(SENT, WENT), (udp("192.0.2.9", 7, P, 53), WENT)],
                (1, HIDDEN), (2, HIDDEN), (3, NONE_IN))
    yield lines("nat, and a packet that isn't translated among others", rules, [(SENT, WENT), (ASKED, WENT)], (1, ""),
                (2, ""), (3, NONE_IN))
    yield lines("nat, and a packet that comes in", rules, [(KNOCK, CAME.format(0))], (1, NO_CONNECTION), (2, ""))
    yield lines("nat, and packets that have a state", f"{NAT}\npass out", [
        (ASKED, "out pass rule r=0 t=- s=1"), (ASKED, "out pass state r=0 t=- s=1")], (1, ""))
    yield lines("nat on another interface", "nat on em1 from any to any -> 192.0.2.1\npass out", [
        (ASKED, "out pass rule r=0 t=- s=1")], (1, "not asked: no capture of em1"))
    yield lines("nat on an interface that isn't filtered", f"set skip on em0\n{NAT}", [(ASKED, SKIP_ON)],
                (2, "not asked: em0 isn't filtered"))


def of_rdr():
    none = "not asked: no connection comes in on em0"
    rules = f"{RDR}\npass out"
    out = (ASKED, "out pass rule r=0 t=- s=1")
    yield lines("rdr, and no packet comes in", rules, [out], (1, none))
    yield lines("rdr, and what comes in has a state", rules, [out, (ANSWERED, "in pass state r=0 t=- s=1")], (1, none))
    yield lines("rdr, and a part of a packet comes in", rules, [out, (fragments(udp(P, 9, H, 9, bytes(24)), 16)[0],
                                                                      LET_IN)], (1, none))
    yield lines("rdr, and an ICMP error comes in", rules, [out, (icmp_error(P, 3, 13, ASKED), LET_IN)], (1, none))
    yield lines("rdr, and a connection comes in", rules, [out, (KNOCK, LET_IN)], (1, ""))
    yield lines("rules of rdr, of which one translates nothing", f"no rdr on em1 all\n{RDR}\npass out", [out],
                (2, none))
    first, last = fragments(udp(P, 9, H, 9, bytes(24)), 16)
    yield lines("binat, and no connection begins", f"{BINAT}\nblock out", [(first, LET_IN), (last, LET_IN)],
                (1, "not asked: no connection begins on em0"), (2, NONE_OUT))


# Lines of several rules

def of_several():
    came = [(KNOCK, LET_IN)]
    for interfaces, why in (("em1 em2", "not asked: no capture of em1"), ("em2 em1", "not asked: no capture of em2"),
                            ("! em0 em1", "not asked: no capture fits it"),
                            ("em1 ! em0", "not asked: no capture of em1"), ("em0 em1", ""), ("em1 em0", "")):
        yield lines(f"a line for {interfaces}", f"block in on {{ {interfaces} }} proto udp", came, (1, why, 2))
    yield lines("a line of rdr for two interfaces", "rdr on { em1 em0 } proto udp from any to any -> 10.0.0.5", came,
                (1, "", 2))
    rules = "block in on { em0 em1 } proto tcp\nblock in on em0\npass out"
    out = [(ASKED, "out pass rule r=3 t=- s=1")]
    yield lines("a line of which a rule is shadowed, and none was asked", rules, out, (1, NONE_IN, 2), (2, NONE_IN))
    yield lines("a shadowed line that wasn't asked", "pass in no state\nblock in\npass out",
                [(ASKED, "out pass rule r=2 t=- s=1")], (1, "shadowed by 2"), (2, NONE_IN))


# Several interfaces

def of_captures_told(name, rules, first, second, said, *told):
    captures = [capture_of(*((0, each) for each in first)), capture_of(*((0, each) for each in second))]
    return of_captures(name, rules, captures, text_of(*said), parts={"unused": told_of(rules, told)})


def of_two():
    knock = ("1 0 in pass default r=- t=- s=- i=em0", "2 0 in pass default r=- t=- s=- i=em1")
    rules = f"{RDR}\nnat from 10.0.0.0/8 to any -> 192.0.2.1\nblock out\nblock out on em1\nblock in on em1 proto udp"
    yield of_captures_told("packets that come in on two interfaces", rules, [KNOCK], [KNOCK], knock, (1, ""),
                           (2, "not asked: no connection goes out"), (3, "not asked: no packet goes out"),
                           (4, "not asked: no packet goes out of em1"), (5, ""))
    ways = ("1 0 in pass default r=- t=- s=- i=em0", "2 0 out pass default r=- t=- s=- i=em1")
    rules = "block in on em1\nblock out on em0\nblock on em2\nblock in on { em1 em0 } proto udp\nblock out proto gre"
    yield of_captures_told("packets that come in on one interface, and go out of another", rules, [KNOCK], [ASKED],
                           ways, (1, "not asked: no packet comes in on em1"), (2, NONE_OUT),
                           (3, "not asked: no capture of em2"), (4, "", 2), (5, ""))
    rules = "set skip on em1\nblock in on em1\nblock in proto udp\nblock on em0"
    skipped = ("1 0 - skip not-ip r=- t=- s=- i=em0", "2 0 - pass skip-on r=- t=- s=- i=em1")
    yield of_captures_told("two interfaces, of which one isn't filtered", rules, [b""], [KNOCK], skipped,
                           (2, "not asked: em1 isn't filtered"), (3, "not asked: no packet comes in"),
                           (4, "not asked: nothing on em0 is judged"))
    states = ("1 0 in pass default r=- t=- s=- i=em0", "2 0 out pass rule r=0 t=- s=2 i=em1",
              "3 0 in pass state r=0 t=- s=2 i=em1")
    rules = "pass out on em1\nblock in on em1"
    yield of_captures_told("packets that have a state on one interface", rules, [KNOCK], [ASKED, ANSWERED], states,
                           (2, STATE_IN.replace("em0", "em1")))


def rows():
    for make in (of_interfaces, of_ways, of_states, of_nat, of_rdr, of_several, of_two):
        yield from make()
