"""Rows of what is printed as JSON: each kind of object, and each of its names.

The words of an object are written out here as they are printed. Null is the word for what isn't there.
"""

from adapt.surroundings import NOTHING
from captures.packets import (ACK, ETHER_ARP, ETHER_IPV4, ETHER_IPV6, LINKTYPE_ETHERNET, SYN, UDP, echo, ethernet, ipv4,
                              record, tcp, udp)
from changes.printed import JSON
from changes.row import CAME, FLOW_CAME, KNOCK, Row, capture_of, question_of, row
from changes.rows_runs import several
from showing.rows_json import NAMES
from steps.translation_words import ANSWER, ASKED, GRE, H2, ONE_PORT, OPTIONS, SERVER, B, E, H, P

PASS, BLOCK, SKIPPED = "pass", "block", "set skip on em0\n"
ETHER_PPPOE = 0x8864
# the ends of some packets
ENDS = '"protocol":%s,"source":{"address":"%s","port":%s},"destination":{"address":"%s","port":%s}'
OF_CAME, OF_ASKED = ENDS % (17, P, 9, E, 9), ENDS % (17, H, 1000, P, 53)
NO_ENDS = '"protocol":null,"source":null,"destination":null'
JUDGED = '{"kind":"not judged","cut":0,"ipv6":0,"arp":0,"pppoe":0,"two_tags":0,"other":0,"midway":0,"parts":0}'


def decided(verdict, line="null", reason="null", kind="null", translation_line="null"):
    return (f'{{"verdict":"{verdict}","reason":{reason},"line":{line},"translation":{kind},'
            f'"translation_line":{translation_line}}}')


PASSED, BLOCKED = decided("pass", 1), decided("block", 1)


def cause(ends, old, new, first=1, follow=0, interface="em0"):
    return (f'{{"kind":"cause","interface":"{interface}",{ends},"old":{old},"new":{new},"first":{first},'
            f'"follow":{follow}}}')


def pair(old, new, packets=1, flows=1, follow=0):
    return (f'{{"kind":"decisions","old":{old},"new":{new},"packets":{packets},"flows":{flows},"follow":{follow}}}')


def rules_of(*places):
    """Rules that stand on lines of the old and of the new ruleset."""
    return ",".join(f'{{"ruleset":"{ruleset}","line":{line}}}' for ruleset, line in places)


def unasked(of, why, *places):
    return f'{{"kind":"not asked","rules":[{rules_of(*places)}],"of":"{of}","why":"{why}"}}'


def option(name, why):
    return f'{{"kind":"not asked","option":"{name}","why":"{why}"}}'


def judged(**numbers):
    """The line about packets that aren't judged, with some numbers."""
    line = JUDGED
    for name, number in numbers.items():
        line = line.replace(f'"{name}":0', f'"{name}":{number}')
    return line


def of_all(changed, packets, causes, differences=0, cut="false"):
    return (f'{{"kind":"all","changed":{changed},"packets":{packets},"causes":{causes},"differences":{differences},'
            f'"capture_cut":{cut}}}')


def json(name, old, new, packets, *lines, is_unjudged=False, **how):
    """A row of packets on one interface."""
    return Row(f"JSON, {name}", question_of(old, new, capture_of(packets), form=JSON, **how), lines,
               is_unjudged=is_unjudged)


def one(name, old, new, packet, ends, *decisions, kinds=JUDGED, **how):
    """A row of one packet, which changes."""
    return json(name, old, new, [packet], cause(ends, *decisions, **how), pair(*decisions), kinds, of_all(1, 1, 1))


# Causes

def causes():
    yield json("one cause", "pass in", "block in", [CAME],
               '{"kind":"cause","interface":"em0","protocol":17,"source":{"address":"198.51.100.7","port":9},'
               '"destination":{"address":"192.0.2.1","port":9},"old":{"verdict":"pass","reason":null,"line":1,'
               '"translation":null,"translation_line":null},"new":{"verdict":"block","reason":null,"line":1,'
               '"translation":null,"translation_line":null},"first":1,"follow":0}',
               '{"kind":"decisions","old":{"verdict":"pass","reason":null,"line":1,"translation":null,'
               '"translation_line":null},"new":{"verdict":"block","reason":null,"line":1,"translation":null,'
               '"translation_line":null},"packets":1,"flows":1,"follow":0}',
               '{"kind":"not judged","cut":0,"ipv6":0,"arp":0,"pppoe":0,"two_tags":0,"other":0,"midway":0,"parts":0}',
               '{"kind":"all","changed":1,"packets":1,"causes":1,"differences":0,"capture_cut":false}')
    yield one("ports of TCP", PASS, BLOCK, tcp(P, 65535, H, 0, SYN, 1), ENDS % (6, P, 65535, H, 0), PASSED, BLOCKED)
    for name, packet, ends in (("ICMP", echo(H, P, True, 7, 1), (1, H, "null", P, "null")),
                               ("GRE", ipv4(P, H, GRE, bytes(8)), (47, P, "null", H, "null")),
                               ("protocol 255", ipv4(P, H, 255, bytes(8)), (255, P, "null", H, "null"))):
        yield one(f"{name} has no ports", PASS, BLOCK, packet, ENDS % ends, PASSED, BLOCKED)
    yield one("a part of a packet has no ports", PASS, BLOCK, ipv4(P, H, UDP, bytes(8), fragment=3),
              ENDS % (17, P, "null", H, "null"), PASSED, BLOCKED, kinds=judged(parts=1))
    short, skipped = decided("block", reason='"short"'), decided("pass", reason='"skip-on"')
    yield json("packets that are too short", BLOCK, SKIPPED, [CAME[:27], CAME[:3]],
               cause(NO_ENDS, short, skipped, follow=1), pair(short, skipped, 2, follow=1),
               unasked("filter", "nothing on em0 is judged", ("old", 1)), JUDGED, of_all(2, 2, 1, 1))
    captures = [capture_of([(1, ASKED), (3, ASKED)]), capture_of([(2, ASKED)])]
    yield several("JSON, a cause on each interface", "pass no state", "block", captures,
                  cause(OF_ASKED, PASSED, BLOCKED, 1, 1), cause(OF_ASKED, PASSED, BLOCKED, 2, interface="em1"),
                  pair(PASSED, BLOCKED, 3, 2, 1), JUDGED, of_all(3, 3, 2), form=JSON)
    second, passed, blocked = ENDS % (17, H, 1001, P, 53), decided("pass", 2), decided("block", 1)
    yield json("what is newly let in comes first", "block in\npass out", "block out\npass in",
               [ASKED, udp(H, 1001, P, 53), CAME, ASKED], cause(OF_CAME, blocked, passed, 3),
               cause(OF_ASKED, passed, blocked, 1, 1), cause(second, passed, blocked, 2), pair(blocked, passed),
               pair(passed, blocked, 3, 2, 1), JUDGED, of_all(4, 4, 3))


def names():
    """The name of an interface, also where it stands in a text."""
    for name, escaped in NAMES:
        yield json(f"an interface called {name!r}", "pass in", "block in\nblock out", [CAME],
                   cause(OF_CAME, PASSED, BLOCKED, interface=escaped), pair(PASSED, BLOCKED),
                   unasked("filter", f"no packet goes out of {escaped}", ("new", 2)), JUDGED, of_all(1, 1, 1, 1),
                   interface=name)
    yield row("an interface of letters beyond ASCII, as text", "pass in", "block in\nblock out", [CAME],
              f"{FLOW_CAME}  pass L1 -> block L1  1 packet, first 1", "pass L1 -> block L1: 1 packet in 1 flow",
              "not judged: L2 of NEW: no packet goes out of \u00e9",
              "1 of 1 packet change: 1 cause, 1 difference not judged", interface="\u00e9")


# Decisions

def reasons():
    came = udp(P, 9, E, 9, **OPTIONS)
    yield one("no rule", "", "pass in", CAME, OF_CAME, decided("pass", reason='"default"'), PASSED)
    yield one("return", "block return in", "block in", CAME, OF_CAME, decided("return", 1), BLOCKED)
    yield one("a reason and a line", "pass in", "pass in allow-opts", came, OF_CAME,
              decided("block", 1, '"ip-option"'), PASSED)
    yield one("a reason and no line", "", "pass in allow-opts", came, OF_CAME, decided("block", reason='"ip-option"'),
              PASSED)
    yield json("a packet of a state", "pass out", "pass out allow-opts", [ASKED, ASKED],
               cause(OF_ASKED, PASSED, PASSED, follow=1), pair(PASSED, PASSED, 2, follow=1), JUDGED, of_all(2, 2, 1))
    yield json("another verdict alone", "block in\npass out", "block out\npass in", [ASKED],
               cause(OF_ASKED, decided("pass", 2), BLOCKED), pair(decided("pass", 2), BLOCKED),
               unasked("filter", "no packet comes in on em0", ("old", 1), ("new", 2)), JUDGED, of_all(1, 1, 1, 2),
               by_verdict=True)


def translated():
    binat, rdr = f"binat on em0 from {H} to any -> {B}", f"rdr on em0 from any to em0 -> {SERVER}"
    for kind, rule, packet, ends in (("nat", ONE_PORT, ASKED, OF_ASKED), ("rdr", rdr, CAME, OF_CAME),
                                     ("binat", binat, ASKED, OF_ASKED)):
        yield one(f"a rule of {kind} that comes", PASS, f"\n{rule}\n{PASS}", packet, ends, PASSED,
                  decided("pass", 3, kind=f'"{kind}"', translation_line=2))
    passing = ONE_PORT.replace("nat", "nat pass")
    yield one("a rule of nat that passes", BLOCK, f"{passing}\nblock", ASKED, OF_ASKED, BLOCKED,
              decided("pass", kind='"nat"', translation_line=1))
    exhausted = decided("block", reason='"nat-exhausted"', kind='"nat"', translation_line=1)
    old, new = (f"nat on em0 from 10.0.0.0/8 to any -> em0 port {ports}\npass" for ports in ("50001:50002", "50001"))
    translated_so = decided("pass", 2, kind='"nat"', translation_line=1)
    yield json("no port for a rule of nat", old, new, [ASKED, udp(H2, 1000, P, 53)],
               cause(OF_ASKED, translated_so, translated_so),
               cause(ENDS % (17, H2, 1000, P, 53), translated_so, exhausted, 2), pair(translated_so, translated_so),
               pair(translated_so, exhausted), JUDGED, of_all(2, 2, 2))
    passed, blocked, let_in = decided("pass", 2), BLOCKED, decided("pass", 3, kind='"nat"', translation_line=1)
    yield json("an answer that follows by its state", "block in\npass out", f"{ONE_PORT}\nblock in\npass out",
               [ASKED, ANSWER], cause(OF_ASKED, passed, let_in, follow=1), pair(blocked, let_in, follow=1),
               pair(passed, let_in), JUDGED, of_all(2, 2, 1))


# What no packet tried

def untried():
    kinds = ("nat on em1 from any to any -> em0", "rdr on em1 from any to em0 -> 10.0.0.5",
             f"binat on em1 from {H} to any -> {B}")
    why = "no capture of em1"
    yield json("rules of each kind that aren't asked", PASS, "\n".join((*kinds, PASS, "block in on em1")), [CAME],
               unasked("nat", why, ("new", 1)), unasked("rdr", why, ("new", 2)), unasked("binat", why, ("new", 3)),
               unasked("filter", why, ("new", 5)), JUDGED, of_all(0, 1, 0, 4), is_unjudged=True)
    yield json("rules of both rulesets that aren't asked", "pass in\nblock out\nblock out proto gre",
               "pass in\n\nblock out quick", [CAME],
               unasked("filter", "no packet goes out of em0", ("old", 2), ("old", 3), ("new", 3)), JUDGED,
               of_all(0, 1, 0, 3), is_unjudged=True)
    yield json("options", "pass no state",
               "set limit states 7\nset timeout udp.first 9\nset skip on { em1, em2 }\npass no state", [CAME],
               option("set skip on em1", "no capture of em1"), option("set skip on em2", "no capture of em2"),
               option("set timeout", "no packet has a state"), option("set limit states", "no packet has a state"),
               JUDGED, of_all(0, 1, 0, 4), is_unjudged=True)
    yield json("rules that no packet met", "block in proto gre\npass in", "pass in\nblock in to port 80\n", [CAME],
               f'{{"kind":"met by no packet","rules":[{rules_of(("old", 1), ("new", 2))}]}}', JUDGED, of_all(0, 1, 0))
    yield json("a rule that isn't asked, one that no packet met, and an option", "pass no state",
               "set timeout udp.first 9\npass no state\nblock out\nblock in proto gre", [CAME],
               unasked("filter", "no packet goes out of em0", ("new", 3)),
               option("set timeout", "no packet has a state"),
               f'{{"kind":"met by no packet","rules":[{rules_of(("new", 4))}]}}', JUDGED, of_all(0, 1, 0, 2),
               is_unjudged=True)


# Packets that aren't judged, and all packets

def unjudged():
    frames = [ethernet(ETHER_ARP, bytes(28)), ethernet(ETHER_IPV6, bytes(40)), ethernet(ETHER_IPV6, bytes(40)),
              ethernet(ETHER_PPPOE, bytes(20)), ethernet(ETHER_IPV4, CAME, (3, 7)), ethernet(0x88CC, bytes(9)),
              bytes(13), bytes(13)]
    yield Row("JSON, frames of each kind",
              question_of(PASS, PASS, capture_of(frames, network=LINKTYPE_ETHERNET), form=JSON),
              (judged(ipv6=2, arp=1, pppoe=1, two_tags=1, other=3), of_all(0, 8, 0)), is_unjudged=True)
    snapped = capture_of([]) + record(1, 0, CAME[:24], original=len(CAME))
    yield Row("JSON, a packet that is cut", question_of(PASS, PASS, snapped, form=JSON),
              (judged(cut=1), of_all(0, 1, 0)), is_unjudged=True)
    segment, last = tcp(P, 4000, H, 22, ACK, 1, 1), ipv4(P, H, UDP, bytes(8), fragment=3)
    yield json("packets midway, and parts of packets", BLOCK, BLOCK, [segment, last, last, segment, segment],
               judged(midway=3, parts=2), of_all(0, 5, 0))
    yield one("a packet that changes and isn't judged", "pass no state", BLOCK, segment, ENDS % (6, P, 4000, H, 22),
              PASSED, BLOCKED, kinds=judged(midway=1))


def all_packets():
    yield json("nothing changes", PASS, PASS, [CAME, KNOCK], JUDGED, of_all(0, 2, 0))
    yield json("no packet", PASS, PASS, [], JUDGED, of_all(0, 0, 0), is_unjudged=True)
    cut = capture_of([CAME, CAME])[:-1]
    yield Row("JSON, a capture that is cut", question_of("pass in", "block in", cut, form=JSON),
              (cause(OF_CAME, PASSED, BLOCKED), pair(PASSED, BLOCKED), JUDGED, of_all(1, 1, 1, cut="true")))
    yield Row("JSON, a capture that is cut, and nothing changes",
              question_of(PASS, "pass\nblock out", cut, form=JSON),
              (unasked("filter", "no packet goes out of em0", ("new", 2)), JUDGED, of_all(0, 1, 0, 1, "true")),
              is_unjudged=True)
    many = capture_of([CAME] * 1000 + [KNOCK] * 100)
    yield Row("JSON, many packets", question_of("pass in no state", "block in", many, form=JSON),
              (cause(OF_CAME, PASSED, BLOCKED, follow=999),
               cause(ENDS % (6, P, 4000, H, 22), PASSED, BLOCKED, 1001, 99), pair(PASSED, BLOCKED, 1100, 2, 1098),
               JUDGED, of_all(1100, 1100, 2)))


def of_files():
    """Lines are those of the rulesets' files, and what is refused is said as ever."""
    returned = decided("return", 2)
    yield json("an adapted ruleset", "scrub in all\nblock return-rst in proto tcp\npass out", "block in\npass out",
               [KNOCK], cause(ENDS % (6, P, 4000, H, 22), returned, BLOCKED), pair(returned, BLOCKED), JUDGED,
               of_all(1, 1, 1), surroundings=NOTHING)._replace(
                   remarks=("{old}:1:1: warning: scrub", "{old}:2:7: note: return-rst"))
    yield json("a ruleset that is refused", PASS, "scrub in all", [CAME])._replace(
        said="rules {new} line 1: left out: scrub")
    yield Row("JSON, a record that is too long",
              question_of(PASS, BLOCK, capture_of([CAME]) + record(1, 0, b"", captured=262145), form=JSON),
              said="capture: record too long 262145, committed 1")


def rows():
    for make in (causes, names, reasons, translated, untried, unjudged, all_packets, of_files):
        yield from make()
