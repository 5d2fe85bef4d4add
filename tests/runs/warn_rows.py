"""Runs of the program with `--warn` of which the warnings are written by hand, and files that can't be opened."""

import struct

from captures.packets import (LINKTYPE_ETHERNET, LINKTYPE_LOOPBACK, capture_header, echo, ethernet, fragments,
                              icmp_error, loopback, record, tcp, udp)
from runs import model, warnings
from runs.also_files import words_of
from runs.case import FIRST_RULES, INSIDE, PACKETS, Also, Case, capture_of
from runs.model import NONE
from runs.peers import nobody

WARN = "--warn"
NONE_BEGINS = ", and no connection begins"
# none evaluates packets ahead, or some do
WORKERS = (0, 4)
RULES = b"block in on em0\npass out on em0\n"
OTHERS = b"nat on em2 from any to any -> em0\npass on { em1, !em2 }\nanchor a on em3 {\npass\n}\n"
CLIENT, SERVER = ("10.0.0.5", 4000), ("198.51.100.7", 443)
SYN, ACK = 2, 16
# of one connection from inside: its SYN, the answer, and what follows
OPENING = tcp(*CLIENT, *SERVER, SYN, 1)
ANSWER = tcp(*SERVER, *CLIENT, SYN | ACK, 1, 2)
LATER = tcp(*CLIENT, *SERVER, ACK, 2, 2)
COMES_IN = udp("198.51.100.7", 9, "192.0.2.1", 9)
# Ethernet frames that are skipped, each kind by its type
ARP, IPV6, DISCOVERY, SESSION = (ethernet(kind, bytes(46)) for kind in (0x0806, 0x86dd, 0x8863, 0x8864))
TAGGED_IPV6, TWO_TAGS = ethernet(0x86dd, bytes(46), tags=(1,)), ethernet(0x0800, PACKETS[0], tags=(1, 2))
# a tag of a service provider before another one, or alone; and frames that are cut before a type
PROVIDER, PROVIDER_ALONE = (bytes(12) + struct.pack(">HHH", 0x88a8, 1, kind) + bytes(46) for kind in (0x8100, 0x86dd))
FRAMES = [ARP, IPV6, DISCOVERY, SESSION, TAGGED_IPV6, TWO_TAGS, PROVIDER, PROVIDER_ALONE, ARP[:13], TWO_TAGS[:17],
          ethernet(0x88cc, bytes(46))]
# frames of BSD loopback without a packet: those of IPv6 on three systems, and others
FAMILIES = [loopback(b"", family, order) for family in (24, 28, 30, 26, 10) for order in "<>"]


def one(name, packets, rules=RULES, **settings):
    return Case(name, rules, INSIDE, capture_of(packets, network=settings.pop("link", 101)), **settings)


def rows():
    """Cases, and what is said of each."""
    both = [OPENING, COMES_IN]
    yield one("nothing to warn of", both), []
    yield one("none comes in", [OPENING]), ["em0: no packet comes in"]
    yield one("none goes out", [COMES_IN]), ["em0: no packet goes out"]
    yield one("no packets", []), ["em0: no packet goes out", "em0: no packet comes in"]
    yield one("not filtered", [OPENING], b"set skip on em0\n" + RULES), []
    yield one("no interface named", both, b"block in\npass out\n"), []
    yield one("others named", both, OTHERS), [
        "no rule names em0", "no capture is of em1, which rules name", "no capture is of em2, which rules name",
        "no capture is of em3, which rules name"]
    yield one("named behind a sign", both, b"pass on ! em0\n"), []
    yield one("named by a translation", both, b"rdr on em0 proto tcp from any to any port 80 -> 10.0.0.5\npass\n"), []
    second = Also("em1", "203.0.113.2/24", capture_of([COMES_IN]))
    yield one("two interfaces", [OPENING], RULES + b"pass on em1\n", also=(second,)), [
        "em0: no packet comes in", "em1: no packet goes out"]
    yield one("a whole connection", [OPENING, ANSWER, LATER], b"pass out on em0\nblock in on em0\n"), []
    yield one("a later packet alone is blocked", [ANSWER, LATER], b"block on em0\npass out on em0\n"), [
        f"packets midway in a TCP connection: 2{NONE_BEGINS}"]
    yield one("a later packet makes a state", [LATER, ANSWER], b"block in on em0\npass out on em0 flags any\n"), [
        f"packets midway in a TCP connection: 1{NONE_BEGINS}"]
    yield one("a later packet passes without a state", [LATER, COMES_IN], b"pass on em0 no state\n"), []
    yield one("a later packet that no rule judges", [LATER, COMES_IN], b"pass in on em0\n"), []
    other = [udp("10.0.0.5", port, "198.51.100.7", 9) for port in (1, 2, 3)]
    yield one("a limit", [COMES_IN, *other], b"set limit states 1\n" + RULES), ["states refused by a limit: 2"]
    yield one("a later packet that a limit refuses", [COMES_IN, other[0], LATER],
              b"set limit states 1\nblock in on em0\npass out on em0 flags any\n"), [
        f"packets midway in a TCP connection: 1{NONE_BEGINS}", "states refused by a limit: 1"]
    yield one("frames", [*(ethernet(0x0800, packet) for packet in both), *FRAMES], link=LINKTYPE_ETHERNET), [
        "packets skipped: 11 of 13: 1 ARP, 3 IPv6, 2 PPPoE, 2 with two VLAN tags, 3 other"]
    yield one("frames of loopback", [*map(loopback, both), *FAMILIES, b"\0\0\0"], link=LINKTYPE_LOOPBACK), [
        "packets skipped: 11 of 13: 0 ARP, 6 IPv6, 0 PPPoE, 0 with two VLAN tags, 5 other"]
    yield one("raw packets", [*both, b"\x60" + bytes(39), b"\x50", b""]), [
        "packets skipped: 3 of 5: 0 ARP, 1 IPv6, 0 PPPoE, 0 with two VLAN tags, 2 other"]
    cut = one("a capture that is cut", [OPENING, COMES_IN, LATER])
    yield cut._replace(capture=cut.capture[:-1], rules=b"block in\npass out on em1\n"), [
        "no rule names em0", "no capture is of em1, which rules name"]
    for make in (named_rows, unjudged_rows, translated_rows):
        yield from make()


def named_rows():
    """Of interfaces that rules name, or don't."""
    both = [OPENING, COMES_IN]
    yield one("no interface named, and one that isn't filtered", both, b"set skip on em1\npass\n"), []
    yield one("named by an anchor alone", both, b"anchor on em0 {\npass\n}\n"), []
    yield one("another one named by an anchor alone", both, b"anchor on em1 {\npass\n}\n"), [
        "no rule names em0", "no capture is of em1, which rules name"]
    yield one("not filtered, and another one named", [], b"set skip on em0\npass on em1\n"), [
        "no rule names em0", "no capture is of em1, which rules name"]
    third = [Also(name, f"203.0.113.{place}/24", capture_of([])) for place, name in ((2, "em1"), (3, "em2"))]
    yield one("the second of three named", [OPENING], b"pass on em1\n", also=tuple(third)), [
        "em0: no packet comes in", "no rule names em0", "em1: no packet goes out", "em1: no packet comes in",
        "em2: no packet goes out", "em2: no packet comes in", "no rule names em2"]


def unjudged_rows():
    """Of packets that aren't judged, or not as the firewall would judge them."""
    both = [OPENING, COMES_IN]
    parts = fragments(udp("198.51.100.7", 9, "192.0.2.1", 9, bytes(24)), 16)
    whole = capture_of(both)
    for order in "<>":
        snapped = [record(0, 0, COMES_IN[:length], original=original, order=order)
                   for length, original in ((27, 28), (27, 27), (0, 28), (28, 1000), (3, 4))]
        yield Case(f"cut by the snapshot length, {order}", RULES, INSIDE,
                   capture_of(both, order) + b"".join(snapped)), [
            "packets skipped: 1 of 7: 0 ARP, 0 IPv6, 0 PPPoE, 0 with two VLAN tags, 1 other",
            "packets cut by the snapshot length: 2"]
    yield Case("cut by the snapshot length, and not filtered", b"set skip on em0\n" + RULES, INSIDE,
               whole + record(0, 0, COMES_IN[:27], original=28)), []
    yield Case("cut by the snapshot length, and no IPv4", RULES, INSIDE,
               whole + record(0, 0, bytes([0x60]) + bytes(38), original=40)), [
        "packets skipped: 1 of 3: 0 ARP, 1 IPv6, 0 PPPoE, 0 with two VLAN tags, 0 other"]
    yield one("parts of a packet", [*both, *parts]), ["parts of packets: 2"]
    yield one("parts of a packet that aren't filtered", [*both, *parts], b"set skip on em0\n" + RULES), []
    second = Also("em1", "203.0.113.2/24", capture_of([*both, *parts]))
    yield one("parts of a packet, of which one isn't filtered", [*both, parts[1]],
              b"set skip on em1\npass on { em0, em1 }\n", also=(second,)), ["parts of packets: 1"]
    short = Case("a SYN that is too short", b"block on em0\npass out on em0\n", INSIDE,
                 capture_of([LATER, COMES_IN]) + record(0, 0, OPENING[:39]))
    yield short, [f"packets midway in a TCP connection: 1{NONE_BEGINS}"]
    yield one("a later packet, and a SYN", [ANSWER, OPENING], b"block on em0\npass out on em0\n"), [
        "packets midway in a TCP connection: 1"]
    yield one("a later packet, and a SYN of another interface, which isn't filtered", [ANSWER, LATER],
              b"set skip on em1\nblock on { em0, em1 }\n", also=(second._replace(capture=capture_of([OPENING])),)), [
        "packets midway in a TCP connection: 2"]
    yield one("all that isn't judged", [*both, b"\x50", *parts, ANSWER], b"set limit states 1\nblock\npass out on em0\n"
              b"pass in on em0 proto udp\n"), [
        "packets skipped: 1 of 6: 0 ARP, 0 IPv6, 0 PPPoE, 0 with two VLAN tags, 1 other", "parts of packets: 2",
        "states refused by a limit: 1"]


def translated_rows():
    """Of captures that show what goes out behind its translation."""
    own, target, inner = "192.0.2.1", "192.0.2.9", "10.0.0.5"
    nat, binat = b"nat on em0 from any to any -> 192.0.2.9\n", b"binat on em0 from 10.0.0.6 to any -> 192.0.2.9\n"
    behind = ["em0: what goes out is shown behind its translation, without --tap wire"]

    def sent(source, **header):
        return udp(source, 1000, "198.51.100.7", 53, **header)

    def wire(name, packets, rules, **settings):
        return one(name, [COMES_IN, *packets], rules, **settings)._replace(inside=f"{INSIDE},{own},{target}")

    for kind, rule in (("nat", nat), ("binat", binat)):
        for source in (own, target):
            yield wire(f"{kind}, from {source}", [sent(source)], rule + RULES), behind
        yield wire(f"{kind}, and one from inside", [sent(own), sent(target), sent(inner)], rule + RULES), []
        yield wire(f"no {kind}", [sent(own)], b"no " + rule.partition(b" ->")[0] + b"\n" + RULES), []
        for tap in ("stack", "wire"):
            yield wire(f"{kind}, with the tap {tap}", [sent(target)], rule + RULES, tap=tap), (
                behind if tap == "stack" else [])
    yield wire("rdr alone", [sent(own)], b"rdr on em0 from any to any port 80 -> 10.0.0.5\n" + RULES), []
    yield wire("the address of no rule", [sent(target)], b"nat on em0 from any to any -> em0\n" + RULES), []
    for name, is_asked in ((b"!em1", True), (b"!em0", False), (b"em1", False)):
        more = [] if b"em1" not in name else ["no capture is of em1, which rules name"]
        yield wire(f"nat on {name.decode()}", [sent(own)], nat.replace(b"em0", name) + RULES), [
            *behind * is_asked, *more]
    yield wire("nat on any interface", [sent(own)], nat.replace(b" on em0", b"") + RULES), behind
    yield wire("nat of what isn't filtered", [sent(own)], b"set skip on em0\n" + nat + RULES), []
    yield wire("nat, and nothing goes out", [], nat + RULES), ["em0: no packet goes out"]
    yield wire("nat, and a port that isn't free", [sent(own), udp(own, 1001, "198.51.100.7", 53)],
               nat[:-1] + b" port 50001\n" + RULES), behind
    yield wire("nat, and one from inside that finds no port", [sent(own), sent(inner)],
               nat[:-1] + b" port 50001\n" + RULES), []
    yield wire("nat, and one from inside without a rule", [sent(own), sent(inner)],
               nat.replace(b"any", own.encode(), 1) + b"pass in on em0\n"), []
    part = fragments(sent(inner, payload=bytes(24)), 16)[1]
    yield wire("nat, and a part of a packet from inside", [sent(own), part], nat + RULES), [
        *behind, "parts of packets: 1"]
    error = icmp_error(inner, 3, 3, udp("198.51.100.8", 9, inner, 9))
    yield wire("nat, and an error from inside", [sent(own), error], nat + RULES), behind
    for request in (True, False):
        ping, alone = (echo(source, "198.51.100.7", request, 7, 1) for source in (inner, own))
        yield wire(f"nat, and an echo from inside, {request}", [sent(own), ping], nat + RULES), []
        yield wire(f"nat, and an echo alone, {request}", [alone], nat + RULES), behind
    options = {"ip_options": bytes([1, 1, 1, 1])}
    yield wire("nat, and options", [sent(own, **options)], nat + RULES), behind
    yield wire("nat, and options from inside", [sent(own), sent(inner, **options)], nat + RULES), []
    yield wire("nat, and an answer from inside", [sent(own), udp("198.51.100.7", 9, inner, 9),
                                                  udp(inner, 9, "198.51.100.7", 9)], nat + b"pass on em0\n"), behind
    yield wire("nat, and an answer with options from inside", [
        sent(own), udp("198.51.100.7", 9, inner, 9), udp(inner, 9, "198.51.100.7", 9, **options)],
        nat + b"pass on em0\n"), behind
    yield wire("nat that passes", [sent(own)], nat.replace(b"nat", b"nat pass") + RULES), behind
    yield wire("nat, and a limit", [sent(own)], b"set limit states 1\n" + nat + b"pass on em0\n"), [
        *behind, "states refused by a limit: 1"]
    second = Also("em1", "203.0.113.2/24", capture_of([COMES_IN, sent(own)]))
    yield wire("nat on both of two, and the address of one", [sent(own)],
               nat.replace(b" on em0", b"") + b"pass on { em0, em1 }\n", also=(second,)), behind


def silent():
    """Cases that don't come to their end, of which nothing more is said."""
    yield one("a fault of the ruleset", [OPENING], b"scrub in all\n")
    yield one("a header that is cut", [])._replace(capture=capture_header()[:23])
    yield one("a record that is too long", [])._replace(
        capture=capture_header() + struct.pack("<IIII", 0, 0, 262145, 262145))


CASE = one("files", PACKETS, FIRST_RULES)


def compare_model(comparison):
    """What the model says to what is written out."""
    for case, texts in rows():
        comparison.expect(f"model: warnings: {case.name}", texts, warnings.lines(case))


def compare(comparison):
    """Each of these runs, and such of which a file can't be opened."""
    for case, texts in rows():
        expected = model.run(case)
        for workers in WORKERS:
            comparison.prepare(case)
            comparison.expect(f"warnings: {case.name}, {workers} workers",
                              expected._replace(err=warnings.said(texts) + expected.err),
                              comparison.replay(case, words=(WARN, "--workers", workers)))
    for case in silent():
        comparison.prepare(case)
        comparison.expect(f"warnings: {case.name}", model.run(case), comparison.replay(case, words=(WARN,)))
    refusals(comparison)
    silent_peer(comparison)


def execute(comparison, names, more=()):
    """One run some of whose files have other names than their own."""
    return comparison.execute([*words_of(CASE, names), *more], home=comparison.folder)


def refusals(comparison):
    """Files that aren't there, that lie in a file, or that are folders: the line is as without warnings, and one before
    it says why."""
    comparison.prepare(CASE)
    folder = comparison.folder / "a folder"
    folder.mkdir(exist_ok=True)
    missing = ("missing/file", "No such file or directory (os error 2)")
    inside = ("rules/file", "Not a directory (os error 20)")
    held = (folder.name, "Is a directory (os error 21)")
    for name in ("capture", "rules", "verdicts", "packets", "counters", "states", "messages"):
        for file, why in (missing, inside, *([held] if name != "capture" else [])):
            without, seen = execute(comparison, {name: file}), execute(comparison, {name: file}, (WARN,))
            expected = without and without._replace(err=warnings.said([f"{file}: {why}"]) + without.err)
            comparison.expect(f"warnings: {name} is {file}", f"pfreplay: cannot open: {file}\n".encode(),
                              without and without.err)
            comparison.expect(f"warnings: {name} is {file}, and why", expected, seen)
    seen = execute(comparison, {"capture": folder.name}, (WARN,))
    comparison.expect("warnings: the capture is a folder",
                      warnings.said([f"{folder.name}: is a directory"]) + b"pfreplay: read failed, committed 0\n",
                      seen and seen.err)


def silent_peer(comparison):
    """A peer where nobody listens: the reason is that of the connection."""
    with nobody() as silent:
        peer = "%s:%d" % silent.getsockname()
        comparison.prepare(CASE)
        expected = model.cannot_open(peer, model.opened(NONE))
        said = warnings.said([f"{peer}: Connection refused (os error 111)"])
        comparison.expect("warnings: a peer where nobody listens", expected._replace(err=said + expected.err),
                          comparison.execute([*comparison.command(CASE, NONE), "--peer", peer, WARN]))
