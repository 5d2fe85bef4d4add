"""Runs of the program whose texts are written by hand: those of steps.rows, and captures by where they end."""

import steps.rows
from captures.packets import SYN, capture_header, record, tcp, udp
from expansions.model import network_words
from messages.rows import SYN_HEADER, SYN_PEERS
from runs.case import EMPTIED, INSIDE, Case, Written, capture_of, refused
from steps.model import STACK

# a network of the inside that holds no packet's source, if a run has none at all
NOBODY = "255.255.255.255"
SYN_RECORD = record(0, 0, tcp("10.0.0.5", 1000, "198.51.100.7", 80, SYN, 1000, window=1000))
SYN_LINE = b"1 0 out pass rule r=0 t=- s=1\n"
SYN_COUNTERS, NO_COUNTERS = b"filter 0 1 1 40\ntotal 1 1 0 0 0\n", b"filter 0 0 0 0\ntotal 0 0 0 0 0\n"
SYN_STATE = (b"1 6 out 198.51.100.7:80,10.0.0.5:1000 198.51.100.7:80,10.0.0.5:1000 r=0 t=- 2/1000/1002/1000/- 0/0/1/1/- "
             b"0 120 1 40 0 0\n")
SYN_KEY = "c6336407" + "00" * 12 + "0a000005" + "00" * 12 + "0050 03e8"
SYN_MESSAGE = bytes.fromhex(
    SYN_HEADER + "0500010e ab10bf95f429a88c5cd91a94f5b1b3e3 01000001 0000000000000001 656d30" + "00" * 13 + SYN_KEY * 2
    + SYN_PEERS + "00" * 16 + "00000000 ffffffff ffffffff 00000000 00000078 0000000000000001 0000000000000000"
    + "0000000000000028 0000000000000000 00000001 02 06 02 00000000 00 0000 0c000001")


def inside_of(run):
    """The networks of a run's inside, and those that are excepted, as one word; None for none if each interface has a
    link-level address."""
    if not run.inside and not run.excepted and len(addresses_of(run)) == len(run.interfaces):
        return None
    inside = [network_words(network) for network in run.inside] or [NOBODY]
    return ",".join([*inside, *(f"!{network_words(network)}" for network in run.excepted)])


def addresses_of(run):
    """The words of the link-level addresses of a run, each behind the name of its interface."""
    return tuple((each.name, address.hex(":")) for each, address in zip(run.interfaces, run.addresses) if address)


def case_of(run):
    """A run of the steps as a case of the program. The tap is left out where it is the one of most runs."""
    [(name, address, bits)] = run.interfaces
    return Case(run.name, run.rules.encode(), inside_of(run), run.capture(), name, f"{address}/{bits}", run.seed.hex(),
                tap=None if run.tap == STACK else run.tap, addresses=addresses_of(run))


def step_row(expected):
    """A run with its texts, as far as they are written out."""
    case, records = case_of(expected.run), expected.run.records
    parts = {"out": b"committed %d\n" % len(records), "err": b"", "status": 0}
    for name in ("verdicts", "counters", "states"):
        text = getattr(expected, name)
        if text is not None:
            parts[name] = text.encode()
    if expected.passed is not None:
        frames = {number: frame for number, (_, frame) in enumerate(records, 1)} | (expected.written or {})
        parts["packets"] = case.capture[:24] + b"".join(record(records[number - 1][0], 0, frames[number])
                                                        for number in expected.passed)
    return Written(case, parts)


def ending(name, capture, texts, tail):
    """A row of `steps.rows.ends`."""
    case, count = Case(name, b"block in", INSIDE, capture), texts.verdicts.count("\n")
    files = {"verdicts": texts.verdicts.encode(), "packets": texts.packets, "counters": (texts.counters or "").encode(),
             "states": (texts.states or "").encode(), "messages": b""}
    if tail not in ("clean", "cut"):
        return refused(case, b"capture: %s, committed %d" % (tail.encode(), count), **files)
    out, status = (b"committed %d, cut\n", 2) if tail == "cut" else (b"committed %d\n", 0)
    return Written(case, {"out": out % count, "err": b"", "status": status, **files})


def syn(name, capture):
    return Case(name, b"pass out", INSIDE, capture)


def cut_rows():
    """A capture of one record, cut at each length."""
    whole = capture_header() + SYN_RECORD
    for length in range(24):
        yield refused(syn(f"a SYN cut at {length}", whole[:length]), b"capture: header cut", **EMPTIED)
    for length in range(24, len(whole)):
        out, status = (b"committed 0\n", 0) if length == 24 else (b"committed 0, cut\n", 2)
        yield Written(syn(f"a SYN cut at {length}", whole[:length]), {
            "out": out, "err": b"", "status": status, "verdicts": b"", "packets": whole[:24], "counters": NO_COUNTERS,
            "states": b"", "messages": b""})
    yield Written(syn("a SYN", whole), {"out": b"committed 1\n", "err": b"", "status": 0, **one_syn(whole)})


def one_syn(packets):
    return {"verdicts": SYN_LINE, "packets": packets, "counters": SYN_COUNTERS, "states": SYN_STATE,
            "messages": SYN_MESSAGE}


def length_rows():
    """Captured lengths after a whole record, the longest that is read and one more."""
    whole = capture_header() + SYN_RECORD
    yield refused(syn("a record of 262145 bytes", whole + record(0, 0, b"", captured=262145)),
                  b"capture: record too long 262145, committed 1", **{**EMPTIED, "verdicts": SYN_LINE, "packets": whole})
    yield Written(syn("a record of 262144 bytes that aren't there", whole + record(0, 0, b"", captured=262144)),
                  {"out": b"committed 1, cut\n", "err": b"", "status": 2, **one_syn(whole)})


def long_rows():
    """A thousand rules of a port each: none holds for a packet, or one in the middle does. Rules that a walk passes
    over are visited as well."""
    rule = b"block in quick proto udp from any to any port %d\n"
    rules = b"".join(rule % port for port in range(1, 1001)) + b"pass in\n"
    for port, line, last, total in ((2000, b"1 0 in pass rule r=1000 t=- s=1\n", 1000, b"total 1 1 0 0 0\n"),
                                    (500, b"1 0 in block rule r=499 t=- s=-\n", 499, b"total 1 0 1 0 0\n")):
        capture = capture_of([udp("198.51.100.7", 9, "192.0.2.1", port, b"")])
        before = b"".join(b"filter %d 1 0 0\n" % number for number in range(last))
        behind = b"".join(b"filter %d 0 0 0\n" % number for number in range(last + 1, 1001))
        counters = before + b"filter %d 1 1 28\n" % last + behind
        yield Written(Case(f"a thousand rules and port {port}", rules, INSIDE, capture), {
            "out": b"committed 1\n", "err": b"", "status": 0, "verdicts": line, "counters": counters + total,
            "packets": capture if port == 2000 else capture[:24]})


def rows():
    yield from long_rows()
    yield from map(step_row, steps.rows.rows())
    for row in steps.rows.ends():
        yield ending(*row)
    yield from cut_rows()
    yield from length_rows()
    yield refused(Case("a word that is left out", b"scrub in all", INSIDE, capture_header() + SYN_RECORD),
                  b"rules line 1: left out: scrub")
