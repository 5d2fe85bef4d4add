"""Runs of the program with settings whose outcomes are written by hand: those of steps.tap_cases and steps.way_cases,
and captures of other link types than the link-level address of an interface asks for.
"""

from captures.packets import LINKTYPE_ETHERNET, LINKTYPE_LOOPBACK, LINKTYPE_RAW, capture_header, loopback
from matrix.scene import Scene, text_of
from runs import interface_rows
from runs.case import EMPTIED, INSIDE, Case, Written, capture_of, refused
from runs.rows import step_row
from steps import tap_cases, way_cases
from steps.model import STACK, WIRE
from steps.place_cases import BOUND
from steps.tap_cases import CAME, REPLY, REPLY_AT_STACK, SENT_IN
from steps.tap_cases import RULES as REDIRECTING
from steps.translation_words import ASKED
from steps.way_cases import FROM_P, HOP, OWN, OWN1, RULES, framed, received, sent

ADDRESS, ADDRESS1 = OWN.hex(":"), OWN1.hex(":")
EM0, EM1 = ("em0", ADDRESS), ("em1", ADDRESS1)
BAD_RULES = b"pass\nscrub in all\n"
# captures of each link type of the same packet
BY_LINK = {LINKTYPE_RAW: capture_of([ASKED]),
           LINKTYPE_LOOPBACK: capture_of([loopback(ASKED)], network=LINKTYPE_LOOPBACK),
           LINKTYPE_ETHERNET: capture_of([sent(ASKED)], network=LINKTYPE_ETHERNET)}
OF_ETHERNET = BY_LINK[LINKTYPE_ETHERNET]
# with packets that go out and come in by their frames, and of a redirected connection, also on the wire
OF_BOTH = capture_of([sent(ASKED), received(ASKED), sent(FROM_P), received(CAME), sent(REPLY), sent(REPLY_AT_STACK)],
                     network=LINKTYPE_ETHERNET)
OTHER_LINKS = (LINKTYPE_RAW, LINKTYPE_LOOPBACK)


def is_run(expected):
    """Whether the program runs what is expected of a run of the steps: link-level addresses are of Ethernet alone."""
    return not expected.run.addresses or expected.run.link == LINKTYPE_ETHERNET


def of_steps():
    for expected in (*tap_cases.cases(), *way_cases.cases()):
        if not is_run(expected):
            continue
        row = step_row(expected)
        yield row
        # the tap of most runs may be written out
        if expected.run.tap == STACK:
            yield row._replace(case=row.case._replace(name=f"{row.case.name}, with its tap", tap=STACK))


def one(name, capture, addresses=(EM0,), rules=RULES.encode(), inside=INSIDE, **settings):
    return Case(name, rules, inside, capture, addresses=addresses, **settings)


# Link types

def link_rows():
    """Nothing is written if a capture isn't of Ethernet, though the interface has a link-level address."""
    for link in OTHER_LINKS:
        capture = BY_LINK[link]
        for title, more in (("", {}), (", on the wire", {"tap": WIRE}), (", without the inside", {"inside": None})):
            yield refused(one(f"an address and link type {link}{title}", capture, **more),
                          b"--mac em0: capture of link type %d" % link)
        yield refused(one(f"a ruleset with a fault, an address and link type {link}", capture, rules=BAD_RULES),
                      b"rules line 2: left out: scrub")
    for link in (12, 105, 65535):
        yield refused(one(f"an address and link type {link}, which is never read", capture_header(network=link)),
                      b"--mac em0: capture of link type %d" % link)
    yield refused(one("an address, and a capture of raw IP with the other byte order", capture_of([ASKED], ">")),
                  b"--mac em0: capture of link type 101")
    yield refused(one("an address, and no record of raw IP", capture_header()), b"--mac em0: capture of link type 101")
    for name, capture, said in (("a header that is cut", OF_ETHERNET[:23], b"header cut"),
                                ("no magic number", b"\x0a\x0d\x0d\x0a" + OF_ETHERNET[4:], b"bad magic"),
                                ("another version", capture_header(major=3), b"bad version")):
        yield refused(one(f"an address and {name}", capture), b"capture: " + said, **EMPTIED)
    high = capture_of([sent(ASKED), received(ASKED)], network=0x10000000 | LINKTYPE_ETHERNET)
    yield Written(one("an address and a link type with more bits above it", high),
                  {"out": b"committed 2\n", "err": b"", "status": 0, "packets": high[:40 + len(sent(ASKED))],
                   "verdicts": b"1 0 out pass rule r=1 t=- s=-\n2 0 in block rule r=0 t=- s=-\n"})


def rows():
    yield from of_steps()
    yield from link_rows()


# Several interfaces

OUT, IN = "out pass rule r=1 t=- s=- i=em{}", "in block rule r=0 t=- s=- i=em{}"
ETHERNETS = (LINKTYPE_ETHERNET,) * 2


def settled(scene, **settings):
    """A scene with some settings."""
    return scene._replace(case=scene.case._replace(**settings))


def untold(name, captures, addresses, said, rules=RULES, files=None):
    """A run over two captures that is refused."""
    return settled(interface_rows.untold(name, rules, captures, said, files=files), addresses=addresses)


def run_of(name, frames, lines, passing, addresses, links=ETHERNETS, rules=RULES, **settings):
    """A run over two captures whose frames are all of second 0: those of each interface, all lines in their order, and
    the frames of each interface that are written."""
    captures, packets = ([capture_of(each, network=link) for each, link in zip(every, links, strict=True)]
                         for every in (frames, passing))
    verdicts = text_of([f"{number} 0 {line}" for number, line in enumerate(lines, 1)])
    parts = {**interface_rows.committed(len(lines)), "packets": packets[0], "others": (packets[1],),
             "verdicts": verdicts}
    case = interface_rows.case_of(name, rules, captures, interface_rows.TWO)
    return settled(Scene(case, parts), addresses=addresses, **settings)


def refused_scenes():
    """Captures of other link types. All headers are read before any output is made, those that are bad are refused
    behind that."""
    good, raw, looped = (BY_LINK[link] for link in (LINKTYPE_ETHERNET, *OTHER_LINKS))
    bad = b"\x0a\x0d\x0d\x0a" + good[4:]
    yield untold("the second address and raw IP", [good, raw], (EM0, EM1), "--mac em1: capture of link type 101")
    yield untold("the second address alone and raw IP", [looped, raw], (EM1,), "--mac em1: capture of link type 101")
    yield untold("two addresses, and two other link types", [looped, raw], (EM1, EM0),
                 "--mac em0: capture of link type 0")
    yield untold("two addresses, two other link types and a bad ruleset", [looped, raw], (EM0, EM1),
                 "rules line 2: left out: scrub", BAD_RULES.decode())
    yield untold("a bad header, and raw IP behind it", [bad, raw], (EM0, EM1), "--mac em1: capture of link type 101")
    yield untold("an address beside a bad header", [good, bad], (EM0,), "capture em1: bad magic", files=EMPTIED)


def address_scenes():
    """Addresses of both interfaces, or of one."""
    frames = [[sent(FROM_P), received(ASKED)], [framed(FROM_P, OWN1), framed(ASKED, OWN)]]
    yield run_of("two addresses and no inside", frames, [OUT.format(0), IN.format(0), OUT.format(1), IN.format(1)],
                 [frames[0][:1], frames[1][:1]], (EM1, EM0), inside=None)
    yield run_of("one address, and the inside for the other interface", frames,
                 [OUT.format(0), IN.format(0), IN.format(1), OUT.format(1)], [frames[0][:1], frames[1][1:]], (EM0,))
    raw_frames = [frames[0], [ASKED, FROM_P]]
    yield run_of("one address, and raw IP without one", raw_frames,
                 [OUT.format(0), IN.format(0), OUT.format(1), IN.format(1)],
                 [raw_frames[0][:1], raw_frames[1][:1]], (EM0,), links=(LINKTYPE_ETHERNET, LINKTYPE_RAW))
    yield run_of("excepted networks and an address", [[framed(ASKED, OWN), framed(ASKED, HOP)], [framed(ASKED, HOP)]],
                 [OUT.format(0), IN.format(0), IN.format(1)], [[framed(ASKED, OWN)], []], (EM0,),
                 inside="10.0.0.0/8,!10.0.0.0/24")


def wire_scenes():
    """A redirected connection that comes in on one interface. On the other one its reply leaves, in the form of the
    wire and in that of the stack."""
    frames = [[received(CAME)], [framed(REPLY, OWN1), framed(REPLY_AT_STACK, OWN1)]]
    came, reply = [received(SENT_IN)], [framed(REPLY, OWN1)]
    opened, by_state = "in pass rule r=0 t=0 s=1 i=em0", "out pass state r=0 t=0 s=1 i=em1"
    blocked = "out block rule r=1 t=- s=- i=em1"
    for name, rules, replies, passed, tap in (
            ("on the wire", REDIRECTING, [by_state, blocked], reply, WIRE),
            ("that is bound, on the wire", BOUND + REDIRECTING, [blocked, blocked], [], WIRE),
            ("at the stack", REDIRECTING, [blocked, by_state], reply, None),
            ("that is bound, at the stack", BOUND + REDIRECTING, [blocked, blocked], [], STACK)):
        yield run_of(f"a redirected connection of two interfaces {name}", frames, [opened, *replies], [came, passed],
                     (EM0, EM1), rules=rules, inside=None, tap=tap)


def scenes():
    """Rows with two captures. The records of em0 come first at each second."""
    for make in (refused_scenes, address_scenes, wire_scenes):
        yield from make()
