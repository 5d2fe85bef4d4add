"""A model of what commands say besides: what may mean that ruleset, captures and flags don't fit. It is written from
docs/FORMATS.md, section "Warnings".

`run --warn` says all of it, `diff` says it of the run with the new ruleset, and `report` of the lines that it is given.
Each warning is a line, in this order:

- of each interface by its place: that none of its packets goes out, that none comes in, that no rule names it though
  rules name others, and that what goes out is shown behind its translation. But for the third its packets have to be
  filtered. `report` doesn't say the fourth;
- each interface that rules name behind `on`, with `!` or without, and that the run doesn't have. The filter rules come
  first, then the anchors, then the rules of nat, of rdr and of binat, and each name once;
- how many of all records are skipped, and what these hold; how many packets are cut by the snapshot length; and how
  many are parts of packets. `diff` says none of this, as its answer has it;
- how many packets are of TCP connections that began before them. They aren't a SYN without ACK, they met no state, and
  a rule blocks them or they would make a state. It is told if no connection begins, and else `diff` doesn't say it;
- how many states were refused by a limit.
"""

import os
import struct
from typing import NamedTuple

from captures.frames import ETHERNET, LOOPBACK, RAW, view
from captures.model import Header, read_header
from runs import model
from steps.model import STACK, WIRE

# the commands that warn
RUN, DIFF, REPORT = "run", "diff", "report"
SYN, ACK = 2, 16
# of ICMP messages that are an echo
ECHOES = (0, 8)
# what a record holds in the place of an IPv4 packet
ARP, IPV6, PPPOE, TWO_TAGS, OTHER = "ARP", "IPv6", "PPPoE", "with two VLAN tags", "other"
KINDS = (ARP, IPV6, PPPOE, TWO_TAGS, OTHER)
TAGS = (0x8100, 0x88a8, 0x9100)
BY_TYPE = {0x0806: ARP, 0x86dd: IPV6, 0x8863: PPPOE, 0x8864: PPPOE}
# the address families of IPv6 on systems that have frames of BSD loopback
IPV6_FAMILIES = (24, 28, 30)
# of packets that no state was met by, and a rule judged
JUDGED = ("rule", "nat-pass", "state-insert", "state-limit")
# of parts of packets that aren't counted: those that aren't filtered, and those that `report` is told with a reason that
# no run has for a part
NOT_COUNTED = ("skip-on", "state-limit")
# of packets that met no state, and may begin a connection; those with options do if no state is named
BEGINNING = (*JUDGED, "default", "nat-exhausted")
OPTIONS = "ip-option"


class Packet(NamedTuple):
    """A packet: the place of its interface, the header of its capture, its record, and what the line of verdicts has of
    it. The state is the number of the one that it names, None without one."""
    place: int
    header: Header
    record: object
    way: str
    verdict: str
    reason: str
    state: int | None

    def seen(self):
        return view(self.header.link, self.record.frame)


# Packets

def number_at(frame, place):
    """The two bytes of a frame at a place as a number, None if they aren't there."""
    return int.from_bytes(frame[place:place + 2], "big") if len(frame) >= place + 2 else None


def held_by_ethernet(frame):
    """What an Ethernet frame holds. One too short for its header, or for its first tag, tells nothing."""
    kind = number_at(frame, 12)
    if kind not in TAGS:
        return BY_TYPE.get(kind, OTHER)
    behind = number_at(frame, 16)
    return TWO_TAGS if behind in TAGS else BY_TYPE.get(behind, OTHER)


def held(link, frame):
    """What a skipped record holds, by its link type."""
    if link == ETHERNET:
        return held_by_ethernet(frame)
    if link == RAW:
        return IPV6 if frame and frame[0] >> 4 == 6 else OTHER
    families = [int.from_bytes(frame[:4], order) for order in ("big", "little")] if len(frame) >= 4 else []
    return IPV6 if link == LOOPBACK and any(family in IPV6_FAMILIES for family in families) else OTHER


def is_cut(order, record):
    """Whether a record says that not all of its packet was captured. Its header has its bytes in this order."""
    captured, original = struct.unpack_from(order + "II", record.header, 8)
    return captured < original


def shows_ends(seen):
    return seen not in ("skip", "short")


def is_part(seen):
    return shows_ends(seen) and seen.is_fragment


def is_first(seen):
    """Whether what a record shows is a SYN without ACK."""
    return shows_ends(seen) and seen.flags is not None and seen.flags & (SYN | ACK) == SYN


def is_midway(seen, said):
    """Whether a packet is of a TCP connection that began before it, by what its record shows and what is said of it."""
    if not shows_ends(seen) or seen.flags is None or is_first(seen):
        return False
    return said.reason in JUDGED and (said.verdict != "pass" or said.state is not None)


def begins_outwards(packet):
    """Whether a packet begins a connection that goes out."""
    seen = packet.seen()
    if packet.way != "out" or not shows_ends(seen) or seen.is_fragment or seen.icmp and seen.icmp[0] not in ECHOES:
        return False
    return packet.reason in BEGINNING or packet.reason == OPTIONS and packet.state is None


# Rules

def named(ruleset):
    """The interfaces that rules name, each once, in their order."""
    rules = ruleset.rules
    translations = [rule for kind in ("nat", "rdr", "binat") for rule in rules.translation[kind]]
    asked = [rule.match.interface for rule in (*rules.filter, *rules.anchors, *translations)]
    return list(dict.fromkeys(interface.name for interface in asked if interface))


def targets(ruleset, name):
    """The addresses to which rules of nat and binat translate on an interface."""
    for kind in ("nat", "binat"):
        for rule in ruleset.rules.translation[kind]:
            asked = rule.match.interface
            if not rule.is_no_rule and (asked is None or (asked.name == name) != asked.negated):
                yield rule.target.address


def is_behind(ruleset, interface, packets):
    """Whether what goes out of an interface, of which these are the packets, is shown behind its translation."""
    translated = set(targets(ruleset, interface.name))
    sources = {packet.seen().source for packet in packets if begins_outwards(packet)}
    return bool(translated and sources) and sources <= translated | {interface.network().address}


# What is said

def of_interface(command, ruleset, interface, packets, tap):
    """What is said of an interface of the run, whose packets these are."""
    name = name_of(interface)
    is_filtered = interface.name not in ruleset.options.skipped
    ways = {packet.way for packet in packets}
    if is_filtered and "out" not in ways:
        yield f"{name}: no packet goes out"
    if is_filtered and "in" not in ways:
        yield f"{name}: no packet comes in"
    names = named(ruleset)
    if names and interface.name not in names:
        yield f"no rule names {name}"
    if is_filtered and tap != WIRE and command != REPORT and is_behind(ruleset, interface, packets):
        yield f"{name}: what goes out is shown behind its translation, without --tap wire"


def name_of(interface):
    """The name of an interface. Each of its bytes is a character."""
    return os.fsencode(interface.name).decode("latin-1")


def of_interfaces(command, ruleset, packets, tap):
    """What is said of the interfaces of a run, and of those that it lacks."""
    interfaces = ruleset.hosts.run.interfaces
    for place, interface in enumerate(interfaces):
        yield from of_interface(command, ruleset, interface, [each for each in packets if each.place == place], tap)
    for name in named(ruleset):
        if name not in [interface.name for interface in interfaces]:
            yield f"no capture is of {name}, which rules name"


def of_unjudged(packets):
    """What is said of packets that aren't judged, or not as the firewall would judge them."""
    skipped = [held(each.header.link, each.record.frame) for each in packets if each.reason == "not-ip"]
    if skipped:
        parts = ", ".join(f"{skipped.count(kind)} {kind}" for kind in KINDS)
        yield f"packets skipped: {len(skipped)} of {len(packets)}: {parts}"
    cut = sum(each.reason == "short" and is_cut(each.header.order, each.record) for each in packets)
    if cut:
        yield f"packets cut by the snapshot length: {cut}"
    parts = sum(each.reason not in NOT_COUNTED and is_part(each.seen()) for each in packets)
    if parts:
        yield f"parts of packets: {parts}"


def of_midway(command, packets):
    """What is said of packets of TCP connections that began before them."""
    midway = sum(is_midway(each.seen(), each) for each in packets)
    begins = any(is_first(each.seen()) for each in packets)
    if midway and not begins:
        yield f"packets midway in a TCP connection: {midway}, and no connection begins"
    elif midway and command != DIFF:
        yield f"packets midway in a TCP connection: {midway}"


def told(command, ruleset, packets, tap=STACK):
    """What a command says of packets, by the ruleset that judged them."""
    yield from of_interfaces(command, ruleset, packets, tap)
    if command != DIFF:
        yield from of_unjudged(packets)
    yield from of_midway(command, packets)
    refused = sum(each.reason == "state-limit" for each in packets)
    if refused:
        yield f"states refused by a limit: {refused}"


def packets_of(case):
    """The packets of a Case whose run comes to its end."""
    headers = list(map(read_header, case.captures()))
    for step in model.done_of(case).replay.steps:
        said = step.outcome
        yield Packet(step.record.place, headers[step.record.place], step.record, said.direction, said.verdict,
                     said.reason, said.state)


def lines(case):
    """What is said of a Case whose run comes to its end."""
    return list(told(RUN, model.job_of_case(case).ruleset, list(packets_of(case)), case.tap))


def said(texts):
    """Warnings on standard error."""
    return "".join(f"pfreplay: warning: {text}\n" for text in texts).encode("latin-1")


def run(case):
    """What the command leaves for a Case with `--warn`. A run that doesn't come to its end says nothing more."""
    outcome = model.run(case)
    if outcome.status not in (0, 2):
        return outcome
    return outcome._replace(err=said(lines(case)) + outcome.err)
