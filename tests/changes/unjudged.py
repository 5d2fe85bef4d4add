"""What the command `diff` says of packets that aren't judged, or not as the firewall would judge them: a second
implementation, written from docs/FORMATS.md, section "What another ruleset changes".

- A packet is cut if it is too short in one of both runs, and its record says that not all of it was captured.
- Frames that are no IPv4 packets are told by what they hold.
- A packet is midway if it is of a TCP connection that began before it, by what it comes to in one of both runs.
- A part of a packet counts unless its interface isn't filtered in either run.
"""

from captures import merging
from captures.frames import view
from captures.model import FORMS, read_header
from changes.printed import Unjudged
from changes.said import said_by
from runs.warnings import ARP, IPV6, OTHER, PPPOE, TWO_TAGS, held, is_cut, is_midway

CUT, MIDWAY, PART = "cut", "midway", "part"
# the words for one and for several, in the order in which they are told, and the names that JSON has
WORDS = {CUT: ("packet cut by the snapshot length", "packets cut by the snapshot length"), IPV6: (IPV6, IPV6),
         ARP: (ARP, ARP), PPPOE: (PPPOE, PPPOE), TWO_TAGS: (TWO_TAGS, TWO_TAGS), OTHER: ("other frame", "other frames"),
         MIDWAY: ("midway", "midway"), PART: ("part of a packet", "parts of packets")}
NAMES = {CUT: "cut", IPV6: "ipv6", ARP: "arp", PPPOE: "pppoe", TWO_TAGS: "two_tags", OTHER: "other", MIDWAY: "midway",
         PART: "parts"}
UNSEEN = (CUT, IPV6, ARP, PPPOE, TWO_TAGS, OTHER)


def kinds(order, link, record, both):
    """The kinds of a packet, by what both runs say of it."""
    seen = view(link, record.frame)
    if seen == "skip":
        yield held(link, record.frame)
    elif seen == "short":
        yield from [CUT] if is_cut(order, record) and any(said.reason == "short" for said in both) else []
    elif seen.is_fragment:
        yield from [] if all(said.reason == "skip-on" for said in both) else [PART]
    yield from [MIDWAY] if any(is_midway(seen, said) for said in both) else []


def found(captures, old, new):
    """The kinds of all packets of captures, by what both runs left."""
    forms = [(FORMS[capture[:4]][0], read_header(capture).link) for capture in captures]
    records = merging.merged(list(map(merging.source_of, captures))).records
    return [kind for (place, record), *both in zip(records, said_by(old), said_by(new), strict=True)
            for kind in kinds(*forms[place], record, both)]


def line_of(all_kinds):
    """The line about packets of these kinds."""
    return Unjudged([(NAMES[kind], words, all_kinds.count(kind)) for kind, words in WORDS.items()])


def leaves_open(all_kinds, count):
    """Whether nothing may be concluded of `count` packets of which none changes."""
    return CUT in all_kinds or sum(kind in UNSEEN for kind in all_kinds) == count
