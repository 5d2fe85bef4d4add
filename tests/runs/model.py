"""A model of the program: what its commands `run` and `check` leave, if the command line fits and files open.

The outcome of a run stands in steps.replay, its messages in messages.run, what a ruleset means in expansions.model.
Here is what is said of it, and what the files hold.
"""

import hashlib
from functools import lru_cache
from itertools import accumulate
from typing import NamedTuple

from captures.frames import ETHERNET
from captures.merging import ENDED
from captures.model import Refused, header_of_any_link
from expansions.hosts import interface_of
from messages.run import Told, told_of
from messages.spelling import bare, in_file
from rulesets.tree import Network
from steps.marks import verdict_line
from steps.model import STACK
from steps.replay import Replay, job_of, packets_by_place, replay_all, ruleset_of

# what each run writes, in the order in which the files are opened; messages are written if that is requested
REQUIRED = ("verdicts", "packets", "counters", "states")
OUTPUTS = (*REQUIRED, "messages")
# the forms of messages: in a file each stands after an IP header, a peer gets them bare, and there may be none
FILE, PEER, NONE = "a file of messages", "a peer", "no messages"


class Files(NamedTuple):
    """The bytes of the outputs, None if a file isn't there, or is left as it was. Those of the messages may be what a
    peer got, None if it wasn't called. The others are the packets of the other interfaces, by their places."""
    verdicts: bytes | None = None
    packets: bytes | None = None
    counters: bytes | None = None
    states: bytes | None = None
    messages: bytes | None = None
    others: tuple = ()

    def in_order(self):
        """All of them in the order in which they are opened."""
        return (self.verdicts, self.packets, *self.others, self.counters, self.states, self.messages)


UNTOUCHED, EMPTY = Files(), Files(b"", b"", b"", b"", b"")


class Outcome(NamedTuple):
    """What the program leaves: standard output, standard error, the status and the files."""
    out: bytes
    err: bytes
    status: int
    files: Files = UNTOUCHED

    def parts(self):
        """By their names."""
        return {"out": self.out, "err": self.err, "status": self.status, **self.files._asdict()}


def refused(text, files=UNTOUCHED):
    """The end of a run that refused the ruleset or the capture."""
    return Outcome(b"", f"pfreplay: {text}\n".encode(), 1, files)


def failed(text, files=UNTOUCHED):
    """The end of a run in which a device failed."""
    return Outcome(b"", f"pfreplay: {text}\n".encode(), 3, files)


def cannot_open(name, files=UNTOUCHED):
    """The end of a run one of whose files can't be opened, or whose ruleset can't be read."""
    return failed(f"cannot open: {name}", files)


def network_of(word):
    """A network as the command line has it, whether it is excepted or not."""
    address, _, bits = word.removeprefix("!").partition("/")
    octets = bytes(int(octet) for octet in address.split("."))
    return Network(int.from_bytes(octets), int(bits) if bits else 32)


def networks_of(case, is_excepted):
    """The networks of the inside, or those that are excepted from it."""
    words = case.inside.split(",") if case.inside else ()
    return tuple(network_of(word) for word in words if word.startswith("!") == is_excepted)


def job_of_case(case):
    interfaces = tuple(interface_of(name, address) for name, address in case.interfaces())
    addresses = tuple(word and bytes.fromhex(word.replace(":", "")) for _, word in case.addressed())
    return job_of(case.rules, interfaces, networks_of(case, False), bytes.fromhex(case.seed), case.tap or STACK,
                  networks_of(case, True), addresses)


def link_fault(case):
    """What is said of the first interface with a link-level address whose capture isn't of Ethernet, or None. A capture
    whose header isn't accepted for another reason tells no link type."""
    for (name, word), capture in zip(case.addressed(), case.captures()):
        link = link_told_by(capture) if word else None
        if link not in (None, ETHERNET):
            return f"--mac {name}: capture of link type {link}"
    return None


def link_told_by(capture):
    """The link type of a capture, None if its header isn't accepted for another reason."""
    try:
        return header_of_any_link(capture).link
    except Refused:
        return None


class Done(NamedTuple):
    """A run with the events of its packets, and the messages that it writes."""
    replay: Replay
    told: Told
    messages: list


@lru_cache(maxsize=1)
def done_of(case):
    """What a Case comes to whose ruleset has no fault."""
    job = job_of_case(case)
    replay = replay_all(job, case.captures())
    told = told_of(case.rules, job, replay.steps)
    return Done(replay, told, told.out(replay.tail in ENDED))


def spelled(messages, form, address):
    """The bytes of messages in a form, from an interface's address with its bits."""
    if form == NONE:
        return None
    return b"".join(in_file(each, address.partition("/")[0]) if form == FILE else bare(each) for each in messages)


def opened(form, others=0):
    """What is left if all files were opened, and no more; with the packets of `others` other interfaces."""
    files = EMPTY._replace(others=(b"",) * others)
    return files._replace(messages=None) if form == NONE else files


def untouched(case):
    """What is left if no file was opened."""
    return UNTOUCHED._replace(others=(None,) * len(case.also))


def files_of(case, form):
    """What a run leaves in the files."""
    done = done_of(case)
    texts = done.replay.texts
    return Files(texts.verdicts.encode(), texts.packets, (texts.counters or "").encode(), (texts.states or "").encode(),
                 spelled(done.messages, form, case.address), texts.others)


def run(case, form=FILE):
    """What the command `run` leaves for a Case, with its messages in a form."""
    try:
        job_of_case(case)
    except Refused as why:
        return refused(f"rules {why}", untouched(case))
    if said := link_fault(case):
        return refused(said, untouched(case))
    try:
        replay = done_of(case).replay
    except Refused as why:
        return refused(why, opened(form, len(case.also)))
    files, committed = files_of(case, form), f"committed {len(replay.steps)}"
    if replay.tail == "clean":
        return Outcome(f"{committed}\n".encode(), b"", 0, files)
    if replay.tail == "cut":
        return Outcome(f"{committed}, cut\n".encode(), b"", 2, files)
    return refused(f"{replay.tail}, {committed}", files)


def message_ends(case, form):
    """How many bytes of messages are out after each number of packets, from none on, while the run goes on."""
    *closed, _ = done_of(case).told.closed()
    return list(accumulate((len(spelled(each, form, case.address) or b"") for each in closed), initial=0))


def online(case, count, form=FILE):
    """What stands in the files after `count` packets, while the run goes on."""
    done, interfaces = done_of(case), job_of_case(case).interfaces()
    written = done.replay.steps[:count]
    messages = spelled(done.told.online(count), form, case.address)
    first, *others = packets_by_place(case.captures(), written)
    return Files("".join(verdict_line(interfaces, each) + "\n" for each in written).encode(), first, b"", b"", messages,
                 tuple(others))


def check(text, interface, address):
    """What the command `check` leaves for the bytes of a text: how many flat rules it makes, and its checksum."""
    try:
        ruleset = ruleset_of(text, (interface_of(interface, address),))
    except Refused as why:
        return refused(f"rules {why}")
    rules, translations = ruleset.counts()
    line = f"{rules} filter, {translations} translation, {hashlib.md5(text).hexdigest()}\n"
    return Outcome(line.encode(), b"", 0)
