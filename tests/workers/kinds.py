"""Rulesets and captures of runs that end early, or pause.

Where many rules are asked of a packet workers evaluate ahead, as that pays. Where there are few they rest, and where
many packets change the table of states besides they are given up.
"""

import sys
from typing import NamedTuple

import building
from captures.model import HEADER, records_of
from captures.packets import capture_header, record, udp
from messages.rows import flow, flows
from runs import model
from runs.case import INSIDE, PACKETS, Also, Case
from runs.model import FILE, NONE

# behind the tests, as some benches have the names of modules there
sys.path.append(str(building.ROOT / "bench"))

from rules import vain_ranges

# packets: three batches of 256 and a part of one, and fewer
COUNT, SHORT = 780, 600
# rules that hold for no packet, of which each is asked those of its protocol, half of them: enough for evaluating ahead to
# pay, more than a page of counters, and many
FEW, SOME, MANY = 400, 600, 2000
PAYLOAD = bytes(100)
# packets a second
PACE = 100


class Kind(NamedTuple):
    """A run with its messages in a form, and the output that is its longest one, where that is asked. The plain one has
    no rules but those that hold for packets. Its messages are as long, and the model is quicker with it."""
    case: Case
    plain: Case
    form: str
    longest: str

    def message_ends(self):
        """How many bytes of messages are out behind each number of packets."""
        return model.message_ends(self.plain, self.form)


def kind(name, rules, packets, vain=0, form=FILE, longest=""):
    """A run of these packets with `vain` rules that hold for none of them, and these rules after those."""
    capture = capture_header() + records(packets)
    plain = Case(name, rules.encode(), INSIDE, capture)
    before = "".join(f"{rule}\n" for rule, _ in vain_ranges(vain, capture))
    return Kind(plain._replace(rules=before.encode() + plain.rules), plain, form, longest)


def records(packets):
    """Records of these packets, `PACE` a second."""
    return b"".join(record(place // PACE, 0, packet) for place, packet in enumerate(packets))


def strangers(count, payload=b""):
    """Packets that come in and make no state by the rules here."""
    return [udp("203.0.113.9", 9, "192.0.2.1", 9, payload)] * count


def mixed(count):
    """Packets of which each fourth one goes out and makes a state."""
    return [packet if place % 4 else flow(place) for place, packet in enumerate(strangers(count, PAYLOAD))]


def longest_kinds():
    """A run for each output that is longer there than all others."""
    yield kind("many lines", "block all", strangers(COUNT), FEW, longest="verdicts")
    yield kind("many packets", "pass in no state", strangers(COUNT, PAYLOAD), FEW, longest="packets")
    yield kind("many counters", "pass in no state", strangers(20), SOME, longest="counters")
    yield kind("many states", "pass out", flows(COUNT), form=NONE, longest="states")
    yield kind("many messages", "pass out", flows(COUNT), longest="messages")


def mixed_kind(vain, count=SHORT):
    """A run whose outputs all grow; with more than a few rules each is longer than a page."""
    return kind(f"{vain} rules that hold for no packet", "pass in no state\npass out keep state (max 1000)", mixed(count), vain)


def resting(count):
    """A run in which workers rest."""
    return kind("few rules", "block in\npass out no state", (PACKETS * count)[:count])


def given_up(count):
    """A run in which each packet makes a state, so that workers are given up."""
    return kind("few rules that make states", f"set limit states {2 * count}\npass out", flows(count))


def ahead(count):
    """A run in which workers evaluate ahead all the time."""
    return kind("many rules", "block in\npass out no state", (PACKETS * count)[:count], MANY)


def by_turns(made):
    """A run whose packets come on two interfaces, by turns."""
    case = made.case
    pieces = [given.header + given.frame for given in records_of(case.capture, "<")[0]]
    first, second = (case.capture[:HEADER] + b"".join(pieces[place::2]) for place in (0, 1))
    also = (Also("em1", "203.0.113.2/24", second),)
    return made._replace(case=case._replace(name=f"{case.name}, on two interfaces", capture=first, also=also))


def resting_on_two(count):
    return by_turns(resting(count))


def ahead_on_two(count):
    return by_turns(ahead(count))


def uneven(count):
    """The same with larger packets in one batch of 256 and small ones in the next. A read brings more than a batch."""
    (large, small), batches = (strangers(256, payload) for payload in (bytes(120), b"")), count // 512 + 1
    return kind("many rules, packets that differ in length", "block in", ((large + small) * batches)[:count], MANY)
