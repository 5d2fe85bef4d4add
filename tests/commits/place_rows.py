"""Runs on several interfaces whose answers are written out to their end. The line of each packet ends in the name of its
interface, and that of each state in the name of the one to which it is bound, or in `-` for all. The packets that are
written stand by the places of their interfaces.
"""

from itertools import cycle
from typing import NamedTuple

from captures.packets import (ACK, ETHER_IPV4, LINKTYPE_ETHERNET, LINKTYPE_RAW, RST, UNREACHABLE, ethernet, icmp_error,
                              tcp, udp)
from commits.model import Batch, Commit
from commits.cases import Script
from expansions.hosts import Interface
from steps.rows import FIRST_SYN, KEYS
from steps.run import INTERFACE, THREE, Run
from steps.translation_words import ASKED, OTHER, B, E, H, P

TWO, E1 = THREE[:2], "203.0.113.2"
BOUND = "set state-policy if-bound\n"
NAT, NAT_ON = (f"nat {on}proto udp from 10.0.0.0/8 to any -> 192.0.2.9 port 50001\n" for on in ("", "on em0 "))
REPLY, WIRE, ANSWER = udp(P, 53, H, 1000), udp(B, 50001, P, 53), udp(P, 53, B, 50001)
TO_OWN, TO_OTHER = udp(P, 9, E, 53), udp(P, 9, E1, 53)
# the keys of ASKED, and with what WIRE has on the wire
UDP_KEYS = "198.51.100.7:53,10.0.0.5:1000 198.51.100.7:53,10.0.0.5:1000"
WIRE_KEYS = "198.51.100.7:53,192.0.2.9:50001 198.51.100.7:53,10.0.0.5:1000"
# what a state has once one datagram has come at second 0, with the timeout that is built in
FRESH = "1/0/0/0/- 0/0/0/0/- 0 60 1 28 0 0"


def sent(destination):
    """A datagram from P."""
    return udp(P, 9, destination, 9)


class Came(NamedTuple):
    """A packet of a run: its second, the place of its interface, its frame, its line, and the frame that is written if
    that is another."""
    second: int
    place: int
    frame: bytes
    line: str
    changed: bytes | None = None


class Answer(NamedTuple):
    """What a run is answered with: by place the numbers of the packets that are written there, and by number the sizes
    of the messages that close at a packet. At the end come the size of the last message, if there is one, and the lines
    of the counters and of the states."""
    run: Run
    came: list
    packets: dict
    closed: dict
    last: tuple
    ending: list

    def texts(self):
        """By number what a packet adds if it is written, in hex."""
        records = Script(self.run, [], []).records()
        return {number: (record.header + (each.changed or each.frame)).hex()
                for number, (record, each) in enumerate(zip(records, self.came), 1)}

    def part(self, numbers):
        """The lines of a batch of these packets. The book evaluates each of them itself."""
        texts, lines = self.texts(), []
        for place, found in self.packets.items():
            written = "".join(texts[number] for number in found if number in numbers)
            lines += [f"packets {place} {written}"] if written else []
        sizes = [size for number in numbers for size in self.closed.get(number, ())]
        return [*(self.came[number - 1].line for number in numbers), *(lines or ["packets -"]),
                sizes_line("messages", sizes), f"own {numbers[-1]}, committed {numbers[-1]}"]


def sizes_line(word, sizes):
    return " ".join([word, *map(str, sizes or "-")])


def row(name, rules, *judged, packets, ending, closed=None, last=(), interfaces=TWO, links=()):
    """The answer of a run on some interfaces."""
    came = [Came(*each) for each in judged]
    run = Run(name, rules, [(each.second, each.frame) for each in came], interfaces=interfaces,
              places=tuple(each.place for each in came), links=links)
    return Answer(run, came, packets, closed or {}, tuple(last), ending)


def scripts_of(answer):
    """The run committed in one batch, and packet by packet in batches and alone in turn."""
    run, numbers = answer.run, range(1, len(answer.came) + 1)
    ways = [([Batch(len(numbers))], [numbers]),
            ([call for call, _ in zip(cycle((Batch(1), Commit())), numbers)], [[number] for number in numbers])]
    for calls, parts in ways:
        lines = [line for part in parts for line in answer.part(part)]
        yield Script(run, [(run.seed[0], run.rules)], calls), [*lines, sizes_line("message", answer.last), *answer.ending]


# Rules on interfaces, and own addresses

def rule_rows():
    yield row("one interface is skipped", "set skip on em1\nblock all",
              (0, 0, ASKED, "1 0 out block rule r=0 t=- s=- i=em0"),
              (0, 1, ASKED, "2 0 - pass skip-on r=- t=- s=- i=em1"),
              packets={1: [2]}, ending=["filter 0 1 1 28", "total 2 1 1 0 0"])
    yield row("a rule on the other interfaces", "block all\npass out on ! em0 no state",
              (0, 0, ASKED, "1 0 out block rule r=0 t=- s=- i=em0"),
              (0, 1, ASKED, "2 0 out pass rule r=1 t=- s=- i=em1"),
              packets={1: [2]}, ending=["filter 0 2 1 28", "filter 1 2 1 28", "total 2 1 1 0 0"])
    yield row("own addresses on any interface",
              "block all\npass in from any to self no state\npass out from any to ! self no state",
              (0, 0, sent(E1), "1 0 in pass rule r=1 t=- s=- i=em0"),
              (1, 1, sent(E), "2 1 in pass rule r=1 t=- s=- i=em1"),
              (2, 0, sent("203.0.113.9"), "3 2 in block rule r=0 t=- s=- i=em0"),
              (3, 1, udp(H, 9, E, 9), "4 3 out block rule r=0 t=- s=- i=em1"),
              (4, 1, ASKED, "5 4 out pass rule r=2 t=- s=- i=em1"),
              packets={0: [1], 1: [2, 5]},
              ending=["filter 0 5 2 56", "filter 1 5 2 56", "filter 2 5 1 28", "total 5 3 2 0 0"])
    yield row("own addresses in a table", "table <t> { self, !203.0.113.0/24 }\npass in to <t>",
              (0, 0, sent(E1), "1 0 in pass rule r=0 t=- s=1 i=em0"),
              (0, 1, sent("203.0.113.9"), "2 0 in pass default r=- t=- s=- i=em1"),
              (0, 1, sent(E), "3 0 in pass rule r=0 t=- s=3 i=em1"),
              packets={0: [1], 1: [2, 3]}, last=[532],
              ending=["filter 0 3 2 56", "total 3 3 0 0 0",
                      f"1 17 in 198.51.100.7:9,203.0.113.2:9 198.51.100.7:9,203.0.113.2:9 r=0 t=- {FRESH} i=-",
                      f"3 17 in 198.51.100.7:9,192.0.2.1:9 198.51.100.7:9,192.0.2.1:9 r=0 t=- {FRESH} i=-"])


# States that are bound, and states for all

def state_rows():
    yield row("one connection with a state on each interface", f"{BOUND}block in\npass out",
              (0, 0, ASKED, "1 0 out pass rule r=1 t=- s=1 i=em0"),
              (0, 1, ASKED, "2 0 out pass rule r=1 t=- s=2 i=em1"),
              (1, 0, REPLY, "3 1 in pass state r=1 t=- s=1 i=em0"),
              (2, 1, REPLY, "4 2 in pass state r=1 t=- s=2 i=em1"),
              packets={0: [1, 3], 1: [2, 4]}, closed={3: [532], 4: [132]}, last=[132],
              ending=["filter 0 2 0 0", "filter 1 2 4 112", "total 4 4 0 0 0",
                      f"1 17 out {UDP_KEYS} r=1 t=- 2/0/0/0/- 1/0/0/0/- 0 31 1 28 1 28 i=em0",
                      f"2 17 out {UDP_KEYS} r=1 t=- 2/0/0/0/- 1/0/0/0/- 0 32 1 28 1 28 i=em1"])
    yield row("a state for all beside two that are bound",
              "pass out on em0 keep state (if-bound)\npass out on em1 keep state (if-bound)\npass out on em2",
              (0, 0, ASKED, "1 0 out pass rule r=0 t=- s=1 i=em0"),
              (0, 1, ASKED, "2 0 out pass rule r=1 t=- s=2 i=em1"),
              (0, 2, ASKED, "3 0 out block state-insert r=2 t=- s=- i=em2"),
              packets={0: [1], 1: [2]}, last=[532], interfaces=THREE,
              ending=["filter 0 3 1 28", "filter 1 3 1 28", "filter 2 3 0 0", "total 3 2 1 0 0",
                      f"1 17 out {UDP_KEYS} r=0 t=- {FRESH} i=em0", f"2 17 out {UDP_KEYS} r=1 t=- {FRESH} i=em1"])
    yield row("a rule for states of all interfaces", f"{BOUND}pass out keep state (floating)\nblock in",
              (0, 0, ASKED, "1 0 out pass rule r=0 t=- s=1 i=em0"),
              (1, 1, REPLY, "2 1 in pass state r=0 t=- s=1 i=em1"),
              packets={0: [1], 1: [2]}, closed={2: [290]}, last=[132],
              ending=["filter 0 1 2 56", "filter 1 1 0 0", "total 2 2 0 0 0",
                      f"1 17 out {UDP_KEYS} r=0 t=- 2/0/0/0/- 1/0/0/0/- 0 31 1 28 1 28 i=-"])


def shared_rows():
    """What all interfaces have in common: the room of a rule, the clock, and a state for all."""
    yield row("room for one state of all interfaces together",
              "pass out quick proto udp keep state (max 1, if-bound)\nblock out all",
              (0, 0, ASKED, "1 0 out pass rule r=0 t=- s=1 i=em0"),
              (1, 1, ASKED, "2 1 out block rule r=1 t=- s=- i=em1"),
              packets={0: [1]}, closed={2: [290]},
              ending=["filter 0 2 1 28", "filter 1 1 1 28", "total 2 1 1 0 0",
                      f"1 17 out {UDP_KEYS} r=0 t=- {FRESH} i=em0"])
    yield row("one clock for all interfaces", "set timeout udp.first 10\npass out\nblock in",
              (0, 0, ASKED, "1 0 out pass rule r=0 t=- s=1 i=em0"),
              (10, 1, REPLY, "2 10 in block rule r=1 t=- s=- i=em1"),
              packets={0: [1]}, closed={2: [290]}, last=[60],
              ending=["filter 0 2 1 28", "filter 1 2 1 28", "total 2 1 1 0 0"])
    yield row("a connection that one interface ends and another removes", "pass out",
              (0, 0, FIRST_SYN, "1 0 out pass rule r=0 t=- s=1 i=em0"),
              (1, 1, tcp(P, 80, H, 1000, RST | ACK, 0, 1001), "2 1 in pass state r=0 t=- s=1 i=em1"),
              (2, 1, FIRST_SYN, "3 2 out block state-mismatch r=0 t=- s=1 i=em1"),
              (2, 1, FIRST_SYN, "4 2 out pass rule r=0 t=- s=4 i=em1"),
              packets={0: [1], 1: [2, 4]}, closed={2: [290], 3: [132]}, last=[306],
              ending=["filter 0 2 3 120", "total 4 3 1 0 0",
                      f"4 6 out {KEYS} r=0 t=- 2/1000/1002/1000/- 0/0/1/1/- 2 122 1 40 0 0 i=-"])


def error_rows():
    """An error on another interface than that of the packet that it is about."""
    error, rules = icmp_error(OTHER, UNREACHABLE, 1, ASKED), "block in\npass out"
    opening = (0, 0, ASKED, "1 0 out pass rule r=1 t=- s=1 i=em0")
    yield row("an error about a state for all", rules, opening,
              (1, 1, error, "2 1 in pass state-error r=1 t=- s=1 i=em1"),
              packets={0: [1], 1: [2]}, closed={2: [290]},
              ending=["filter 0 1 0 0", "filter 1 1 2 84", "total 2 2 0 0 0",
                      f"1 17 out {UDP_KEYS} r=1 t=- {FRESH} i=-"])
    yield row("an error about a state that is bound elsewhere", BOUND + rules, opening,
              (1, 1, error, "2 1 in block rule r=0 t=- s=- i=em1"),
              packets={0: [1]}, closed={2: [290]},
              ending=["filter 0 2 1 56", "filter 1 2 1 28", "total 2 1 1 0 0",
                      f"1 17 out {UDP_KEYS} r=1 t=- {FRESH} i=em0"])


# Translation

def nat_rows():
    yield row("a port that a state of another interface has", f"{BOUND}{NAT}pass out",
              (0, 0, ASKED, "1 0 out pass rule r=0 t=0 s=1 i=em0", WIRE),
              (0, 1, udp(H, 1001, P, 53), "2 0 out block nat-exhausted r=- t=0 s=- i=em1"),
              packets={0: [1]}, last=[290],
              ending=["filter 0 1 1 28", "translation 0 2 1 28", "total 2 1 1 0 0",
                      f"1 17 out {WIRE_KEYS} r=0 t=0 {FRESH} i=em0"])
    yield row("a translated connection on its interface alone", f"{BOUND}{NAT_ON}block in\npass out",
              (0, 0, ASKED, "1 0 out pass rule r=1 t=0 s=1 i=em0", WIRE),
              (1, 1, ANSWER, "2 1 in block rule r=0 t=- s=- i=em1"),
              (2, 0, ANSWER, "3 2 in pass state r=1 t=0 s=1 i=em0", REPLY),
              packets={0: [1, 3]}, closed={2: [290]}, last=[132],
              ending=["filter 0 2 1 28", "filter 1 2 2 56", "translation 0 1 2 56", "total 3 2 1 0 0",
                      f"1 17 out {WIRE_KEYS} r=1 t=0 2/0/0/0/- 1/0/0/0/- 0 32 1 28 1 28 i=em0"])
    yield row("a translation without a rule that keeps state", f"{BOUND}{NAT_ON}pass out on em1",
              (0, 0, ASKED, "1 0 out pass default r=- t=0 s=1 i=em0", WIRE),
              packets={0: [1]}, last=[290],
              ending=["filter 0 1 0 0", "translation 0 1 0 0", "total 1 1 0 0 0",
                      f"1 17 out {WIRE_KEYS} r=- t=0 {FRESH} i=em0"])


def redirection_rows():
    yield row("a redirection to the address of another interface",
              "rdr on em0 proto udp from any to 192.0.2.1 port 53 -> em1\npass in",
              (0, 0, TO_OWN, "1 0 in pass rule r=0 t=0 s=1 i=em0", TO_OTHER),
              (0, 1, TO_OWN, "2 0 in pass state r=0 t=0 s=1 i=em1", TO_OTHER),
              packets={0: [1], 1: [2]}, last=[290],
              ending=["filter 0 1 2 56", "translation 0 1 2 56", "total 2 2 0 0 0",
                      "1 17 in 198.51.100.7:9,192.0.2.1:53 198.51.100.7:9,203.0.113.2:53 r=0 t=0 1/0/0/0/- "
                      "0/0/0/0/- 0 30 2 56 0 0 i=-"])
    yield row("a redirection on one interface beside a state for all",
              f"{BOUND}rdr on em1 proto udp from any to 203.0.113.2 port 53 -> 10.0.0.5 port 53\n"
              "pass in keep state (floating)",
              (0, 0, udp(P, 9, H, 53), "1 0 in pass rule r=0 t=- s=1 i=em0"),
              (1, 1, TO_OTHER, "2 1 in block state-insert r=0 t=0 s=- i=em1"),
              packets={0: [1]}, closed={2: [290]},
              ending=["filter 0 2 1 28", "translation 0 2 0 0", "total 2 1 1 0 0",
                      f"1 17 in 198.51.100.7:9,10.0.0.5:53 198.51.100.7:9,10.0.0.5:53 r=0 t=- {FRESH} i=-"])


# Packets and names of each interface

def output_rows():
    yield row("an interface of another kind", "pass out",
              (0, 0, ASKED, "1 0 out pass rule r=0 t=- s=1 i=em0"),
              (0, 1, ethernet(ETHER_IPV4, REPLY), "2 0 in pass state r=0 t=- s=1 i=em1"),
              (1, 1, ethernet(ETHER_IPV4, ASKED, (1, 2)), "3 1 - skip not-ip r=- t=- s=- i=em1"),
              packets={0: [1], 1: [2, 3]}, closed={3: [290]}, links=(LINKTYPE_RAW, LINKTYPE_ETHERNET),
              ending=["filter 0 1 2 56", "total 3 2 0 0 1",
                      f"1 17 out {UDP_KEYS} r=0 t=- 2/0/0/0/- 1/0/0/0/- 0 30 1 28 1 28 i=-"])
    yield row("packets of the last interface before those of the first", f"{BOUND}pass out",
              (0, 2, ASKED, "1 0 out pass rule r=0 t=- s=1 i=em2"),
              (0, 0, ASKED, "2 0 out pass rule r=0 t=- s=2 i=em0"),
              (0, 2, ASKED, "3 0 out pass state r=0 t=- s=1 i=em2"),
              packets={0: [2], 2: [1, 3]}, last=[532], interfaces=THREE,
              ending=["filter 0 2 3 84", "total 3 3 0 0 0",
                      f"1 17 out {UDP_KEYS} r=0 t=- 1/0/0/0/- 0/0/0/0/- 0 30 2 56 0 0 i=em2",
                      f"2 17 out {UDP_KEYS} r=0 t=- {FRESH} i=em0"])
    yield row("a packet behind the last interface", f"{BOUND}pass out",
              (0, 2, ASKED, "1 0 out pass rule r=0 t=- s=1 i="),
              packets={2: [1]}, last=[290],
              ending=["filter 0 1 1 28", "total 1 1 0 0 0", f"1 17 out {UDP_KEYS} r=0 t=- {FRESH} i="])
    yield row("a single interface, and a packet behind it", f"{BOUND}pass out",
              (0, 1, ASKED, "1 0 out pass rule r=0 t=- s=1"), (0, 0, ASKED, "2 0 out pass rule r=0 t=- s=2"),
              packets={0: [2], 1: [1]}, last=[532], interfaces=(INTERFACE,),
              ending=["filter 0 2 2 56", "total 2 2 0 0 0", f"1 17 out {UDP_KEYS} r=0 t=- {FRESH}",
                      f"2 17 out {UDP_KEYS} r=0 t=- {FRESH}"])
    yield row("names of one letter and of fifteen", f"{BOUND}pass out",
              (0, 0, ASKED, "1 0 out pass rule r=0 t=- s=1 i=a23456789012345"),
              (0, 1, REPLY, "2 0 in pass default r=- t=- s=- i=b"),
              packets={0: [1], 1: [2]}, last=[290],
              interfaces=(Interface("a23456789012345", E, 24), Interface("b", E1, 24)),
              ending=["filter 0 2 1 28", "total 2 2 0 0 0", f"1 17 out {UDP_KEYS} r=0 t=- {FRESH} i=a23456789012345"])


def answers():
    for make in (rule_rows, state_rows, shared_rows, error_rows, nat_rows, redirection_rows, output_rows):
        yield from make()


def rows():
    """Scripts, each with all lines that it is answered with. For messages these have their sizes."""
    for answer in answers():
        yield from scripts_of(answer)
