"""Scripts with translation that are written out: what is found out about a packet ahead, on the table of an earlier
world, and which port it gets where that doesn't hold any more.

A packet that is evaluated again draws the same word, that of its number, and so tries the ports in the same order.
"""

from itertools import permutations
from typing import NamedTuple

from captures.packets import SYN, icmp_error, tcp, udp
from commits.model import Batch, Commit, Holds, Speculate, packet_lines
from commits.cases import Script
from steps.marks import mark
from steps.run import Run, seed_of
from steps.translation_rows import SEEDS, TWO_PORTS
from steps.translation_words import ASKED, H2, OTHER, SERVER, E, H, P

AGAIN, FILLER = udp(H2, 1000, P, 53), udp(P, 9, E, 9)
ONE_PORT = "nat on em0 proto udp from 10.0.0.0/8 to any -> 192.0.2.1 port 50001\npass out"
# by the zero seed packets 1 and 6 have the last of these ports as their cut
FOUR_PORTS = ONE_PORT.replace("50001", "50001:50004")
# by this the second packet of a connection brings its end near
SHORT = "set timeout udp.single 1\n"
# by seeds how many of three packets are evaluated again whose results are of the empty table: the third, and the second
# too where it has the cut of the first
EVALUATED = {0: 1, 1: 1, 2: 2, 7: 2, 255: 2}


class Committed(NamedTuple):
    """A packet that is committed: its number, the rest of its line, and its frame as it is written, None where it
    isn't."""
    number: int
    line: str
    frame: bytes | None = None


def made(number, port, clock=0):
    """A datagram to P that gets a port."""
    return Committed(number, f"{clock} out pass rule r=0 t=0 s={number}", udp(E, port, P, 53))


def exhausted(number, clock=0):
    return Committed(number, f"{clock} out block nat-exhausted r=- t=0 s=-")


def touched(number, clock, port):
    """A datagram of the connection that the first packet made."""
    return Committed(number, f"{clock} out pass state r=0 t=0 s=1", udp(E, port, P, 53))


def filled(numbers, clock):
    return [Committed(number, f"{clock} in pass default r=- t=- s=-", FILLER) for number in numbers]


def answer(run, packets, own, *sizes):
    """What a batch of these packets is answered with, after which the book has evaluated `own` itself, and at which
    messages of these sizes close."""
    records = Script(run, [], []).records()
    came = [(records[each.number - 1], each) for each in packets]
    return [*(f"{each.number} {each.line}{mark(run.interfaces, record.place)}" for record, each in came),
            *packet_lines((record.place, record.header + each.frame) for record, each in came if each.frame),
            " ".join(["messages", *map(str, sizes or "-")]), f"own {own}, committed {packets[-1].number}"]


def told(run, calls, *lines):
    """A script for a run under its own job, with its lines."""
    return Script(run, [(run.seed[0], run.rules)], calls), [*lines]


def found_out(numbers, clock=0, job=0):
    return [Speculate(job, number, number, clock) for number in numbers]


def at_once(name, rules, *packets, seed=0):
    """A run whose packets are all at second 0."""
    return Run(name, rules, [(0, packet) for packet in packets], seed=seed_of(seed))


# On the empty table

def two_port_scripts():
    """Two ports for three packets, by several seeds, with the results in each order."""
    packets = [udp(H, port, P, 53) for port in (1000, 1001, 1002)]
    for seed, first, second in SEEDS:
        run = at_once("two ports for three", TWO_PORTS, *packets, seed=seed)
        lines = answer(run, [made(1, first), made(2, second), exhausted(3)], EVALUATED[seed])
        for order in permutations((0, 1, 2)):
            yield told(run, [*found_out((1, 2, 3)), Batch(3, order)], *lines)


def same_cut_script():
    """Two packets that would get one port."""
    run = at_once("one cut", FOUR_PORTS, ASKED, FILLER, FILLER, FILLER, FILLER, AGAIN)
    calls = [*found_out((1, 6)), Holds(1, 0), Batch(1, (0,)), Holds(1, 0), Batch(5, (1,))]
    return told(run, calls, "holds", *answer(run, [made(1, 50004)], 0), "fails",
                *answer(run, [*filled((2, 3, 4, 5), 0), made(6, 50003)], 5))


def other_cut_script():
    """Two packets that get a port each, ahead as well."""
    run = at_once("two cuts", FOUR_PORTS, ASKED, AGAIN)
    return told(run, [*found_out((1, 2)), Batch(2, (1, 0))], *answer(run, [made(1, 50004), made(2, 50001)], 0))


def other_seed_script():
    """A result by another seed."""
    run = at_once("another seed", TWO_PORTS, ASKED)
    script, lines = told(run, [*found_out((1,), job=1), Holds(0, 0), Batch(1, (0,))],
                         "holds", *answer(run, [made(1, 50002)], 1))
    return script._replace(jobs=[*script.jobs, (1, TWO_PORTS)]), lines


def one_server_script():
    """Two packets of one source to two ports, which are sent to one server."""
    run = at_once("one server", "rdr to em0 port { 80, 8080 } -> 10.0.0.1 port 80\npass in",
                  tcp(P, 9, E, 80, SYN, 1), tcp(P, 9, E, 8080, SYN, 1))
    packets = [Committed(1, "0 in pass rule r=0 t=0 s=1", tcp(P, 9, SERVER, 80, SYN, 1)),
               Committed(2, "0 in block state-insert r=0 t=1 s=-")]
    return told(run, [*found_out((1, 2)), Holds(1, 0), Batch(2, (0, 1))], "holds", *answer(run, packets, 1))


def judged_script():
    """Two packets that would get one port, where the filter lets that port alone out. By this seed they have one
    cut."""
    rules = f"{TWO_PORTS.replace('pass out', 'block out')}\npass out from em0 port 50002"
    run = at_once("one port is let out", rules, ASKED, AGAIN, seed=7)
    packets = [Committed(1, "0 out pass rule r=1 t=0 s=1", udp(E, 50002, P, 53)),
               Committed(2, "0 out block rule r=0 t=0 s=-")]
    return told(run, [*found_out((1, 2)), Holds(1, 0), Batch(2, (0, 1))], "holds", *answer(run, packets, 1))


# On the table of an earlier world

def freed_script():
    """A port that was taken ahead and has come free since."""
    run = Run("a port that comes free", SHORT + FOUR_PORTS,
              [(0, ASKED), (1, ASKED), (1, FILLER), (1, FILLER), (1, FILLER), (10, AGAIN)])
    calls = [Batch(1), *found_out((6,), 10), Holds(0, 10), Batch(4), Holds(0, 10), Batch(1, (0,))]
    return told(run, calls, *answer(run, [made(1, 50004)], 1), "holds",
                *answer(run, [touched(2, 1, 50004), *filled((3, 4, 5), 1)], 5, 290), "fails",
                *answer(run, [made(6, 50004, 10)], 6, 132))


def no_longer_full_script():
    """A list of which each port was taken ahead, and isn't now."""
    run = Run("a list that is full ahead", SHORT + ONE_PORT, [(0, ASKED), (1, ASKED), (10, AGAIN)])
    calls = [Batch(1), *found_out((3,), 10), Holds(0, 10), Commit(), Holds(0, 10), Commit(0)]
    return told(run, calls, *answer(run, [made(1, 50001)], 1), "holds", *answer(run, [touched(2, 1, 50001)], 2, 290),
                "fails", *answer(run, [made(3, 50001, 10)], 3, 132))


def still_full_script():
    """A list of which each port was taken ahead, and is now."""
    run = at_once("a list that stays full", ONE_PORT, ASKED, AGAIN)
    return told(run, [Batch(1), *found_out((2,)), Batch(1, (0,))], *answer(run, [made(1, 50001)], 1),
                *answer(run, [exhausted(2)], 1))


def touched_script():
    """A port that was taken ahead and is now, by a state that has changed."""
    run = at_once("a state in the way that changes", ONE_PORT, ASKED, ASKED, AGAIN)
    calls = [Batch(1), *found_out((3,)), Holds(0, 0), Batch(1), Holds(0, 0), Batch(1, (0,))]
    return told(run, calls, *answer(run, [made(1, 50001)], 1), "holds", *answer(run, [touched(2, 0, 50001)], 2),
                "fails", *answer(run, [exhausted(3)], 3))


def roomless_script():
    """A packet that is blocked by a key that is taken, so that it doesn't depend on the room in the table."""
    rules = "set limit states 2\nrdr to em0 port { 80, 8080 } -> 10.0.0.1 port 80\npass in"
    run = at_once("a key that is taken and the room", rules,
                  *(tcp(source, 9, E, port, SYN, 1) for source, port in ((P, 80), (OTHER, 80), (P, 8080))))
    made_in = [Committed(number, f"0 in pass rule r=0 t=0 s={number}", tcp(source, 9, SERVER, 80, SYN, 1))
               for number, source in ((1, P), (2, OTHER))]
    calls = [Batch(1), *found_out((3,)), Batch(1), Holds(0, 0), Batch(1, (0,))]
    return told(run, calls, *answer(run, made_in[:1], 1), *answer(run, made_in[1:], 2), "holds",
                *answer(run, [Committed(3, "0 in block state-insert r=0 t=1 s=-")], 2))


def error_script():
    """An error about a packet that wasn't written yet, and then was."""
    error = icmp_error(OTHER, 3, 1, udp(E, 50001, P, 53))
    run = at_once("an error ahead of its connection", ONE_PORT, ASKED, error, error)
    calls = [*found_out((2,)), Holds(0, 0), Batch(1), Holds(0, 0), *found_out((3,)), Batch(2, (0, 1))]
    errors = [Committed(number, "0 in pass state-error r=0 t=0 s=1", icmp_error(OTHER, 3, 1, ASKED))
              for number in (2, 3)]
    return told(run, calls, "holds", *answer(run, [made(1, 50001)], 1), "fails", *answer(run, errors, 2))


def rows():
    """Scripts, each with the lines that it is answered with before the end. For messages these have their sizes."""
    yield from two_port_scripts()
    for make in (same_cut_script, other_cut_script, other_seed_script, one_server_script, judged_script, freed_script,
                 no_longer_full_script, still_full_script, touched_script, roomless_script, error_script):
        yield make()
