"""Scripts on several interfaces that are written out: results of another interface than the packet's, and results that
rest on states which are bound to their interface, or to another one.
"""

from captures.packets import RST, SYN, icmp_error, tcp, udp
from commits.model import Batch, Commit, Holds, Speculate
from commits.cases import Script
from commits.translation_scripts import EVALUATED, Committed, answer
from steps.rows import FIRST_SYN
from steps.run import THREE, Run, seed_of
from steps.translation_rows import SEEDS
from steps.translation_words import ASKED, OTHER, E, H, P

BOUND, RULES = "set state-policy if-bound\n", "block in\npass out"
BY_WAY = "pass out keep state (if-bound)\npass in keep state (floating)"
REPLY, OTHERS = udp(P, 53, H, 1000), udp(H, 1001, P, 53)
IPV6 = bytes([0x60]) + bytes(39)
ONE_PORT = "nat proto udp from 10.0.0.0/8 to any -> 192.0.2.1 port 50001\npass out\npass in"
# it has the key on the wire that a packet would have by this port
CAME = udp(P, 53, E, 50001)


def run_of(name, rules, *packets, seed=0):
    """A run whose packets stand each behind a second and a place."""
    return Run(name, rules, [(second, packet) for second, _, packet in packets], interfaces=THREE, seed=seed_of(seed),
               places=tuple(place for _, place, _ in packets))


def told(run, calls, *lines):
    return Script(run, [(run.seed[0], run.rules)], calls), [*lines]


def found_out(run, *numbers):
    """What is found out about packets as they come, at their seconds and on their interfaces."""
    return [Speculate(0, number, number, run.records[number - 1][0], run.places[number - 1]) for number in numbers]


def passed(number, words, packet, clock=0):
    return Committed(number, f"{clock} {words}", packet)


def blocked(number, words, clock=0):
    return Committed(number, f"{clock} {words}")


def opened(number, packet=ASKED, rule=1, direction="out", clock=0):
    """A packet that makes the state of its number, as it is."""
    return passed(number, f"{direction} pass rule r={rule} t=- s={number}", packet, clock)


def by_state(number, state, packet=ASKED, rule=1, direction="out", clock=0):
    return passed(number, f"{direction} pass state r={rule} t=- s={state}", packet, clock)


FILTERED = "in block rule r=0 t=- s=-"
EXHAUSTED = "out block nat-exhausted r=- t=0 s=-"


# Results of another interface

def elsewhere_scripts():
    """One packet on the second interface, and a result of the first one and another of its own. What it comes to is the
    same on both."""
    outcomes = ((ASKED, opened(1)), (REPLY, blocked(1, FILTERED)),
                (IPV6, passed(1, "- skip not-ip r=- t=- s=-", IPV6)),
                (ASKED[:27], blocked(1, "- block short r=- t=- s=-")))
    for packet, committed in outcomes:
        run = run_of("a result of another interface", RULES, (0, 1, packet))
        here, there = Speculate(0, 1, 1, 0, 1), Speculate(0, 1, 1, 0, 0)
        for calls, own in (([there, Batch(1, (0,))], 1), ([here, Batch(1, (0,))], 0), ([there, Commit(0)], 1),
                           ([here, Commit(0)], 0), ([there, here, Batch(1, (0, 1))], 1),
                           ([there, here, Batch(1, (1, 0))], 0)):
            yield told(run, calls, *answer(run, [committed], own))
    run = run_of("a result of another interface whose record holds", BOUND + RULES, (0, 0, ASKED), (0, 255, ASKED))
    calls = [Speculate(0, 1, 1, 0, 255), Speculate(0, 2, 2, 0, 0), Holds(0, 0), Holds(1, 0), Batch(1, (0,)), Holds(1, 0),
             Batch(1, (1,))]
    yield told(run, calls, "holds", "holds", *answer(run, [opened(1)], 1), "fails", *answer(run, [opened(2)], 2))


def several_script():
    """A batch of packets of three interfaces, one of which is skipped. One result is of another interface."""
    own = udp(P, 9, E, 9)
    run = run_of("packets of three interfaces in one batch",
                 f"set skip on em2\n{BOUND}block in\npass in to self no state\npass out on em1",
                 (0, 1, ASKED), (0, 1, own), (1, 0, ASKED), (1, 2, REPLY))
    return told(run, [*found_out(run, 1, 2), Speculate(0, 3, 3, 1, 1), *found_out(run, 4), Batch(4, (0, 1, 2, 3))],
                *answer(run, [opened(1, rule=2), passed(2, "in pass rule r=1 t=- s=-", own),
                              passed(3, "out pass default r=- t=- s=-", ASKED, 1),
                              passed(4, "- pass skip-on r=- t=- s=-", REPLY, 1)], 1, 290))


# States of one key

def bound_script():
    """States that are bound elsewhere are made and touched, and results stay."""
    run = run_of("states that are bound elsewhere", BOUND + RULES, (0, 0, ASKED), (0, 0, ASKED), (0, 1, ASKED),
                 (0, 0, REPLY), (0, 1, REPLY), (0, 2, REPLY))
    calls = [*found_out(run, 3, 6), Batch(2), Holds(0, 0), Batch(1, (0,)), *found_out(run, 5), Batch(1), Holds(2, 0),
             Holds(1, 0), Batch(2, (1, 2))]
    return told(run, calls, *answer(run, [opened(1), by_state(2, 1)], 2), "holds", *answer(run, [opened(3)], 2),
                *answer(run, [by_state(4, 1, REPLY, direction="in")], 3), "holds", "holds",
                *answer(run, [by_state(5, 3, REPLY, direction="in"), blocked(6, FILTERED)], 3))


def floating_script():
    """The same packets, and the state of the first is for all."""
    run = run_of("a state for all", RULES, (0, 0, ASKED), (0, 0, ASKED), (0, 1, ASKED), (0, 0, REPLY), (0, 1, REPLY),
                 (0, 2, REPLY))
    calls = [*found_out(run, 3, 6), Batch(2), Holds(0, 0), Batch(1, (0,)), *found_out(run, 5), Batch(1), Holds(2, 0),
             Holds(1, 0), Batch(2, (1, 2))]
    return told(run, calls, *answer(run, [opened(1), by_state(2, 1)], 2), "fails", *answer(run, [by_state(3, 1)], 3),
                *answer(run, [by_state(4, 1, REPLY, direction="in")], 4), "fails", "fails",
                *answer(run, [by_state(number, 1, REPLY, direction="in") for number in (5, 6)], 6))


def removed_script():
    """A state that is bound elsewhere goes, by a packet and by its time."""
    reset = tcp(P, 80, H, 1000, RST, 0)
    run = run_of("a state that is bound elsewhere goes", f"set timeout tcp.closed 10\n{BOUND}pass", (0, 0, FIRST_SYN),
                 (0, 1, FIRST_SYN), (0, 0, reset), (0, 0, FIRST_SYN), (0, 1, FIRST_SYN), (0, 1, reset),
                 (10, 2, FIRST_SYN), (10, 1, FIRST_SYN))
    mismatch = blocked(4, "out block state-mismatch r=0 t=- s=1")
    calls = [Batch(3), *found_out(run, 5), Batch(1), Holds(0, 0), Batch(1, (0,)), *found_out(run, 7, 8), Batch(1),
             Holds(1, 10), Holds(2, 10), Batch(2, (1, 2))]
    return told(run, calls,
                *answer(run, [opened(1, FIRST_SYN, 0), opened(2, FIRST_SYN, 0), by_state(3, 1, reset, 0, "in")], 3),
                *answer(run, [mismatch], 4), "holds", *answer(run, [by_state(5, 2, FIRST_SYN, 0)], 4),
                *answer(run, [by_state(6, 2, reset, 0, "in")], 5), "holds", "fails",
                *answer(run, [opened(7, FIRST_SYN, 0, clock=10), opened(8, FIRST_SYN, 0, clock=10)], 6, 290))


def beside_scripts():
    """A state that a result would make, beside one that came since."""
    packets = (0, 0, ASKED), (0, 1, REPLY)
    run = run_of("a state for all beside a bound one", BY_WAY, *packets)
    taken = blocked(2, "in block state-insert r=1 t=- s=-")
    yield told(run, [*found_out(run, 1, 2), Holds(1, 0), Batch(1, (0,)), Holds(1, 0), Batch(1, (1,))], "holds",
               *answer(run, [opened(1, rule=0)], 0), "fails", *answer(run, [taken], 1))
    run = run_of("a bound state beside another", BY_WAY.replace("floating", "if-bound"), *packets)
    yield told(run, [*found_out(run, 1, 2), Batch(1, (0,)), Holds(1, 0), Batch(1, (1,))],
               *answer(run, [opened(1, rule=0)], 0), "holds", *answer(run, [opened(2, REPLY, direction="in")], 0))


def error_scripts():
    """An error on another interface, about a packet of which the state came since."""
    error = icmp_error(OTHER, 3, 1, ASKED)
    for rules, own, line, committed in (
            (RULES, 1, "fails", passed(2, "in pass state-error r=1 t=- s=1", error)),
            (BOUND + RULES, 0, "holds", blocked(2, FILTERED))):
        run = run_of("an error on another interface", rules, (0, 0, ASKED), (0, 1, error))
        yield told(run, [*found_out(run, 1, 2), Batch(1, (0,)), Holds(1, 0), Batch(1, (1,))],
                   *answer(run, [opened(1)], 0), line, *answer(run, [committed], own))


def room_scripts():
    """Room that a state of another interface takes."""
    for rules, line in (("pass out quick keep state (max 1, if-bound)\nblock", "out block rule r=1 t=- s=-"),
                        (f"set limit states 1\n{BOUND}pass", "out block state-limit r=0 t=- s=-")):
        run = run_of("room that a state of another interface takes", rules, (0, 0, ASKED), (0, 1, OTHERS))
        yield told(run, [*found_out(run, 1, 2), Holds(1, 0), Batch(1, (0,)), Holds(1, 0), Batch(1, (1,))], "holds",
                   *answer(run, [opened(1, rule=0)], 0), "fails", *answer(run, [blocked(2, line)], 1))


# Ports, which are asked for wherever states are bound

def port_scripts():
    """Two packets on two interfaces and two ports, by seeds with two cuts and with one."""
    rules = f"{BOUND}nat proto udp from 10.0.0.0/8 to any -> 192.0.2.1 port 50001:50002\npass out"
    for seed, first, second in SEEDS:
        run = run_of("two ports for two interfaces", rules, (0, 0, ASKED), (0, 1, OTHERS), seed=seed)
        packets = [passed(number, f"out pass rule r=0 t=0 s={number}", udp(E, port, P, 53))
                   for number, port in ((1, first), (2, second))]
        # of three packets the third is evaluated again in any case
        yield told(run, [*found_out(run, 1, 2), Batch(2, (1, 0))], *answer(run, packets, EVALUATED[seed] - 1))


def least_scripts():
    """A port that two states have, of which the one of the least number is found. The result doesn't rest on the
    other one."""
    for place, own, line in ((1, 3, "holds"), (0, 4, "fails")):
        run = run_of("one of two states in the way changes", BOUND + ONE_PORT, (0, 0, CAME), (0, 1, CAME),
                     (0, place, CAME), (0, 2, ASKED))
        calls = [Batch(2), *found_out(run, 4), Holds(0, 0), Batch(1), Holds(0, 0), Batch(1, (0,))]
        made = [opened(number, CAME, 1, "in") for number in (1, 2)]
        yield told(run, calls, *answer(run, made, 2), "holds",
                   *answer(run, [by_state(3, place + 1, CAME, direction="in")], 3), line,
                   *answer(run, [blocked(4, EXHAUSTED)], own))


def due_scripts():
    """The time of the least state has come, and it isn't gone yet when something is found out."""
    filler = udp(P, 9, E, 9)
    # a message that tells of a new state has 290 bytes, and one that tells of a change 132
    for third, own, line, size in ((opened(3, filler, direction="in", clock=9), 3, "holds", 290),
                                   (by_state(3, 2, CAME, direction="in", clock=9), 4, "fails", 132)):
        run = run_of("the least of two states in the way is due", f"set timeout udp.first 10\n{BOUND}{ONE_PORT}",
                     (0, 0, CAME), (5, 1, CAME), (9, 1, third.frame), (9, 2, ASKED), (10, 2, ASKED))
        calls = [Batch(2), *found_out(run, 4, 5), Batch(1), Holds(0, 9), Holds(1, 10), Batch(2, (0, 1))]
        yield told(run, calls, *answer(run, [opened(1, CAME, 1, "in"), opened(2, CAME, 1, "in", 5)], 2, 290),
                   *answer(run, [third], 3, 290), "holds", line,
                   *answer(run, [blocked(4, EXHAUSTED, 9), blocked(5, EXHAUSTED, 10)], own, size))


def removed_least_script():
    """A packet removes the least of two states in the way."""
    rules = ONE_PORT.replace("udp", "tcp")
    came, reset = tcp(P, 53, E, 50001, SYN, 1), tcp(P, 53, E, 50001, RST, 2)
    run = run_of("the least of two states in the way is removed", BOUND + rules, (0, 0, came), (0, 1, came),
                 (0, 0, reset), (0, 0, came), (0, 2, tcp(H, 1000, P, 53, SYN, 1)))
    calls = [Batch(3), *found_out(run, 5), Holds(0, 0), Batch(1), Holds(0, 0), Batch(1, (0,))]
    return told(run, calls,
                *answer(run, [opened(1, came, 1, "in"), opened(2, came, 1, "in"),
                              by_state(3, 1, reset, direction="in")], 3), "holds",
                *answer(run, [blocked(4, "in block state-mismatch r=1 t=- s=1")], 4), "fails",
                *answer(run, [blocked(5, EXHAUSTED)], 5))


def rows():
    """Scripts, each with the lines that it is answered with before the end. For messages these have their sizes."""
    yield from elsewhere_scripts()
    yield several_script()
    yield from (bound_script(), floating_script(), removed_script())
    for make in (beside_scripts, error_scripts, room_scripts, port_scripts, least_scripts, due_scripts):
        yield from make()
    yield removed_least_script()
