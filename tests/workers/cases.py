"""Random rulesets, captures and seeds for runs with workers.

Workers evaluate the packets of a batch on the table as it was before. So the cases are such that packets often change
what one close behind them meets. Most are those of other comparisons: few connections with their packets close
together, tables of a few states, ranges of a few ports, states that run out on the way, several interfaces with a
capture each, captures on the wire. Here come runs that fill a range of ports again and again, runs whose rules are for
about as many states as there are flows, runs that are so long that workers rest in them, limits of states, and packets
that come twice.
"""

import random

import messages.random_runs
import steps.place_runs
import steps.random_runs
import steps.translation_runs
from captures.packets import MORE_FRAGMENTS, UDP, ipv4, udp
from runs import message_cases
from runs.message_cases import LAST_SECOND
from runs.random_cases import placed_case, some_capture
from runs.rows import case_of
from steps.rows import HERE, OTHER, H, P
from steps.run import Run
from steps.settings import some_settings

SEED = 20261126
# packets of a run whose kind doesn't tell: few, some batches of 256, and now and then many
SHORT, MIDDLE, LONG = (1, 150), (250, 700), (900, 1600)
LENGTHS = (SHORT,) * 4 + (MIDDLE,) * 5 + (LONG,)
# how often a packet comes once more, and how many places later
AGAIN, PLACES = 0.06, (1, 1, 1, 2, 3, 10)
# how often a run whose ruleset doesn't limit states is given a limit, and which
LIMITED, LIMITS = 0.4, (1, 2, 3, 5, 8, 20)
# of a run that fills a range: the ports, and how many flows more or fewer begin in a round
RANGE_LENGTHS, SURPLUS = (1, 2, 3, 8, 30, 120), (-2, -1, 0, 0, 1, 2, 10)
ROUNDS = 2, 6
# of a run of rules with `max`: how many states they are for, and the rules, which have that number or one near it
MOSTS = (1, 1, 2, 3, 5, 20, 80)
ROOM_RULES = ("pass out proto udp keep state (max N)", "pass out proto udp from any port 1000:1003 keep state (max N)",
              "pass quick proto udp to port 53 keep state (max N)", "pass in proto udp keep state (max N, no-sync)",
              "pass out to { 198.51.100.7, 203.0.113.9 } keep state (max N)", "anchor quick {\npass out keep state (max N)\n}")
FIRST_OF_ROOMS = ("block", "pass no state", "pass", "block return")
# packets of a run in which workers rest, and are tried again
RESTING = 20_000
# seconds between two rounds, and of the timeouts, so that in some rounds all ports are free, and in some none is
ROUND_WAITS, SECONDS = (0, 0, 1, 4, 5, 6, 30), (1, 5, 5, 20, 60)
UDP_TIMEOUTS = ("udp.first", "udp.single", "udp.multiple")


def plain_run(draw, number):
    count = draw.randint(*draw.choice(LENGTHS))
    return steps.random_runs.some_run(draw, number, count, (count, count))


def resting_run(draw, number):
    """The packets of a run again and again, so often that workers rest where they don't pay, and are tried again."""
    run = plain_run(draw, number)
    times = RESTING // max(len(run.records), 1) + 1
    return run._replace(records=(list(run.records) * times)[:RESTING])


def translated_run(draw, number):
    count = draw.randint(*draw.choice(LENGTHS))
    return steps.translation_runs.some_run(draw, number, count, draw.randbytes(32), (count, count))


def placed_run(draw, number):
    """A run on several interfaces."""
    count = draw.randint(*draw.choice(LENGTHS))
    return limited(draw, steps.place_runs.some_run(draw, number, count, (count, count)))


def settled_run(draw, number):
    """A run with settings, mostly one that is captured on the wire."""
    count = draw.randint(*draw.choice(LENGTHS))
    return steps.translation_runs.some_run(draw, number, count, draw.randbytes(32), (count, count),
                                           settings=some_settings(draw))


def settled_placed_run(draw, number):
    """One on several interfaces."""
    count = draw.randint(*draw.choice(LENGTHS))
    return limited(draw, steps.place_runs.some_run(draw, number, count, (count, count), some_settings(draw)))


def telling_run(draw, number):
    return limited(draw, messages.random_runs.some_run(draw, number))


def moving_run(draw, number):
    return limited(draw, message_cases.moving_run(draw, number))


def full_run(draw, number):
    """About as many flows to one end as a range has ports, in rounds, with replies to ports of the range. Of a round
    some flows were in the rounds before, and between two rounds states may go."""
    count = draw.choice(RANGE_LENGTHS)
    first = draw.choice((0, 50001, 65536 - count))
    timeouts = [f"set timeout {name} {draw.choice(SECONDS)}" for name in UDP_TIMEOUTS]
    records, second = [], 1000
    for _ in range(draw.randint(*ROUNDS)):
        flows = draw.sample(range(2 * count + 12), max(count + draw.choice(SURPLUS), 1))
        packets = [udp(H, 1000 + flow, P, 53) for flow in flows]
        packets += [udp(P, 53, HERE, first + place) for place in draw.sample(range(count), count // 2 + 1)]
        draw.shuffle(packets)
        records += [(second, packet) for packet in packets]
        second += draw.choice(ROUND_WAITS)
    rules = (*timeouts, f"nat on em0 from any to any -> em0 port {first}:{first + count - 1}", "pass")
    return Run(f"random run with a range that is full {number}", "\n".join(rules), records, seed=draw.randbytes(32))


def room_run(draw, number):
    """Flows in rounds, each about as many as a rule is for, with replies and fragments. Of a round some flows were in the
    rounds before, and between two rounds states may go."""
    count = draw.choice(MOSTS)
    timeouts = [f"set timeout {name} {draw.choice(SECONDS)}" for name in UDP_TIMEOUTS]
    records, second = [], 1000
    for _ in range(draw.randint(*ROUNDS)):
        flows = draw.sample(range(2 * count + 12), max(count + draw.choice(SURPLUS), 1))
        packets = [udp(H, 1000 + flow, draw.choice((P, P, OTHER)), 53) for flow in flows]
        packets += [udp(P, 53, draw.choice((H, HERE)), 1000 + flow) for flow in flows[:count // 2 + 1]]
        packets += [ipv4(H, P, UDP, bytes(8), fragment=draw.choice((1, MORE_FRAGMENTS)))] * draw.randint(0, 2)
        draw.shuffle(packets)
        records += [(second, packet) for packet in packets]
        second += draw.choice(ROUND_WAITS)
    rules = [rule.replace("N", str(max(count + draw.choice(SURPLUS), 1)))
             for rule in draw.sample(ROOM_RULES, draw.randint(1, 4))]
    translation = draw.choice(("", "", "nat on em0 from any to any -> em0"))
    text = "\n".join([*timeouts, translation, draw.choice(FIRST_OF_ROOMS), *rules])
    return Run(f"random run with rules for few states {number}", text, records, seed=draw.randbytes(32))


def limited(draw, run):
    """The run, maybe with room for few states."""
    if draw.random() < LIMITED:
        return run._replace(rules=f"set limit states {draw.choice(LIMITS)}\n{run.rules}")
    return run


def with_some_again(draw, run):
    """The run, of whose records some come once more, right behind themselves or some places later."""
    made = run.placed()
    for place in reversed(range(len(made))):
        if draw.random() < AGAIN:
            made.insert(place + draw.choice(PLACES), made[place])
    places = tuple(place for _, _, place in made) if run.places else ()
    return run._replace(records=[(second, frame) for second, frame, _ in made], places=places)


# how many these are has no divisor in common with how many choices there are, so that each kind meets each choice
KINDS = (plain_run, translated_run, placed_run, telling_run, full_run, moving_run, room_run, translated_run, placed_run,
         message_cases.together_run, resting_run, settled_run, settled_placed_run)


def is_fit(run):
    """Whether there are packets, which there aren't where the ruleset has a fault, at seconds that captures have."""
    return bool(run.records) and all(second <= LAST_SECOND for second, _ in run.records)


def case_at(number):
    """The case of a number from 0 on, the same at every time."""
    draw = random.Random(f"{SEED} {number}")
    run = KINDS[number % len(KINDS)](draw, number)
    while not is_fit(run):
        run = KINDS[number % len(KINDS)](draw, number)
    run = with_some_again(draw, run)
    return placed_case(draw, run) if run.places else case_of(run)._replace(capture=some_capture(draw, run))
