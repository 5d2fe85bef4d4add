"""Random runs of which much is to be told to a standby, in captures of every form: those of messages.random_runs,
states that go as soon as they have moved on, and many states that come and go together.

A few captures end inside a record, or with one that is too long. Each thing that messages depend on has to come up
often enough in all of them.
"""

import random

from captures.packets import LINKTYPE_RAW, udp
from messages import happenings, random_runs
from messages.message import DEL_C, KINDS, MOST, size
from messages.random_runs import Bursts
from messages.rows import NOT_IPV4
from runs import model
from runs.random_cases import some_capture
from runs.rows import case_of
from steps.random_runs import with_packets
from steps.rows import H, P
from steps.run import Run

SEED = 20261201
LEAST = 100
# how many runs there are of each kind
ANY_RUNS, MOVING_RUNS, TOGETHER_RUNS = 70, 75, 27
LAST_SECOND = 2**32 - 1
# timeouts of states that have moved on
LATER_TIMEOUTS = ("udp.single", "udp.multiple", "tcp.opening", "tcp.established", "tcp.closing", "icmp.error",
                  "other.single")
TOGETHER, PAUSE = 4, 100
MOST_REMOVED = next(count for count in range(MOST) if size({DEL_C: count + 1}) > MOST)
COUNTED = (*KINDS, "INS that is gone again", "UPD_C that turns into DEL_C",
           *(f"by size before {kind}" for kind in KINDS), "by clock", "not told of")


class Moving(Bursts):
    """Connections most of whose packets come within a second."""
    SHAPES = (((4, 12, 1, 0), 8, (1,)), ((5, 14, 0, 0), 50, (1, 2)), ((5, 14, 0, 0), 50, (1, 2)))


def moving_run(draw, number):
    """A run in which states go at once that move on."""
    timeouts = [f"set timeout {name} 0" for name in LATER_TIMEOUTS if draw.random() < 0.25]
    text = "\n".join((*timeouts, "pass flags any", *draw.sample(random_runs.NO_SYNC, draw.choice((0, 0, 1)))))
    run = Run(f"random run with states that move on {number}", text, [], LINKTYPE_RAW, seed=draw.randbytes(32))
    return with_packets(draw, run, Moving, draw.randint(120, 200))


def together_run(draw, number):
    """A run with several bursts of connections that begin in one second, and whose states are all gone in the next
    one."""
    records, second = [], draw.randrange(1000)
    for _ in range(TOGETHER):
        ports = draw.sample(range(1000, 1200), draw.randint(MOST_REMOVED + 1, MOST_REMOVED + 5))
        records += [(second, udp(H, port, P, 53)) for port in ports]
        second += PAUSE
    return Run(f"random run with states that go together {number}", "pass out", [*records, (second, NOT_IPV4)])


def runs(draw):
    """All of them; no record has a later second than the last one."""
    yield from (run for run in random_runs.runs(ANY_RUNS) if all(second <= LAST_SECOND for second, _ in run.records))
    yield from (moving_run(draw, number) for number in range(MOVING_RUNS))
    yield from (together_run(draw, number) for number in range(TOGETHER_RUNS))


def cases():
    draw = random.Random(SEED)
    return (case_of(run)._replace(capture=some_capture(draw, run)) for run in runs(draw))


def counts_of(case):
    """How often each thing comes up in a run."""
    told = model.done_of(case).told
    return happenings.of_list(told.origin, told.happenings, told.packets, told.closed())


def tell(comparison, counts):
    """Prints how often, in one line."""
    print("messages: " + ", ".join(f"{counts[name]} {name}" for name in COUNTED))
    comparison.expect(f"what comes up fewer than {LEAST} times", [],
                      [name for name in COUNTED if counts[name] < LEAST])
