"""Runs pfreplay with each of its allocations, reads and writes failing in turn, and judges how each run ends. It does
so without workers, and then with two, and refuses threads to a run with four.

Before that the judge of the command `run` is handed made-up endings, and some runs are asked for endings that are
written out.
"""

import sys
import tempfile
from pathlib import Path

import building
from captures.packets import capture_header, record
from faults import cases, judged, replay, trial
from faults.command import ends_lawfully
from messages.rows import NOT_IPV4, flow, reply
from runs.case import EXAMPLE_INSIDES, EXAMPLES, INSIDE
from runs.model import REQUIRED

INTERFACE = ("--interface", "em0", "--address", "192.0.2.1/24")
# one more interface, by its words before those of its files, and what its packets are called
ALSO, ALSO_PACKETS = "em1,203.0.113.2/24", "packets1"
# where messages go
FILE, PEER, NOWHERE = ("messages",), (trial.PEER,), ()
# captures and rulesets of the examples: one capture makes more than a batch of packets, one ruleset has a fault
RUNS = (("gateway", "gateway", FILE), ("home", "home", FILE), ("server", "server", FILE), ("router", "router", FILE),
        ("gateway", "broken", FILE), ("home", "home", PEER), ("server", "server", NOWHERE))
CHECKS = ("gateway", "broken")
# commands that rewrite a ruleset, with the words behind its file
ADAPTING = (("adapt", ()), ("check", ("--adapt",)))
# the packets of a batch where a run isn't told another number, and other numbers
BATCH, SMALL, MIDDLE = replay.BATCH, 7, 64
CUT_LENGTH, TOO_LONG = 2000, 262145
# of each flow a second has the first packet and its reply
SECONDS, FLOWS, LATE = 6, 25, 200
# the rule is asked for room for each of the flows, and always has it
TELLING_RULES = b"set timeout udp.single 3\nblock in\npass out keep state (max 1000)"


def bad_captures():
    """A capture that ends inside a record, and one with a record that is too long behind the others, with their rulesets."""
    yield (EXAMPLES / "server.pcap").read_bytes()[:CUT_LENGTH], "server"
    yield (EXAMPLES / "first.pcap").read_bytes() + record(0, 0, b"", captured=TOO_LONG), "first"


def telling_packets():
    """Packets of two batches whose states come, move on and go, so that messages of each kind close in both, and one at
    the end; each with its second."""
    packets = [(second, make(second * FLOWS + place)) for second in range(SECONDS) for make in (flow, reply)
               for place in range(FLOWS)]
    return [*packets, (LATE, NOT_IPV4), (LATE, flow(0)), (LATE + 1, reply(0))]


def capture_of(packets):
    return capture_header() + b"".join(record(second, 0, packet) for second, packet in packets)


def telling_captures():
    """The same packets on two interfaces, by turns. Most replies come on the other interface than their flows. The
    second capture is whole, cut, or has a record that is too long behind some others."""
    first, second = (telling_packets()[place::2] for place in (0, 1))
    behind = record(SECONDS, 0, b"", captured=TOO_LONG)
    return capture_of(first), (capture_of(second), capture_of(second)[:-1], capture_of(second[:FLOWS]) + behind)


def run_ends_lawfully(program, capture, rules, messages=FILE, judge="replay", workers=0, batch=BATCH, also=None):
    """Whether the command `run` does by a judge, on the files of a capture and a ruleset, with its messages in a file,
    to a peer or without them, with `workers` workers and `batch` packets in a batch; maybe with the capture of one more
    interface."""
    others = [] if also is None else ["--also", f"{ALSO},{also},{ALSO_PACKETS}"]
    captures = (capture.name, *([] if also is None else [also.name]))
    print(" ".join(("run", *captures, rules.name, *messages)) + f", {workers} workers, batches of {batch}: {judge}")
    outputs = [word for name in (*REQUIRED, *messages) for word in (f"--{name}", name)]
    return ends_lawfully(judge, [program, "run", capture, rules, *INTERFACE,
                                 "--inside", EXAMPLE_INSIDES.get(rules.stem, INSIDE), *outputs, *others,
                                 "--workers", str(workers), "--batch", str(batch)])


def check_ends_lawfully(program, rules):
    print(f"check {rules}.conf")
    return ends_lawfully("check", [program, "check", EXAMPLES / f"{rules}.conf", *INTERFACE])


def adapts_lawfully(program, command, words):
    print(" ".join((command, "written.conf", *words)))
    return ends_lawfully("adapt", [program, command, EXAMPLES / "written.conf", *INTERFACE, *words])


def workers_end_lawfully(program, capture, rules):
    """Of a run of two batches or more whether it does each time: with faults in batches of another size and no workers,
    with faults beside two workers, and with threads refused to four workers."""
    yield run_ends_lawfully(program, capture, rules, batch=MIDDLE)
    yield run_ends_lawfully(program, EXAMPLES / "server.pcap", EXAMPLES / "server.conf", FILE, "workers", 2, SMALL)
    yield run_ends_lawfully(program, capture, rules, FILE, "workers", 2, MIDDLE)
    for batch in (SMALL, MIDDLE):
        yield run_ends_lawfully(program, capture, rules, FILE, "threads", 4, batch)


def several_end_lawfully(program, folder, rules):
    """Of runs over two captures whether they do: with messages in a file, to a peer and none, and with workers."""
    first, seconds = telling_captures()
    capture, *also = (Path(folder) / f"em{place}.pcap" for place in range(len(seconds) + 1))
    for file, text in zip((capture, *also), (first, *seconds)):
        file.write_bytes(text)
    yield run_ends_lawfully(program, capture, rules, FILE, batch=MIDDLE, also=also[0])
    yield run_ends_lawfully(program, capture, rules, PEER, also=also[0])
    for other in also[1:]:
        yield run_ends_lawfully(program, capture, rules, NOWHERE, also=other)
    yield run_ends_lawfully(program, capture, rules, FILE, "workers", 2, MIDDLE, also[0])
    yield run_ends_lawfully(program, capture, rules, FILE, "threads", 4, MIDDLE, also[0])


def compare(program):
    """How many commands end otherwise than is lawful."""
    lawful = [run_ends_lawfully(program, EXAMPLES / f"{capture}.pcap", EXAMPLES / f"{rules}.conf", messages)
              for capture, rules, messages in RUNS]
    with tempfile.TemporaryDirectory() as folder:
        for capture, rules in bad_captures():
            file = Path(folder) / f"bad_{rules}.pcap"
            file.write_bytes(capture)
            lawful.append(run_ends_lawfully(program, file, EXAMPLES / f"{rules}.conf"))
        capture, rules = Path(folder) / "telling.pcap", Path(folder) / "telling.conf"
        capture.write_bytes(capture_of(telling_packets()))
        rules.write_bytes(TELLING_RULES)
        lawful += [run_ends_lawfully(program, capture, rules, messages) for messages in (FILE, PEER)]
        lawful += workers_end_lawfully(program, capture, rules)
        lawful += several_end_lawfully(program, folder, rules)
    lawful += [check_ends_lawfully(program, rules) for rules in CHECKS]
    lawful += [adapts_lawfully(program, command, words) for command, words in ADAPTING]
    return lawful.count(False)


def model_alone():
    sys.exit(bool(judged.compare()))


def main():
    program = building.pfreplay()
    sys.exit(bool(judged.compare() + cases.compare(program) + compare(program)))
