"""Runs of the program with files that can't be opened, read or written, alone and two at once, with devices in place of
files, and with peers that can't be called or hang up."""

import contextlib
import os
import subprocess
from pathlib import Path
from threading import Thread

from captures.packets import capture_header, record
from messages.rows import at, flows
from runs import model
from runs.case import FIRST_RULES, INSIDE, PACKETS, Case, capture_of
from runs.comparison import a_line, flags_of
from runs.model import EMPTY, FILE, NONE, OUTPUTS, PEER, Files, Outcome
from runs.peers import Peer, nobody

# the packets that are committed at a time
BATCH = 256


# Faults in their order

class Spoilt:
    """A run with some things spoilt, of which the first is told."""

    # in the order in which faults are told; a run has messages in a file or a peer
    THINGS = ("words", "ruleset file", "ruleset", "capture file", *OUTPUTS, "peer", "capture")
    EITHER = {"messages", "peer"}

    def __init__(self, comparison, things, silent):
        self.comparison = comparison
        self.things = things
        nowhere = comparison.folder / "missing"
        self.rules = nowhere / "rules" if "ruleset file" in things else comparison.rules
        self.capture = nowhere / "capture" if "capture file" in things else comparison.capture
        files = Files(*(nowhere / name if name in things else file for name, file in zip(OUTPUTS, comparison.files)))
        self.files = files._replace(messages=None) if "peer" in things else files
        self.peer = "%s:%d" % silent.getsockname()
        whole = capture_of(PACKETS)
        self.case = Case(f"spoilt: {', '.join(things)}", b"scrub in all" if "ruleset" in things else FIRST_RULES,
                         INSIDE, whole[:23] if "capture" in things else whole)

    def words(self):
        peer = ["--peer", self.peer] if "peer" in self.things else []
        surplus = ["--quiet"] if "words" in self.things else []
        return ["run", self.capture, self.rules, *flags_of(self.case, self.files), *peer, *surplus]

    def expected(self, seen):
        first = min(self.things, key=self.THINGS.index)
        if first == "words":
            return Outcome(b"", a_line(seen, b"pfreplay: "), 1)
        if first in ("ruleset file", "capture file"):
            return model.cannot_open(self.rules if first == "ruleset file" else self.capture)
        if first == "peer":
            return model.cannot_open(self.peer, model.opened(NONE))
        if first in OUTPUTS:
            # the files before it are empty
            place = OUTPUTS.index(first)
            return model.cannot_open(self.files[place], Files(*([b""] * place)))
        return model.refused("rules line 1: left out: scrub") if first == "ruleset" else model.refused(
            "capture: header cut", EMPTY)


def spoilt_in_order(comparison):
    """Each thing that can be spoilt alone, and each two at once, with new files and with old ones."""
    pairs = [(first, second) for place, first in enumerate(Spoilt.THINGS) for second in Spoilt.THINGS[place:]
             if {first, second} != Spoilt.EITHER]
    with nobody() as silent:
        for pair in pairs:
            spoilt = Spoilt(comparison, tuple(dict.fromkeys(pair)), silent)
            for is_old in (False, True):
                comparison.prepare(spoilt.case, is_old)
                seen = comparison.execute(spoilt.words())
                comparison.expect(spoilt.case.name, spoilt.expected(seen), seen)


# Devices

def compare(comparison):
    """Faults in their order, and files that aren't plain files."""
    spoilt_in_order(comparison)
    case = Case("devices", b"block in\npass out", INSIDE, capture_of(PACKETS))
    folders(comparison, case)
    null_devices(comparison, case)
    for capture in (case.capture, case.capture[:-1]):
        slow_captures(comparison, case._replace(capture=capture))
    for count in (1, 300):
        full_disks(comparison, case._replace(capture=capture_of(PACKETS * count)))
    full_disk_of_messages(comparison)
    peers(comparison)


def with_file(words, file, other):
    """The words with another name for a file, which may be one of the parts of a word."""
    def part_of(part):
        return str(other) if part == str(file) else part

    return [other if word == file else ",".join(map(part_of, str(word).split(","))) for word in words]


def folders(comparison, case):
    """Folders in place of files, and files in place of folders."""
    folder, below = comparison.folder, comparison.rules / "below"
    for name in (folder, below):
        comparison.prepare(case)
        words = ["run", comparison.capture, name, *comparison.command(case)[3:]]
        comparison.expect(f"rules from {name}", model.cannot_open(name), comparison.execute(words))
        for place, output in enumerate(OUTPUTS):
            comparison.prepare(case)
            words = with_file(comparison.command(case), comparison.files[place], name)
            comparison.expect(f"{output} to {name}", model.cannot_open(name, Files(*([b""] * place))),
                              comparison.execute(words))
    comparison.prepare(case)
    rest = comparison.command(case)[2:]
    comparison.expect("a capture below a file", model.cannot_open(below), comparison.execute(["run", below, *rest]))
    comparison.prepare(case)
    comparison.expect("a folder as the capture", model.failed("read failed, committed 0", EMPTY),
                      comparison.execute(["run", folder, *rest]))


def null_devices(comparison, case):
    """No ruleset, no capture, and outputs that go nowhere."""
    null, whole = Path("/dev/null"), model.run(case)
    comparison.prepare(case)
    comparison.expect("an empty ruleset", model.run(case._replace(rules=b"")),
                      comparison.execute(with_file(comparison.command(case), comparison.rules, null)))
    comparison.prepare(case)
    comparison.expect("an empty capture", model.refused("capture: header cut", EMPTY),
                      comparison.execute(with_file(comparison.command(case), comparison.capture, null)))
    for name, file in zip(OUTPUTS, comparison.files):
        comparison.prepare(case)
        comparison.expect(f"{name} to nowhere", whole._replace(files=whole.files._replace(**{name: None})),
                          comparison.execute(with_file(comparison.command(case), file, null)))


def slow_captures(comparison, case):
    """A capture that comes through a pipe in pieces of each of some lengths."""
    pipe = comparison.folder / "pipe"
    for length in (1, 7, 24, 40, 1000):
        comparison.prepare(case)
        os.mkfifo(pipe)
        feeder = Thread(target=feed, args=(pipe, case.capture, length), daemon=True)
        feeder.start()
        seen = comparison.execute(with_file(comparison.command(case), comparison.capture, pipe))
        comparison.expect(f"a capture in pieces of {length}", model.run(case), seen)
        pipe.unlink()


def feed(pipe, capture, length):
    """Writes a capture into a pipe."""
    with contextlib.suppress(BrokenPipeError), open(pipe, "wb", buffering=0) as file:
        for place in range(0, len(capture), length):
            file.write(capture[place:place + length])


def full_disks(comparison, case):
    """Each output to a full disk, alone."""
    whole = model.run(case)
    count = whole.files.verdicts.count(b"\n")
    # the file on the full disk isn't seen
    left = {"verdicts": (0, EMPTY._replace(packets=case.capture[:24], verdicts=None)),
            "packets": (0, EMPTY._replace(packets=None)),
            "messages": (count, whole.files._replace(counters=b"", states=b"", messages=None)),
            "counters": (count, whole.files._replace(counters=None, states=b"")),
            "states": (count, whole.files._replace(states=None))}
    for name, (committed, files) in left.items():
        comparison.prepare(case)
        file = getattr(comparison.files, name)
        words = with_file(comparison.command(case), file, "/dev/full")
        comparison.expect(f"{name} to a full disk", model.failed(f"write failed: {name}, committed {committed}", files),
                          comparison.execute(words))
    for form in (FILE, PEER):
        comparison.prepare(case)
        with open("/dev/full", "wb") as full:
            seen = comparison.execute(comparison.command(case, form), full, comparison.peer if form == PEER else None)
        comparison.expect(f"standard output to a full disk, {form}",
                          Outcome(b"", a_line(seen, b"pfreplay: write failed"), 3, model.run(case, form).files), seen)


# Messages

def timed_capture(records):
    return capture_header() + b"".join(record(second, 0, packet) for second, packet in records)


def full_disk_of_messages(comparison):
    """Messages alone to a full disk, by how many packets are committed before the first one closes. The verdicts and
    packets of these are written, and nothing else."""
    silence, later = [PACKETS[1]] * BATCH, [(1, packet) for packet in flows(7, 100)]
    for title, records, committed in (
            ("closes in the first batch", at(0, flows(7)), 0),
            ("closes in the second batch", [*at(0, flows(6)), *at(0, silence), *later], BATCH),
            ("closes at the end", at(0, flows(6)), 6),
            ("closes at the end of two batches", at(0, flows(1) + silence), 257)):
        case = Case(f"messages to a full disk, the first of which {title}", b"pass out\nblock in", INSIDE,
                    timed_capture(records))
        comparison.prepare(case)
        seen = comparison.execute(with_file(comparison.command(case), comparison.files.messages, "/dev/full"))
        files = model.online(case, committed)._replace(messages=None)
        comparison.expect(case.name, model.failed(f"write failed: messages, committed {committed}", files), seen)
    silent = Case("no message to a full disk", b"block in\npass out keep state (no-sync)", INSIDE, capture_of(PACKETS))
    comparison.prepare(silent)
    whole = model.run(silent)
    comparison.expect(silent.name, whole._replace(files=whole.files._replace(messages=None)),
                      comparison.execute(with_file(comparison.command(silent), comparison.files.messages, "/dev/full")))


# Peers

# a name that isn't found, whoever is asked
NO_NAME = "nobody.invalid"
# bytes after which a peer hangs up
HANGS_UP = (0, 1, 20, 1480, 1481, 10000, 100000)
# more bytes than are sent
EVERYTHING = 1 << 30
# seconds for which a run is let wait
PATIENCE = 2


def no_peers(comparison, case):
    """Peers that can't be called. The files are there then, and empty."""
    with nobody() as silent:
        port = silent.getsockname()[1]
        for name in (f"127.0.0.1:{port}", f"localhost:{port}", f"{NO_NAME}:{port}", f"a:b:{port}"):
            comparison.prepare(case, is_old=True)
            words = [*comparison.command(case, NONE), "--peer", name]
            comparison.expect(f"a peer at {name}", model.cannot_open(name, model.opened(NONE)),
                              comparison.execute(words))


def endings(case):
    """How a run may end whose peer hangs up: as a whole one, or it tells that messages failed. Then the files hold what
    belongs to the committed packets. These are all, or those of some batches."""
    whole = model.run(case, PEER)
    count = whole.files.verdicts.count(b"\n")
    return [whole, *(model.failed(f"write failed: messages, committed {committed}", model.online(case, committed, PEER))
                     for committed in (*range(0, count, BATCH), count))]


def quitters(comparison, case, lawful):
    """Peers that hang up at once and after some bytes. They get a beginning of what is sent to others."""
    sent = model.run(case, PEER).files.messages
    for most in HANGS_UP:
        comparison.prepare(case)
        with Peer(most) as peer:
            seen = comparison.execute([*comparison.command(case, NONE), "--peer", peer.name()], peer=peer)
        taken = (seen and seen.files.messages) or b""
        comparison.expect(f"what a peer gets that hangs up after {most} bytes", sent[:most], taken)
        allowed = [each._replace(files=each.files._replace(messages=taken)) for each in lawful]
        comparison.expect(f"a peer that hangs up after {most} bytes", seen if seen in allowed else allowed[0], seen)


def narrow(comparison, case):
    """A peer that has little room, so that the run waits now and then."""
    comparison.prepare(case)
    with Peer(EVERYTHING) as peer:
        seen = comparison.execute([*comparison.command(case, NONE), "--peer", peer.name()], peer=peer)
    comparison.expect("a peer with little room", model.run(case, PEER), seen)


def waiting(comparison, case):
    """A peer that never reads: the run waits, and has written no more than belongs to its messages."""
    comparison.prepare(case)
    with Peer(0) as peer:
        words = [*comparison.command(case, NONE), "--peer", peer.name()]
        with subprocess.Popen([comparison.program, *map(str, words)], stdout=subprocess.PIPE, stderr=subprocess.PIPE,
                              stdin=subprocess.DEVNULL) as run, peer.call(run):
            try:
                ended = run.wait(PATIENCE)
            except subprocess.TimeoutExpired:
                ended = "it waits"
            run.kill()
            printed = run.communicate()
    left = comparison.left(None)
    count = left.verdicts.count(b"\n")
    comparison.expect("a peer that never reads", ("it waits", (b"", b""), True), (ended, printed, count % BATCH == 0))
    comparison.expect("what is written for a peer that never reads",
                      model.online(case, count, PEER)._replace(messages=None), left)


def peers(comparison):
    """Peers that can't be called, that hang up, and that never read."""
    no_peers(comparison, Case("no peer", b"block in\npass out", INSIDE, capture_of(PACKETS)))
    many = timed_capture([(number // 100, packet) for number, packet in enumerate(flows(1200))])
    case = Case("peers", b"pass out", INSIDE, many)
    # the connection takes one message, and can't take the others
    few = case._replace(capture=timed_capture(at(0, flows(1))))
    quitters(comparison, few, endings(few))
    quitters(comparison, case, endings(case)[1:])
    narrow(comparison, case)
    waiting(comparison, case)
