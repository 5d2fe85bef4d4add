"""Runs of the program in which `-` stands for standard input or standard output, in the place of a file."""

import itertools
import os
import subprocess
from threading import Thread

from captures.packets import capture_header, record, udp
from runs import model
from runs.also_files import CAPTURE, CASE, TRIPLE
from runs.also_files import PACKETS as SECOND_PACKETS
from runs.also_files import execute, words_of
from runs.comparison import TIME_LIMIT
from runs.interface_rows import case_of, cut, too_long
from runs.model import FILE, OUTPUTS, Outcome
from steps.run import THREE
from standby.asking import from_file

STANDARD = "-"
# the captures and the outputs of a run on two interfaces, in their order
CAPTURES = ("capture", CAPTURE)
WRITTEN = (*OUTPUTS, SECOND_PACKETS)
# a file of that name, which nobody touches
UNTOUCHED = b"a file\n"
BATCH = 4


def compare(comparison):
    """All of these runs. They take some seconds."""
    outputs(comparison)
    captures(comparison)
    both(comparison)
    twice(comparison)
    named(comparison)
    endings(comparison)
    lines_as_they_come(comparison)
    messages(comparison)


def text_of(files, name):
    """The text of an output."""
    return files.others[0] if name == SECOND_PACKETS else getattr(files, name)


def without(files, name):
    """The files of a run of which one output is no file."""
    return files._replace(others=(None,)) if name == SECOND_PACKETS else files._replace(**{name: None})


def printed(outcome, name):
    """An outcome whose output of this name is printed, and what it would print else is said."""
    return outcome._replace(out=text_of(outcome.files, name), err=outcome.out + outcome.err,
                            files=without(outcome.files, name))


def piped(comparison, case, names, capture):
    """A run that gets a capture through a pipe as its standard input."""
    reading, writing = os.pipe()
    Thread(target=write_all, args=(writing, capture), daemon=True).start()
    with open(reading, "rb") as given:
        return execute(comparison, case, names, given=given)


def write_all(writing, octets):
    """Writes all of it into a pipe, whose reader may go away. A write of the system's may end in the middle, if the
    process is stopped and goes on."""
    try:
        with open(writing, "wb") as file:
            file.write(octets)
    except BrokenPipeError:
        pass


def outputs(comparison):
    """Each output printed, into a pipe and into a file."""
    whole = model.run(CASE)
    for name, is_old in itertools.product(WRITTEN, (False, True)):
        expected = printed(whole, name)
        comparison.expect(f"{name} printed", expected, execute(comparison, CASE, {name: STANDARD}, is_old))
        path = comparison.folder / "printed"
        with open(path, "wb") as out:
            seen = execute(comparison, CASE, {name: STANDARD}, is_old, out=out)
        comparison.expect(f"{name} printed into a file", expected, seen and seen._replace(out=path.read_bytes()))
        path.unlink()


def captures(comparison):
    """Each capture as standard input: a pipe, a file, and a file that is read from a place on."""
    whole = model.run(CASE)
    for name, octets in zip(CAPTURES, CASE.captures()):
        comparison.expect(f"{name} through a pipe", whole, piped(comparison, CASE, {name: STANDARD}, octets))
        path = comparison.folder / "given"
        for before in (b"", b"some bytes"):
            path.write_bytes(before + octets)
            with open(path, "rb", buffering=0) as given:
                given.seek(len(before))
                seen = execute(comparison, CASE, {name: STANDARD}, given=given)
            comparison.expect(f"{name} behind {len(before)} bytes of a file", whole, seen)
        path.unlink()
    comparison.expect("no standard input", model.refused("capture em1: header cut", model.opened(FILE, len(CASE.also))),
                      execute(comparison, CASE, {CAPTURE: STANDARD}))


def both(comparison):
    """A capture and an output at once, each with each."""
    whole = model.run(CASE)
    for (place, capture), name in itertools.product(enumerate(CAPTURES), WRITTEN):
        names = {capture: STANDARD, name: STANDARD}
        comparison.expect(f"{capture} and {name}", printed(whole, name),
                          piped(comparison, CASE, names, CASE.captures()[place]))


def twice(comparison):
    """Two captures, or two outputs. Such a run reads and writes nothing."""
    expected = model.refused(f"same file: {STANDARD}", model.untouched(TRIPLE))
    pairs = [*itertools.combinations((*OUTPUTS, "packets1", "packets2"), 2),
             *itertools.combinations(("capture", "capture1", "capture2"), 2)]
    for pair in pairs:
        seen = execute(comparison, TRIPLE, dict.fromkeys(pair, STANDARD), is_old=True)
        comparison.expect(f"{' and '.join(pair)}", expected, seen)


def named(comparison):
    """A file whose name is -: it isn't the stream, and another name of it is a file."""
    whole, path = model.run(CASE), comparison.folder / STANDARD
    for name in WRITTEN:
        path.write_bytes(UNTOUCHED)
        comparison.expect(f"{name} printed beside a file", printed(whole, name),
                          execute(comparison, CASE, {name: STANDARD}))
        comparison.expect(f"{name} printed beside a file, which stays", UNTOUCHED, path.read_bytes())
        seen = execute(comparison, CASE, {name: f"./{STANDARD}"})
        comparison.expect(f"{name} in a file of that name", whole._replace(files=without(whole.files, name)), seen)
        comparison.expect(f"{name} in a file of that name, which has it", text_of(whole.files, name), path.read_bytes())
    path.write_bytes(CASE.capture)
    comparison.expect("a capture of that name", whole, execute(comparison, CASE, {"capture": f"./{STANDARD}"}))
    path.write_bytes(CASE.also[0].capture)
    comparison.expect("the stream beside a capture of that name", whole,
                      piped(comparison, CASE, {"capture": STANDARD}, CASE.capture))
    # the rulesets' files are no streams
    path.write_bytes(CASE.rules)
    comparison.expect("a ruleset of that name", whole, execute(comparison, CASE, {"rules": STANDARD}))
    path.unlink()


def endings(comparison):
    """Captures that are cut, or have a record that is too long, while an output is printed; and a full device."""
    second = CASE.also[0]
    for behind in (cut(1), too_long()):
        case = CASE._replace(also=(second._replace(capture=second.capture + behind),))
        for name in WRITTEN:
            seen = piped(comparison, case, {CAPTURE: STANDARD, name: STANDARD}, case.also[0].capture)
            comparison.expect(f"{name} printed, {len(behind)} bytes more", printed(model.run(case), name), seen)
    with open("/dev/full", "wb") as full:
        seen = execute(comparison, CASE, {"verdicts": STANDARD}, out=full)
    said = b"pfreplay: write failed: verdicts, committed 0\n"
    comparison.expect("verdicts to a full device", said, seen and seen.err)
    comparison.expect("verdicts to a full device: the status", 3, seen and seen.status)


def lines_as_they_come(comparison):
    """While standard input pauses, the lines of all whole batches that came are there."""
    packets = [record(0, number, udp("10.0.0.5", 1000 + number, "198.51.100.7", 9)) for number in range(3 * BATCH)]
    captured = [capture_header() + b"".join(packets), capture_header()]
    case = case_of("a capture that pauses", "pass out", captured, THREE[:2])
    expected = model.run(case).files.verdicts.splitlines(keepends=True)
    for workers in (0, 4):
        comparison.prepare(case)
        words = [*words_of(case, {"capture": STANDARD, "verdicts": STANDARD}), "--batch", BATCH, "--workers", workers]
        with subprocess.Popen([comparison.program, *map(str, words)], cwd=comparison.folder, stdin=subprocess.PIPE,
                              stdout=subprocess.PIPE, stderr=subprocess.PIPE) as run:
            seen, given = [], capture_header()
            for place in range(0, len(packets), BATCH):
                run.stdin.write(given + b"".join(packets[place:place + BATCH]))
                run.stdin.flush()
                given = b""
                seen.append(lines_of(run, BATCH))
            rest, said = run.communicate(timeout=TIME_LIMIT)
        comparison.expect(f"lines as they come, {workers} workers", expected, list(itertools.chain.from_iterable(seen)))
        comparison.expect(f"nothing behind them, {workers} workers", (b"", b"committed %d\n" % len(packets), 0),
                          (rest, said, run.returncode))


def lines_of(run, count):
    """The next `count` lines that a run prints; fewer if it prints no more within the limit."""
    lines = []
    reader = Thread(target=lambda: lines.extend(run.stdout.readline() for _ in range(count)), daemon=True)
    reader.start()
    reader.join(TIME_LIMIT)
    if reader.is_alive():
        run.kill()
    return lines


def messages(comparison):
    """The messages of a run printed, and read by a standby from its standard input."""
    case = CASE._replace(rules=b"pass out keep state")
    seen = execute(comparison, case, {"messages": STANDARD})
    comparison.expect("messages printed", printed(model.run(case, FILE), "messages"), seen)
    held = from_file(comparison, seen.out)
    with open(comparison.folder / "stream", "rb") as given:
        comparison.expect("messages from standard input", held,
                          comparison.execute(["standby", "--messages", STANDARD], given=given))
    comparison.expect("a standby that holds something", True, isinstance(held, Outcome) and bool(held.out))
