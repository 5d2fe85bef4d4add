"""The flag `--progress` of the commands `run`, `diff` and `report`: it changes nothing but standard error, and what it
says there is as docs/FORMATS.md has it, section "How far a command has come"."""

import os
import pty
from concurrent.futures import ThreadPoolExecutor
from typing import NamedTuple

from captures.packets import capture_header, record, udp
from changes.model import SOMETHING_CHANGES
from hostile.costs import inbound, many_ranges
from reporting import said_made_up
from reporting.asking import QUIET, flags, lay_out
from reporting.files import BROKEN, CUT, LACKING, MANY, TWO, WITH_STATES
from reporting.said import EVERY, TWICE, are_in_order, lines_in, terminal_lines
from reporting.watched import PAUSE, watched
from runs.comparison import text_in
from showing.asking import CAPTURE, LINES, STANDARD
from showing.model import NAME
from showing.row import text_of
from workers.pipes import without_reader

PROGRESS, NEW = "--progress", "new"
INTERFACE = ("--interface", "em0", "--address", "192.0.2.1/24")
OUTPUTS = ("verdicts", "packets", "counters", "states")
# packets of a piece, flows of all packets, and of those that the new ruleset lets pass
PIECE, FLOWS, NEW_FLOWS = 400, 1000, 500
OLD_RULES, NEW_RULES = b"pass out", b"pass out\nblock out proto udp from any port 1500:1999"
# how many pieces come to a command that is slow, and to one that is so for more than ten seconds
SLOW, LONG = 18, 132
# packets of a run by rules of which each is asked
COSTLY = 4000
# how much of a capture may be read ahead, in per cent
AHEAD = 25


class Command(NamedTuple):
    """A command on files that are there: what it is called, its words, what comes to it slowly, the pause between reads
    of its output, how many states it makes, whether it can say the share that was read, and its status."""
    name: str
    words: list
    pieces: list | None = None
    reading: float = 0.0
    states: int = FLOWS
    has_share: bool = False
    status: int = 0


# Packets and lines

def packet_at(number):
    return record(0, 0, udp("10.0.0.5", 1000 + number % FLOWS, "198.51.100.7", 53))


def line_at(number):
    """The line of the packet with a number from 0 on, whose flow is that of one of the first."""
    reason = "rule" if number < FLOWS else "state"
    return f"{number + 1} 0 out pass {reason} r=0 t=- s={number % FLOWS + 1}"


def pieces_of(make, count):
    return [b"".join(make(number) for number in range(first, first + PIECE))
            for first in range(0, count * PIECE, PIECE)]


def run_words(capture, verdicts="verdicts"):
    named = {**{name: name for name in OUTPUTS}, "verdicts": verdicts}
    return ["run", capture, NAME, *INTERFACE, "--inside", "10.0.0.0/8",
            *(word for name, file in named.items() for word in (f"--{name}", file))]


def diff_words(capture):
    return ["diff", capture, NAME, NEW, *INTERFACE, "--inside", "10.0.0.0/8"]


def lay_out_slow(folder, count):
    """The files of commands to which so many pieces come, and these pieces."""
    captured = pieces_of(packet_at, count)
    captured[0] = capture_header() + captured[0]
    lines = pieces_of(lambda number: text_of(line_at(number)), count)
    for name, octets in ((NAME, OLD_RULES), (NEW, NEW_RULES), (CAPTURE, b"".join(captured)), (LINES, b"".join(lines))):
        (folder / name).write_bytes(octets)
    return captured, lines


def slow_commands(folder, count):
    """Each command with a file that comes slowly. That of a capture has no share."""
    captured, lines = lay_out_slow(folder, count)
    yield Command("run", run_words(STANDARD), captured)
    yield Command("diff", diff_words(STANDARD), captured, states=NEW_FLOWS, status=SOMETHING_CHANGES)
    yield Command("report", ["report", CAPTURE, STANDARD, NAME, *INTERFACE], lines, has_share=True)


def of_whole_files(folder):
    """Commands that read captures from files, and are slow otherwise."""
    yield Command("report of slow lines", ["report", CAPTURE, STANDARD, NAME, *INTERFACE],
                  lay_out_slow(folder, SLOW)[1], has_share=True)
    yield Command("run whose output is read slowly", run_words(CAPTURE, STANDARD), reading=0.4, has_share=True)


# What is compared

def expect_same(comparison, name, plain, seen):
    """Standard output, the files and the status are those without the flag."""
    comparison.expect(f"{name}: as without the flag", plain and (plain.status, plain.out, plain.files),
                      seen and (seen.status, seen.out, seen.files))


def questions():
    """Short questions, of which some are refused."""
    yield from (("a report", WITH_STATES), ("many packets", MANY), ("two captures", TWO), ("a cut capture", CUT),
                ("a refused ruleset", BROKEN), ("a line too few", LACKING))


def short_words(question, flag_words):
    """Each command on the files of a question."""
    case = question.case
    both = ["--also", f"{case.also[0].name},{case.also[0].address},capture1"] if case.also else []
    with_packets = [word if word == "--also" else f"{word},packets1" for word in both]
    yield ["report", CAPTURE, LINES, NAME, *flag_words]
    yield [*run_words(CAPTURE), *with_packets]
    yield [*diff_words(CAPTURE), *both]


def in_a_short_run(comparison):
    """No line comes within ten seconds. Where standard error can't be written to, all else is the same."""
    for name, question in questions():
        lay_out(comparison, question)
        (comparison.folder / NEW).write_bytes(b"block out\npass in")
        for words in short_words(question, flags(comparison, question, is_quiet=False)):
            plain = comparison.execute(words, home=comparison.folder)
            seen = comparison.execute([*words, PROGRESS], home=comparison.folder)
            comparison.expect(f"{words[0]}, {name}, with the flag", plain, seen)
            expect_unwritten(comparison, f"{words[0]}, {name}", words, plain)
            expect_on_terminal(comparison, f"{words[0]}, {name}", words, plain)


def expect_unwritten(comparison, name, words, plain):
    """Standard error is a full disk, a pipe that nobody reads, or a terminal that has gone."""
    ours, theirs = pty.openpty()
    os.close(ours)
    with open("/dev/full", "wb") as full, without_reader() as gone, open(theirs, "wb", buffering=0) as left:
        for title, err in (("full", full), ("without a reader", gone), ("a terminal that has gone", left)):
            seen = comparison.execute([*words, PROGRESS], home=comparison.folder, err=err)
            expect_same(comparison, f"{name}, standard error {title}", plain, seen)


def expect_on_terminal(comparison, name, words, plain):
    """On a terminal there may be some lines of progress, and what is said besides is the same."""
    seen = watched([comparison.program, *words, PROGRESS], comparison.folder)
    lines, rest = terminal_lines(seen.err)
    comparison.expect(f"{name}, on a terminal", (plain.status, plain.out, plain.err), (seen.status, seen.out, rest))
    comparison.expect(f"{name}, lines on a terminal", True, are_in_order(lines) and len(lines) <= most_of(seen.seconds))


def most_of(seconds):
    """How many lines there may be on a terminal: also one at the beginning and one at the end."""
    return TWICE * seconds + 2


def least_of(command):
    """How many lines there are at least in some two seconds. A line comes when a packet is taken, so there may be one
    alone if a command waits for who reads its output."""
    return 1 if command.reading else 2


def is_share_right(command, line, done):
    """Whether the share is there if it can be, and near to what was done, in per cent."""
    if not command.has_share:
        return line.share is None
    return line.share is not None and abs(line.share - done) <= AHEAD


def expect_slowly(comparison, command, plain):
    """On a terminal a line is written over the one before, and a newline stands at the end."""
    seen = watched([comparison.program, *command.words, PROGRESS], comparison.folder, command.pieces,
                   reading=command.reading)
    lines, rest = terminal_lines(seen.err)
    comparison.expect(f"{command.name}, slowly", (plain.status, plain.out, plain.err), (seen.status, seen.out, rest))
    shown = [line for line in lines if line.packets > 1]
    comparison.expect(f"{command.name}, lines of {len(lines)} in {seen.seconds:.1f} s", True,
                      least_of(command) <= len(lines) <= most_of(seen.seconds) and are_in_order(lines))
    comparison.expect(f"{command.name}, whether there is a share, {lines[-1:]}", True,
                      bool(shown) and all((line.share is not None) == command.has_share for line in lines))
    comparison.expect(f"{command.name}, states made, {lines[-1:]}", True,
                      bool(lines) and 0 <= lines[-1].states <= command.states)


def slowly(comparison):
    """Commands that take some two seconds."""
    for command in [*slow_commands(comparison.folder, SLOW), *of_whole_files(comparison.folder)]:
        plain = watched([comparison.program, *command.words], comparison.folder, command.pieces, False, 0.0)
        expect_slowly(comparison, command, plain)


def of_costly_rules(comparison):
    """A comparison of two rulesets that takes its time by itself, of a capture in a file."""
    capture = capture_header() + b"".join(record(0, 0, inbound(number)) for number in range(COSTLY))
    lay_out(comparison, WITH_STATES)
    for name, octets in ((CAPTURE, capture), (NAME, many_ranges().encode()), (NEW, many_ranges().encode())):
        (comparison.folder / name).write_bytes(octets)
    command = Command("diff of costly rulesets", diff_words(CAPTURE), states=0, has_share=True)
    expect_slowly(comparison, command, comparison.execute(command.words, home=comparison.folder))


# More than ten seconds

def expect_long(comparison, command, seen):
    """A line comes every ten seconds, and says what was done until then."""
    lines, rest = lines_in(seen.err)
    comparison.expect(f"{command.name} for long: status and what is said besides", (command.status, b""),
                      (seen.status, rest))
    comparison.expect(f"{command.name} for {seen.seconds:.1f} s: lines", True,
                      1 <= len(lines) <= seen.seconds // EVERY and are_in_order(lines))
    for number, line in enumerate(lines, 1):
        at_least, at_most = line.packets // (int(seen.seconds) + 1), line.packets // (EVERY * number)
        done = 100 * line.packets // (LONG * PIECE)
        comparison.expect(f"{command.name} for long: {line}", (True, True, True, command.states), (
            is_share_right(command, line, done), at_least <= line.rate <= at_most,
            line.packets >= EVERY / PAUSE * PIECE * 0.5, line.states))


def for_long_words(command):
    """The words of a command that says nothing but how far it has come."""
    return [*command.words, PROGRESS, *[QUIET] * (command.words[0] != "run")]


def for_long(comparison):
    """Commands to which packets or lines come for some thirteen seconds, all at once; one can't say anything."""
    commands, folder = list(slow_commands(comparison.folder, LONG)), comparison.folder
    folders = [folder / f"long{number}" for number in range(len(commands) + 1)]
    for each in folders:
        each.mkdir()
        lay_out_slow(each, LONG)
    with ThreadPoolExecutor(len(folders)) as pool, open("/dev/full", "wb") as full:
        unsaid = pool.submit(watched, [comparison.program, *commands[0].words, PROGRESS], folders[-1],
                             commands[0].pieces, err=full)
        seen = list(pool.map(lambda command, home: watched([comparison.program, *for_long_words(command)], home,
                                                           command.pieces, False), commands, folders))
    for command, each in zip(commands, seen):
        expect_long(comparison, command, each)
    outputs = [[text_in(home / name) for name in OUTPUTS] for home in (folders[0], folders[-1])]
    comparison.expect("a run that can't say how far it has come", (seen[0].out, 0, outputs[0]),
                      (unsaid.result().out, unsaid.result().status, outputs[1]))


def compare_made_up(comparison):
    said_made_up.compare(comparison)


def compare(comparison):
    for part in (in_a_short_run, slowly, of_costly_rules, for_long):
        part(comparison)
