"""Compares what the command `states` of pfreplay answers with the model, and with answers written by hand.

    python3 -m listing.compare [--program FILE] [--runs N] [--damaged N]

in the folder `tests`. `--runs` and `--damaged` tell how many random runs and how many drawn files there are, most of
which are damaged. What is printed as JSON is also read by Python's own reader.
"""

import argparse
import json
import os
import sys
from collections import Counter
from pathlib import Path

sys.dont_write_bytecode = True

import building
from faults.command import ends_lawfully
from listing import cases, judged, model, rows
from runs import model as runs_model
from runs.model import Outcome, cannot_open, failed
from standby.after_runs import ALONE
from standby.cases import case_at
from standby.many import in_parts, in_processes, told
from workers.choices import run_of
from workers.pipes import without_reader

# where no other numbers are told, and those of the models alone
RUNS, DAMAGED = 250, 1500
MODEL_RUNS, MODEL_DAMAGED = 80, 3000
# how many cases there are at most for each time that a thing comes up
RUNS_EACH, DAMAGED_EACH = 50, 50
# the ways to give the command a file: as JSON or not, by its name or on standard input
WAYS = ((False, True), (False, False), (True, True), (True, False))
FEW_WAYS = (WAYS[0], WAYS[3])
UNWRITTEN = failed("write failed: standard output")
# states whose lines are written in several pieces
MANY = 1000
WITH_FAULTS = ("a state of each kind", "an empty file", "a line of standby behind others")


# The command on a file

def asked(comparison, octets, as_json, by_name, **how):
    """What the command answers to a file of these bytes."""
    file = comparison.folder / "left"
    file.write_bytes(octets)
    flags = ["--json"] if as_json else []
    if by_name:
        return comparison.execute(["states", file, *flags], **how)
    with open(file, "rb") as given:
        return comparison.execute(["states", "-", *flags], given=given, **how)


def objects_of(out):
    """What Python reads in lines of JSON, or why it can't."""
    try:
        return [json.loads(line) for line in out.decode("ascii").splitlines()]
    except ValueError as why:
        return why


def expect_listed(comparison, name, octets, ways=WAYS):
    """The command answers what the model does."""
    for as_json, by_name in ways:
        title = f"{name}{', as JSON' if as_json else ''}{'' if by_name else ', on standard input'}"
        expected, seen = model.answer(octets, as_json), asked(comparison, octets, as_json, by_name)
        comparison.expect(title, expected, seen)
        if as_json and expected.status == 0 and seen:
            states = sorted(model.states_in(octets), key=model.order_of)
            comparison.expect(f"{title}, as Python reads it", list(map(model.object_of, states)), objects_of(seen.out))


# Answers written by hand

def model_rows(comparison):
    """What the model says to the rows."""
    for row in rows.rows():
        for as_json in (False, True):
            if row.outcome(as_json):
                comparison.expect(f"{row.name}, as JSON: {as_json}", row.outcome(as_json),
                                  model.answer(row.octets, as_json))


def program_rows(comparison):
    """What the program answers to the rows."""
    for row in rows.rows():
        expect_listed(comparison, row.name, row.octets, FEW_WAYS if row.said else WAYS)


# Command lines

UNKNOWN = ("--jsons", "--jso", "--JSON", "--json=true", "--json=", "--quiet", "--states=left", "--messages=left",
           "--interface=em0", "--workers=0")
NO_STATES, TWICE = (b"<STATES>",), (b"'--json' cannot be used multiple times",)
BAD_LINES = (
    (("states",), NO_STATES), (("states", "--json"), NO_STATES), (("states", "--"), NO_STATES),
    (("states", "left", "--json", "--json"), TWICE), (("states", "--json", "left", "--json"), TWICE),
    (("states", "left", "more"), (b"more",)), (("states", "left", "-"), ()), (("states", "left", "left", "--json"), ()),
    *((("states", "left", word), (word.partition("=")[0].encode(),)) for word in UNKNOWN),
    (("states", "left", "-j"), ()), (("states", "left", "json"), ()), (("states", "--states", "left"), ()),
    (("state", "left"), ()), (("States", "left"), ()), (("left", "states"), ()), (("--json", "states", "left"), ()),
)


def command_lines(comparison):
    """Lines that don't fit: of the wording what is at fault is fixed. Others in any order, and the help."""
    folder, octets = comparison.folder, rows.text_of(rows.TCP_IN, rows.NAT)
    for name in ("left", "-"):
        (folder / name).write_bytes(octets)
    for words, said in BAD_LINES:
        seen = comparison.execute(words, home=folder)
        comparison.expect_refused(f"words {words}", seen, said)
    for words in (("states", "left", "--json"), ("states", "--json", "left"), ("states", "./-", "--json"),
                  ("states", "--json", "--", "left")):
        comparison.expect(f"words {words}", model.answer(octets, True), comparison.execute(words, home=folder))
    for words, parts in ((("--help",), (b"states",)), (("states", "--help"), (b"<STATES>", b"--json"))):
        comparison.expect_help(words, parts)


# Files and outputs

def files(comparison):
    """Files that aren't there or can't be read, and one without a byte."""
    folder = comparison.folder
    (folder / "left").write_bytes(b"")
    for name in (folder / "missing", folder / "left" / "below", folder, ".", ""):
        comparison.expect(f"states from {name}", cannot_open(name), comparison.execute(["states", name]))
    comparison.expect("states from /dev/null", Outcome(b"", b"", 0), comparison.execute(["states", "/dev/null"]))
    opened = os.open(folder, os.O_RDONLY)
    comparison.expect("a folder on standard input", cannot_open("-"), comparison.execute(["states", "-"], given=opened))
    os.close(opened)


def outputs(comparison):
    """A full disk in place of standard output, and a pipe that nobody reads."""
    good, many = rows.text_of(rows.TCP_IN, rows.NAT), rows.text_of(*map(rows.plain, range(MANY)))
    for name, octets in (("two states", good), ("many states", many), ("no state", b""), ("a refused line", good[:-1])):
        for as_json in (False, True):
            answer = model.answer(octets, as_json)
            expected = UNWRITTEN if answer.out else answer
            with open("/dev/full", "wb") as full:
                comparison.expect(f"{name} to a full disk, as JSON: {as_json}", expected,
                                  asked(comparison, octets, as_json, True, out=full))
            with without_reader() as gone:
                comparison.expect(f"{name} that nobody reads, as JSON: {as_json}", expected,
                                  asked(comparison, octets, as_json, True, out=gone))
    expect_listed(comparison, "many states", many)


def faults(comparison):
    """Each allocation, read and write of some files goes wrong in turn."""
    chosen = [(row.name, row.octets) for row in rows.rows() if row.name in WITH_FAULTS]
    for name, octets in (*chosen, ("many states", rows.text_of(*map(rows.plain, range(MANY))))):
        file = comparison.folder / "left"
        file.write_bytes(octets)
        for flags in ((), ("--json",)):
            print(" ".join(("states,", name, *flags)), flush=True)
            comparison.expect(f"{name} {flags}, with faults", True,
                              ends_lawfully("states", [comparison.program, "states", file, *flags]))


# Random runs

KINDS = {1: "of ICMP", 6: "of TCP", 17: "of UDP"}
BINDINGS = {None: "without a word on the interface", b"-": "bound to none"}
IN_RUNS = (*KINDS.values(), "of other protocols", "made on the way in", "made on the way out", "translated",
           *BINDINGS.values(), "bound to an interface", "empty files", "files of several states")


def of_state(state):
    """What comes up with a state."""
    yield KINDS.get(state.protocol, "of other protocols")
    yield f"made on the way {state.direction}"
    yield BINDINGS.get(state.name, "bound to an interface")
    yield from ["translated"] if state.wire != state.stack else []


def counts_of(octets):
    """How often each thing comes up in a file of a run."""
    states = model.states_in(octets)
    counts = Counter(each for state in states for each in of_state(state))
    return counts + Counter({"empty files": not states, "files of several states": len(states) > 1})


def after_run(comparison, number):
    """The states that a run leaves."""
    case = case_at(number)
    outcome = run_of(comparison, case, ALONE)
    octets = outcome and outcome.files.states
    if octets is None:
        comparison.expect(f"{case.name}: the run", "states", outcome)
        return Counter()
    comparison.prepare()
    expect_listed(comparison, case.name, octets, FEW_WAYS)
    return counts_of(octets)


def after_run_by_model(comparison, number):
    """Those that the model of runs leaves: the model reads each line, and shows as many."""
    case = case_at(number)
    octets = runs_model.run(case).files.states or b""
    for as_json in (False, True):
        seen = model.answer(octets, as_json)
        comparison.expect(case.name, (0, octets.count(b"\n")), (seen.status, seen.out.count(b"\n")))
    return counts_of(octets)


# Drawn files

ENDINGS = ("listed", "listed with damage", "refused at the first line", "refused at a later line")
IN_FILES = (*ENDINGS, "without damage", *(kind.__name__ for kind in cases.KINDS))


def ending_of(given, expected):
    if expected.status == 0:
        return "listed with damage" if given.damage else "listed"
    return "refused at the first line" if b" line 1:" in expected.err else "refused at a later line"


def counts_of_file(given, expected):
    return Counter((ending_of(given, expected), *(set(given.damage) or ("without damage",))))


def drawn_file(comparison, number):
    """A drawn file."""
    given = cases.file_at(number)
    way = WAYS[number % len(WAYS)]
    expect_listed(comparison, f"file {number}, {', '.join(given.damage)}", given.octets, (way,))
    return counts_of_file(given, model.answer(given.octets, False))


def drawn_file_by_model(comparison, number):
    """The model lists one without damage, and answers the same to both formats of one that it refuses."""
    given = cases.file_at(number)
    shown, spelled = (model.answer(given.octets, as_json) for as_json in (False, True))
    lines = 0 if shown.status else given.octets.count(b"\n")
    comparison.expect(f"file {number}, {', '.join(given.damage)}", (spelled.status, spelled.err, lines, lines),
                      (shown.status, shown.err, shown.out.count(b"\n"), spelled.out.count(b"\n")))
    if not given.damage:
        comparison.expect(f"file {number}", 0, shown.status)
    return counts_of_file(given, shown)


# All of it

def model_alone():
    results = in_parts(None, {
        "answers written by hand, by the model": (model_rows,),
        "made-up endings of faults": (judged.compare,)})
    found = in_processes(after_run_by_model, None, MODEL_RUNS)
    results.append(told("the states of random runs, by the models", found, IN_RUNS, RUNS_EACH))
    found = in_processes(drawn_file_by_model, None, MODEL_DAMAGED)
    results.append(told("drawn files, by the model", found, IN_FILES, DAMAGED_EACH))
    sys.exit(any(results))


def main():
    parser = argparse.ArgumentParser(description="Compares the command states with the model.")
    parser.add_argument("--program", type=Path, metavar="FILE", help="the built program")
    parser.add_argument("--runs", type=int, default=RUNS, metavar="N", help="how many random runs")
    parser.add_argument("--damaged", type=int, default=DAMAGED, metavar="N", help="how many drawn files")
    words = parser.parse_args()
    program = words.program or building.pfreplay()
    results = in_parts(program, {
        "answers written by hand, command lines, files and outputs": (program_rows, command_lines, files, outputs),
        "files with a fault at each call": (faults,)})
    results.append(told("the states of random runs", in_processes(after_run, program, words.runs), IN_RUNS, RUNS_EACH))
    found = in_processes(drawn_file, program, words.damaged)
    results.append(told("drawn files", found, IN_FILES, DAMAGED_EACH))
    sys.exit(any(results))


if __name__ == "__main__":
    main()
