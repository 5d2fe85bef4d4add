"""Compares what the command `standby` of pfreplay answers with the model, and with answers written by hand.

    python3 -m standby.compare [--program FILE] [--runs N] [--damaged N] [--states]

in the folder `tests`. `--runs` and `--damaged` tell how many random runs and how many streams with damage there are.
The model is also compared with the command `run`: it takes the messages of the random runs, and has to hold the states
that these have left. `--states` compares that alone. Without it a program that has no command `standby` fails.
"""

import argparse
import subprocess
import sys
from pathlib import Path

sys.dont_write_bytecode = True

import building
from faults.command import ends_lawfully
from faults.standby import MESSAGES, octets_of, places
from faults.trial import Fault, Trial
from runs.model import FILE, PEER, Outcome
from runs.peers import HOST
from runs.rows import case_of
from standby import after_runs, asking, damaged, devices, judged, lines, rows
from standby.callers import free_port
from standby.many import in_parts, in_processes, told
from standby.model import answer
from standby.streams import spelled

# where no other numbers are told; the last is that of random runs in two processes
RUNS, DAMAGED, PAIRS = 300, 3000, 25
# those of the models alone
MODEL_RUNS, MODEL_DAMAGED = 120, 3000
# how many runs, and how many streams, there are at most for each time that a thing comes up
RUNS_EACH, DAMAGED_EACH = 20, 1000
# rows whose files are read and written with a fault at each call
WITH_FAULTS = ("seven flows", "a run's messages twice", "an insertion, an update and a deletion", "no packet")
LARGE = 200


# Rows

def model_rows(comparison):
    """What the model says to the rows."""
    for row in rows.rows():
        for form, octets in row.streams.items():
            comparison.expect(f"{row.name}, {form}", row.outcome(), answer(octets, form, row.fails))


def program_rows(comparison):
    """What the program answers to the rows. A source that fails is a file."""
    for row in rows.rows():
        if row.run:
            run_row(comparison, row)
        for form, octets in row.streams.items():
            if not row.fails:
                comparison.expect(f"{row.name}, {form}", row.outcome(), asking.answered(comparison, octets, form))
            elif form == FILE:
                comparison.expect(f"{row.name}, and then a read fails", row.outcome(), failing(comparison, octets))


def run_row(comparison, row):
    """The program's run writes what the row says, and in two processes it says it to the command."""
    case = case_of(row.run)
    for form in (FILE, PEER):
        comparison.prepare(case)
        seen = comparison.replay(case, form)
        comparison.expect(f"{row.name}, the messages in {form}", row.streams[form], seen and seen.files.messages)
    comparison.expect(f"{row.name}, from another process", row.outcome(), asking.heard_from(comparison, case)[1])
    comparison.prepare()


def failing(comparison, octets):
    """The command on a file of these bytes, the first read of which fails that finds no more of them."""
    stream = comparison.folder / "stream"
    stream.write_bytes(octets)
    command = [comparison.program, "standby", "--messages", str(stream)]
    trial = Trial(command, "/dev/null", comparison.folder, places(command))
    number = 0
    while True:
        number += 1
        seen, counts = trial.counted(MESSAGES, Fault(MESSAGES, "fail", number))
        if not counts.fired or counts.moved == len(octets_of(trial)):
            return Outcome(seen.out, seen.err, seen.status)


# Command lines and faults

def command_lines(comparison):
    """Lines that don't fit. Of the wording what is at fault is fixed. The help names the command and its flags."""
    messages = comparison.folder / "stream"
    messages.write_bytes(spelled([rows.made([1])], FILE))
    for words, said in lines.bad():
        here = f"{HOST}:{free_port()}"
        named = [{lines.MESSAGES: messages, lines.HERE: here}.get(word, word) for word in words]
        seen = comparison.execute(named)
        comparison.expect_refused(f"words {words}", seen, said)
    for words, parts in ((["--help"], (b"standby",)), (["standby", "--help"], lines.HELP)):
        comparison.expect_help(words, parts)


def faults(comparison):
    """Each allocation, read and write of some streams goes wrong in turn."""
    chosen = [(row.name, row.streams[FILE]) for row in rows.rows() if row.name in WITH_FAULTS and FILE in row.streams]
    large = rows.many_states(LARGE)
    for name, octets in (*chosen, (large.name, large.streams[FILE])):
        stream = comparison.folder / "stream"
        stream.write_bytes(octets)
        print(f"standby, {name}", flush=True)
        comparison.expect(f"{name}, with faults", True,
                          ends_lawfully("standby", [comparison.program, "standby", "--messages", stream]))


# All of it

def model_alone():
    results = in_parts(None, {
        "answers written by hand, by the model": (model_rows,),
        "made-up endings of faults": (judged.compare,)})
    results.append(told("random runs, by the models", in_processes(after_runs.by_model, None, MODEL_RUNS)))
    results.append(told("streams with damage and beginnings of them, by the model",
                        in_processes(damaged.by_model, None, damaged.blocks_of(MODEL_DAMAGED)), damaged.COUNTED,
                        DAMAGED_EACH))
    sys.exit(any(results))


def has_standby(program):
    """Whether the program has the command."""
    seen = subprocess.run([program, "--help"], stdin=subprocess.DEVNULL, stdout=subprocess.PIPE, check=False)
    return b"standby" in seen.stdout


def compare_runs(program, count, results):
    """The model beside the command `run`."""
    found = in_processes(after_runs.by_program, program, count)
    results.append(told("the states of random runs beside those that the model holds", found, after_runs.COUNTED,
                        RUNS_EACH))


def compare_standby(program, asked, results):
    """What the command answers."""
    results += in_parts(program, {
        "answers written by hand": (program_rows,),
        "command lines": (command_lines,),
        "files, outputs and connections": (devices.compare,),
        "streams with a fault at each call": (faults,)})
    results.append(told("the messages of random runs", in_processes(after_runs.with_standby, program, asked.runs)))
    results.append(told("random runs in two processes", in_processes(after_runs.beside_standby, program, PAIRS)))
    found = in_processes(damaged.by_program, program, damaged.blocks_of(asked.damaged))
    results.append(told("streams with damage", found, damaged.COUNTED, DAMAGED_EACH))


def main():
    parser = argparse.ArgumentParser(description="Compares the command standby with the model.")
    parser.add_argument("--program", type=Path, metavar="FILE", help="the built program")
    parser.add_argument("--runs", type=int, default=RUNS, metavar="N", help="how many random runs")
    parser.add_argument("--damaged", type=int, default=DAMAGED, metavar="N", help="how many streams with damage")
    parser.add_argument("--states", action="store_true", help="only the model beside the command run")
    asked = parser.parse_args()
    program, results = asked.program or building.pfreplay(), []
    compare_runs(program, asked.runs, results)
    if has_standby(program) and not asked.states:
        compare_standby(program, asked, results)
    else:
        why = "" if has_standby(program) else ", as the program has no command standby"
        print(f"0 cases of anything else{why}")
        results.append(not asked.states)
    sys.exit(any(results))


if __name__ == "__main__":
    main()
