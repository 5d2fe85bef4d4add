"""Runs ./pfreplay where nothing is built, and compares the program that isn't proved with the proved one.

The script has to answer by a program that it has the kit make, and to say so once. That program runs all commands that
the documents show. What they print on both streams, their statuses and their files have to be those of the proved
program, byte for byte. Then `./pfreplay prove` has to make a program in the place of it.
"""

import os
import subprocess
import sys
import tempfile
from pathlib import Path
from typing import NamedTuple

import building
from runs.shown_commands import DOCUMENTS, FOLDERS, RUN, commands

# what stands in a copy of the repository; what was made is left out
COPIED = ("crates", "crates.txt", "HANDLES", "examples", "pfreplay", "proofs", "unproved")
CHECK = "check examples/server.conf --interface em0 --address 192.0.2.1/24".split()
ANSWER = b"16 filter, 0 translation, 259dc205d2ba5f3f0ab9adef9d4a7ecb\n"
SAID = (b"pfreplay: this program isn't proved yet, and slow: ./pfreplay prove makes the proved one (", b" minutes here)\n")
# seconds: of what is built, and of a command
BUILDING, TIME_LIMIT = 3600, 120


class Ended(NamedTuple):
    """How a command ended: its status, what it printed on both streams, and the files that it left by their names."""
    status: int
    printed: bytes
    said: bytes
    files: dict


def put_copy(folder):
    """A copy of the repository in which nothing is built."""
    out = subprocess.run(["tar", "-c", "--exclude=out", *COPIED], cwd=building.ROOT, stdout=subprocess.PIPE, check=True)
    subprocess.run(["tar", "-x", "-C", folder], input=out.stdout, check=True)


def answered(folder, *words):
    """What ./pfreplay of a copy answers."""
    done = subprocess.run(["./pfreplay", *words], cwd=folder, stdin=subprocess.DEVNULL, stdout=subprocess.PIPE,
                          stderr=subprocess.PIPE, timeout=BUILDING, check=False)
    return done.returncode, done.stdout, done.stderr


def is_said(said):
    """Whether the script says that the program isn't proved, and nothing else."""
    return said.startswith(SAID[0]) and said.endswith(SAID[1]) and said.count(b"\n") == 1


def files_in(folder):
    """The files that commands left, with their bytes."""
    return {path.name: path.read_bytes() for path in folder.iterdir() if path.is_file() and not path.is_symlink()}


def ended(command, folder):
    done = subprocess.run(["bash", "-c", command.text], cwd=folder, stdin=subprocess.DEVNULL, stdout=subprocess.PIPE,
                          stderr=subprocess.PIPE, timeout=TIME_LIMIT, env={**os.environ, "LC_ALL": "C"}, check=False)
    return Ended(done.returncode, done.stdout, done.stderr, files_in(folder))


def all_ended(program, folder):
    """How the commands that the documents show end by a program, in their order, in a folder of their own."""
    folder.mkdir()
    for other in FOLDERS:
        (folder / other).symlink_to(building.ROOT / other)
    (folder / "pfreplay").symlink_to(program)
    shown = [command for name in DOCUMENTS for command in commands((building.ROOT / name).read_text())]
    return [(command.text, ended(command, folder)) for command in shown if command.text.split()[0] in RUN]


def wrong_commands(proved, unproved, folder):
    """How many commands there are, and those that end otherwise by the program that isn't proved."""
    pairs = list(zip(all_ended(proved, folder / "proved"), all_ended(unproved, folder / "unproved")))
    return len(pairs), [f"{text}\n  {one[:3]}\n  {other[:3]}" for (text, one), (_, other) in pairs if one != other]


def wrong_script(copy):
    """What is wrong with the script where nothing is built."""
    status, printed, said = answered(copy, *CHECK)
    if (status, printed) != (0, ANSWER) or not is_said(said):
        yield f"the first answer: {status}, {printed}, {said}"
    if answered(copy, *CHECK) != (0, ANSWER, b""):
        yield "the second answer isn't the first one without its line"


def wrong_proving(copy):
    """What is wrong with the script once the program is proved."""
    program = copy / "crates" / "pfr_cli" / "out" / "pfr_cli"
    status, printed, said = answered(copy, "prove")
    if (status, printed) != (0, f"{program}\n".encode()) or b"pfr_cli is proved" not in said:
        yield f"./pfreplay prove: {status}, {printed}, {said}"
    (copy / "out" / "unproved" / "pfreplay").unlink()
    if answered(copy, *CHECK) != (0, ANSWER, b"") or answered(copy, "prove")[2]:
        yield "the proved program isn't used, or is proved once more"


def main():
    proved = building.pfreplay()
    with tempfile.TemporaryDirectory() as folder:
        folder = Path(folder).resolve()
        copy = folder / "copy"
        copy.mkdir()
        put_copy(copy)
        wrong = list(wrong_script(copy))
        count, others = wrong_commands(proved, copy / "out" / "unproved" / "pfreplay", folder)
        wrong += others + list(wrong_proving(copy))
    for fault in wrong:
        print(fault)
    print(f"{count} commands by two programs, {len(wrong)} not as expected")
    sys.exit(bool(wrong) or not count)
