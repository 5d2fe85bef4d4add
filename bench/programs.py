"""What the benches of crates share: a program is built over the crates, in a temporary folder, and run."""

import argparse
import subprocess
import sys
import tempfile
from contextlib import contextmanager
from pathlib import Path
from shutil import copy, copytree
from typing import NamedTuple

from running import BENCH

# found where running says
import building
from faults.trial import Target, Trial

ALLOCATIONS = Target("allocation", "", ())
# of benches of rulesets that grow: how many states a table has, and how many rules the rulesets
STATES = 100000
COUNTS = (10, 100, 1000)


class Program(NamedTuple):
    """A program: the folder of its source and the name of that, and the highest of the crates that it uses."""
    folder: str
    highest: str
    part: str = "main"

    @property
    def name(self):
        return f"{self.folder if self.part == 'main' else self.part}_bench"

    @property
    def source(self):
        return BENCH / self.folder / f"{self.part}.rattle"


# Building

def rt(verb, folder):
    building.ran(["rt", verb], folder)


def build(folder, program):
    """Makes a repository of the built crates and the program, and answers the program that is built of it."""
    rt("lib", building.CRATES / program.highest)
    named = building.named_crates()
    used = building.used_by(program.highest, named)
    lines = [f"{name}: {' '.join(libraries)}" for name, libraries in named.items() if name in used]
    (folder / "crates.txt").write_text("\n".join([*lines, f"{program.name}: {' '.join(used)}\n"]))
    copy(building.ROOT / "HANDLES", folder)
    for name in used:
        # all that a crate above needs, and not what a check of the crate itself would; the others are the kit's
        for part in (*building.PARTS, "out/rlib"):
            if (building.CRATES / name / part).is_dir():
                copytree(building.CRATES / name / part, folder / "crates" / name / part)
    crate = folder / "crates" / program.name
    (crate / "src").mkdir(parents=True)
    # the gate lets no file end in .rt but those of the crates
    copy(program.source, crate / "src" / "main.rt")
    rt("run", crate)
    return crate / "out" / program.name


def program_at(path, folder, program):
    """The program, which is built if it isn't at this path, and then put there if there is a path."""
    if path is not None and path.exists():
        return path.resolve()
    made = build(folder, program)
    if path is not None:
        copy(made, path)
    return made


def build_rust(folder, program):
    """Builds the program in plain Rust that stands beside another one."""
    made = folder / "rust"
    source = program.source.with_suffix(".rs")
    subprocess.run(["rustc", "-O", "--edition", "2021", "-o", made, source], check=True)
    return made


@contextmanager
def built(program):
    """The program, built in a folder that is there as long as it is used."""
    with tempfile.TemporaryDirectory() as name:
        yield build(Path(name), program)


# Command lines

def add_program_flag(parser):
    """The flag by which a program that takes minutes to build is kept."""
    parser.add_argument("--program", type=Path, help="where the program is, or is put once it is built")


def measure_growing(description, program, measure):
    """Reads the command line of a bench of rulesets that grow, and has `measure` use the program, a folder and a number
    of states."""
    parser = argparse.ArgumentParser(description=description)
    parser.add_argument("states", nargs="?", type=int, default=STATES)
    add_program_flag(parser)
    words = parser.parse_args()
    with tempfile.TemporaryDirectory() as name:
        measure(program_at(words.program, Path(name), program), Path(name), words.states)


# Running

def rows_of(program, *words, given=None):
    """What a program prints, line by line."""
    done = subprocess.run([program, *map(str, words)], input=given, stdout=subprocess.PIPE, check=True)
    return done.stdout.decode().splitlines()


def numbers_of(command, rules):
    """The numbers in the one line that a program prints, which has a ruleset on standard input."""
    with open(rules, "rb") as given:
        line = subprocess.run(command, stdin=given, stdout=subprocess.PIPE, check=True, text=True).stdout.strip()
    if line.startswith("line"):
        sys.exit(f"the ruleset is refused: {line}")
    if not line.replace(" ", "").isdigit():
        sys.exit(f"the run stopped: {line}")
    return list(map(int, line.split()))


def more_allocations(command_of, count, rules, folder):
    """By how many allocations a run of twice `count` has more than one of `count`."""
    calls = []
    for each in (count, 2 * count):
        command = command_of(each)
        seen, counts = Trial(command, rules, folder).counted(ALLOCATIONS)
        if seen.status != 0:
            sys.exit(f"{' '.join(command)}: ended with {seen.status} where allocations are counted")
        calls.append(counts.calls)
    return calls[1] - calls[0]


class Timed:
    """What is run several times, in turn with others; the best time counts."""
    best = None

    def keep(self, nanoseconds):
        self.best = nanoseconds if self.best is None else min(nanoseconds, self.best)


def run_in_turn(runs, contests):
    """Runs all of these contests, one after the other, `runs` times."""
    for _ in range(runs):
        for contest in contests:
            contest.run()
