"""The programs that are compared: pfreplay, which is proved, and those in `programs`, which print what the crates answer.

Those in `programs` are compiled without proofs, so each access is checked when they run.
"""

import os
import shutil
import subprocess
import tempfile
import time
from concurrent.futures import ThreadPoolExecutor
from pathlib import Path

TESTS = Path(__file__).resolve().parent
ROOT = TESTS.parent
CRATES = ROOT / "crates"
PROGRAMS = TESTS / "programs"
# the lists of crates, each with the libraries that it uses
CRATES_LIST, PROGRAMS_LIST = ROOT / "crates.txt", PROGRAMS / "programs.txt"
# what a crate is made of
PARTS = ("src", "specs", "proofs")
# the C code by which faults.c refuses allocations of a program that isn't proved, and a check that fails ends it by a signal
ALLOCATIONS = TESTS / "faults" / "allocations.c"
# where such programs are kept
MADE = ROOT / "out" / "unproved"


def named_crates(listed=CRATES_LIST):
    """The crates of a list, lowest first, each with the libraries that it names."""
    lines = (line.partition("#")[0].partition(":") for line in listed.read_text().splitlines())
    return {name.split()[0]: words.split() for name, colon, words in lines if colon}


def used_by(crate, named):
    """A crate and all that it depends on, each once: what it names, and what that names."""
    used = [crate]
    for name in used:
        used.extend(other for other in named.get(name, ()) if other not in used)
    return used


def crates_of(program):
    """The crates of which a program of `programs` is made, lowest first, each with the libraries that it names."""
    named = named_crates() | named_crates(PROGRAMS_LIST)
    used = used_by(program, named)
    return {name: libraries for name, libraries in named.items() if name in used}


def ran(words, folder, **variables):
    """Runs a command that builds; if it fails, what it printed is the last that is said."""
    done = subprocess.run(words, cwd=folder, env={**os.environ, **variables}, stdin=subprocess.DEVNULL,
                          stdout=subprocess.PIPE, stderr=subprocess.STDOUT, text=True, check=False)
    if done.returncode:
        raise SystemExit(done.stdout)


# Programs without proofs

def sources(program):
    """All files of which a program of `programs` is made."""
    yield from (CRATES_LIST, PROGRAMS_LIST, ALLOCATIONS)
    for name in crates_of(program):
        yield from (CRATES / name / "src").rglob("*.rt")
        yield from (PROGRAMS / name / "src").rglob("*.rattle")


def is_stale(program):
    """Whether a program isn't built, or a source is newer."""
    made = MADE / program
    return not made.exists() or any(path.stat().st_mtime > made.stat().st_mtime for path in sources(program))


def put_source(name, crate):
    """Puts a crate of `programs` where the kit looks for it, under the endings that it knows."""
    for source in (PROGRAMS / name / "src").rglob("*.rattle"):
        place = (crate / source.relative_to(PROGRAMS / name)).with_suffix(".rt")
        place.parent.mkdir(parents=True, exist_ok=True)
        shutil.copy(source, place)


def put_crates(program, top):
    """Puts all of which a program is made into a folder: the crates, their list and the program's C code."""
    named = crates_of(program)
    (top / "crates.txt").write_text("".join(f"{name}: {' '.join(libraries)}\n" for name, libraries in named.items()))
    shutil.copy(ROOT / "HANDLES", top)
    for name in named:
        put_source(name, top / "crates" / name)
        for part in PARTS:
            if (CRATES / name / part).is_dir():
                shutil.copytree(CRATES / name / part, top / "crates" / name / part)
    (top / "crates" / program / "c").mkdir()
    shutil.copy(ALLOCATIONS, top / "crates" / program / "c")


def build(program):
    """Builds a program of `programs`, which is as old then as the sources of which it was made, and puts it in its place
    at once."""
    start = time.time()
    # the gate lets no file end in .rt but those of the crates, so this is outside of the repository
    with tempfile.TemporaryDirectory() as folder:
        top = Path(folder)
        put_crates(program, top)
        ran([ROOT / "unproved", top / "crates" / program, top / "made", "wait", "PIPE"], top, RT_ALLOW_C=program)
        MADE.mkdir(parents=True, exist_ok=True)
        new = shutil.copy(top / "made", MADE / f"{program}.new")
    os.utime(new, (start, start))
    os.replace(new, MADE / program)


def built(*programs):
    """Programs of `programs`, those built side by side that aren't there or of which a source is newer."""
    with ThreadPoolExecutor() as pool:
        list(pool.map(build, filter(is_stale, programs)))
    return [MADE / program for program in programs]


def answers(word):
    """The command by which `answers` answers one of its words."""
    [program] = built("answers")
    return [str(program), word]


def run_answers(word):
    """The command by which `run_answers` answers scripts of one of its words."""
    [program] = built("run_answers")
    return [str(program), word]


# The proved program

def pfreplay():
    """The proved program pfreplay, which its script makes if a source is newer."""
    ran(["./pfreplay", "prove"], ROOT)
    return CRATES / "pfr_cli" / "out" / "pfr_cli"
