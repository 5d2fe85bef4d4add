"""What the benches share: the words of a run, its time and memory, and the tables that are printed."""

import os
import shutil
import struct
import subprocess
import sys
import tempfile
import time
from collections import Counter
from contextlib import contextmanager
from pathlib import Path

sys.dont_write_bytecode = True
BENCH = Path(__file__).resolve().parent
# behind the benches, of which some have the names of modules there
sys.path.append(str(BENCH.parent / "tests"))

from building import CRATES

PROGRAM = CRATES / "pfr_cli" / "out" / "pfr_cli"
INTERFACE = ("--interface", "em0", "--address", "192.0.2.1/24")
FLAGS = (*INTERFACE, "--inside", "10.0.0.0/8")
OUTPUTS = ("verdicts", "packets", "counters", "states")
# how often each command runs; the best time counts
RUNS = 5
MEGABYTE = 1000000
# the packages of Debian that have other names than their tools
PACKAGES = {"tcprewrite": "tcpreplay"}


# The words of commands

def replay_command(program, capture, rules, workers=0, batch=256, **files):
    """The words that replay a capture, by one thread unless there are workers. An output that isn't named goes
    nowhere."""
    outputs = [str(word) for name in OUTPUTS for word in (f"--{name}", files.get(name, os.devnull))]
    return [str(program), "run", str(capture), str(rules), *FLAGS, "--workers", str(workers), "--batch", str(batch),
            *outputs]


def tcpdump_command(capture, passed, *filter_words):
    """The words that filter a capture."""
    # as root, tcpdump would give up the right to write into this folder
    user = ["-Z", "root"] if os.geteuid() == 0 else []
    return ["tcpdump", *user, "-r", str(capture), "-w", str(passed), *map(str, filter_words)]


def check_built(program):
    """Ends if a program isn't there."""
    if not program.is_file():
        sys.exit(f"{program} isn't there: build the program first")


def words_with_program(parser):
    """The words of a command line behind which the program may stand, which has to be there."""
    parser.add_argument("program", nargs="?", type=Path, default=PROGRAM)
    words = parser.parse_args()
    check_built(words.program)
    words.program = words.program.resolve()
    return words


def need_tools(*tools):
    """Ends if one of these tools isn't there."""
    for tool in tools:
        if shutil.which(tool) is None:
            sys.exit(f"{tool} isn't there: apt-get update && apt-get install -y {PACKAGES.get(tool, tool)}")


# Time and memory

def seconds(command):
    """The time of one run from its start to its end."""
    start = time.perf_counter()
    subprocess.run(command, stdin=subprocess.DEVNULL, stdout=subprocess.DEVNULL, stderr=subprocess.PIPE, check=True)
    return time.perf_counter() - start


def best_seconds(*commands):
    """The best time of each command, run in turn."""
    times = [[seconds(command) for command in commands] for _ in range(RUNS)]
    return list(map(min, zip(*times)))


def used(command, given=subprocess.DEVNULL):
    """The time of one run from its start to its end, and what the system says that it used. Its peak memory there is at
    least that of this script; `peak_memory` has its own."""
    start = time.perf_counter()
    process = subprocess.Popen(command, stdin=given, stdout=subprocess.DEVNULL)
    _, status, usage = os.wait4(process.pid, 0)
    passed = time.perf_counter() - start
    if status:
        sys.exit(f"{' '.join(command)}: status {os.waitstatus_to_exitcode(status)}")
    return passed, usage


def seconds_and_peak(command):
    """The time of one run from its start to its end, and its peak memory in megabytes. That is None without the program
    'time'."""
    # a child of this script would start with the script's own memory as its peak
    timer = shutil.which("time")
    if timer is None:
        return seconds(command), None
    with tempfile.NamedTemporaryFile() as report:
        passed = seconds([timer, "-f", "%M", "-o", report.name, *command])
        return passed, int(report.read()) * 1024 / MEGABYTE


def peak_word(peak):
    """A peak of memory as a word."""
    return "-" if peak is None else f"{peak:.1f}"


def peak_memory(command):
    """The peak memory of one run in megabytes, as a word."""
    _, peak = seconds_and_peak(command)
    return peak_word(peak)


def tell_of_time():
    """Says so if no peak memory will be shown."""
    if shutil.which("time") is None:
        print("without the program 'time' (apt-get install -y time) no peak memory is shown")


@contextmanager
def load_printed():
    """Prints the load of the machine before the measures and behind them."""
    print(f"load {os.getloadavg()[0]:.1f}")
    yield
    print(f"load {os.getloadavg()[0]:.1f}")


# Files

def written(path, write, count, *more):
    """Has a capture of `count` packets written into a file, and answers what its writer does."""
    with open(path, "wb") as file:
        return write(count, file, *more)


def count_records(capture):
    """The records of a capture in this machine's byte order."""
    place, count = 24, 0
    while place < len(capture):
        place += 16 + struct.unpack_from("=I", capture, place + 8)[0]
        count += 1
    return count


def count_lines(file):
    """The lines of a file."""
    return file.read_bytes().count(b"\n")


def outcomes(verdicts):
    """How many of the packets have come to each verdict and reason."""
    with open(verdicts, encoding="ascii") as lines:
        return Counter(" ".join(line.split()[3:5]) for line in lines)


# Tables

def table_row(cells):
    """A row of a table."""
    return "| " + " | ".join(cells) + " |"


def print_row(cells):
    print(table_row(cells), flush=True)


def print_head(names, left=0):
    """Prints the names of columns, of which the first `left` ones have words and the others figures."""
    print_row(names)
    print_row(["---"] * left + ["---:"] * (len(names) - left))


def goal_line(goal, is_met):
    """Says whether a goal is met."""
    return f"the goal of {goal} is {'met' if is_met else 'missed'}"
