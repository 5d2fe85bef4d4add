"""Runs a command under the preloaded library, without a fault or with one."""

import os
import re
import struct
import subprocess
import tempfile
from pathlib import Path
from typing import NamedTuple

from runs.peers import Peer

# seconds, so that a wait without end is told; other comparisons may run at the same time
TIME_LIMIT = 60
# as in `struct report`: loaded, fired, four counts of calls, four of bytes moved
REPORT = struct.Struct("10Q")
CALLS = ("allocation", "read", "write", "thread")
# the name of the word that isn't a file but a peer
PEER = "peer"


class Part(NamedTuple):
    """A part of a word of a command: the place of the word, and that of the part between commas."""
    word: int
    part: int


def name_in(words, place):
    """The name that stands at a place of a command, which is a word or a part of one."""
    return words[place.word].split(",")[place.part] if isinstance(place, Part) else words[place]


def put_name(words, place, name):
    """Puts a name at a place of a command."""
    if isinstance(place, Part):
        parts = words[place.word].split(",")
        parts[place.part] = name
        words[place.word] = ",".join(parts)
    else:
        words[place] = name


class Target(NamedTuple):
    """A kind of call, each of which is to meet each of the deeds.

    Reads and writes count on these descriptors alone: `!0,1` is all but 0 and 1, no text is all. Where `file` says which
    word of the command it is, they count on the file of that name alone, or on sockets alone where that is the peer.
    """
    call: str
    descriptors: str
    deeds: tuple
    file: str = ""

    def variables(self, names):
        """The variables that steer the library, where the command's files have these names."""
        variables = {"FAULT_FILE": names[self.file]} if self.file else {}
        if self.file == PEER:
            variables = {"FAULT_SOCKETS": "1"}
        if self.descriptors:
            variables[{"read": "FAULT_READS", "write": "FAULT_WRITES"}[self.call]] = self.descriptors
        return variables

    def __str__(self):
        place = self.file or self.descriptors
        return f"{self.call} on {place}" if place else self.call


class Fault(NamedTuple):
    """A deed at one call of a target, numbered from 1. The deed `each` fails all whose number is a multiple of that, and
    `onward` all from that one on."""
    target: Target
    deed: str
    number: int

    def variables(self):
        return {"FAULT_CALL": self.target.call, "FAULT_DEED": self.deed, "FAULT_NUMBER": str(self.number)}

    def __str__(self):
        return f"{self.target}, number {self.number}, {self.deed}"


class Seen(NamedTuple):
    """How a run ended: a status below 0 is the signal that ended it, None the time limit.

    `files` are the bytes of the files that the run was to write, None for one that isn't there. Those of a peer are
    what it got, None where it wasn't called.
    """
    status: int | None
    out: bytes
    err: bytes
    files: tuple = ()


class Counts(NamedTuple):
    """What the library counted: whether the fault came, the calls of the target, and the bytes that
    these calls moved before the fault."""
    fired: bool
    calls: int
    moved: int


class Unlawful(Exception):
    """A run ended in a way that its judge doesn't allow."""


def check(holds, otherwise):
    if not holds:
        raise Unlawful(otherwise)


def ending_told(texts, seen):
    """The ending that status and standard error tell, with the match of its text. `texts` are endings, each with its
    status and its pattern: the first one that fits counts."""
    for ending, status, text in texts:
        found = re.fullmatch(rb"pfreplay: " + text + rb"\n", seen.err)
        if found and seen.status == status:
            return ending, found
    raise Unlawful("no such status and standard error")


def lawful(ending, fault, endings):
    """The ending, if it is one that `endings` allows after the fault's deed at its target. Where they say nothing of these, the run has to
    end as without a fault."""
    if ending not in endings.get((fault.target, fault.deed), {"whole"}):
        raise Unlawful(f"'{ending}' isn't lawful after this fault")
    return ending


def ended(run, peer):
    """The status of a command that runs, None where it takes too long, and what its peer got, if it has one."""
    taken = None
    try:
        taken = peer and peer.take(run)
        return run.wait(TIME_LIMIT), taken
    except (subprocess.TimeoutExpired, TimeoutError):
        run.kill()
        return None, taken


class Trial:
    """A command with its standard input, and the library built for it.

    `places` says by names which words of the command, the program at 0, or parts of them name files or a peer. Those in `outputs` are
    written by the command: each run has files of its own for them, in a folder that is new and empty, and a peer of its
    own. What is to come without a fault is told by the reference: the command itself, or one with its files at the same
    places.
    """

    def __init__(self, command, source, folder, places=None, outputs=(), reference=None):
        self.command = command
        self.reference = reference or command
        self.source = source
        self.places = places or {}
        self.outputs = [name for name in outputs if name in self.places]
        self.folder = folder
        self.library = Path(folder) / "faults.so"
        code = Path(__file__).with_name("faults.c")
        subprocess.run(["cc", "-shared", "-fPIC", "-O2", "-pthread", "-o", str(self.library), str(code), "-ldl"],
                       check=True)
        self.clean = self.without_fault(self.reference)
        if self.clean.status is None:
            raise OSError(f"{command[0]} takes too long without any fault")

    def name_of(self, file):
        """The name of one of the command's files."""
        return name_in(self.command, self.places[file])

    def with_name(self, file, name):
        """The reference, but that one of its files has another name."""
        words = list(self.reference)
        put_name(words, self.places[file], name)
        return words

    def without_fault(self, command=None, source=None, environment=lambda names: None):
        """The command as it ends by itself, or another command or input; the environment may depend on the files' names."""
        with (open(source or self.source, "rb") as file, tempfile.TemporaryFile() as out,
              tempfile.TemporaryFile() as err, tempfile.TemporaryDirectory(dir=self.folder) as fresh, Peer() as peer):
            words = list(command or self.command)
            for name in self.outputs:
                put_name(words, self.places[name], peer.name() if name == PEER else str(Path(fresh) / name))
            names = {name: name_in(words, place) for name, place in self.places.items()}
            with subprocess.Popen(words, stdin=file, stdout=out, stderr=err, env=environment(names)) as run:
                status, taken = ended(run, peer if PEER in self.outputs else None)
            out.seek(0)
            err.seek(0)
            written = {name: path.read_bytes() for name in self.outputs if (path := Path(fresh) / name).exists()}
            return Seen(status, out.read(), err.read(),
                        tuple(taken if name == PEER else written.get(name) for name in self.outputs))

    def beginning(self, name, length):
        """A file, open in a `with`, that holds the first `length` bytes of the one named."""
        file = tempfile.NamedTemporaryFile(dir=self.folder)
        file.write(Path(name).read_bytes()[:length])
        file.flush()
        return file

    def counted(self, target, fault=None):
        """Runs the command with the fault, if any: what was seen, and what was counted of the target."""
        with tempfile.NamedTemporaryFile(dir=self.folder) as report:
            report.write(bytes(REPORT.size))
            report.flush()
            seen = self.without_fault(environment=lambda names: {
                **os.environ, **target.variables(names), **(fault.variables() if fault else {}),
                "LD_PRELOAD": str(self.library), "FAULT_REPORT": report.name})
            loaded, fired, *numbers = REPORT.unpack(Path(report.name).read_bytes())
        if not loaded:
            raise OSError(f"{self.command[0]} didn't load the library: is it a dynamically linked program?")
        place = CALLS.index(target.call)
        return seen, Counts(bool(fired), numbers[place], numbers[len(CALLS) + place])
