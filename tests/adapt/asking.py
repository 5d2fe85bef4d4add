"""The command `adapt` on a text, and what is wrong with its answer."""

import re
import subprocess
from concurrent.futures import ThreadPoolExecutor
from itertools import count
from threading import local
from typing import NamedTuple

from adapt import interfaces
from adapt.faults import MOST_ERRORS
from adapt.findings import BLANKED
from adapt.model import adapt, remarks_of, said_of, said_of_error
from adapt.surroundings import ADDRESS, INTERFACE, NOTHING

# seconds; other comparisons may run at the same time
TIME_LIMIT = 60
THREADS = 2
FLAGS = ("--interface", INTERFACE, "--address", ADDRESS)
FOUND = re.compile(rb"(\d+):(\d+): (note|warning|error): (.+?): \S.*", re.DOTALL)
# what is said of a text that would have to be rewritten again
UNSETTLED = re.compile(rb"\d+:\d+: error: .+?: what stands for it would have to be rewritten again, .*", re.DOTALL)
MANY_TIMES = re.compile(rb"\$|file$|\{$")
REFUSED = re.compile(rb"(\d+):(\d+): error: (.+)", re.DOTALL)
# what is said of a text that stays as it is too
IDLE = re.compile(rb"\d+:\d+: warning: .+?: no packet of a run is on this interface.*", re.DOTALL)
REMARK = re.compile(rb"\d+:\d+: warning: .+?: (?:pfctl refuses|no packet of a run is on this interface).*", re.DOTALL)


ERROR, SO = "error", "what stands for it would have to be rewritten again, so"


class Answer(NamedTuple):
    """What the command printed, the lines that it said without the name of the file, and its status."""
    text: bytes
    said: list
    status: int


class Asker:
    """Hands texts to the program; each thread has a file of its own."""

    def __init__(self, program, folder):
        self.program = program
        self.folder = folder
        self.mine = local()
        self.numbers = count()

    def name(self):
        """The name of this thread's file."""
        if not hasattr(self.mine, "name"):
            self.mine.name = f"rules{next(self.numbers)}"
        return self.mine.name

    def ran(self, words):
        """One run of the program."""
        return subprocess.run([self.program, *map(str, words)], cwd=self.folder, stdin=subprocess.DEVNULL,
                              stdout=subprocess.PIPE, stderr=subprocess.PIPE, timeout=TIME_LIMIT, check=False)

    def file_of(self, kind, text):
        """The name of a file of this thread that holds a text."""
        name = f"{self.name()}.{kind}"
        (self.folder / name).write_bytes(text)
        return name

    def flags_of(self, surroundings):
        """Surroundings as the words of a command."""
        flags = [("--interface-address", f"{name}={address}") for name, address in surroundings.interfaces]
        flags += [("--group", f"{group}={name}") for group, name in surroundings.groups]
        for flag, kind in (("--hosts", "hosts"), ("--services", "services")):
            flags += [(flag, self.file_of(f"{kind}{number}", text))
                      for number, text in enumerate(getattr(surroundings, kind))]
        for flag, kind in (("--table", "tables"), ("--include", "includes")):
            flags += [(flag, f"{name}={self.file_of(f'{kind}{number}', text)}")
                      for number, (name, text) in enumerate(getattr(surroundings, kind))]
        own = ("--interface", surroundings.interface, "--address", surroundings.address)
        return [*own, *(word for flag in flags for word in flag)]

    def adapted(self, text, surroundings=NOTHING):
        """The answer of `adapt` to a text."""
        (self.folder / self.name()).write_bytes(text)
        seen = self.ran(["adapt", self.name(), *self.flags_of(surroundings)])
        return Answer(seen.stdout, said_in(seen.stderr, self.name().encode()), seen.returncode)

    def adapted_with_files(self, text, surroundings):
        """The same for a text that includes files: what is said of a file's words begins with the file's name in the
        text, which also stands for its path."""
        answer = self.adapted(text, surroundings)
        said = [line.removeprefix(b"(bad) ").rstrip(b"\n") for line in answer.said]
        for number, (name, _) in enumerate(surroundings.includes):
            path = f"{self.name()}.includes{number}".encode()
            said = [line.replace(path, name.encode()) for line in said]
        return answer._replace(said=said)

    def each(self, function, items):
        """What a function makes of each, some at a time."""
        with ThreadPoolExecutor(THREADS) as pool:
            return list(pool.map(function, items))


def said_in(stderr, name):
    """The lines on standard error without the file's name. A word that is told may have ends of lines in it."""
    start, is_whole = name + b":", not stderr or stderr.endswith(b"\n")
    begin = rb"\n(?=" + re.escape(name) + rb"(?:\.includes[0-9]+)?:)"
    lines = re.split(begin, stderr.removesuffix(b"\n")) if stderr else []
    return [line[len(start):] if is_whole and line.startswith(start) else b"(bad) " + line for line in lines]


class Itself:
    """The model in the place of the program."""

    def adapted(self, text, surroundings=NOTHING):
        """What the model answers, in the form of the program's answers."""
        adapted = adapt(text, surroundings)
        said = [f"{said_of(finding)}: {SO if finding.kind == ERROR else 'so'}" for finding in adapted.findings]
        reasons = {remark: "no packet of a run is on this interface" if kind == interfaces.KIND else "pfctl refuses it"
                   for remark, kind in remarks_of(text, surroundings, adapted.text != text)}
        said += [f"{said_of(remark)}: {reasons[remark]}" for remark in adapted.remarks]
        said += [said_of_error(error) for error in adapted.errors]
        return Answer(adapted.text, [line.encode("latin-1") for line in said], int(bool(adapted.errors)))

    def each(self, function, items):
        return list(map(function, items))


def difference(adapted, answer):
    """Where an answer isn't what it should be, or nothing."""
    said = [line.encode("latin-1") for line in adapted.said()]
    for number, line in enumerate(said):
        if number >= len(answer.said):
            return f"not said: {line!r}"
        seen = answer.said[number]
        is_error = number >= len(adapted.told())
        # behind a fault stands what would help, now and then
        is_same = seen == line or seen.startswith(line + b"; ") if is_error else seen.startswith(line + b": ") and FOUND.fullmatch(seen)
        if not is_same:
            return f"said {seen!r} and not {line!r}"
    if len(answer.said) > len(said):
        return f"also said: {answer.said[len(said)]!r}"
    if answer.text != adapted.text:
        return f"printed {first_line_of(answer.text, adapted.text)}"
    if answer.status != bool(adapted.errors):
        return f"status {answer.status}"
    return None


def first_line_of(seen, expected):
    """The first line in which two texts differ, as words."""
    for number, (one, other) in enumerate(zip(seen.split(b"\n"), expected.split(b"\n")), 1):
        if one != other:
            return f"on line {number} {one[:200]!r} and not {other[:200]!r}"
    return f"{len(seen)} bytes and not {len(expected)}"


def is_there(lines, place, word):
    """Whether a word as it is said stands in the lines of a text at a place."""
    line, column = place
    rest = b"\n".join(lines[line - 1:])[column - 1:]
    return line <= len(lines) and rest[:len(word)].translate(BLANKED) == word


def misplaced(text, answer):
    """What is wrong with an answer to any text, whatever the text says, or nothing."""
    if answer.status not in (0, 1):
        return f"status {answer.status}"
    lines, last, errors, order = text.split(b"\n"), (0, 0), 0, 0
    for line in answer.said:
        refused = not UNSETTLED.fullmatch(line) and REFUSED.fullmatch(line)
        if refused:
            errors += 1
            if not is_in(lines, int(refused[1]), int(refused[2])):
                return f"no such place: {line!r}"
            continue
        if errors:
            return f"said behind an error: {line!r}"
        if order_of(line) < order:
            return f"said too late: {line!r}"
        if order_of(line) > order:
            order, last = order_of(line), (0, 0)
        found = FOUND.fullmatch(line)
        if not found:
            return f"said {line!r}"
        place, word = (int(found[1]), int(found[2])), found[4]
        # of the words of a macro's value it is said at its use, of the entries of a file at the word `file`, and of a
        # target in braces at the first one
        if place < last or place == last and not MANY_TIMES.match(word):
            return f"said too late: {line!r}"
        if not is_there(lines, place, word):
            return f"not in the text: {line!r}"
        last = place
    if errors > MOST_ERRORS:
        return f"{errors} errors"
    if answer.status != bool(errors):
        return f"status {answer.status}"
    return None


def is_in(lines, line, column):
    """Whether a text with these lines has such a place."""
    return 0 < line <= len(lines) and 0 < column <= len(lines[line - 1]) + 1


def order_of(line):
    """What was rewritten is told first, then what pfctl refuses, and then which rules hold for no packet."""
    return bool(REMARK.fullmatch(line)) + bool(IDLE.fullmatch(line))


def is_idle(line):
    """Whether a line says that a rule holds for no packet."""
    return bool(IDLE.fullmatch(line))


def begins_so(line, expected):
    """Whether a line is as expected, where what comes behind may be a reason, or what would help."""
    return line == expected or line.startswith((expected + b": ", expected + b"; "))


def is_refusal(line):
    """Whether a line says what pfctl refuses."""
    return bool(REMARK.fullmatch(line)) and not IDLE.fullmatch(line)


def unlike_itself(answer, again):
    """What is wrong where what was printed is given again, or nothing. Only remarks and errors may be said of it."""
    if again.text != answer.text:
        return f"printed again: {first_line_of(again.text, answer.text)}"
    kept = [line for line in answer.said if UNSETTLED.fullmatch(line)]
    said = [line for line in again.said if not REFUSED.fullmatch(line) and not REMARK.fullmatch(line) and line not in kept]
    if said:
        return f"said again: {said[0]!r}"
    return None if again.status == answer.status else f"status {again.status} again"
