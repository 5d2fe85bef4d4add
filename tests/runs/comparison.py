"""Runs of the program on files in a folder, and what went otherwise than expected."""

import subprocess
import zlib

from runs.case import NO_SEED
from runs.model import FILE, OUTPUTS, PEER, Files, Outcome
from runs.peers import Peer

# seconds; other comparisons may run at the same time
TIME_LIMIT = 60
# longer than the text of many a run, so that what isn't emptied shows
OLD_BYTES = b"as it was\n" * 50
# the interfaces that a run may have
MOST_INTERFACES = 8
# what a fault of the command line is shown as if the program says something else
ONE_LINE = b"pfreplay: (one line)\n"


class Comparison:
    """Runs the program on files in a folder of its own and keeps what went wrong."""

    def __init__(self, program, folder):
        self.program = program
        self.folder = folder
        self.rules = folder / "rules"
        self.capture = folder / "capture"
        self.files = Files(*(folder / name for name in OUTPUTS))
        # of the other interfaces of a run
        self.other_captures = [folder / f"capture{place}" for place in range(1, MOST_INTERFACES)]
        self.other_packets = [folder / f"packets{place}" for place in range(1, MOST_INTERFACES)]
        self.peer = Peer()
        self.count = 0
        self.wrong = []

    def execute(self, words, out=subprocess.PIPE, peer=None, err=subprocess.PIPE, before=None, home=None,
                variables=None, given=subprocess.DEVNULL):
        """One run of the program, with the peer to which it may send, what its process does before, its folder and
        environment if they aren't those of this process, and the file of its standard input; None if it takes too
        long."""
        with subprocess.Popen([self.program, *map(str, words)], stdin=given, stdout=out, stderr=err,
                              preexec_fn=before, cwd=home, env=variables) as run:
            try:
                # what is printed is a line or two, which nobody has to read before the program ends
                taken = peer and peer.take(run)
                printed, said = run.communicate(timeout=TIME_LIMIT)
            except (subprocess.TimeoutExpired, TimeoutError):
                run.kill()
                return None
        return Outcome(printed or b"", said or b"", run.returncode, self.left() if peer is None else self.left(taken))

    def left(self, *taken):
        """What stands in the files that a run writes, where those of messages may be what a peer has taken. One with
        its old bytes is as it was."""
        verdicts, packets, counters, states, messages = map(text_in, self.files[:len(OUTPUTS)])
        others = tuple(map(text_in, self.files.others))
        return Files(verdicts, packets, counters, states, *(taken or [messages]), others)

    def prepare(self, case=None, is_old=False):
        """Writes the files that a run reads; those that it writes are gone, or hold something old."""
        self.files = self.files._replace(others=tuple(self.other_packets[:len(case.also) if case else 0]))
        if case is not None:
            self.rules.write_bytes(case.rules)
            self.capture.write_bytes(case.capture)
            for name, each in zip(self.other_captures, case.also):
                name.write_bytes(each.capture)
        for name in self.files.in_order():
            name.unlink(missing_ok=True)
            if is_old:
                name.write_bytes(OLD_BYTES)

    def expect(self, name, expected, seen):
        self.count += 1
        if seen != expected:
            self.wrong.append((name, expected, seen))

    def expect_refused(self, name, seen, said, status=1):
        """A command line that doesn't fit. Of the wording what is at fault is fixed."""
        self.expect(name, Outcome(b"", a_line(seen, b"pfreplay: ", said), status), seen)

    def expect_help(self, words, parts):
        """The help that these words ask for has these parts."""
        seen = self.execute(words)
        is_told = seen and seen.out and all(part in seen.out for part in parts)
        self.expect(f"words {words}", Outcome(seen.out if is_told else b"(some)", b"", 0), seen)

    def add(self, count, wrong):
        """Takes what went on in another comparison."""
        self.count += count
        self.wrong += wrong

    def command(self, case, form=FILE):
        """The words that replay a case, with the names of all files, and with its messages in a form."""
        files = self.files if form == FILE else self.files._replace(messages=None)
        peer = ["--peer", self.peer.name()] if form == PEER else []
        also = also_of(case, self.other_captures, files.others)
        return ["run", self.capture, self.rules, *flags_of(case, files), *also, *peer]

    def replay(self, case, form=FILE, words=()):
        """One run that replays a case, with its messages in a form, and with more words than its own."""
        return self.execute([*self.command(case, form), *words], peer=self.peer if form == PEER else None)

    def show(self, most):
        """Prints the first of what went wrong."""
        for name, expected, seen in self.wrong[:most]:
            print(f"{name}:\n  expected {shown(expected)}\n  seen     {shown(seen)}")


def flags_of(case, files):
    """The flags of the command `run` but those of other interfaces, each with its value. A seed of zeros is left out, and
    so may the file of messages be."""
    named = [(name, file) for name, file in zip(OUTPUTS, files) if file is not None]
    seed = [] if case.seed == NO_SEED else ["--seed", case.seed]
    inside = [] if case.inside is None else ["--inside", case.inside]
    tap = [] if case.tap is None else ["--tap", case.tap]
    return ["--interface", case.interface, "--address", case.address, *inside, *seed, *tap,
            *(word for name, address in case.addresses for word in ("--mac", f"{name}={address}")),
            *(word for name, file in named for word in (f"--{name}", file))]


def also_of(case, captures, packets):
    """The flags of the other interfaces, each with its value."""
    return [word for each, *files in zip(case.also, captures, packets)
            for word in ("--also", ",".join(map(str, (each.name, each.address, *files))))]


def text_in(file):
    """What stands in a file; None if it isn't there, or holds its old bytes."""
    text = file.read_bytes() if file.is_file() else None
    return None if text == OLD_BYTES else text


def a_line(seen, beginning, parts=()):
    """What was said if it is one line with this beginning and these parts, else what stands for such a line."""
    if seen is None or seen.err.find(b"\n") != len(seen.err) - 1:
        return ONE_LINE
    return seen.err if seen.err.startswith(beginning) and all(part in seen.err for part in parts) else ONE_LINE


def shown(outcome):
    """An outcome in few lines."""
    if not isinstance(outcome, Outcome):
        return "took too long" if outcome is None else repr(outcome)[:400]
    files = "".join(f"\n    {name} {digest(text)}" for name, text in named_texts(outcome.files))
    return f"status {outcome.status}, {outcome.out!r}, {outcome.err!r}{files}"


def named_texts(files):
    """The texts of files, each behind its name."""
    return [*zip(OUTPUTS, files), *((f"packets{place}", text) for place, text in enumerate(files.others, 1))]


def digest(text):
    """The length and the last bytes of a file, with a sum that tells texts of one length apart."""
    if text is None:
        return "as it was"
    return f"of {len(text)} bytes, sum {zlib.crc32(text):08x}, the last {text[-100:]!r}"
