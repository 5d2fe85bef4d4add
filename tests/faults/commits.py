"""Which endings of the program whose book commits packets in batches are lawful where an allocation is refused.

The program itself ends, having answered the runs before; or one run is answered otherwise. In that a job is answered
with want of memory, or a packet that was to be evaluated ahead is, or the book refuses. A book that refuses a batch has
emitted what its committed packets emit without the fault, and no more. From there on it refuses all else that it is told.
Which messages close at a packet is told by their model.
"""

from functools import lru_cache
from typing import NamedTuple

from commits.model import packet_lines
from expansions.hosts import Interface
from expansions.model import dotted
from faults.rulesets import TARGETS
from faults.trial import Unlawful
from messages import run
from messages.spelling import bare
from rulesets.tree import Network
from steps.run import Run, seed_of

# in the order of the summary
ENDINGS = ("whole", "no speculation", "no batch", "no ending", "no job", "ended")

NO_MEMORY = "line 0: no memory"
REFUSED, LOST = "refused", "lost"
NOT_KEPT = "none"
PASSED = ("pass", "skip")


class Recorded(NamedTuple):
    """The place of a packet's interface, and the length of its record."""
    place: int
    length: int


class Part(NamedTuple):
    """What a batch, or a packet that is committed alone, is answered with."""
    is_refused: bool
    verdicts: list
    packets: list
    messages: str
    own: int
    committed: int


class Answers:
    """The lines of a run's answer one after the other."""

    def __init__(self, lines):
        self.lines = list(lines)

    def next(self):
        if not self.lines:
            raise Unlawful("lines are missing")
        return self.lines.pop(0)

    def takes(self, line):
        """Whether the next line is this, which is read over then."""
        found = self.lines[:1] == [line]
        del self.lines[:found]
        return found

    def faults(self):
        """The faults of rulesets, which stand before all else."""
        found = []
        while self.lines and self.lines[0].startswith("line "):
            found.append(self.next())
        return found

    def before(self, word):
        """The lines before one that begins with a word, and the rest of that one."""
        found = []
        while not (line := self.next()).startswith(f"{word} "):
            found.append(line)
        return found, line.removeprefix(f"{word} ")

    def part(self):
        is_refused, (lines, messages) = self.takes(REFUSED), self.before("messages")
        packets = [line for line in lines if line.startswith("packets ")]
        verdicts = lines[:len(lines) - len(packets)]
        _, own, _, committed = self.next().replace(",", "").split(" ")
        return Part(is_refused, verdicts, packets, messages, int(own), int(committed))


def is_verdict(line):
    return " t=" in line and "," not in line


def written_packets(records, lines):
    """The bytes of each packet that is written, by its number. Behind the lines of each batch they stand by the places of
    its packets, one behind the other, and each is as long as its record."""
    written, numbers = {}, []
    for line in lines:
        if is_verdict(line):
            number, _, _, verdict, *_ = line.split(" ")
            numbers += [int(number)] if verdict in PASSED else []
        elif line.startswith("packets ") and numbers:
            _, place, digits = line.split(" ")
            octets = bytes.fromhex(digits)
            for number in (each for each in numbers if records[each - 1].place == int(place)):
                length = records[number - 1].length
                written[number], octets = octets[:length], octets[length:]
        elif line.startswith("messages "):
            numbers = []
    return written


def octets_of(word):
    """The bytes of a word in hex."""
    return bytes.fromhex(word.replace("-", ""))


def run_of(lines):
    """The run of a script, by its first job."""
    lines = [line.split(" ") for line in lines]
    interfaces = tuple(Interface(words[1], dotted(int(words[2])), int(words[3])) for words in lines
                       if words[0] == "interface")
    inside = tuple(Network(int(words[1]), int(words[2])) for words in lines if words[0] == "inside")
    seed, text = next(words[1:] for words in lines if words[0] == "job")
    packets = [words[1:] for words in lines if words[0] == "packet"]
    return Run("", octets_of(text).decode(), [(int(words[2]), octets_of(words[4])) for words in packets],
               int(packets[0][1]), interfaces, inside, seed_of(int(seed)),
               tuple(int(words[0]) for words in packets))


@lru_cache
def closed_messages(lines):
    """The bytes in hex of the messages that close at each packet of a script's run, which has packets."""
    return ["".join(bare(message).hex() for message in messages) for messages in run.told(run_of(lines)).closed()]


class Judged:
    """A run that is told again, with the lines that it is answered with and those without a fault."""

    def __init__(self, lines, whole, seen):
        self.lines = tuple(lines)
        self.told = [line.split(" ") for line in lines]
        self.records = [Recorded(int(words[1]), len(octets_of(words[4]) + octets_of(words[5]))) for words in self.told
                        if words[0] == "packet"]
        self.written = written_packets(self.records, whole)
        self.whole, self.seen = Answers(whole), Answers(seen)
        self.own = self.committed = 0
        # what was refused, in the words of ENDINGS
        self.refusals = []

    def is_without_book(self):
        """Whether there is no book: it is asked in vain which records hold, and there are no texts at the end."""
        return set(self.seen.lines) <= {NOT_KEPT}

    def is_over(self):
        return "no batch" in self.refusals

    def packets_of(self, verdicts):
        """The lines of those of some lines' packets that are written."""
        numbers = [int(line.split(" ")[0]) for line in verdicts]
        return packet_lines((self.records[number - 1].place, self.written[number]) for number in numbers
                            if number in self.written)

    def messages_of(self, count):
        """The bytes in hex of the messages that close at the next `count` packets."""
        closed = closed_messages(self.lines) if count else []
        return "".join(closed[self.committed:self.committed + count]) or "-"

    def judge_part(self, verdicts, most):
        """Judges one batch, of which the book may take `most` packets; these are the lines of all packets."""
        part, right = self.seen.part(), self.whole.part()
        came = len(part.verdicts)
        if part.verdicts != verdicts[self.committed:self.committed + came] or part.committed != self.committed + came:
            raise Unlawful("lines of other packets than of those that were committed")
        if part.packets != self.packets_of(part.verdicts):
            raise Unlawful("other packets than those of the lines")
        if part.messages != self.messages_of(came):
            raise Unlawful("other messages than those that close at the packets of the lines")
        if not self.own <= part.own <= self.own + came:
            raise Unlawful("more packets were evaluated than were committed")
        if not self.refusals and not part.is_refused and part.own != right.own:
            raise Unlawful("another number of packets was evaluated, and nothing was refused")
        self.judge_refusal(part, came, most)
        self.own, self.committed = part.own, part.committed

    def judge_refusal(self, part, came, most):
        if self.is_over() and (not part.is_refused or came):
            raise Unlawful("a book that had refused takes packets")
        if not part.is_refused and came != min(most, len(self.records) - self.committed):
            raise Unlawful("a batch of another length, and nothing was refused")
        if part.is_refused and not self.is_over():
            self.refusals.append("no batch")

    def judge_holds(self):
        seen, right = self.seen.next(), self.whole.next()
        if seen != right and not self.refusals:
            raise Unlawful("another record holds, and nothing was refused")

    def judge_jobs(self):
        """Judges what is told of the jobs: the faults of their rulesets, and want of memory in one place at most."""
        told, right = self.seen.faults(), self.whole.faults()
        if told == right:
            return
        if told.count(NO_MEMORY) != 1 or [line for line in told if line != NO_MEMORY and line not in right]:
            raise Unlawful("other faults of rulesets")
        self.refusals.append("no job")
        if self.is_without_book() and told[0] != NO_MEMORY:
            raise Unlawful("nothing is answered, and the first job wasn't refused")

    def judge_call(self, words, verdicts):
        match words[0]:
            case "speculate" if self.seen.takes(LOST):
                self.refusals.append("no speculation")
            case "holds":
                self.judge_holds()
            case "batch":
                self.judge_part(verdicts, int(words[1]))
            case "commit":
                self.judge_part(verdicts, 1)

    def judge_end(self):
        if self.seen.lines == [REFUSED]:
            self.refusals += [] if self.is_over() else ["no ending"]
        elif self.is_over():
            raise Unlawful("a book that had refused comes to an end")
        elif self.seen.lines != self.whole.lines:
            raise Unlawful("other texts at the end")

    def judge(self):
        """What was refused."""
        self.judge_jobs()
        if self.is_without_book():
            return self.refusals
        verdicts = list(filter(is_verdict, self.whole.lines))
        for words in self.told:
            self.judge_call(words, verdicts)
        self.judge_end()
        return self.refusals


def runs_in(lines):
    """Lines cut behind each line `end`, which is left out, and what stands behind the last of them."""
    runs = [[]]
    for line in lines:
        if line == "end":
            runs.append([])
        else:
            runs[-1].append(line)
    return runs[:-1], runs[-1]


def judge(trial, fault, counts, seen):
    """The ending of a run with this fault, one of ENDINGS; Unlawful where it is none of them."""
    if seen == trial.clean:
        return "whole"
    whole, _ = runs_in(trial.clean.out.decode().splitlines())
    answers, rest = runs_in(seen.out.decode().splitlines())
    if rest:
        raise Unlawful("the output ends inside the answer to a run")
    if seen.status != trial.clean.status:
        if seen.status != 1 or whole[:len(answers)] != answers:
            raise Unlawful("the program ended otherwise than by an error behind right answers")
        return "ended"
    with open(trial.source, encoding="ascii") as source:
        told, _ = runs_in(source.read().splitlines())
    changed = [place for place, answer in enumerate(answers) if answer != whole[place]]
    if len(answers) != len(whole) or len(changed) != 1:
        raise Unlawful("more than one run is answered otherwise")
    refusals = Judged(told[changed[0]], whole[changed[0]], answers[changed[0]]).judge()
    if len(refusals) != 1:
        raise Unlawful(f"one allocation was refused, and these were: {refusals}")
    return refusals[0]
