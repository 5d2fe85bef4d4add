"""Which endings of the command `run` are lawful under each fault.

The words behind `run` are the capture, the ruleset and the flags, each with its value. The outputs are the files that
the flags name, and what a peer gets. What is to stand in them is told by the run without a fault, and by the model how
much of the messages is out behind each packet.

A run may have several captures. That of the interface at place K, and its packets, are called `captureK` and
`packetsK`, but for those of the first one.
"""

from functools import lru_cache
from itertools import accumulate
from pathlib import Path
from typing import NamedTuple

from captures import merging
from captures.merging import Source, source_of
from captures.model import Refused
from faults.trial import PEER, Part, Seen, Target, Unlawful, check, ending_told, lawful, name_in
from runs import model
from runs.case import NO_SEED, Also, Case
from runs.comparison import MOST_INTERFACES
from runs.model import Files

# the packets of a batch where the command says nothing of them
BATCH = 256
HEADER, RECORD_HEADER = 24, 16
TRANSFER = ("fail", "cut", "zero")
# the places of interfaces behind the first one, and the names of the captures and packets by the places of their interfaces
LATER = range(1, MOST_INTERFACES)
CAPTURE_NAMES, PACKETS_NAMES = (tuple([word, *(f"{word}{place}" for place in LATER)]) for word in ("capture", "packets"))
# in the order in which they are opened; of the last two there is one at most
OUTPUTS = ("verdicts", *PACKETS_NAMES, "counters", "states", "messages", PEER)

MEMORY = Target("allocation", "", ("fail",))
CAPTURES = tuple(Target("read", "", TRANSFER, name) for name in CAPTURE_NAMES)
READS = dict(zip(CAPTURE_NAMES, CAPTURES))
CAPTURE, RULES = CAPTURES[0], Target("read", "", TRANSFER, "rules")
WRITES = {name: Target("write", "", TRANSFER, name) for name in OUTPUTS}
ANSWER, ERROR = (Target("write", descriptor, TRANSFER) for descriptor in ("1", "2"))
TARGETS = (MEMORY, *CAPTURES, RULES, *WRITES.values(), ANSWER, ERROR)


def told_name(name):
    """What an output is called in what is said of it."""
    return "packets" if name in PACKETS_NAMES else "messages" if name == PEER else name


# in the order of the summary
ENDINGS = ("whole", "shorter input", "read failed", "cannot open", *(f"{name} failed" for name in model.OUTPUTS),
           "answer failed", "no memory", "error lost")

# a cut read or write changes nothing; what an input that ends early or a lost error leaves is judged apart
LAWFUL = {
    (MEMORY, "fail"): {"whole", "no memory"},
    **{(capture, "fail"): {"read failed"} for capture in CAPTURES},
    (RULES, "fail"): {"cannot open"},
    **{(target, deed): {f"{told_name(name)} failed"} for name, target in WRITES.items() for deed in ("fail", "zero")},
    **{(ANSWER, deed): {"answer failed"} for deed in ("fail", "zero")},
}

COMMITTED = rb"committed (0|[1-9][0-9]*)"
TEXTS = (
    ("read failed", 3, rb"read failed(?:: [^,]*)?, " + COMMITTED),
    *((f"{name} failed", 3, rb"write failed: %s, " % name.encode() + COMMITTED) for name in model.OUTPUTS),
    ("answer failed", 3, rb"write failed[^,]*"),
    ("cannot open", 3, rb"cannot open: (.*)"),
    ("no memory", 4, rb"no memory, " + COMMITTED),
    ("no memory", 4, rb"rules line 0: no memory"),
)


def places(command):
    """Which words of the command name its files, and its peer."""
    first = command.index("run")
    words = [number for number, word in enumerate(command) if word == "--also"]
    also = [(f"{name}{place}", Part(number + 1, part)) for place, number in enumerate(words, 1)
            for name, part in (("capture", 2), ("packets", 3))]
    return {"capture": first + 1, "rules": first + 2, **dict(also),
            **{name: command.index(f"--{name}") + 1 for name in OUTPUTS if f"--{name}" in command}}


def outputs_of(command):
    """The names of what the command writes."""
    return [name for name in OUTPUTS if name in places(command)]


def seen_of(command, outcome):
    """How a run of the command ended, of which an outcome tells."""
    return Seen(outcome.status, outcome.out, outcome.err, outcome.files.in_order()[:len(outputs_of(command))])


class Known(NamedTuple):
    """A command of which it is known how it ends without a fault. It tells the judges what they ask of a trial. The
    `ends` say how many bytes of messages are out behind each number of packets, where the model isn't to be asked."""
    command: list
    clean: Seen
    ends: list | None = None

    def name_of(self, file):
        """The name of one of the command's files."""
        return name_in(self.command, places(self.command)[file])


# What the outputs hold

def flags_of(command):
    """The flags of a command with their values."""
    words = command[command.index("run") + 3:]
    return dict(zip(words[::2], words[1::2]))


def batch_of(command):
    """The packets of a batch."""
    return int(flags_of(command).get("--batch", BATCH))


def also_of(command):
    """Of each interface behind the first its name, its address, its capture and its packets."""
    return [word.split(",") for before, word in zip(command, command[1:]) if before == "--also"]


def case_of(command):
    """The run of a command as the model has it."""
    first, flags = command.index("run"), flags_of(command)
    capture, rules = command[first + 1:first + 3]
    also = tuple(Also(name, address, Path(file).read_bytes()) for name, address, file, _ in also_of(command))
    return Case("", Path(rules).read_bytes(), flags["--inside"], Path(capture).read_bytes(), flags["--interface"],
                flags["--address"], flags.get("--seed", NO_SEED), also)


def names_of(command):
    """The names of the interfaces of a command, by their places."""
    return [flags_of(command)["--interface"], *(also[0] for also in also_of(command))]


def form_of(command):
    return model.PEER if "--peer" in command else model.FILE if "--messages" in command else model.NONE


def files_of(texts, others=0):
    """Files in which these texts stand in the order of the outputs, with the packets of `others` other interfaces."""
    verdicts, packets, *more = texts
    counters, states, messages = (*more[others:], None)[:3]
    return Files(verdicts, packets, counters, states, messages, tuple(more[:others]))


def texts_of(texts, others=0):
    """The same, but that nothing stands in a file that isn't there."""
    files = files_of([text or b"" for text in texts], others)
    return files._replace(messages=files.messages or b"")


def texts_in(trial, seen):
    """What stands in the files of a trial."""
    return texts_of(seen.files, len(also_of(trial.command)))


def nothing_in(files):
    """The same files without a byte."""
    return Files(b"", b"", b"", b"", b"", (b"",) * len(files.others))


def with_packets(files, texts):
    """Files with these packets, by the places of their interfaces."""
    return files._replace(packets=texts[0], others=tuple(texts[1:]))


def packets_in(files):
    """The packets by the places of their interfaces."""
    return [files.packets, *files.others]


def text_of(files, name):
    """What stands in the output of a name."""
    return packets_in(files)[PACKETS_NAMES.index(name)] if name in PACKETS_NAMES else getattr(files, told_name(name))


def with_text(files, name, text):
    """Files with another text in the output of a name."""
    if name not in PACKETS_NAMES:
        return files._replace(**{told_name(name): text})
    texts = packets_in(files)
    texts[PACKETS_NAMES.index(name)] = text
    return with_packets(files, texts)


class Whole:
    """What a run without a fault leaves in the files, by the number of packets. `messages_end` says how many bytes of
    messages are out behind each, and the names are those of its interfaces, if they are several."""

    def __init__(self, files, messages_end, batch=BATCH, names=()):
        self.batch = batch
        self.files = files
        lines = self.files.verdicts.splitlines(keepends=True)
        self.count = len(lines)
        self.lines_end = list(accumulate(map(len, lines), initial=0))
        marks = [f" i={name}\n".encode() for name in names] if len(names) > 1 else [b""]
        self.packets_ends = [ends_of_packets(packets, lines, mark) for packets, mark in zip(packets_in(files), marks)]
        self.messages_end = messages_end
        if len(messages_end) != self.count + 1:
            raise Unlawful("the model has another number of packets")

    def online(self, count):
        """What the files hold once `count` packets are written, and the run goes on."""
        packets = [text[:ends[count]] for text, ends in zip(packets_in(self.files), self.packets_ends)]
        return with_packets(nothing_in(self.files), packets)._replace(
            verdicts=self.files.verdicts[:self.lines_end[count]], messages=self.files.messages[:self.messages_end[count]])

    def boundaries(self):
        """The numbers of packets at which a batch ends."""
        return sorted({*range(self.batch, self.count + 1, self.batch), self.count} - {0})

    def is_held(self, count, files):
        """Whether files hold at least what belongs to `count` packets."""
        return all(len(text) >= len(least) for text, least in zip(files.in_order(), self.online(count).in_order()))

    def held(self, files):
        """The greatest boundary up to which all is there, 0 where there is none."""
        return max((count for count in self.boundaries() if self.is_held(count, files)), default=0)

    def behind(self, count):
        """The least boundary above a number, or the number where there is none."""
        return min((boundary for boundary in self.boundaries() if boundary > count), default=count)

    def most(self, committed):
        """What the files may hold at most if `committed` packets are told as committed."""
        return self.files if committed == self.count else self.online(self.behind(committed))

    def writes(self):
        """The writes in their order: the output of each, and how many bytes it holds then. Some write nothing."""
        names = PACKETS_NAMES[:len(self.packets_ends)]
        yield from ((name, ends[0]) for name, ends in zip(names, self.packets_ends))
        for files in map(self.online, self.boundaries()):
            yield from ((name, len(text_of(files, name))) for name in ("messages", "verdicts", *names))
        yield from ((name, len(text_of(self.files, name))) for name in ("messages", "counters", "states"))

    def lacks_header(self, name, files):
        """Whether the write to an output that failed is that of a capture's header, which comes before all lines."""
        return name in PACKETS_NAMES and not files.verdicts

    def failing(self, name, committed, files):
        """What is written before the write to an output that fails."""
        now, following = self.online(committed), self.online(self.behind(committed))
        if name in PACKETS_NAMES:
            # those of the interfaces before it are written
            before = nothing_in(self.files) if self.lacks_header(name, files) else following
            place, headers = PACKETS_NAMES.index(name), self.online(0)
            written, left = (headers, before) if self.lacks_header(name, files) else (following, now)
            return with_packets(before, packets_in(written)[:place] + packets_in(left)[place:])
        return {"messages": now, "verdicts": now._replace(messages=following.messages),
                "counters": self.files._replace(counters=b"", states=b""),
                "states": self.files._replace(states=b"")}[told_name(name)]

    def through(self, name, committed, files):
        """How many bytes the output whose write fails would hold behind it."""
        return len(text_of(self.online(0) if self.lacks_header(name, files) else self.most(committed), name))


def ends_of_packets(packets, lines, mark):
    """Where the text of packets ends behind each number of lines, of which those with this mark are of their interface."""
    order = "little" if packets[:1] in (b"\xd4", b"\x4d") else "big"
    ends = [min(HEADER, len(packets))]
    for line in lines:
        place = ends[-1]
        if line.endswith(mark) and line.split()[3] in (b"pass", b"skip"):
            place += RECORD_HEADER + int.from_bytes(packets[place + 8:place + 12], order)
        ends.append(place)
    if ends[-1] != len(packets):
        raise Unlawful("the packets aren't those of the lines even without a fault")
    return ends


@lru_cache
def ends_of(words):
    """How many bytes of messages are out behind each number of packets of a command."""
    try:
        return model.message_ends(case_of(words), form_of(words))
    except Refused:
        return [0]


def whole_of(trial):
    command = tuple(map(str, trial.command))
    return Whole(texts_in(trial, trial.clean), getattr(trial, "ends", None) or ends_of(command), batch_of(command),
                 names_of(command))


def is_untouched(seen):
    return all(text is None for text in seen.files)


def check_beginnings(trial, seen):
    """Each output holds a beginning of what it holds without a fault, and files are opened in their order."""
    if not trial.clean.out.startswith(seen.out):
        raise Unlawful("standard output is no beginning of the whole one")
    for name, whole, text in zip(outputs_of(trial.command), trial.clean.files, seen.files):
        if text is not None and (whole is None or not whole.startswith(text)):
            raise Unlawful(f"the {name} are no beginning of the whole ones")
    there = [text is not None for text in seen.files]
    if there != sorted(there, reverse=True) or not all(there) and any(seen.files):
        raise Unlawful("a file isn't there, though a later one is, or something is written")


# Endings

def judge(trial, fault, counts, seen):
    """The ending of a run with this fault, one of ENDINGS; Unlawful where it is none of the lawful ones."""
    return judge_by(check_committed, trial, fault, counts, seen)


def judge_part(trial, fault, counts, seen):
    """The same where a write fails that may have written a part."""
    return judge_by(check_part, trial, fault, counts, seen)


def judge_by(check_outputs, trial, fault, counts, seen):
    """The same, where a function checks what the outputs hold of the packets that are told as committed."""
    if fault.target in (*CAPTURES, RULES) and fault.deed == "zero":
        return judge_shorter(trial, fault, counts, seen)
    check_beginnings(trial, seen)
    if fault.target == ERROR and fault.deed != "cut":
        return judge_lost(trial.clean, seen)
    ending, told = told_of(trial, seen)
    lawful(ending, fault, LAWFUL)
    check_ending(check_outputs, trial, ending, told, fault, counts, seen)
    return ending


def told_of(trial, seen):
    """The ending that status and standard error tell, and what is told besides: a number or a name."""
    if seen == trial.clean:
        return "whole", None
    ending, found = ending_told(TEXTS, seen)
    return ending, found[1] if found.groups() else None


def check_ending(check_outputs, trial, ending, told, fault, counts, seen):
    """What is told holds of the outputs; what it says of committed packets is checked by a function."""
    if ending == "whole":
        return
    if ending == "answer failed":
        check(seen.files == trial.clean.files, "a file isn't whole, though only the answer failed")
        return
    check(not seen.out, "something is answered on standard output")
    if ending == "cannot open":
        check(told == trial.name_of("rules").encode(), "standard error names another file")
        check(is_untouched(seen), "a file is opened before the ruleset was read")
    elif told is None:
        # the ruleset is read once before a file is opened, and once more by the run
        check(not any(seen.files), "something is written, though the ruleset wasn't read")
    else:
        check_outputs(trial, ending, int(told), fault, counts, seen)


def check_committed(trial, ending, committed, fault, counts, seen):
    """The outputs hold what belongs to the committed packets, and no more than may be there."""
    whole, files = whole_of(trial), texts_in(trial, seen)
    if ending == "read failed":
        check(None not in seen.files, "a file isn't opened before the capture is read")
        check_name(trial, fault, seen)
        check_read(trial, whole, committed, CAPTURES.index(fault.target), counts, files)
        return
    check(committed == whole.held(files), "another number of packets is committed than is there")
    if ending == "no memory":
        check_refused(whole, committed, files)
        return
    check(None not in seen.files, "a file isn't opened before the first write")
    check(files == whole.failing(fault.target.file, committed, files),
          "the files aren't those of the writes before the one that failed")


def check_part(trial, _ending, committed, fault, _counts, seen):
    """The same where a write failed that may have written a part, as on a disk that is full. The part lacks the last
    byte of what was to be written."""
    whole, files, name = whole_of(trial), texts_in(trial, seen), fault.target.file
    check(None not in seen.files, "a file isn't opened before the first write")
    check(committed == whole.held(files), "another number of packets is committed than is there")
    before = whole.failing(name, committed, files)
    check(with_text(files, name, b"") == with_text(before, name, b""),
          "the others aren't those of the writes before the one that failed")
    check(len(text_of(files, name)) < whole.through(name, committed, files), "all is there of the write that failed")


def check_name(trial, fault, seen):
    """What is said of a read that failed names the interface of its capture, if there are several."""
    names = names_of(trial.command)
    name = f": {names[CAPTURES.index(fault.target)]}" if len(names) > 1 else ""
    check(seen.err.startswith(f"pfreplay: read failed{name}, ".encode()), "standard error names another capture")


def check_read(trial, whole, committed, place, counts, files):
    """After a read that failed of the capture of a place the outputs are just those of the records read before it."""
    captures = [Path(trial.name_of(name)).read_bytes() for name in CAPTURE_NAMES[:len(whole.packets_ends)]]
    given = captures[place][:counts.moved]
    count = records_before(captures, place, given) if len(given) >= HEADER else 0
    check(committed == count, f"{count} whole records were read")
    expected = whole.online(count) if len(given) >= HEADER else nothing_in(whole.files)
    check(files == expected, "the files aren't those of the records read before")


def records_before(captures, place, given):
    """How many records of all captures come before a read fails behind the beginning that was given of one."""
    sources = list(map(source_of, captures))
    sources[place] = Source(source_of(given).records, "read failed")
    return len(merging.merged(sources).records)


def check_refused(whole, committed, files):
    """Where memory was refused no output goes past the next boundary. Behind all the last message is written, then the
    counters, and then the states."""
    most, ended = whole.most(committed), whole.files
    check(all(len(text) <= len(longest) for text, longest in zip(files.in_order(), most.in_order())),
          "more is written than the next batch")
    check(not files.counters or files._replace(counters=b"", states=b"") == ended._replace(counters=b"", states=b""),
          "counters are written before the end")
    check(not files.states or files.counters == ended.counters, "states are written before the counters")


def judge_shorter(trial, fault, counts, seen):
    """An input that ends early is as a file of that length, the ruleset's or the capture's."""
    file = fault.target.file
    with trial.beginning(trial.name_of(file), counts.moved) as shorter:
        expected = trial.without_fault(trial.with_name(file, shorter.name))
    if seen != expected:
        raise Unlawful(f"a file of {counts.moved} bytes ends with status {expected.status}, {expected.err!r}")
    return "whole" if seen == trial.clean else "shorter input"


def judge_lost(clean, seen):
    """Where standard error can't be written the text may be lost, all of it or its end, but no more."""
    if seen._replace(err=clean.err) != clean or not clean.err.startswith(seen.err):
        raise Unlawful("more was lost than the text on standard error")
    return "whole" if seen == clean else "error lost"
