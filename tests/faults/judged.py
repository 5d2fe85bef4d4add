"""Made-up endings of a run of 600 packets, and of one with two captures: the judge of replays has to allow the right ones
and refuse the others, and so does the judge of runs with workers.

The run itself is the model's, so no program is needed.
"""

import tempfile
from pathlib import Path
from typing import NamedTuple

from captures.packets import capture_header, record, udp
from faults import replay, workers
from faults.trial import PEER, Counts, Fault, Seen, Unlawful
from runs import model
from runs.case import Also, Case
from runs.comparison import also_of
from runs.model import Files

# each second one makes a state, so that six of these fill a message
PACKETS = [packet for number in range(300) for packet in (udp("10.0.0.5", 1000 + number, "198.51.100.7", 53),
                                                          udp("203.0.113.9", 9, "192.0.2.1", 9))]
RULES = b"block in\npass out"
CAPTURE = capture_header() + b"".join(record(0, 0, packet) for packet in PACKETS)
CASE = Case("made up", RULES, "10.0.0.0/8", CAPTURE)
RECORD = 16 + len(PACKETS[0])
HEADER = 24
BATCH, TWO_BATCHES, COUNT = 256, 512, 600


def flows_of(host):
    """A capture of 300 flows of a host, one a second."""
    packets = (udp(host, 1000 + number, "198.51.100.7", 53) for number in range(300))
    return capture_header() + b"".join(record(second, 0, packet) for second, packet in enumerate(packets))


# flows on two interfaces, by turns
TWO = Case("made up, two captures", RULES, "10.0.0.0/8", flows_of("10.0.0.5"),
           also=(Also("em1", "203.0.113.2/24", flows_of("10.0.0.6")),))


class Ending(NamedTuple):
    name: str
    target: replay.Target
    err: str
    status: int
    files: Files
    out: bytes = b""
    # bytes that were read before the fault
    moved: int = 0


def trial_of(captures, rules, form, case=CASE):
    """A made-up run of captures with its messages in a form."""
    outcome = model.run(case, form)
    names = {model.FILE: model.OUTPUTS, model.PEER: (*model.REQUIRED, PEER), model.NONE: model.REQUIRED}[form]
    words = ["program", "run", captures[0], rules, "--interface", case.interface, "--address", case.address, "--inside",
             case.inside, *(word for name in names for word in (f"--{name}", name)),
             *also_of(case, captures[1:], replay.PACKETS_NAMES[1:])]
    return replay.Known(words, replay.seen_of(words, outcome))


class Pieces:
    """What the outputs hold after some packets."""

    def __init__(self, trial):
        self.whole = replay.texts_in(trial, trial.clean)
        self.told = replay.whole_of(trial)

    def online(self, count, **others):
        """After `count` packets, but with some other outputs."""
        return self.told.online(count)._replace(**others)

    def ended(self, **others):
        return self.whole._replace(**others)


NOTHING = Files(b"", b"", b"", b"", b"")


def failing(name, output, committed, files, **more):
    return Ending(name, replay.WRITES[output], f"write failed: {replay.told_name(output)}, committed {committed}", 3, files,
                  **more)


def reading(name, committed, files, moved):
    return Ending(name, replay.CAPTURE, f"read failed, committed {committed}", 3, files, moved=moved)


def refusing(name, committed, files):
    return Ending(name, replay.MEMORY, f"no memory, committed {committed}", 4, files)


def right_endings(pieces):
    """Endings that are lawful, whatever the form of the messages."""
    for count, following in ((0, BATCH), (BATCH, TWO_BATCHES), (TWO_BATCHES, COUNT)):
        now, then = pieces.online(count), pieces.online(following)
        yield failing(f"verdicts behind {count}", "verdicts", count, now._replace(messages=then.messages))
        yield failing(f"packets behind {count}", "packets", count, then._replace(packets=now.packets))
        yield refusing(f"memory behind {count}", count, now)
        yield refusing(f"memory between messages and verdicts behind {count}", count,
                       now._replace(messages=then.messages))
        yield refusing(f"memory between verdicts and packets behind {count}", count, then._replace(packets=now.packets))
    yield failing("the capture's header", "packets", 0, NOTHING)
    yield failing("counters", "counters", COUNT, pieces.ended(counters=b"", states=b""))
    yield failing("states", "states", COUNT, pieces.ended(states=b""))
    yield refusing("memory for the last message", COUNT, pieces.online(COUNT))
    yield refusing("memory for the counters", COUNT, pieces.ended(counters=b"", states=b""))
    yield refusing("memory for the answer", COUNT, pieces.whole)
    yield refusing("memory before a file is opened", 0, Files())
    yield refusing("memory between two files", 0, Files(b"", b""))
    yield refusing("memory before the last file", 0, NOTHING._replace(messages=None))
    yield Ending("memory for the ruleset", replay.MEMORY, "rules line 0: no memory", 4, Files())
    yield Ending("memory for the ruleset in the run", replay.MEMORY, "rules line 0: no memory", 4, NOTHING)
    for count in (0, 1, 255, BATCH, 257, COUNT):
        yield reading(f"a read behind {count} records", count, pieces.online(count), HEADER + count * RECORD + 20)
    yield reading("the first read", 0, NOTHING, 0)
    yield reading("a read in the header", 0, NOTHING, HEADER - 1)
    yield Ending("the answer", replay.ANSWER, "write failed: standard output", 3, pieces.whole)
    yield Ending("the ruleset", replay.RULES, "cannot open: RULES", 3, Files())


def right_messages(pieces, target):
    """Those of messages that are written to a target."""
    for count in (0, BATCH, TWO_BATCHES):
        yield Ending(f"messages behind {count}", target, f"write failed: messages, committed {count}", 3,
                     pieces.online(count))
    yield Ending("the last message", target, f"write failed: messages, committed {COUNT}", 3, pieces.online(COUNT))


def wrong_endings(pieces):
    """Endings that aren't, each by one thing."""
    for some in (wrong_reads, wrong_counts, wrong_writes, wrong_refusals, wrong_answers):
        yield from some(pieces)


def wrong_reads(pieces):
    _, _, counters, states, *_ = pieces.whole
    behind_read = HEADER + 300 * RECORD
    yield reading("counters behind a read that failed", 300, pieces.online(300, counters=counters), behind_read)
    yield reading("states behind a read that failed", 300, pieces.online(300, states=states), behind_read)
    yield reading("one committed too many", 301, pieces.online(300), behind_read)
    yield reading("one committed too few", 299, pieces.online(300), behind_read)
    yield reading("the last batch not written", BATCH, pieces.online(BATCH), behind_read)
    yield reading("a packet that wasn't read", 301, pieces.online(301), behind_read)
    yield reading("a header that wasn't read", 0, pieces.online(0), HEADER - 1)
    yield reading("a file that isn't opened", 0, NOTHING._replace(states=None, messages=None), 0)


def wrong_counts(pieces):
    """Another number is told as committed."""
    files = pieces.online(BATCH, messages=pieces.online(TWO_BATCHES).messages)
    for count, name in ((0, "none"), (TWO_BATCHES, "too many"), (255, "no boundary"), (BATCH + 1, "one too many")):
        yield failing(f"verdicts, {name} committed", "verdicts", count, files)
        yield refusing(f"memory, {name} committed", count, pieces.online(BATCH))


def wrong_writes(pieces):
    verdicts, packets, counters, *_ = pieces.whole
    first, two_batches = pieces.online(BATCH), pieces.online(TWO_BATCHES)
    yield failing("packets before verdicts", "verdicts", 0, first._replace(verdicts=b""))
    yield failing("packets before verdicts, told of the packets", "packets", 0, pieces.online(0))
    yield failing("no header before the verdicts", "packets", 0, first._replace(packets=b""))
    yield failing("a part of a write that failed", "verdicts", 0, first._replace(verdicts=verdicts[:10],
                                                                               packets=packets[:HEADER]))
    header_twice = packets[:HEADER] + packets
    yield failing("the header twice", "counters", COUNT, pieces.ended(packets=header_twice, counters=b"", states=b""))
    yield failing("another output", "packets", BATCH, pieces.online(BATCH))
    yield failing("counters behind verdicts that failed", "verdicts", BATCH,
                  pieces.online(BATCH, messages=two_batches.messages, counters=counters))
    yield failing("states before counters", "counters", COUNT, pieces.ended(counters=b""))
    yield failing("no counters before the states", "states", COUNT, pieces.ended(counters=b"", states=b""))
    yield failing("a whole run that is told to have failed", "states", COUNT, pieces.whole)
    yield failing("a line too few before the counters", "counters", COUNT,
                  pieces.ended(verdicts=verdicts[:-1], counters=b"", states=b""))


def wrong_refusals(pieces):
    _, packets, counters, *_ = pieces.whole
    two_batches = pieces.online(TWO_BATCHES)
    yield refusing("counters, and not all packets", TWO_BATCHES, two_batches._replace(counters=counters))
    yield refusing("states without counters", COUNT, pieces.ended(counters=b""))
    yield refusing("two batches past what is told", 0, two_batches._replace(packets=packets[:HEADER]))
    yield refusing("a file missing between others", 0, NOTHING._replace(packets=None))
    yield refusing("a file written before all are open", 0, Files(b"", packets[:HEADER]))


def wrong_answers(pieces):
    """Status, text or standard output aren't those of the fault."""
    yield Ending("the status of another end", replay.MEMORY, "no memory, committed 0", 3, Files())
    yield Ending("a stop that isn't told", replay.WRITES["verdicts"], "", 0, pieces.online(0))
    yield Ending("a read that fails for no reason", replay.MEMORY, "read failed, committed 0", 3, NOTHING)
    yield Ending("an answer besides", replay.WRITES["states"], f"write failed: states, committed {COUNT}", 3,
                 pieces.ended(states=b""), b"committed 600\n")
    yield Ending("a file opened before the ruleset", replay.RULES, "cannot open: RULES", 3, Files(b""))
    yield Ending("another file's name", replay.RULES, "cannot open: capture", 3, Files())
    yield Ending("files cut off by the answer", replay.ANSWER, "write failed: standard output", 3, pieces.online(COUNT))
    yield Ending("two lines", replay.MEMORY, "no memory, committed 0\n", 4, Files())


def wrong_messages(pieces, target):
    """Those where there are messages, which are written to a target."""
    _, _, counters, states, messages, _ = pieces.whole
    first, second = pieces.online(BATCH), pieces.online(TWO_BATCHES)
    behind_read = HEADER + 300 * RECORD

    def told(name, committed, files):
        return Ending(name, target, f"write failed: messages, committed {committed}", 3, files)

    yield told("verdicts before messages", 0, first._replace(messages=b""))
    yield told("verdicts before messages, behind a batch", BATCH, second._replace(messages=first.messages))
    yield told("a part of the messages that failed", 0, pieces.online(0, messages=first.messages[:10]))
    yield told("messages that are told to have failed and are there", BATCH, first._replace(messages=second.messages))
    yield told("a batch that isn't committed", BATCH, pieces.online(0, messages=first.messages))
    yield told("the last message failed and is there", COUNT, pieces.ended(counters=b"", states=b""))
    yield told("counters before the last message", COUNT, pieces.online(COUNT, counters=counters))
    yield told("states before the last message", COUNT, pieces.online(COUNT, counters=counters, states=states))
    yield told("the last message, and less is committed", TWO_BATCHES, pieces.online(COUNT))
    yield failing("messages behind verdicts", "verdicts", BATCH, first)
    yield failing("messages behind packets", "packets", BATCH, second._replace(packets=first.packets,
                                                                              messages=first.messages))
    yield failing("no last message before the counters", "counters", COUNT, pieces.online(COUNT))
    yield failing("no last message before the states", "states", COUNT, pieces.online(COUNT, counters=counters))
    yield reading("the open message behind a read that failed", 300,
                  pieces.online(300, messages=messages[:len(pieces.online(300).messages) + 1482]), behind_read)
    yield reading("a message missing behind a read that failed", 300, pieces.online(300, messages=first.messages),
                  behind_read)
    yield reading("no messages behind a read that failed", 300, pieces.online(300, messages=b""), behind_read)
    yield refusing("messages of a batch that is committed are missing", BATCH, first._replace(messages=b""))
    yield refusing("messages two batches past what is told", 0, pieces.online(0, messages=second.messages))
    yield refusing("the last message, and not all packets", TWO_BATCHES, second._replace(messages=messages))
    yield refusing("counters without the last message", COUNT, pieces.online(COUNT, counters=counters))
    yield refusing("messages opened before the states", 0, NOTHING._replace(states=None))
    yield Ending("the answer without the last message", replay.ANSWER, "write failed: standard output", 3,
                 pieces.ended(messages=pieces.online(COUNT).messages))
    yield told("one committed too many", 1, pieces.online(0))
    yield told("other messages", 0, pieces.online(0, messages=b"E\x11"))


def right_beside_workers(pieces):
    """Those of a run with workers that are lawful besides: outputs may hold more than belongs to what is told, as long
    as they are beginnings."""
    packets = pieces.whole.packets
    yield refusing("memory far behind what is told", 0, pieces.online(COUNT))
    yield refusing("memory at no boundary", 255, pieces.online(255))
    yield refusing("memory behind a part of what follows", BATCH, pieces.online(TWO_BATCHES, packets=packets[:-1]))
    yield refusing("memory for the states", COUNT, pieces.ended(states=b""))
    yield failing("lines of a batch that isn't told", "packets", 1, pieces.online(BATCH))
    yield reading("fewer records told than were read", 299, pieces.online(300), HEADER + 300 * RECORD)
    yield Ending("a whole run", replay.MEMORY, "", 0, pieces.whole, b"committed 600\n")


def wrong_beside_workers(pieces):
    """Those of a run with workers that aren't."""
    verdicts, packets, _, states, messages, _ = pieces.whole
    first = pieces.online(BATCH)
    for name, text in (("verdicts", verdicts), ("packets", packets), ("states", states)):
        yield refusing(f"{name} that aren't a beginning", 0, first._replace(**{name: text[1:]}))
        yield refusing(f"{name} that go on behind the last", COUNT, pieces.ended(**{name: text + b"\n"}))
    for name in ("verdicts", "packets", *(["messages"] if messages else [])):
        yield refusing(f"{name} of packets that are committed are missing", BATCH,
                       first._replace(**{name: getattr(first, name)[:-1]}))
    yield refusing("more is committed than there is", COUNT + 1, pieces.whole)
    yield failing("more is told at a failed write than is there", "verdicts", TWO_BATCHES, first)
    yield reading("more is told at a failed read than is there", 300, first, HEADER + 300 * RECORD)
    yield refusing("a file missing between others", 0, NOTHING._replace(packets=None))
    yield Ending("another fault than came", replay.MEMORY, "write failed: verdicts, committed 0", 3, NOTHING)
    yield Ending("the status of another end", replay.MEMORY, "no memory, committed 0", 3, NOTHING)
    yield Ending("a signal", replay.MEMORY, "", -6, first)
    yield Ending("a stop that isn't told", replay.WRITES["verdicts"], "", 0, first)
    yield Ending("a run that isn't whole and tells no fault", replay.MEMORY, "", 0, pieces.ended(states=b""),
                 b"committed 600\n")
    yield Ending("an answer besides", replay.MEMORY, "no memory, committed 600", 4, pieces.whole, b"committed 600\n")
    yield Ending("two lines", replay.MEMORY, "no memory, committed 0\n", 4, NOTHING)


def right_parts(pieces):
    """Those that are lawful where a write may be done in part: of what is to be written all may be there but a byte."""
    now, then = pieces.online(BATCH), pieces.online(TWO_BATCHES)
    header, counters, states = pieces.whole.packets[:HEADER], pieces.whole.counters, pieces.whole.states
    yield from (ending for ending in right_endings(pieces) if ending.target in replay.WRITES.values())
    for most, name in ((1, "one byte"), (-1, "all but one byte")):
        yield failing(f"{name} of the header", "packets", 0, NOTHING._replace(packets=header[:most]))
        yield failing(f"{name} of the counters", "counters", COUNT, pieces.ended(counters=counters[:most], states=b""))
        yield failing(f"{name} of the states", "states", COUNT, pieces.ended(states=states[:most]))
    for most in (1, len(then.verdicts) - len(now.verdicts) - 1):
        yield failing(f"{most} bytes of the lines", "verdicts", BATCH, now._replace(
            messages=then.messages, verdicts=then.verdicts[:len(now.verdicts) + most]))
    for most in (1, len(then.packets) - len(now.packets) - 1):
        yield failing(f"{most} bytes of the packets", "packets", BATCH, then._replace(
            packets=then.packets[:len(now.packets) + most]))


def right_part_messages(pieces, target):
    """Those of messages that are written to a target."""
    now, then = pieces.online(BATCH), pieces.online(TWO_BATCHES)
    yield from right_messages(pieces, target)
    for name, files, committed, text in (("messages", now, BATCH, then.messages),
                                         ("the last message", pieces.online(COUNT), COUNT, pieces.whole.messages)):
        for most in (len(files.messages) + 1, len(text) - 1):
            yield Ending(f"{name} up to byte {most}", target, f"write failed: messages, committed {committed}", 3,
                         files._replace(messages=text[:most]))


def wrong_parts(pieces):
    """Those that aren't, each by one thing."""
    verdicts, packets, counters, states, *_ = pieces.whole
    now, then = pieces.online(BATCH), pieces.online(TWO_BATCHES)
    part = now._replace(messages=then.messages, verdicts=then.verdicts[:-10])
    yield failing("all of the header", "packets", 0, NOTHING._replace(packets=packets[:HEADER]))
    yield failing("all of the lines", "verdicts", BATCH, part._replace(verdicts=then.verdicts))
    yield failing("all of the packets", "packets", BATCH, then)
    yield failing("all of the counters", "counters", COUNT, pieces.ended(states=b""))
    yield failing("all of the states", "states", COUNT, pieces.whole)
    for committed, name in ((0, "a batch too few"), (BATCH - 1, "one too few"), (BATCH + 1, "one too many"),
                            (then.verdicts[:-10].count(b"\n"), "the whole lines"), (TWO_BATCHES, "a batch too many")):
        yield failing(f"a part of the lines, {name} committed", "verdicts", committed, part)
    yield failing("the last whole line missing", "verdicts", BATCH, now._replace(
        messages=then.messages, verdicts=now.verdicts[:-1]))
    yield failing("the last whole packet missing", "packets", BATCH, then._replace(packets=now.packets[:-1]))
    yield failing("other bytes in the part", "verdicts", BATCH, part._replace(verdicts=part.verdicts[:-1] + b"?"))
    yield failing("a part of another output", "packets", BATCH, then._replace(
        verdicts=part.verdicts, packets=now.packets))
    yield failing("packets behind lines that failed", "verdicts", BATCH, part._replace(
        packets=packets[:len(now.packets) + 1]))
    yield failing("counters behind lines that failed", "verdicts", BATCH, part._replace(counters=counters))
    yield failing("lines behind a header that failed", "packets", 0, pieces.online(0, packets=packets[:10],
                                                                                  verdicts=verdicts[:10]))
    yield failing("states behind counters that failed", "counters", COUNT, pieces.ended(counters=counters[:-1]))
    yield failing("a part of the counters before the states", "states", COUNT, pieces.ended(
        counters=counters[:-1], states=states[:-1]))
    yield failing("a file that isn't there", "packets", 0, NOTHING._replace(states=None, messages=None))
    yield failing("an answer besides", "verdicts", BATCH, part, out=b"committed 256\n")
    for status, err in ((4, f"write failed: verdicts, committed {BATCH}"), (-13, ""), (0, "")):
        yield Ending(f"a status of {status}", replay.WRITES["verdicts"], err, status, part)


def wrong_part_messages(pieces, target):
    """Those of messages that are written to a target."""
    now, then = pieces.online(BATCH), pieces.online(TWO_BATCHES)
    for name, committed, files in (
            ("all of the messages", BATCH, now._replace(messages=then.messages)),
            ("all of the last message", COUNT, pieces.ended(counters=b"", states=b"")),
            ("lines behind messages that failed", BATCH, then._replace(messages=then.messages[:-1])),
            ("a part of the messages, and another batch", 0, now._replace(messages=then.messages[:-1]))):
        yield Ending(name, target, f"write failed: messages, committed {committed}", 3, files)
    yield failing("a part of the messages before lines that failed", "verdicts", BATCH, now._replace(
        messages=then.messages[:-1]))


# Two captures

TWO_NOTHING = NOTHING._replace(others=(b"",))


def reading_of(name, place, committed, files, moved, interface=None):
    """A read that fails of the capture of a place; an interface is named, that of the place if no other is."""
    return Ending(name, replay.CAPTURES[place], f"read failed: {interface or f'em{place}'}, committed {committed}", 3, files,
                  moved=moved)


def right_of_two(pieces):
    """Endings of a run with two captures that are lawful."""
    header = pieces.whole.packets[:HEADER]
    yield failing("the first header", "packets", 0, TWO_NOTHING)
    yield failing("the second header", "packets1", 0, TWO_NOTHING._replace(packets=header))
    for count, following in ((0, BATCH), (BATCH, TWO_BATCHES), (TWO_BATCHES, COUNT)):
        now, then = pieces.online(count), pieces.online(following)
        yield failing(f"verdicts behind {count}", "verdicts", count, now._replace(messages=then.messages))
        yield failing(f"the first packets behind {count}", "packets", count,
                      then._replace(packets=now.packets, others=now.others))
        yield failing(f"the second packets behind {count}", "packets1", count, then._replace(others=now.others))
        yield refusing(f"memory behind {count}", count, now)
        yield refusing(f"memory between packets behind {count}", count, then._replace(others=now.others))
    yield refusing("memory between two headers", 0, TWO_NOTHING._replace(packets=header))
    yield refusing("memory between two files", 0, Files(b"", b"", others=(None,)))
    yield refusing("memory before the other files", 0, Files(b"", b"", others=(b"",)))
    yield failing("counters", "counters", COUNT, pieces.ended(counters=b"", states=b""))
    yield failing("states", "states", COUNT, pieces.ended(states=b""))
    for place in (0, 1):
        # the packets of both come in turn, and a capture's next one is asked for behind its last one
        for count in (1, 128, 200):
            committed = 2 * count - 1 + place
            yield reading_of(f"a read of em{place} behind {count} records", place, committed, pieces.online(committed),
                             HEADER + count * RECORD + 20)
        yield reading_of(f"a read of em{place} behind its header", place, 0, pieces.online(0), HEADER)
        yield reading_of(f"a read of em{place} in its header", place, 0, TWO_NOTHING, HEADER - 1)


def wrong_of_two(pieces):
    """Endings of a run with two captures that aren't."""
    header, first, second = pieces.whole.packets[:HEADER], pieces.online(BATCH), pieces.online(TWO_BATCHES)
    behind, ended = HEADER + 100 * RECORD, pieces.whole
    yield failing("the second header before the first", "packets", 0, TWO_NOTHING._replace(others=(header,)))
    yield failing("the first header is missing", "packets1", 0, TWO_NOTHING)
    yield failing("the second header, and lines", "packets1", 0, first._replace(packets=header, others=(b"",)))
    yield failing("the second packets before the first", "packets", BATCH, second._replace(packets=first.packets))
    yield failing("the first packets aren't there", "packets1", BATCH,
                  second._replace(packets=first.packets, others=first.others))
    yield failing("the second packets are told as the first", "packets", BATCH, second._replace(others=first.others))
    yield failing("the second packets, and a batch too many", "packets1", TWO_BATCHES, second._replace(others=first.others))
    yield failing("the second packets are there", "packets1", BATCH, second)
    yield failing("counters without the last packets", "counters", COUNT, ended._replace(
        counters=b"", states=b"", others=(ended.others[0][:-1],)))
    yield refusing("memory, and packets past the next batch", 0, first._replace(others=second.others))
    yield refusing("memory, and the second packets are missing", BATCH, first._replace(others=(header,)))
    yield refusing("memory for the counters without the last packets", TWO_BATCHES, pieces.ended(
        states=b"", others=second.others))
    yield refusing("a file missing between others", 0, TWO_NOTHING._replace(others=(None,)))
    for place, count in ((0, 199), (1, 200)):
        files = pieces.online(count)
        yield reading_of("another interface is named", place, count, files, behind, f"em{1 - place}")
        yield Ending("no interface is named", replay.CAPTURES[place], f"read failed, committed {count}", 3, files,
                     moved=behind)
        for other in (count - 1, count + 1):
            yield reading_of("one too few or too many", place, other, files, behind)
            yield reading_of("a packet too few or too many", place, other, pieces.online(other), behind)
        yield reading_of("counters behind a read", place, count, files._replace(counters=ended.counters), behind)
        yield reading_of("headers that weren't read", place, 0, pieces.online(0), HEADER - 1)
        yield reading_of("a header before all are read", place, 0, TWO_NOTHING._replace(packets=header), HEADER - 1)


def parts_of_two(pieces):
    """The right endings and the wrong ones where a write may be done in part."""
    now, then = pieces.online(BATCH), pieces.online(TWO_BATCHES)
    [before], [behind] = now.others, then.others
    right = [failing(f"{most} bytes of the second packets", "packets1", BATCH, then._replace(others=(behind[:most],)))
             for most in (len(before) + 1, len(behind) - 1)]
    header = pieces.whole.packets[:HEADER]
    right += [failing("a part of the second header", "packets1", 0,
                      TWO_NOTHING._replace(packets=header, others=(header[:10],)))]
    wrong = [failing("all of the second packets", "packets1", BATCH, then),
             failing("a part of the second packets, and none of the first", "packets1", BATCH,
                     then._replace(packets=now.packets, others=(behind[:-1],))),
             failing("a part of the second packets, told as the first", "packets", BATCH,
                     then._replace(others=(behind[:-1],)))]
    return right, wrong


def judged_two(trial):
    """How many endings there are of a run with two captures, and those that are judged wrongly."""
    pieces = Pieces(trial)
    right, wrong = list(right_of_two(pieces)), list(wrong_of_two(pieces))
    count, faults = judged_by(replay.judge, trial, right, wrong)
    more, others = judged_by(workers.judge, trial, right, [])
    in_part, of_parts = judged_by(replay.judge_part, trial, *parts_of_two(pieces))
    return count + more + in_part, [*faults, *(f"with workers: {fault}" for fault in others),
                                    *(f"in part: {fault}" for fault in of_parts)]


# All endings

def is_allowed(judge, trial, ending):
    err = f"pfreplay: {ending.err.replace('RULES', trial.name_of('rules'))}\n".encode() if ending.err else b""
    files = ending.files.in_order()[:len(trial.clean.files)]
    try:
        judge(trial, Fault(ending.target, "fail", 1), Counts(True, 1, ending.moved),
              Seen(ending.status, ending.out, err, files))
    except Unlawful:
        return False
    return True


def judged(trial, target):
    """How many endings there are of a run, and those that are judged wrongly; with the target of its messages, if it
    has any."""
    pieces = Pieces(trial)
    right, wrong = list(right_endings(pieces)), list(wrong_endings(pieces))
    if target:
        right += right_messages(pieces, target)
        wrong += wrong_messages(pieces, target)
    count, faults = judged_by(replay.judge, trial, right, wrong)
    # what is right without workers is right with some
    more, others = judged_by(workers.judge, trial, [*right, *right_beside_workers(pieces)],
                             list(wrong_beside_workers(pieces)))
    in_part, of_parts = judged_by(replay.judge_part, trial, *parts(pieces, target))
    return count + more + in_part, [*faults, *(f"with workers: {fault}" for fault in others),
                                    *(f"in part: {fault}" for fault in of_parts)]


def parts(pieces, target):
    """The right endings and the wrong ones where a write may be done in part."""
    right, wrong = list(right_parts(pieces)), list(wrong_parts(pieces))
    if target:
        right += right_part_messages(pieces, target)
        wrong += wrong_part_messages(pieces, target)
    return right, wrong


def judged_by(judge, trial, right, wrong):
    """How many endings a judge is handed, and those that it judges wrongly."""
    faults = [f"refused: {ending.name}" for ending in right if not is_allowed(judge, trial, ending)]
    faults += [f"allowed: {ending.name}" for ending in wrong if is_allowed(judge, trial, ending)]
    return len(right) + len(wrong), faults


def compare():
    """How many endings are judged wrongly."""
    count, wrong = 0, []
    with tempfile.TemporaryDirectory() as folder:
        names = [str(Path(folder) / name) for name in ("capture", "rules", "first", "second")]
        for name, text in zip(names, (CAPTURE, RULES, *TWO.captures())):
            Path(name).write_bytes(text)
        capture, rules, *two = names
        for form, target in ((model.FILE, replay.WRITES["messages"]), (model.PEER, replay.WRITES[PEER]),
                             (model.NONE, None)):
            found = [judged(trial_of([capture], rules, form), target), judged_two(trial_of(two, rules, form, TWO))]
            count += sum(judged_count for judged_count, _ in found)
            wrong += [f"{form}: {fault}" for _, faults in found for fault in faults]
    print(f"{count} endings, {len(wrong)} judged wrongly", *wrong, sep="\n  ")
    return len(wrong)
