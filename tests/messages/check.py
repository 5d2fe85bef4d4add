"""Asks the models of messages whether they give what is written out, and whether they agree.

    python3 -m messages.check

in the folder `tests`. The status is 1 where something is wrong, or where something came up too seldom.

- Runs and texts that are written out: sizes and bytes of messages, what is out while a run goes on, and answers.
- Lists of events and whole runs at random: the messages by cutting the list and by the queue, at the end and on the
  way. Each is read again as it was spelled, bare and in a file. Who takes them all holds just the states that are left.
- Messages at random, and hostile texts: what is read is spelled again with the same bytes.
"""

import os
import random
import sys
from collections import Counter
from concurrent.futures import ProcessPoolExecutor
from contextlib import redirect_stdout
from io import StringIO
from itertools import chain

sys.dont_write_bytecode = True

from answering import SHOWN
from captures.packets import checksum
from messages import (answers, happenings, interfaces, model, queue, random_events, random_messages, random_runs, rows,
                      texts)
from messages.model import Origin
from messages.events import REMOVED, packet_of
from messages.message import DIRECTIONS, INS, IP_HEADER, size
from messages.reading import Refusal, read, read_in_file, stream_of
from messages.run import told
from messages.samples import VECTOR, five_messages
from messages.spelling import bare, in_file, ip_header
from standby.model import Kept, Standby

SEED = 20261129
LEAST = 100
RANDOM_MESSAGES, SEEN_ON_THE_WAY = 5000, 3
# of the random messages, by kind
MOST_RECORDS = ((2, 3, 4), (1, 0, 0), (0, 1, 0), (0, 0, 2), (6, 17, 121))
# what the lists and runs are asked for by their names; some come up in lists alone
OF_RUNS = ("records", "ends of parts")
TEXT_KINDS = ("ok", "short", "version", "length", "action", "count", "no end", "trailing", "fixed")
HERE = "192.0.2.1"


def shown(title, faults):
    """Prints how it went; how many faults there are."""
    print(f"{title}; {len(faults)} faults", *faults[:SHOWN], sep="\n  ")
    return len(faults)


def seldom(counts, titles):
    """The names of what came up too seldom, where each title has some."""
    for title, names in titles.items():
        print(f"  {title}: " + ", ".join(f"{counts[name]} {name}" for name in names))
    return [f"{name} came up {counts[name]} times" for names in titles.values() for name in names
            if counts[name] < LEAST]


# Spelling and reading

def read_again(message, address):
    """What is wrong with the message once it is spelled, and read again."""
    text, filed = bare(message), in_file(message, address)
    if filed[IP_HEADER:] != text or message.size() != len(filed):
        yield f"it has {len(filed)} bytes in a file, {len(text)} bare and the size {message.size()}"
    if checksum(filed[:IP_HEADER]) != 0:
        yield f"the checksum of its IP header doesn't verify: {filed[:IP_HEADER].hex()}"
    # what stands behind it isn't read
    if read(text + filed) != (message, len(text)):
        yield f"it is read as {read(text)}: {text.hex()}"
    if read_in_file(filed) != (message, len(filed)):
        yield f"it is read from a file as {read_in_file(filed)}: {filed.hex()}"


def spelled_again(text):
    """What is wrong where the text is read as a message, and spelled otherwise."""
    answer = read(text)
    if isinstance(answer, Refusal):
        return answer.name, []
    message, length = answer
    return "ok", [] if bare(message) == text[:length] else [f"{text.hex()} is spelled again as {bare(message).hex()}"]


# What a standby holds

def held_by(messages):
    """What a standby holds that takes these messages."""
    standby = Standby()
    for message in messages:
        assert standby.take(message), f"a standby that holds {sorted(standby.states)} refuses {message.text()}"
    return standby.states


def to_hold(states):
    """What it should hold."""
    return {state.number: Kept(state.protocol, DIRECTIONS[state.direction], state.wire, state.stack, state.rule,
                               state.maker, state.other, state.timeout) for state in states if state.is_told}


# Lists of events

def on_the_way(origin, packets, closed, places):
    """What is wrong with the messages that are out after each of some numbers of packets."""
    for place in places:
        if model.online(origin, packets[:place]) != list(chain.from_iterable(closed[:place])):
            yield f"behind {place} packets other messages are out by the cut and by the queue"


def list_faults(draw, origin, packets, closed, left):
    """What is wrong with the messages of a list of events, which are read and taken here."""
    messages = model.whole(origin, packets)
    if messages != list(chain.from_iterable(closed)):
        yield "the cut and the queue give other messages"
    places = {0, len(packets), *(draw.randint(0, len(packets)) for _ in range(SEEN_ON_THE_WAY))}
    yield from on_the_way(origin, packets, closed, sorted(places))
    for message in messages:
        yield from read_again(message, HERE)
        numbers = [number for numbers in message.numbers().values() for number in numbers]
        if len(set(numbers)) < len(numbers):
            yield "a number stands in a message twice"
    if held_by(messages) != to_hold(left):
        yield "a standby holds other states than those that are left"


def check_lists():
    draw, faults, counts, events = random.Random(SEED), [], Counter(), 0
    for place, each in enumerate(random_events.lists()):
        origin = Origin((draw.choice((b"em0", b"a2345678901234.")),), draw.randbytes(16), draw.choice((1, 2**32 - 1)))
        packets = list(map(packet_of, each.happenings))
        closed = queue.by_packet(origin, packets)
        events += sum(len(packet.events) for packet in packets)
        faults += [f"list {place}: {fault}" for fault in list_faults(draw, origin, packets, closed, each.left)]
        counts += happenings.of_list(origin, each.happenings, packets, closed)
    wrong = shown(f"{random_events.LISTS} random lists of {events} events", faults)
    return wrong + shown(f"  what has to come up {LEAST} times", seldom(counts, happenings.COUNTED))


def timeout_faults(done):
    """Events of a run whose state doesn't wait for the seconds of the timeout that is told."""
    for packet in done.packets:
        for kind, number, state, clock in packet.events:
            if kind != REMOVED and state.deadline - clock != done.seconds[state.timeout]:
                yield f"state {number} has timeout {state.timeout} at {clock} and goes at {state.deadline}"


def check_runs():
    draw, faults, counts, packets = random.Random(SEED), [], Counter(), 0
    for run in random_runs.runs():
        done = told(run)
        closed = done.closed()
        packets += len(done.steps)
        faults += [f"{run.name}: {fault}" for fault in chain(
            list_faults(draw, done.origin, done.packets, closed, done.left), timeout_faults(done))]
        counts += happenings.of_list(done.origin, done.happenings, done.packets, closed)
    wrong = shown(f"{random_runs.RUNS} random runs of {packets} packets", faults)
    titles = {title: happenings.COUNTED[title] for title in OF_RUNS}
    titles["states"] = ("INS that is gone again", "UPD_C that turns into DEL_C", "not told of")
    return wrong + shown(f"  what has to come up {LEAST} times", seldom(counts, titles))


# What is written out

def row_faults(row):
    done = told(row.run)
    messages, closed = done.whole(), done.closed()
    address = row.run.interfaces[0].address
    filed = [in_file(message, address) for message in messages]
    found = [("by the cut", row.sizes, [message.size() for message in messages]),
             ("by the queue", messages, list(chain.from_iterable(closed))),
             ("from the file", (messages, None), stream_of(b"".join(filed), read_in_file)),
             ("bare", (messages, None), stream_of(b"".join(map(bare, messages)))),
             ("last", list(row.last), [message.numbers() for message in messages][len(messages) - len(row.last):])]
    for place, offset, digits in row.bytes:
        octets = bytes.fromhex(digits)
        found.append((f"message {place} at {offset}", octets.hex(), filed[place][offset:offset + len(octets)].hex()))
    found += [(f"behind {count}", sizes, [message.size() for message in done.online(count)])
              for count, sizes in row.online.items()]
    found += [(f"packet {number}", line, done.steps[number - 1].verdict_line()) for number, line in row.lines.items()]
    if row.states is not None:
        found.append(("states", row.states, sorted(state.number for state in done.left)))
    yield from on_the_way(done.origin, done.packets, closed, range(len(done.packets) + 1))
    yield from (f"{title}: {wanted} and not {seen}" for title, wanted, seen in found if wanted != seen)
    for message in messages:
        yield from read_again(message, address)
    if held_by(messages) != to_hold(done.left):
        yield "a standby holds other states than those that are left"


def check_rows():
    written = list(rows.rows())
    return shown(f"{len(written)} runs that are written out",
                 [f"{row.run.name}: {fault}" for row in written for fault in row_faults(row)])


def check_day():
    """The sizes of the open message behind each packet of one run."""
    day = next(row for row in rows.rows() if row.run.records == [record for record, _ in rows.DAY])
    done, faults = told(day.run), []
    open_message = queue.Queue(done.origin)
    for packet, (_, wanted) in zip(done.packets, rows.DAY):
        open_message.step(packet)
        seen = size(open_message.counts()) if open_message.entries else None
        faults += [] if seen == wanted else [f"{seen} bytes and not {wanted} at clock {packet.clock}"]
    return shown(f"{len(rows.DAY)} sizes of an open message", faults)


def check_interfaces():
    """The interfaces by which the states of a run on several of them are named."""
    faults = []
    for run, sizes, names in interfaces.rows():
        messages = told(run).whole()
        found = [message.size() for message in messages], [
            (insert.number, insert.interface) for message in messages for insert in message.inserts]
        faults += [] if found == (sizes, names) else [f"{run.name}: {found} and not {sizes, names}"]
        faults += [fault for message in messages for fault in read_again(message, run.interfaces[0].address)]
    return shown(f"{len(list(interfaces.rows()))} runs on several interfaces", faults)


def check_answers():
    """Texts that are written out, of a peer and of a file; the first of each is what is spelled."""
    insert = bare(five_messages()[0])
    by_peer, by_file = list(answers.answers()), list(answers.file_answers())
    more = [*answers.interface_answers(insert), *answers.first_answers(insert)]
    found = [(text, wanted, texts.answer(text)) for text, wanted in by_peer]
    found += [(text, wanted, texts.answer(text, read_in_file)) for text, wanted in by_file]
    # of these the content isn't written out
    found += [(text, wanted, texts.name_of(read(text)) if wanted == "ok" else texts.answer(text))
              for text, wanted in more]
    faults = [f"{text.hex()}: {wanted} and not {seen}" for text, wanted, seen in found if wanted != seen]
    if bare(read(VECTOR)[0]) != by_peer[0][0] or ip_header(len(VECTOR), HERE) + VECTOR != by_file[0][0]:
        faults.append("the first text is spelled otherwise")
    return shown(f"{len(found)} texts that are written out", faults)


def value_faults(kind, runs, text):
    """What is wrong with the values that each byte of a message of one record may have. A byte of the record that may
    not have a value is told itself; but where a name ends early, the byte behind it is."""
    allowed = [count for width, count in runs for _ in range(width)]
    if len(allowed) != len(text):
        yield f"{kind} has {len(text)} bytes, of which {len(allowed)} are written out"
    for place, wanted in enumerate(allowed):
        seen = list(map(read, texts.with_each_byte(text, [place])))
        refusals = [answer for answer in seen if isinstance(answer, Refusal)]
        if len(seen) - len(refusals) != wanted:
            yield f"byte {place} of {kind} may have {len(seen) - len(refusals)} values and not {wanted}"
        told_at = place + (kind == INS and place in answers.NAME_BEFORE_LAST)
        if place in range(24, len(text) - 4) and not set(refusals) <= {Refusal("fixed", told_at)}:
            yield f"byte {place} of {kind} is refused by {refusals[0].text()}"


def check_values():
    spelled = list(map(bare, five_messages()))
    faults = [fault for (kind, runs), text in zip(answers.VALUES.items(), spelled)
              for fault in value_faults(kind, runs, text)]
    return shown(f"{len(answers.VALUES)} messages, and the values that each of their bytes may have", faults)


# Messages and texts

def check_messages():
    draw, faults = random.Random(SEED), []
    for _ in range(RANDOM_MESSAGES):
        counts = random_messages.some_counts(draw, draw.choice(MOST_RECORDS))
        faults += read_again(random_messages.some_message(draw, counts), HERE)
    return shown(f"{RANDOM_MESSAGES} random messages spelled and read again", faults)


def judged(some):
    """How often each kind of answer comes up for some texts, and what is spelled again otherwise."""
    counts, faults = Counter(), []
    for text in some:
        name, wrong = spelled_again(text)
        counts[name] += 1
        faults += wrong
    return counts, faults


def judged_bytes(place, start, end):
    """For one of the five messages, of which the bytes from start to end are set to each value."""
    text = bare(five_messages()[place])
    return judged(texts.with_each_byte(text, range(start, min(end, len(text)))))


def judged_texts(kind):
    return judged(texts.KINDS_OF_TEXTS[kind]())


def check_texts():
    """The texts of texts.py, by several processes."""
    messages = list(map(bare, five_messages()))
    pieces = [(place, start, start + 40) for place, text in enumerate(messages) for start in range(0, len(text), 40)]
    with ProcessPoolExecutor(os.cpu_count()) as pool:
        others = {kind: pool.submit(judged_texts, kind) for kind in texts.KINDS_OF_TEXTS if kind != texts.CHANGED}
        changed = [pool.submit(judged_bytes, *piece) for piece in pieces]
        found = {texts.CHANGED: [each.result() for each in changed],
                 **{kind: [each.result()] for kind, each in others.items()}}
    faults, total = [], Counter()
    for kind, results in found.items():
        counts = sum((counts for counts, _ in results), Counter())
        faults += [fault for _, wrong in results for fault in wrong]
        total += counts
        print(f"texts, {kind}: " + ", ".join(f"{counts[name]} {name}" for name in TEXT_KINDS))
    return shown(f"{total.total()} texts", faults + seldom(total, {"all": TEXT_KINDS}))


CHECKS = (check_rows, check_day, check_interfaces, check_answers, check_values, check_lists, check_runs, check_messages,
          check_texts)


def printed(check):
    """How many faults a check finds, and what it prints."""
    with redirect_stdout(StringIO()) as out:
        return check(), out.getvalue()


def main():
    wrong = 0
    with ProcessPoolExecutor(os.cpu_count()) as pool:
        for faults, text in pool.map(printed, CHECKS):
            print(text, end="", flush=True)
            wrong += faults
    sys.exit(bool(wrong))


if __name__ == "__main__":
    main()
