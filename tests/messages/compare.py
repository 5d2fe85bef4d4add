"""Compares what messages the proved crates make of events, and what they read and spell, with the models.

Of events random lists are compared, and those of random runs: a queue's messages with those of the list that is cut
when it is finished.

Of texts those are compared whose answers are written out, each byte of five messages set to each of 256 values, every
beginning of these messages, messages joined, and random texts, most of which are messages but for a mistake or two.
What the program reads it spells again, and says so where that gives other bytes.

The models alone are asked what `check.py` asks them.
"""

import os
import random
import subprocess
import sys
from collections import Counter
from concurrent.futures import ProcessPoolExecutor
from itertools import islice

import building
from answering import TIME_LIMIT, answers_of, differing, place_of_difference, show_lines
from messages import answers, check, model, random_events, random_runs, texts
from messages.model import Origin
from messages.events import MADE, TOUCHED, packet_of
from messages.run import told
from messages.samples import five_messages
from messages.spelling import bare
from tracking.model import Peer

# how many bytes of a message are changed by one process
PLACES = 40
# one in so many of the lists and texts is compared that aren't written out, and all of them with `--all`
PART = 9


# Events

CHANGES = {MADE: b"\0", TOUCHED: b"\1"}
REMOVED_CHANGE = b"\2"
TCP, UDP, ICMP = 6, 17, 1


def endpoint_bytes(endpoint):
    address, port = endpoint
    return address.to_bytes(4) + port.to_bytes(2)


def key_bytes(key):
    return b"".join(map(endpoint_bytes, key))


def rule_bytes(rule):
    return bytes(5) if rule is None else b"\1" + rule.to_bytes(4)


def peer_bytes(peer):
    shift = 255 if peer.offer is None else peer.offer
    return bytes([peer.code]) + peer.low.to_bytes(4) + peer.high.to_bytes(4) + peer.window.to_bytes(2) + bytes([shift])


def peers_kind(state):
    """TCP's, UDP's, none, or others'. In random lists peers of every protocol may have what only TCP's have."""
    both = (state.maker, state.other)
    if state.protocol == ICMP and both == (Peer(0), Peer(0)):
        return 2
    if state.protocol in (TCP, ICMP) or any(peer != Peer(peer.code) or peer.code > 2 for peer in both):
        return 0
    return 1 if state.protocol == UDP else 3


def state_bytes(state):
    counts = [state.counts[place].to_bytes(8) for place in (0, 1, 2, 3)]
    return (state.number.to_bytes(8) + bytes([state.protocol, state.direction == "out", state.interface])
            + key_bytes(state.wire)
            + key_bytes(state.stack) + rule_bytes(state.rule) + rule_bytes(state.translation)
            + bytes([peers_kind(state)]) + peer_bytes(state.maker) + peer_bytes(state.other) + state.made.to_bytes(4)
            + state.deadline.to_bytes(8) + bytes([state.timeout]) + b"".join(counts))


def event_bytes(event):
    return CHANGES.get(event.kind, REMOVED_CHANGE) + event.clock.to_bytes(4) + state_bytes(event.state)


def list_bytes(origin, packets):
    """The events of packets as the program reads them."""
    events = model.events_of(packets)
    names = b"".join(bytes([len(name)]) + name for name in origin.interfaces)
    return (bytes([len(origin.interfaces)]) + names + origin.checksum + origin.creator.to_bytes(4)
            + len(events).to_bytes(4) + b"".join(map(event_bytes, events)))


def random_lists():
    draw = random.Random(check.SEED)
    for each in random_events.lists():
        names = tuple(draw.choice((b"", b"em0", b"em1", b"a2345678901234.")) for _ in range(draw.choice((1, 1, 2, 3, 8))))
        origin = Origin(names, draw.randbytes(16), draw.choice((0, 1, 2**32 - 1)))
        yield origin, list(map(packet_of, each.happenings))


def run_lists():
    for run in random_runs.runs():
        done = told(run)
        # no record has a later second
        if done.packets[-1].clock < 2**32:
            yield done.origin, done.packets


def show_messages(origin, packets, expected, seen):
    place = place_of_difference(expected, seen)
    print(f"{origin}, {len(model.events_of(packets))} events, message {place}")
    show_lines(place, expected, seen)


def compare_lists(title, lists, part):
    """How many lists of events give other messages, of one in `part`."""
    lists = list(islice(lists, 0, None, part))
    expected = [[message.text() for message in model.whole(origin, packets)] for origin, packets in lists]
    seen = answers_of(building.answers("events"), [list_bytes(origin, packets) for origin, packets in lists])
    count = differing(((*each, messages, lines) for each, messages, lines in zip(lists, expected, seen)), show_messages)
    events = sum(len(model.events_of(packets)) for _, packets in lists)
    print(f"{len(lists)} {title} with {events} events: {sum(map(len, expected))} messages, {count} differ")
    return count


# Texts

def record(text):
    """A text as the program reads it."""
    return len(text).to_bytes(4) + text


def seen_lines(command, asked):
    """The program's line for each text."""
    done = subprocess.run(command, input=b"".join(map(record, asked)), stdout=subprocess.PIPE, timeout=TIME_LIMIT,
                          check=True)
    lines = done.stdout.decode().splitlines()
    if len(lines) != len(asked):
        raise SystemExit(f"{len(lines)} answers to {len(asked)} texts")
    return lines


def show(text, expected, seen):
    name = f"{answers.NAMES[text]}: " if text in answers.NAMES else ""
    print(f"{name}{text.hex()}\n  expected {expected}\n  seen     {seen}")


def compared(command, asked):
    """How many of some texts are answered otherwise, and how often each kind of answer comes up."""
    expected = list(map(texts.answer, asked))
    count = differing(zip(asked, expected, seen_lines(command, asked)), show)
    return count, Counter(next(kind for kind in check.TEXT_KINDS if answer.startswith(kind)) for answer in expected)


def compare_bytes(command, part, place, start):
    """For one of the five messages, of which the bytes from start on are set to each value."""
    text = bare(five_messages()[place])
    made = texts.with_each_byte(text, range(start, min(start + PLACES, len(text))))
    return compared(command, list(islice(made, 0, None, part)))


def compare_kind(command, part, kind):
    return compared(command, list(islice(texts.KINDS_OF_TEXTS[kind](), 0, None, part)))


def compare_texts(command, part):
    """How many of one in `part` of all texts are answered otherwise."""
    pieces = [(place, start) for place, message in enumerate(five_messages())
              for start in range(0, len(bare(message)), PLACES)]
    with ProcessPoolExecutor(os.cpu_count()) as pool:
        others = {kind: [pool.submit(compare_kind, command, part, kind)]
                  for kind in texts.KINDS_OF_TEXTS if kind != texts.CHANGED}
        found = {texts.CHANGED: [pool.submit(compare_bytes, command, part, *piece) for piece in pieces], **others}
        results = {kind: [each.result() for each in several] for kind, several in found.items()}
    for kind, several in results.items():
        counts = sum((counts for _, counts in several), Counter())
        wrong = sum(count for count, _ in several)
        shares = ", ".join(f"{counts[name]} {name}" for name in check.TEXT_KINDS)
        print(f"{kind}: {counts.total()} texts, {shares}; {wrong} differ")
    return sum(count for several in results.values() for count, _ in several)


def compare_written(command):
    """How many of the texts whose answers are written out are answered otherwise."""
    insert = bare(five_messages()[0])
    written = [*answers.answers(), *answers.interface_answers(insert), *answers.first_answers(insert)]
    asked = [text for text, _ in written]
    # where the content isn't written out, none is compared
    seen = (line.split()[0] if wanted == "ok" else line
            for line, (_, wanted) in zip(seen_lines(command, asked), written))
    count = differing(zip(asked, (wanted for _, wanted in written), seen), show)
    print(f"{len(written)} texts written out: {count} differ from the program")
    return count


def model_alone():
    check.main()


def main(part=PART):
    command = building.answers("texts")
    count = compare_lists("random lists", random_lists(), part) + compare_lists("random runs", run_lists(), part)
    sys.exit(bool(count + compare_written(command) + compare_texts(command, part)))
