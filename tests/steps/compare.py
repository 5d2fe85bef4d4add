"""Compares the program that goes through runs packet by packet with the model, and refuses it each allocation in turn.

Compared are runs that are written out, cases of what one packet comes to, whose outcomes are written out too, and random
runs. What written_packets.py tells holds of each packet that is written out, translated at random, or on several
interfaces at random. In these runs each verdict, each reason and each kind of packet that translation_kinds.py and
place_kinds.py name has to come up.

    python3 -Bc "from steps import compare; compare.translated(1000000)"

in the folder `tests` compares this number of packets of random runs with translation; some are on several interfaces.
"""

import sys
from collections import Counter
from itertools import chain, islice, repeat

import building
from answering import SHOWN, answers_of, differing, least_of, place_of_difference, show_lines
from captures.model import Refused
from faults.command import end_lawfully
from steps import (interface_cases, place_cases, place_kinds, place_runs, random_runs, tap_cases, tap_kinds,
                   translation_kinds, translation_runs, way_cases)
from steps.cases import cases
from steps.followed import followed
from steps.lines import binding_words, state_line, step_line
from steps.model import WIRE
from steps.replay import replay, replay_of
from steps.rows import ends, rows
from steps.settings import plain, some_settings
from steps.run import INSIDE, INTERFACE, words_of

RANDOM_PACKETS, TRANSLATED_PACKETS = 20000, 84000
# one in so many of the random packets is compared, and of the allocations one is refused; all of them with `--all`
PART = 7
# one packet in three is in a run on several interfaces
PLACED_STEP = 3
# how many packets there are in runs with settings for each `of` packets in runs without any
SETTLED, OF = 7, 10
# how often what is counted of all packets has to come up at least, also of those on several interfaces, and how many runs
# are compared at once
LEAST, LEAST_PLACED, CHUNK = 100, 20, 200
# of the cases each such one is run with each allocation refused
REFUSED_STEP = 9


# Runs as the program reads them

def with_length(text):
    return len(text).to_bytes(4) + text


def address_bytes(address):
    return bytes(map(int, address.split(".")))


def interface_bytes(interface):
    name, address, bits = interface
    return bytes([len(name)]) + name.encode() + address_bytes(address) + bytes([bits])


def networks_bytes(networks):
    return bytes([len(networks)]) + b"".join(each.address.to_bytes(4) + bytes([each.bits]) for each in networks)


def link_address_bytes(address):
    """A link-level address behind a byte that tells whether it is known."""
    return b"\0" * 7 if address is None else b"\1" + address


def run_bytes(run):
    addresses = chain(run.addresses, repeat(None))
    records = b"".join(bytes([place]) + run.link.to_bytes(2) + second.to_bytes(4) + with_length(frame)
                       for second, frame, place in run.placed())
    return (bytes([len(run.interfaces)]) + b"".join(map(interface_bytes, run.interfaces))
            + networks_bytes(run.inside) + networks_bytes(run.excepted) + bytes([run.tap == WIRE])
            + b"".join(link_address_bytes(address) for _, address in zip(run.interfaces, addresses))
            # the first byte of the seed, which is each of it
            + with_length(run.rules.encode()) + run.seed[:1] + len(run.records).to_bytes(4) + records)


# Runs as the model tells them

def done_of(run):
    return replay_of(run.job(), run.capture(), run.places)


def lines_of(done):
    return [*map(step_line, done.steps), *map(state_line, done.left)]


def told_by_model(run):
    """The lines of a run, and its packets; none if the ruleset has a fault."""
    try:
        done = done_of(run)
    except Refused as why:
        return [str(why)], []
    return lines_of(done), done.steps


def lines_by_model(run):
    return told_by_model(run)[0]


# The comparison

def show(run, expected, seen):
    """Shows the first line that differs, with what it is about."""
    place = place_of_difference(expected, seen)
    print(f"{run.name}, line {place + 1}\n{run.rules}")
    if place < len(run.records):
        second, frame, interface = run.placed()[place]
        print(f"  second {second}, interface {interface}, link {run.link}: {frame.hex()}")
    show_lines(place, expected, seen)


def answers(command, runs):
    """The program's lines for each run."""
    return answers_of(command, list(map(run_bytes, runs)))


def bindings_of(done):
    """The words of the bindings of all states that were made, by their numbers; several if one is touched and bound
    otherwise then."""
    words = {}
    for kind, changed in (step.outcome.change for step in done.steps if step.outcome.change):
        if kind != "removed":
            words.setdefault(changed.number, {})[binding_words(changed)] = None
    return {number: ", ".join(found) for number, found in words.items()}


def texts_of(expected, done):
    """The texts that are written out, and beside them the model's."""
    passed = [step.number for step in done.steps if step.outcome.verdict in ("pass", "skip")]
    frames = {step.number: step.frame for step in done.steps if step.frame != step.record.frame}
    written = [(expected.verdicts, done.texts.verdicts), (expected.counters, done.texts.counters),
               (expected.states, done.texts.states), (expected.passed, passed), (expected.written, frames),
               (expected.bindings, bindings_of(done))]
    if done.texts.packets[24:] != b"".join(done.steps[number - 1].record.header + done.steps[number - 1].frame
                                           for number in passed):
        raise SystemExit(f"{expected.run.name}: the model writes other packets than those that pass")
    return [(wanted, told) for wanted, told in written if wanted is not None]


def compare_with_model(title, written):
    """How many runs that are written out differ from the model."""
    replays = [done_of(each.run) for each in written]
    by_lines = differing(((each.run, each.words, list(map(words_of, map(step_line, done.steps))))
                          for each, done in zip(written, replays)), show)
    by_texts = differing(((each.run, [wanted], [told]) for each, done in zip(written, replays)
                          for wanted, told in texts_of(each, done)), show)
    faults = [fault for each in written for fault in followed(each.run).faults]
    count = sum(len(each.words) for each in written)
    print(f"{title}: {len(written)} runs with {count} packets; {by_lines} and in their texts {by_texts} differ from the "
          f"model, {len(faults)} packets are written wrongly", *faults[:SHOWN], sep="\n  ")
    return by_lines + by_texts + len(faults)


def compare_written(title, command, written):
    """How many runs that are written out differ between model and program."""
    seen = answers(command, [each.run for each in written])
    count = differing(((each.run, lines_by_model(each.run), lines) for each, lines in zip(written, seen)), show)
    print(f"{title}: {len(written)} runs; {count} differ from the program")
    return count


def compare_ends():
    """How many captures the model ends otherwise than is written out; the program reads none."""
    found = [(name, replay(b"block in", (INTERFACE,), INSIDE, capture), texts, tail)
             for name, capture, texts, tail in ends()]
    wrong = [name for name, done, texts, tail in found if (done.texts, done.tail) != (texts, tail)]
    print(f"ends of captures: {len(wrong)} of {len(found)} differ from the model", *wrong, sep="\n  ")
    return len(wrong)


def settled_of(packets):
    """How many packets there are in runs with settings beside a number of packets in runs without any."""
    return packets * SETTLED // OF


def translated_runs(packets, settings):
    """Runs with translation that have a number of packets in all, some of them on several interfaces."""
    placed = packets // PLACED_STEP
    return chain(translation_runs.runs(packets - placed, settings), place_runs.runs(placed, settings))


def compare_random(command, part):
    """How many random runs differ, of one in `part` of the packets, and whether too few of these visit rules that have no
    room."""
    packets = RANDOM_PACKETS // part
    runs = [*random_runs.runs(packets), *random_runs.runs(settled_of(packets), some_settings)]
    expected, counts, full = [], Counter(), 0
    for lines, steps in map(told_by_model, runs):
        expected.append(lines)
        counts.update(step.outcome.reason for step in steps)
        full += sum(step.outcome.lacks_room() for step in steps)
    count = differing(zip(runs, expected, answers(command, runs)), show)
    shares = ", ".join(f"{share} {reason}" for reason, share in sorted(counts.items()))
    print(f"{len(runs)} random runs: {count} differ; of {counts.total()} packets {shares}; {full} visit a rule that has no "
          "room")
    return count + (full < least_of(part, LEAST))


def compare_translated(command, packets, part=1):
    """How many random runs with translation and on several interfaces differ, and what else is wrong with them. The
    packets are one in `part` of those of which each kind has to come up so often."""
    settled = settled_of(packets)
    runs = chain(translated_runs(packets, plain), translated_runs(settled, some_settings))
    counts, faults, differ = Counter(), [], 0
    while chunk := list(islice(runs, CHUNK)):
        expected = [followed(run) for run in chunk]
        differ += differing(zip(chunk, (each.lines for each in expected), answers(command, chunk)), show)
        for each in expected:
            counts += each.counts
            faults += each.faults
    print(f"{packets} packets in random runs with translation, and {settled} in those with settings, a third of both "
          f"on several interfaces: {differ} runs differ, {len(faults)} packets are written wrongly", *faults[:SHOWN],
          sep="\n  ")
    seldom = (compare_counts(counts, translation_kinds.COUNTED, least_of(part, LEAST))
              + compare_counts(counts, place_kinds.COUNTED, least_of(part, LEAST_PLACED))
              + compare_counts(counts, tap_kinds.COUNTED, least_of(part, LEAST_PLACED)))
    return differ + len(faults) + seldom


def compare_counts(counts, counted, least):
    """How many of the verdicts, reasons and kinds come up too seldom."""
    for title, names in counted.items():
        print(f"  {title}: " + ", ".join(f"{counts[name]} {name}" for name in names))
    seldom = [name for names in counted.values() for name in names if counts[name] < least]
    print(f"  {len(seldom)} of them come up fewer than {least} times", *seldom, sep="\n    ")
    return len(seldom)


def translated(packets):
    """Compares `packets` packets of random runs with translation; for use by hand."""
    sys.exit(bool(compare_translated(building.answers("steps"), packets)))


def written_out():
    """The runs that are written out, by titles."""
    return {"whole runs": list(rows()), "cases": list(cases()),
            "cases of several interfaces": [*place_cases.cases(), *interface_cases.cases()],
            "cases of captures on the wire": [*tap_cases.cases(), *tap_cases.placed_cases()],
            "cases of the way of packets": [*way_cases.cases(), *way_cases.placed_cases()]}


def compare_model():
    """How many runs and captures that are written out differ from the model."""
    return sum(compare_with_model(title, written) for title, written in written_out().items()) + compare_ends()


def model_alone():
    sys.exit(bool(compare_model()))


def main(part=PART):
    command, written = building.answers("steps"), written_out()
    wrong = compare_model() + sum(compare_written(title, command, each) for title, each in written.items())
    wrong += compare_random(command, part) + compare_translated(command, TRANSLATED_PACKETS // part, part)
    refused = [run_bytes(each.run) for title, each_case in written.items() if title != "whole runs"
               for each in each_case[::REFUSED_STEP]]
    # its answers are cut like those of the expansion
    sys.exit(not end_lawfully("expansions", command, refused, part) or bool(wrong))
