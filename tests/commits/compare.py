"""Compares the program whose book commits packets in batches with the model of such a book, and refuses it each allocation.

The book is handed what was found out about packets before. Compared are scripts that are written out, the runs of the
steps and those of the messages in batches of several sizes, and random scripts. What is written into packets shows here,
byte for byte. So each checksum that was right has to stay right too.
"""

import sys
from collections import Counter
from itertools import chain

import building
import messages.rows
import steps.cases
import steps.place_cases
import steps.rows
from answering import SHOWN, answers_of, differing, least_of, place_of_difference, show_lines
from commits import cases, place_kinds, place_rows, place_scripts, translation_scripts
from commits.cases import (in_batches, some_placed, some_runs_with_messages, some_scripts, some_translated,
                           some_with_messages)
from commits.standby import row_faults, with_sizes
from faults.command import end_lawfully
from steps.written_packets import spoilt_sums

BATCHES = (1, 2, 256)
RANDOM_PACKETS, TRANSLATED_PACKETS, PLACED_PACKETS = 9000, 10000, 12000
# random runs of which much is told
RUNS_WITH_MESSAGES = 30
# one in so many of the random packets and runs is compared, and of the allocations one is refused; all of them with `--all`
PART = 7
# how often each kind of result and of what is written on several interfaces has to come up at least in all of them
LEAST = 20
# how many packets the random scripts have in which each allocation is refused; of the scripts with translation and on
# several interfaces that are written out each such one is run so
REFUSED_PACKETS, REFUSED_STEP = 65, 5
# and these runs whose messages are written out
REFUSED_RUNS = ("a day of the open message", "flows, more of them and replies")


def rows():
    """The scripts that are written out, with their lines."""
    yield from cases.rows()
    yield from translation_scripts.rows()
    yield from place_scripts.rows()
    yield from place_rows.rows()


def script_bytes(script):
    return "".join(f"{line}\n" for line in script.lines()).encode()


def answers(command, scripts):
    """The program's lines for each script."""
    return answers_of(command, list(map(script_bytes, scripts)))


def show(script, expected, seen):
    """Shows the first line that differs, and what the book was told."""
    place = place_of_difference(expected, seen)
    print(f"{script.run.name}, line {place + 1}\n{script.run.rules}\n  {'; '.join(call.line() for call in script.calls)}")
    show_lines(place, expected, seen)


def compare(command, title, told, kinds=None, least=LEAST):
    """How many scripts are answered otherwise than by the model, how many packets get wrong checksums, and how many of
    some kinds, which stand by titles, come up too seldom."""
    books = [script.by_model() for script in told]
    seen = answers(command, told)
    count = differing(zip(told, (book.told for book in books), seen), show)
    packets = sum(len(book.steps) for book in books)
    own, tried = sum(book.own for book in books), sum(book.tried for book in books)
    closed = sum(len(book.emitted) for book in books)
    spoilt = sum(bool(spoilt_sums(book.run.link_at(step.record.place), step)) for book in books for step in book.steps)
    print(f"{title}: {len(told)} scripts with {packets} packets; of {tried} results {packets - own} were taken and "
          f"{tried + own - packets} dropped; {closed} messages; {count} differ, {spoilt} checksums are wrong that were "
          "right")
    counts, seldom = sum((book.kinds for book in books), Counter()), 0
    for name, each in (kinds or {}).items():
        print(f"  {name}, at least {least} of each kind: " + ", ".join(f"{counts[kind]} {kind}" for kind in each))
        seldom += sum(counts[kind] < least for kind in each)
    return count + spoilt + disagreeing(title, books) + seldom


def disagreeing(title, books):
    """How many books emit other messages than the queue of the messages' model closes."""
    wrong = [book for book in books if book.table and book.emitted != list(chain(*book.told_to_standby().closed()))]
    if wrong:
        print(f"{title}: in {len(wrong)} scripts the two models of messages disagree")
    return len(wrong)


def seen_as_written(lines, answers):
    """The lines of an answer beside those that are written by hand, which may go to its end; with sizes for messages."""
    is_whole = any(line.startswith("message ") for line in lines)
    return list(with_sizes(answers if is_whole else answers[:len(lines)]))


# Messages that are written out

def told_in_batches():
    """Each run whose messages are written out, with a script for each size of batches."""
    return [(row, in_batches(row.run, size)) for row in messages.rows.rows() for size in BATCHES]


def wrong_messages(title, answers):
    """How much is wrong with the messages of these runs, by the answers to each."""
    asked = told_in_batches()
    faults = [f"{row.run.name}, {script.calls[0].line() if script.calls else 'no batch'}: {fault}"
              for (row, script), lines in zip(asked, answers) for fault in row_faults(row, lines)]
    print(f"{len(asked)} runs with messages in batches: {len(faults)} faults by the {title}", *faults[:SHOWN], sep="\n  ")
    return len(faults)


def compare_model():
    """How many scripts that are written out differ from the model."""
    written = list(rows())
    count = differing(((script, lines, seen_as_written(lines, script.by_model().told)) for script, lines in written),
                      show)
    print(f"{len(written)} written scripts: {count} differ from the model")
    return count + wrong_messages("model", [script.by_model().told for _, script in told_in_batches()])


def compare_rows(command):
    """How many scripts that are written out differ from the program."""
    told = [script for script, _ in rows()]
    count = differing(((script, lines, seen_as_written(lines, found))
                       for (script, lines), found in zip(rows(), answers(command, told))), show)
    with_messages = [script for _, script in told_in_batches()]
    count += wrong_messages("program", answers(command, with_messages))
    return count + compare(command, "written out", told) + compare(command, "messages in batches", with_messages)


def compare_batches(command):
    runs = [each.run for each in (*steps.rows.rows(), *steps.cases.cases(), *steps.place_cases.cases())]
    return compare(command, "whole runs in batches", [in_batches(run, size) for run in runs for size in BATCHES])


def compare_random(command, part):
    """How much is wrong with one in `part` of the random packets and runs."""
    with_messages = RUNS_WITH_MESSAGES // part
    in_several = [in_batches(run, size) for run in some_runs_with_messages(with_messages) for size in BATCHES]
    return (compare(command, "random runs with messages in batches", in_several)
            + compare(command, "random", list(some_scripts(RANDOM_PACKETS // part)))
            + compare(command, "random, with translation", list(some_translated(TRANSLATED_PACKETS // part)))
            + compare(command, "random, on several interfaces", list(some_placed(PLACED_PACKETS // part)),
                      place_kinds.COUNTED, least_of(part, LEAST))
            + compare(command, "random, with messages", list(some_with_messages(with_messages))))


def model_alone():
    sys.exit(bool(compare_model()))


def main(part=PART):
    command = building.answers("commits")
    wrong = compare_model() + compare_rows(command) + compare_batches(command) + compare_random(command, part)
    few = [*translation_scripts.rows(), *place_scripts.rows()][::REFUSED_STEP]
    refused = [script for script, _ in (*cases.rows(), *few)]
    refused += [*some_scripts(REFUSED_PACKETS), *some_translated(REFUSED_PACKETS), *some_placed(REFUSED_PACKETS)]
    refused += [script for row, script in told_in_batches() if row.run.name in REFUSED_RUNS]
    sys.exit(not end_lawfully("commits", command, list(map(script_bytes, refused)), part) or bool(wrong))
