"""Runs the program's command `run` on many rulesets and captures and compares each run with the model."""

import subprocess
import sys
from collections import Counter

import captures.cases
import captures.frame_cases
import captures.merge_cases
import steps.cases
from captures import merging
from runs import (also_files, cases, devices, filter_cases, filter_rows, interface_rows, lines, long_rulesets,
                  message_cases, message_rows, model, random_cases, rows, same_files, setting_cases, setting_files,
                  setting_rows, standard_streams, warn_rows, warnings)
from runs.case import EXAMPLES, INSIDE, PACKETS, Case, capture_of
from runs.model import FILE, NONE, OUTPUTS, PEER, Outcome
from steps.model import STACK
from steps.tap_cases import RULES as REDIRECTING

# each such case is also run with its messages sent to a peer, each such one without messages, each such one with the
# tap of most runs written out, and each such one with warnings
PEER_STEP, NONE_STEP, TAP_STEP, WARN_STEP = 5, 9, 7, 4
# the numbers of workers with which rows on several interfaces and random runs with settings are run
WORKERS = (0, 4)


def written_cases():
    """The cases of which something is written out."""
    for make in (captures.cases.rows, captures.frame_cases.rows, filter_rows.faults, rows.rows, setting_rows.rows):
        yield from make()


def scenes():
    """Those on several interfaces."""
    yield from interface_rows.rows()
    yield from setting_rows.scenes()


def modelled_cases():
    """The cases that the model answers."""
    for module in (cases, captures.frame_cases, filter_cases, long_rulesets):
        yield from module.all_cases()
    yield from (row.case for row in filter_rows.rows())
    yield from (rows.case_of(expected.run) for expected in steps.cases.cases())
    yield from random_cases.cases()
    yield from random_cases.translated_cases()
    yield from random_cases.placed_cases()


# The model beside what is written out

def compare_model(comparison):
    """What the model says to what is written out, which shows that it is right too."""
    for case, parts in written_cases():
        said = model.run(case).parts()
        comparison.expect(f"model: {case.name}", parts, {name: said[name] for name in parts})
    for row, case in message_rows.cases():
        for form in (FILE, PEER):
            expect_facts(comparison, f"model: {case.name}, {form}", row, model.run(case, form), form)
    expect_packets(comparison, "model: messages as packets", model.run)
    for sources in captures.merge_cases.cases():
        comparison.expect(f"model: records of {sources}", merging.by_heads(sources), merging.merged(sources))
    for scene in scenes():
        expect_scene(comparison, f"model: {scene.case.name}", scene, model.run(scene.case))
    for row in filter_rows.rows():
        for case, words in row.alone():
            line = model.run(case).files.verdicts.decode()
            comparison.expect(f"model: {case.name}", f"1 0 {words} t=-", line[:line.find(" s=")])
    warn_rows.compare_model(comparison)


# The program beside the model

def compare(comparison):
    """All runs but those of compare_messages; the comparison keeps their number and what went wrong."""
    every = [written.case for written in written_cases()]
    written_count = len(every)
    every += modelled_cases()
    for number, case in enumerate(every):
        forms = [FILE]
        forms += [PEER] if number < written_count or number % PEER_STEP == 0 else []
        forms += [NONE] if number % NONE_STEP == 0 else []
        compare_case(comparison, case, forms, is_old=number % 3 == 0)
        if number % TAP_STEP == 0 and case.tap is None:
            compare_case(comparison, case, [FILE], words=("--tap", STACK))
        if number % WARN_STEP == 0:
            compare_warned(comparison, case, WORKERS[number // WARN_STEP % len(WORKERS)])
    compare_scenes(comparison)
    compare_settings(comparison)
    good_lines(comparison)
    settled_lines(comparison)
    bad_lines(comparison)
    devices.compare(comparison)
    also_files.compare(comparison)
    warn_rows.compare(comparison)
    same_files.compare(comparison)
    setting_files.compare(comparison)
    standard_streams.compare(comparison)
    example_captures(comparison)


def compare_case(comparison, case, forms, is_old=False, words=()):
    """Runs a case with its messages in some forms, with files that are new or hold something old, and with words
    besides its own that change nothing."""
    for form in forms:
        comparison.prepare(case, is_old)
        more = " ".join(map(str, (f"{'old' if is_old else 'new'} files, {form}", *words)))
        comparison.expect(f"{case.name} ({more})", model.run(case, form), comparison.replay(case, form, words))


def compare_warned(comparison, case, workers):
    """Runs a case with warnings."""
    comparison.prepare(case)
    seen = comparison.replay(case, words=(warn_rows.WARN, "--workers", workers))
    comparison.expect(f"{case.name}, with warnings and {workers} workers", warnings.run(case), seen)


# Several interfaces

def expect_scene(comparison, name, scene, outcome):
    """What is written by hand of a run on several interfaces."""
    for title, wanted, seen in scene.facts(outcome):
        comparison.expect(f"{name}: {title}", wanted, seen)


def compare_scenes(comparison):
    """The rows on several interfaces, without workers and with some."""
    for number, scene in enumerate(scenes()):
        for workers in WORKERS:
            comparison.prepare(scene.case, is_old=number % 3 == 0)
            seen = comparison.execute([*comparison.command(scene.case), "--workers", workers])
            name = f"{scene.case.name}, {workers} workers"
            comparison.expect(name, model.run(scene.case), seen)
            expect_scene(comparison, name, scene, seen or Outcome(b"", b"", None))
        compare_case(comparison, scene.case, [PEER] + [NONE] * (number % PEER_STEP == 0))
        compare_warned(comparison, scene.case, WORKERS[number % len(WORKERS)])


def compare_settings(comparison):
    """The random runs with settings, without workers and with some."""
    for number, case in enumerate(setting_cases.cases()):
        for workers in WORKERS:
            compare_case(comparison, case, [FILE], is_old=number % 3 == 0, words=("--workers", workers))
        compare_warned(comparison, case, WORKERS[number % len(WORKERS)])


# Messages

def expect_facts(comparison, name, row, outcome, form):
    """What is written out of a row of messages."""
    for title, wanted, seen in message_rows.facts(row, outcome, form):
        comparison.expect(f"{name}: {title}", wanted, seen)


def expect_packets(comparison, name, run):
    """Messages as packets of a capture, as a function runs a case."""
    streams = [run(case).files.messages or b"" for _, case in message_rows.cases()]
    for case, verdicts in message_rows.as_packets(streams):
        comparison.expect(name, verdicts, run(case).files.verdicts)


def compare_messages(comparison):
    """Runs of which messages are written out or much is to be told."""
    for row, case in message_rows.cases():
        for form in (FILE, PEER):
            comparison.prepare(case)
            seen = comparison.replay(case, form)
            comparison.expect(f"{case.name}, {form}", model.run(case, form), seen)
            expect_facts(comparison, f"{case.name}, {form}", row, seen or Outcome(b"", b"", None), form)

    def run(case):
        comparison.prepare(case)
        return comparison.replay(case) or Outcome(b"", b"", None)

    expect_packets(comparison, "messages as packets", run)
    counts = Counter()
    for number, case in enumerate(message_cases.cases()):
        forms = [FILE, PEER] if number % PEER_STEP == 0 else [FILE]
        compare_case(comparison, case, forms)
        counts += message_cases.counts_of(case)
    message_cases.tell(comparison, counts)


# Command lines

def named(comparison, words):
    """The words with the names of files, and of the peer, for those that stand for them."""
    peer = comparison.peer
    places = {"capture": comparison.capture, "rules": comparison.rules, "missing": comparison.folder / "missing",
              "peer": peer.name(), "--peer=peer": f"--peer={peer.name()}",
              **{f"{host}peer": f"{host}{peer.port}" for host in ("localhost:", "127.0.0.1:000", "127.000.0.01:")},
              **dict(zip(OUTPUTS, comparison.files)),
              **{f"--{name}={name}": f"--{name}={file}" for name, file in zip(OUTPUTS, comparison.files)}}
    return [places.get(word, word) for word in words]


def good_lines(comparison):
    """Flags in any order and spelling, seeds and networks. The seed fixes a port."""
    case = Case("words", b"nat on em0 from any to any -> em0\nblock in\npass out", INSIDE, capture_of(PACKETS))
    for words, inside, seed in lines.good():
        comparison.prepare(case)
        comparison.expect(f"words {words}", model.run(case._replace(inside=inside, seed=seed)),
                          comparison.execute(["run", *named(comparison, words)]))
    for words in lines.peers():
        comparison.prepare(case)
        comparison.expect(f"words {words}", model.run(case, PEER),
                          comparison.execute(["run", *named(comparison, words)], peer=comparison.peer))
    comparison.prepare()
    flags = tuple(f"{flag} <{lines.FORMS[flag]}>".encode() for flag in lines.HELPED)
    for words, parts in ((["--help"], ()), (["run", "--help"], flags)):
        comparison.expect_help(words, parts)


def settled_lines(comparison):
    """Settings in any order and spelling, of a capture of Ethernet."""
    case = setting_rows.one("words", setting_rows.OF_BOTH, (), REDIRECTING.encode())
    for words, settings in lines.settled():
        comparison.prepare(case)
        comparison.expect(f"words {words}", model.run(case._replace(**settings)),
                          comparison.execute(["run", *named(comparison, words)]))


def bad_lines(comparison):
    """Command lines that don't fit. Of the wording what is at fault is fixed; no file is looked at or made."""
    comparison.prepare(Case("words", b"scrub in all", INSIDE, b""))
    for words, said in lines.bad():
        seen = comparison.execute(named(comparison, words))
        comparison.expect_refused(f"words {words}", seen, said)


# Examples

def example_captures(comparison):
    """The captures of the examples are what their script writes."""
    subprocess.run([sys.executable, str(EXAMPLES / "make_captures.py"), str(comparison.folder)], check=True)
    for capture in sorted(EXAMPLES.glob("*.pcap")):
        comparison.expect(f"{capture.name} as written anew", capture.read_bytes(),
                          (comparison.folder / capture.name).read_bytes())
