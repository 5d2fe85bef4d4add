"""Runs of the program on several interfaces whose files can't be opened, read or written, are devices, or are the same
ones; and such runs of rulesets that are adapted."""

import os
from threading import Thread

from captures.packets import udp
from runs import model
from runs.comparison import also_of, flags_of
from runs.devices import feed
from runs.interface_rows import BOUND, Taken, asked, case_of, cut, too_long
from runs.model import EMPTY, OUTPUTS, Files
from steps.run import EIGHT, THREE
from steps.translation_words import OTHER, P

CASE = case_of("files of two interfaces", "pass out no state", [asked(0, 2).bytes(), asked(1).bytes()], THREE[:2])
TRIPLE = case_of("files of three interfaces", "pass out", [asked(0).bytes(), asked(1).bytes(), asked(2).bytes()], THREE)
# packets whose sources are in the network of the second interface, and its address, on each of the interfaces
FORGED = tuple((0, number, udp(source, 9, P, 9)) for number, source in enumerate(("203.0.113.9", "203.0.113.2", OTHER)))
# rulesets as people write them, each with flags and what the strict ruleset is
ADAPTED = (("antispoof quick for em1\npass\n", (),
            "block drop in quick on ! em1 inet from em1:network to any\nblock drop in quick inet from em1 to any\npass\n"),
           ("block\npass in on lan from lan:network\npass on dmz\n", ("--group", "lan=em1", "--group", "dmz=em2"),
            "block\npass in on em1 from em1:network\npass on em2\n"))
# the files of the second interface
CAPTURE, PACKETS = "capture1", "packets1"


def compare(comparison):
    """All of these runs. They take some seconds."""
    openings(comparison)
    unreadable(comparison)
    devices(comparison)
    slow_captures(comparison)
    many_interfaces(comparison)
    adapted(comparison)
    same_files(comparison)


def words_of(case, names):
    """The words of a run at home in the comparison's folder, some of whose files have other names than their own."""
    def named(name):
        return names.get(name, name)

    places = range(1, len(case.also) + 1)
    also = also_of(case, [named(f"capture{place}") for place in places], [named(f"packets{place}") for place in places])
    return ["run", named("capture"), named("rules"), *flags_of(case, Files(*map(named, OUTPUTS))), *also]


def execute(comparison, case, names, is_old=False, **how):
    comparison.prepare(case, is_old)
    return comparison.execute(words_of(case, names), home=comparison.folder, **how)


# Files that can't be opened

def openings(comparison):
    """The captures are opened before any output, and the packets behind the verdicts, each by the place of its
    interface."""
    nowhere = "missing/file"
    captures = ("capture", "capture1", "capture2")
    for place, name in enumerate(captures):
        for word in (nowhere, "", "rules/below"):
            names = dict.fromkeys(captures[place:], word) | {"verdicts": nowhere}
            comparison.expect(f"no file for {name}: {word}", model.cannot_open(word, model.untouched(TRIPLE)),
                              execute(comparison, TRIPLE, names))
    order = ("verdicts", "packets", "packets1", "packets2", "counters", "states", "messages")
    for place, name in enumerate(order):
        for word in (nowhere, "", "."):
            made = [b"" if other in order[:place] else None for other in order]
            files = Files(*made[:2], *made[4:], tuple(made[2:4]))
            comparison.expect(f"no {name}: {word}", model.cannot_open(word, files),
                              execute(comparison, TRIPLE, {name: word}))
    for name in (CAPTURE, PACKETS):
        case = CASE._replace(rules=b"scrub in all")
        comparison.expect(f"a ruleset with a fault, and no {name}",
                          model.refused("rules line 1: left out: scrub", model.untouched(case)),
                          execute(comparison, case, {name: nowhere}))


# Captures that can't be read

def unreadable(comparison):
    """Folders as captures, and captures without a whole header: nothing is written, not even an earlier header."""
    opened = model.opened(model.FILE, 1)
    for name, place in (("capture", 0), (CAPTURE, 1)):
        comparison.expect(f"a folder as {name}", model.failed(f"read failed: em{place}, committed 0", opened),
                          execute(comparison, CASE, {name: "."}))
        comparison.expect(f"nothing as {name}", model.refused(f"capture em{place}: header cut", opened),
                          execute(comparison, CASE, {name: "/dev/null"}))
    both = {"capture": ".", CAPTURE: "."}
    comparison.expect("folders as both captures", model.failed("read failed: em0, committed 0", opened),
                      execute(comparison, CASE, both))
    for first, second, outcome in ((".", "/dev/null", model.failed("read failed: em0, committed 0", opened)),
                                   ("/dev/null", ".", model.refused("capture em0: header cut", opened))):
        comparison.expect(f"{first} and {second} as captures", outcome,
                          execute(comparison, CASE, {"capture": first, CAPTURE: second}))


# Devices

def devices(comparison):
    """Packets of each interface to a full disk, and to nowhere."""
    whole = model.run(CASE)
    empty, header = EMPTY._replace(others=(b"",)), CASE.capture[:24]
    for name, files in (("packets", empty._replace(packets=None)), (PACKETS, empty._replace(packets=header, others=(None,)))):
        comparison.expect(f"{name} to a full disk", model.failed("write failed: packets, committed 0", files),
                          execute(comparison, CASE, {name: "/dev/full"}))
    comparison.expect("verdicts to a full disk", model.failed("write failed: verdicts, committed 0", empty._replace(
        verdicts=None, packets=header, others=(header,))), execute(comparison, CASE, {"verdicts": "/dev/full"}))
    for names in (("packets",), (PACKETS,), ("packets", PACKETS)):
        files = whole.files._replace(packets=None if "packets" in names else whole.files.packets,
                                     others=(None,) if PACKETS in names else whole.files.others)
        comparison.expect(f"{' and '.join(names)} to nowhere", whole._replace(files=files),
                          execute(comparison, CASE, dict.fromkeys(names, "/dev/null")))


def slow_captures(comparison):
    """The second capture comes through a pipe in pieces of each of some lengths, whole and with an end of each kind."""
    pipe, second = comparison.folder / "pipe", CASE.also[0]
    for behind in (b"", cut(1), too_long()):
        case = CASE._replace(also=(second._replace(capture=second.capture + behind),))
        for length in (1, 7, 24, 1000):
            os.mkfifo(pipe)
            Thread(target=feed, args=(pipe, case.also[0].capture, length), daemon=True).start()
            comparison.expect(f"a second capture in pieces of {length}", model.run(case),
                              execute(comparison, case, {CAPTURE: "pipe"}))
            pipe.unlink()


# Interfaces

def many_interfaces(comparison):
    """As many interfaces as there may be, and captures that are one file."""
    captures = [asked(place, 10).bytes() for place in range(len(EIGHT))]
    for rules in ("pass out", f"{BOUND}pass out"):
        case = case_of(f"eight interfaces, {rules!r}", rules, captures, EIGHT)
        comparison.expect(case.name, model.run(case), execute(comparison, case, {}))
    case = case_of("one capture for two interfaces", f"{BOUND}pass out", [CASE.capture] * 2, THREE[:2])
    comparison.expect(case.name, model.run(case), execute(comparison, case, {CAPTURE: "./capture"}))


def adapted(comparison):
    """Rulesets in which other interfaces of the run are named. No flag has to give these their addresses."""
    captures = [Taken(FORGED).bytes()] * 2
    for text, flags, strict in ADAPTED:
        expected = model.run(case_of("", strict, captures, THREE[:2]), model.NONE)
        case = case_of(f"adapted: {text!r}", text, captures, THREE[:2])
        comparison.prepare(case)
        seen = comparison.execute([*comparison.command(case, model.NONE), "--adapt", *flags])
        comparison.expect(case.name, (expected.status, expected.files), seen and (seen.status, seen.files))


# One file twice

def same_files(comparison):
    """An output that is a capture, the ruleset or an output before it, as it was named, whatever name it has."""
    order = ("capture", CAPTURE, "rules", "verdicts", "packets", PACKETS, "counters", "states", "messages")
    pairs = [(first, second) for number, second in enumerate(order) for first in order[:number]
             if second not in ("capture", CAPTURE, "rules") and PACKETS in (first, second) or
             first == CAPTURE and second not in ("capture", CAPTURE, "rules")]
    for is_old in (False, True):
        for first, second in pairs:
            for word in (first, f"./{first}"):
                seen = execute(comparison, CASE, {second: word}, is_old)
                comparison.expect(f"{second} is {first}, as {word}",
                                  model.refused(f"same file: {word}", model.untouched(CASE)), seen)
    first = {"packets": "./capture1", PACKETS: "capture"}
    comparison.expect("each packets are the other capture", model.refused("same file: ./capture1", model.untouched(CASE)),
                      execute(comparison, CASE, first))
    comparison.expect("the captures as they were", [CASE.capture, CASE.also[0].capture],
                      [comparison.capture.read_bytes(), comparison.other_captures[0].read_bytes()])
    names = {"packets2": "packets1", "counters": "./packets1"}
    comparison.expect("two outputs are those of the second interface",
                      model.refused("same file: packets1", model.untouched(TRIPLE)), execute(comparison, TRIPLE, names))
    seen = execute(comparison, CASE._replace(rules=b"scrub in all"), {PACKETS: "capture", CAPTURE: "missing"})
    comparison.expect("one file beside other faults", model.refused("same file: capture", model.untouched(CASE)), seen)
