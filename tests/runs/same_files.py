"""Runs of the program of which an output is the capture, the ruleset or another output, by whatever name. Each of them
is refused and leaves every file as it was. Beside them stand runs whose files only look alike, which are not refused.
"""

import itertools
import os
import shutil
import subprocess
from pathlib import Path
from threading import Thread

from runs import model
from runs.case import INSIDE, PACKETS, Case, capture_of
from runs.comparison import flags_of
from runs.model import OUTPUTS, Files
from runs.peers import nobody

CASE = Case("same files", b"block in\npass out", INSIDE, capture_of(PACKETS))
# all files of a run, each by the name that it has if none is told, in the order in which they are looked at
INPUTS = ("capture", "rules")
NAMES = (*INPUTS, *OUTPUTS)
# where a run has what it needs besides its files
SIDE = "side"
# how many symbolic links Linux follows in one path
MOST_LINKS = 40


def compare(comparison):
    """All of these runs. They take some seconds."""
    pairs(comparison)
    pairs_without_inodes(comparison)
    all_at_once(comparison)
    longest_chain(comparison)
    no_longer_chain(comparison)
    first_of_faults(comparison)
    devices(comparison)
    pipes(comparison)
    standard_output(comparison)
    unlike(comparison)
    unseen(comparison)


# The folder of a run

def begin(comparison, is_old=False):
    """Makes the files of a run as they are before it: its outputs are missing, or hold something old."""
    comparison.prepare(CASE, is_old)
    side = comparison.folder / SIDE
    shutil.rmtree(side, ignore_errors=True)
    side.mkdir()
    return side


def words_of(names):
    """The words of a run whose files have these names; the others have their own."""
    named = {**dict(zip(NAMES, NAMES)), **names}
    return ["run", named["capture"], named["rules"], *flags_of(CASE, Files(*(named[output] for output in OUTPUTS)))]


def execute(comparison, names, more=(), **how):
    """One run at home in the comparison's folder."""
    return comparison.execute([*words_of(names), *more], home=comparison.folder, **how)


def shot(folder):
    """What stands at each path of a folder: the bytes of files, and where links lead."""
    return {str(path.relative_to(folder)): os.readlink(path) if path.is_symlink() else
            path.read_bytes() if path.is_file() else None for path in sorted(folder.rglob("*"))}


def expect_refused(comparison, title, refused, names, more=(), **how):
    """A run that is refused for an output, named as it was given, and leaves all as it was."""
    before = shot(comparison.folder)
    seen = execute(comparison, names, more, **how)
    comparison.expect(title, model.refused(f"same file: {refused}"), seen)
    comparison.expect(f"{title}: all files", before, shot(comparison.folder))


def expect_whole(comparison, title, names, lost=(), out=b"", **how):
    """A run that goes to its end, but for what becomes of some outputs; it prints something first."""
    whole = model.run(CASE)
    files = whole.files._replace(**dict.fromkeys(lost))
    comparison.expect(title, whole._replace(files=files, out=out + whole.out), execute(comparison, names, **how))


# Names

def plainly(_folder, name):
    return name


def with_dot(_folder, name):
    return f"./{name}"


def with_dots(_folder, name):
    return f".//.///{name}"


def by_way_back(_folder, name):
    return f"{SIDE}/../{name}"


def from_root(folder, name):
    return str(folder / name)


def by_link(folder, name):
    (folder / SIDE / "link").symlink_to(f"../{name}")
    return f"{SIDE}/link"


def by_link_from_root(folder, name):
    (folder / SIDE / "link").symlink_to(folder / name)
    return f"./{SIDE}/link"


def by_links(folder, name):
    (folder / SIDE / "next").symlink_to(f"./../{name}")
    (folder / SIDE / "link").symlink_to("next")
    return f"{SIDE}/link"


def by_folder(folder, name):
    (folder / SIDE / "folder").symlink_to("..")
    return f"{SIDE}/folder/{name}"


def by_way_back_from_folder(folder, name):
    """The folder before `..` is where the link leads, which is another than that of the link."""
    (folder / SIDE / "deep" / "deeper").mkdir(parents=True)
    (folder / SIDE / "folder").symlink_to("deep/deeper")
    return f"{SIDE}/folder/../../../{name}"


def by_hard_link(folder, name):
    (folder / SIDE / "hard").hardlink_to(folder / name)
    return f"{SIDE}/hard"


# each makes what it needs in the folder of the run, and answers another name of one of its files
SPELLINGS = (plainly, with_dot, with_dots, by_way_back, from_root, by_link, by_link_from_root, by_links, by_folder,
             by_way_back_from_folder)


# Two names of one file

def pairs_of_names():
    """Each output beside each file that is looked at before it."""
    return [(first, second) for first, second in itertools.combinations(NAMES, 2) if second in OUTPUTS]


def compare_pair(comparison, pair, spell, is_old, **how):
    """Two files that are one, of which the first and then the second has another name than the file itself."""
    first, second = pair
    for spelled, other in ((first, second), (second, first)):
        begin(comparison, is_old)
        names = {spelled: spell(comparison.folder, first), other: first}
        title = f"{first} and {second} are one, {spelled} {spell.__name__}, {'old' if is_old else 'new'} outputs"
        expect_refused(comparison, title, names[second], names, **how)


def pairs(comparison):
    """Each pair by each spelling, with outputs that are there and with new ones. A new file has no hard link."""
    for pair in pairs_of_names():
        for is_old in (False, True):
            for spell in SPELLINGS:
                compare_pair(comparison, pair, spell, is_old)
            if is_old or pair[0] in INPUTS:
                compare_pair(comparison, pair, by_hard_link, is_old)


def pairs_without_inodes(comparison):
    """The same for a few pairs on a system that tells no inodes. There a hard link is another file."""
    library = comparison.folder / "no_inodes.so"
    code = Path(__file__).with_name("no_inodes.c")
    subprocess.run(["cc", "-shared", "-fPIC", "-o", library, code, "-ldl"], check=True)
    preloaded = {**os.environ, "LD_PRELOAD": str(library)}
    for pair in (("capture", "packets"), ("rules", "verdicts"), ("verdicts", "messages")):
        for is_old in (False, True):
            for spell in SPELLINGS:
                compare_pair(comparison, pair, spell, is_old, variables=preloaded)
    begin(comparison, is_old=True)
    expect_whole(comparison, "files that are not one, without inodes", {}, variables=preloaded)
    begin(comparison)
    expect_whole(comparison, "files that are not one and new, without inodes", {}, variables=preloaded)
    begin(comparison)
    name = by_hard_link(comparison.folder, "capture")
    comparison.expect("a capture and its hard link, without inodes",
                      model.refused("capture: header cut", model.EMPTY._replace(packets=None)),
                      execute(comparison, {"packets": name}, variables=preloaded))


def all_at_once(comparison):
    """Of several outputs the first is named that is a file before it."""
    for is_old in (False, True):
        begin(comparison, is_old)
        expect_refused(comparison, "all outputs are one", "verdicts", dict.fromkeys(OUTPUTS, "verdicts"))
        expect_refused(comparison, "all files are the ruleset", "./rules",
                       {**dict.fromkeys(NAMES, "rules"), "verdicts": "./rules"})
        expect_refused(comparison, "one behind another", "./packets",
                       {"counters": "./packets", "states": "rules", "messages": "capture"})
        expect_refused(comparison, "the last one", "./rules", {"messages": "./rules"})


# Chains of links

def chain(folder, length, name):
    """The first of symbolic links of which each leads to the next one, and the last to a file."""
    (folder / SIDE / f"{length}").symlink_to(f"../{name}")
    for place in range(1, length):
        (folder / SIDE / f"{length - place}").symlink_to(f"{length - place + 1}")
    return f"{SIDE}/1"


def longest_chain(comparison):
    """As many links as the system follows."""
    for is_old in (False, True):
        begin(comparison, is_old)
        expect_refused(comparison, f"{MOST_LINKS} links, {'old' if is_old else 'new'} outputs", "verdicts",
                       {"verdicts": chain(comparison.folder, MOST_LINKS, "verdicts"), "packets": "verdicts"})


def no_longer_chain(comparison):
    """Links of which the system follows no end are no file."""
    begin(comparison)
    name = chain(comparison.folder, MOST_LINKS + 1, "verdicts")
    comparison.expect("too many links", model.cannot_open(name),
                      execute(comparison, {"verdicts": name, "packets": "verdicts"}))
    side = begin(comparison)
    (side / "loop").symlink_to("loop")
    name = f"{SIDE}/loop"
    comparison.expect("a link to itself twice", model.cannot_open(name),
                      execute(comparison, {"verdicts": name, "packets": name}))


# Other faults

def first_of_faults(comparison):
    """It is a fault of the command line: told after its words, and before the ruleset and the peer."""
    twice = {"verdicts": "verdicts", "packets": "./verdicts"}
    for title, names, broken in (("a ruleset with a fault", {}, True), ("no ruleset", {"rules": "missing"}, False),
                                 ("no capture", {"capture": "missing"}, False),
                                 ("no folder", {"counters": "missing/counters"}, False)):
        begin(comparison)
        if broken:
            comparison.rules.write_bytes(b"scrub in all")
        expect_refused(comparison, f"one file beside {title}", "./verdicts", {**names, **twice})
    begin(comparison)
    seen = execute(comparison, twice, ["--batch", "0"])
    comparison.expect("one file behind bad words", model.refused("invalid value '0' for '--batch <1..4096>'"), seen)
    begin(comparison)
    with nobody() as silent:
        words = [word for word in words_of(twice) if word not in ("--messages", "messages")]
        seen = comparison.execute([*words, "--peer", "%s:%d" % silent.getsockname()], home=comparison.folder)
    comparison.expect("one file before the peer", model.refused("same file: ./verdicts"), seen)


# Files that are free

def devices(comparison):
    """A device may be any of the files, and any number of them."""
    null = "/dev/null"
    for first, second in itertools.combinations(OUTPUTS, 2):
        begin(comparison, is_old=True)
        expect_whole(comparison, f"{first} and {second} to nowhere", {first: null, second: null}, (first, second))
    begin(comparison)
    expect_whole(comparison, "all outputs to nowhere", dict.fromkeys(OUTPUTS, null), OUTPUTS)
    begin(comparison)
    comparison.expect("a capture from nowhere, and packets to it",
                      model.refused("capture: header cut", model.EMPTY._replace(packets=None)),
                      execute(comparison, {"capture": null, "packets": null}))


def pipes(comparison):
    """Two outputs to one pipe, which another process reads."""
    whole, taken = model.run(CASE), []
    pipe = begin(comparison) / "pipe"
    os.mkfifo(pipe)
    reader = Thread(target=lambda: taken.append(pipe.read_bytes()), daemon=True)
    reader.start()
    expect_whole(comparison, "two outputs to a pipe", {"verdicts": f"{SIDE}/pipe", "counters": f"{SIDE}/pipe"},
                 ("verdicts", "counters"))
    reader.join(10)
    comparison.expect("what the pipe took", [whole.files.verdicts + whole.files.counters], taken)


def standard_output(comparison):
    """Outputs to standard output: two are free if it is a pipe, and one file otherwise. One is free in any case."""
    whole, name = model.run(CASE), "/dev/stdout"
    twice = {"verdicts": name, "counters": name}
    begin(comparison)
    expect_whole(comparison, "two outputs to standard output, a pipe", twice, tuple(twice),
                 whole.files.verdicts + whole.files.counters)
    side = begin(comparison)
    with open(side / "printed", "wb") as printed:
        expect_refused(comparison, "two outputs to standard output, a file", name, twice, out=printed)
    begin(comparison)
    with open(side / "printed", "wb") as printed:
        seen = execute(comparison, {"verdicts": name}, out=printed)
    comparison.expect("one output to standard output, a file",
                      whole._replace(out=b"", files=whole.files._replace(verdicts=None)), seen)


def unlike(comparison):
    """Files that only look alike: names of one beginning, one name in two folders, one text in two files, and the end
    of a link that leads to no file yet."""
    whole = model.run(CASE)
    for is_old in (False, True):
        side = begin(comparison, is_old)
        expect_whole(comparison, "names of one beginning", {"packets": "verdicts2"}, ("packets",))
        (comparison.folder / "verdicts2").unlink()
        begin(comparison, is_old)
        expect_whole(comparison, "one name in two folders", {"packets": f"{SIDE}/verdicts"}, ("packets",))
        comparison.expect("the file in the other folder", whole.files.packets, (side / "verdicts").read_bytes())
        begin(comparison, is_old)
        (side / "deep").mkdir()
        (side / "folder").symlink_to("deep")
        # the folder before `..` is where the link leads
        expect_whole(comparison, "a way back from a folder", {"verdicts": f"{SIDE}/folder/../packets"}, ("verdicts",))
        comparison.expect("the file on the way back", whole.files.verdicts, (side / "packets").read_bytes())
        begin(comparison, is_old)
        expect_whole(comparison, "an output through a link", {"states": by_links(comparison.folder, "states")})
    side = begin(comparison)
    (side / "capture").write_bytes(CASE.capture)
    expect_whole(comparison, "a copy of the capture", {"packets": f"{SIDE}/capture"}, ("packets",))
    begin(comparison)
    os.link(comparison.capture, side / "hard")
    expect_whole(comparison, "a capture by two names", {"capture": f"{SIDE}/hard"})
    begin(comparison)
    comparison.expect("the ruleset is the capture", model.refused("capture: header cut", model.EMPTY),
                      execute(comparison, {"capture": "rules"}))


def unseen(comparison):
    """Files that can't be looked at are refused as ever, where they can't be opened."""
    for name in INPUTS:
        begin(comparison)
        expect_untouched(comparison, f"no {name}, and packets of its name", {name: "missing", "packets": "missing"},
                         "missing")
    for title, name in (("a folder that isn't there", "missing/new"), ("a folder", SIDE), ("no name", ""),
                        ("a way through a file", "rules/new"), ("a name too long", "n" * 256),
                        ("a new folder", f"{SIDE}/new/"), ("a dot in a new folder", f"{SIDE}/new/.")):
        begin(comparison)
        expect_untouched(comparison, f"{title} twice", {"verdicts": name, "states": name}, name)
    side = begin(comparison)
    (side / "link").symlink_to("missing/new")
    expect_untouched(comparison, "a link to a folder that isn't there twice",
                     {"verdicts": f"{SIDE}/link", "states": f"{SIDE}/link"}, f"{SIDE}/link")


def expect_untouched(comparison, title, names, name):
    """A run that can't open its first file of this name, and leaves all as it was."""
    before = shot(comparison.folder)
    comparison.expect(title, model.cannot_open(name), execute(comparison, names))
    comparison.expect(f"{title}: all files", before, shot(comparison.folder))
