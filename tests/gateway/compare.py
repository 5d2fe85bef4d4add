"""Replays what tcpdump captures at a gateway of network namespaces, and compares what becomes of the packets with what
became of them there.

    python3 -m gateway.compare [--program FILE | --captures FOLDER]

in the folder `tests`. With `--captures` the captures are made in a folder that is there, compared with the
conversations and left, and no program is needed.

Without root, or where a command or the kernel lacks something, the comparison is left out, and says why.
"""

import argparse
import signal
import sys
import tempfile
from pathlib import Path

sys.dont_write_bytecode = True

import building
from captures.model import HEADER
from gateway import captured, judging
from gateway.network import HERE, INNER, INNER_ADDRESS, OUTER, OUTER_ADDRESS, STATIONS, LeftOut, gateway
from gateway.seeing import all_seen
from gateway.taking import taking
from gateway.cases import CONVERSATIONS, LAST, hosts
from runs.comparison import Comparison

RULES = HERE / "rules.conf"
# what the rules set, without which states are met on both interfaces
IF_BOUND = "set state-policy if-bound\n"
MOST_SHOWN = 5
# by addresses: what em0 sends is of its network, and not of the hosts there
OUTER_NETWORKS = "192.0.2.0/24,!192.0.2.8/29"
# the inside as captures in front of pf have it
INSIDE_NETWORKS = "10.0.0.0/24,192.0.2.1"
WIRE, STACK = ("--tap", "wire"), ("--inside", INSIDE_NETWORKS)


# The captures

def has_last(interface, capture):
    """Whether a capture has the question and the answer of the last conversation."""
    if len(capture) < HEADER:
        return False
    found = captured.found_of({interface: all_seen(interface, capture)}, LAST)
    return captured.ways(found.get(interface, [])) == (1, 1)


def take(comparison, network, folder):
    """Captures of both interfaces while all conversations are held: their files."""
    with hosts(network) as calling, taking(network, folder) as taker:
        for conversation in (*CONVERSATIONS, LAST):
            comparison.expect(conversation.name(), conversation.comes_to, calling.held(conversation))
        taker.wait_for(lambda captures: all(has_last(*each) for each in captures.items()))
        taker.end()
        return taker.files


def captures_in(comparison, folder):
    """Takes the captures and compares them with the conversations: their files, and what they show."""
    with gateway() as network:
        files = take(comparison, network, folder)
    seen = {interface: all_seen(interface, file.read_bytes()) for interface, file in files.items()}
    captured.compare(comparison, seen)
    print(", ".join(f"{len(packets)} packets on {interface}" for interface, packets in seen.items()),
          f"{len(CONVERSATIONS) + 1} conversations", sep=", ")
    return files, seen


# The runs

class Replay:
    """A run of the program on the captures of some interfaces, and what it has left by its name."""

    def __init__(self, comparison, name, files, *settings, rules=RULES):
        self.comparison, self.name = comparison, name
        folder = comparison.folder / name.replace(" ", "_")
        folder.mkdir()
        (outer, capture), *others = files.items()
        self.packets = {interface: folder / f"{interface}.pcap" for interface in files}
        self.texts = {output: folder / output for output in ("verdicts", "counters", "states")}
        also = [word for interface, file in others for word in
                ("--also", f"{interface},{INNER_ADDRESS}/24,{file},{self.packets[interface]}")]
        texts = [word for output, file in self.texts.items() for word in (f"--{output}", file)]
        own = ["--interface", outer, "--address", f"{OUTER_ADDRESS}/24", "--packets", self.packets[outer]]
        seen = comparison.execute(["run", capture, rules, *own, *also, *texts, *settings])
        if seen is None or seen.status:
            raise SystemExit(f"{name}: {seen and seen.err.decode(errors='replace').strip()}")

    def verdicts(self):
        return self.texts["verdicts"].read_bytes()

    def outputs(self):
        return [file.read_bytes() for file in (*self.texts.values(), *self.packets.values())]

    def compare(self, seen):
        """Compares what became of the packets of these interfaces."""
        judging.compare_lines(self.comparison, self.name, {each: seen[each] for each in self.packets}, self.verdicts())
        for interface, file in self.packets.items():
            judging.compare_packets(self.comparison, self.name, interface, seen, file.read_bytes())


def stations(files):
    """The flags that tell the addresses of some interfaces' cards."""
    return [word for interface in files for word in ("--mac", f"{interface}={STATIONS[interface]}")]


def compare_runs(comparison, files, seen):
    """Runs with the outer capture alone and with both, as they were taken and by the default."""
    for name, own in (("outer", {OUTER: files[OUTER]}), ("both", files)):
        wire = Replay(comparison, f"{name} by the wire", own, *WIRE, *stations(own))
        wire.compare(seen)
        serial = Replay(comparison, f"{name} one by one", own, *WIRE, *stations(own), "--workers", "0", "--batch", "1")
        comparison.expect(f"{name}: packet by packet", wire.outputs(), serial.outputs())
        stack = Replay(comparison, f"{name} by the default", own, *STACK)
        counts = judging.refused(wire.verdicts()), judging.refused(stack.verdicts())
        print(f"{name}: {counts[0]} packets are refused by the wire, {counts[1]} by the default")
        comparison.expect(f"{name}: the default refuses more", True, counts[0] < counts[1])
    addresses = Replay(comparison, "outer by addresses", {OUTER: files[OUTER]}, *WIRE, "--inside", OUTER_NETWORKS)
    addresses.compare(seen)
    floating = comparison.folder / "floating.conf"
    floating.write_text(RULES.read_text().replace(IF_BOUND, ""))
    Replay(comparison, "both with floating states", files, *WIRE, *stations(files), rules=floating).compare(seen)


def compare(folder, program):
    """Makes the captures in a folder, and replays them if there is a program: what went wrong."""
    comparison = Comparison(program, folder)
    files, seen = captures_in(comparison, folder)
    if program:
        compare_runs(comparison, files, seen)
    comparison.show(MOST_SHOWN)
    print(f"{comparison.count} compared, {len(comparison.wrong)} wrong")
    return comparison.wrong


def ended(*_):
    """Ends by way of all that has to be cleared away."""
    sys.exit("ended")


def compared(program, folder=None):
    """The whole comparison; the captures stay if a folder is named."""
    signal.signal(signal.SIGTERM, ended)
    try:
        if folder:
            sys.exit(bool(compare(folder, program)))
        with tempfile.TemporaryDirectory() as own:
            sys.exit(bool(compare(Path(own), program)))
    except LeftOut as why:
        print(f"left out: {why}")


def main():
    compared(building.pfreplay())


if __name__ == "__main__":
    parser = argparse.ArgumentParser(description="Replays real traffic through a gateway.")
    one = parser.add_mutually_exclusive_group()
    one.add_argument("--program", metavar="FILE", help="in the place of the one of this repository")
    one.add_argument("--captures", type=Path, metavar="FOLDER", help="only make the captures, in this folder")
    asked = parser.parse_args()
    if asked.captures:
        compared(None, asked.captures)
    else:
        compared(asked.program or building.pfreplay())
