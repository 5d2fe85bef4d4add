#!/usr/bin/env python3
"""Long rulesets, in which a walk finds rules by skips and by what they pin: some as modelled cases of `runs`, and any
number of them by hand.

    python3 -m runs.long_rulesets PROGRAM [--many RULESETS]

runs each of `RULESETS` random rulesets of 1 to 3000 rules, none of which keeps states, over 20 000 packets that are
drawn from some hundreds. The rule that decides on each packet, and how many packets visit each rule, are compared with
the model's: it asks all rules of each of the different packets.
"""

import argparse
import random
import re
import subprocess
import sys
import tempfile
from collections import Counter
from pathlib import Path

sys.dont_write_bytecode = True

from captures.model import Refused, read_header, records_of
from runs.case import INSIDE, Case, capture_of
from runs.filter_cases import packets
from runs.model import OUTPUTS, network_of
from steps.filter_texts import HOSTS, MACROS, PORTS, TABLES, some_rule, some_statements, some_table
from steps.model import Job
from steps.picks import ZERO_SEED
from steps.replay import Record, dashed, ruleset_of, step_of
from steps.run import INTERFACE
from steps.states import StateTable

# how many rules the modelled cases have: about as many as there have to be for an index, and many
LENGTHS = (5, 6, 7, 40, 120, 400)
CASES = 30
MOST_RULES = 3000
PACKETS = 20000


def pinned_host(chance):
    """A host, or a network round it of one of several lengths."""
    host = chance.choice(HOSTS)
    return host if chance.random() < 0.6 else f"{host}/{chance.choice([8, 12, 16, 20, 24, 28, 30, 31])}"


def pinning_rule(chance):
    """A rule that pins some of protocol, addresses, ports and ICMP type."""
    words = [chance.choice(["pass", "block", "block"]), *chance.choice([[], ["in"], ["out"]])]
    words += ["quick"] * (chance.random() < 0.1)
    kind = chance.random()
    if kind < 0.15:
        message = ["proto icmp from any to", pinned_host(chance), "icmp-type", str(chance.choice([0, 3, 8, 11]))]
        return " ".join(words + message)
    transport = ["proto", chance.choice(["tcp", "udp"])] if kind < 0.8 else []
    ends = []
    for side in ("from", "to"):
        ends += [side, pinned_host(chance) if chance.random() < 0.5 else "any"]
        ends += ["port", str(chance.choice(PORTS))] if transport and chance.random() < 0.4 else []
    return " ".join(words + transport + ends)


def some_part(chance):
    """A rule, mostly one that pins; now and then anchors and rules of the whole language."""
    kind = chance.random()
    if kind < 0.7:
        return pinning_rule(chance)
    return some_rule(chance) if kind < 0.95 else "\n".join(some_statements(chance, 2, 2))


def some_long_ruleset(chance, count):
    """The bytes of a ruleset with `count` rules, anchors or groups of them."""
    lines = [f"{name} = {value}" for name, value in MACROS.items()] + [f'desk = "{chance.choice(HOSTS)}"']
    lines += [some_table(chance, name) for name in TABLES]
    lines += [some_part(chance) for _ in range(count)]
    return "\n".join([*lines, ""]).encode()


def all_cases():
    for number in range(CASES):
        chance = random.Random(f"long ruleset {number}")
        text = some_long_ruleset(chance, LENGTHS[number % len(LENGTHS)])
        yield Case(f"long ruleset {number}", text, INSIDE, capture_of(packets(chance)))


# ---- many of them, by hand


def without_states(text):
    """The text with no state kept by any of its rules."""
    lines = []
    # a list may go over several lines; the brace of an anchor ends one
    on_lines = re.sub(r"\{ [^{}]*\}", lambda found: found[0].replace("\n", " "), text.decode())
    for line in on_lines.split("\n"):
        line = re.sub(r"keep state( \([^()]*\))?", "no state", line)
        lines.append(f"{line} no state" if line.startswith("pass") and "no state" not in line else line)
    return "\n".join(lines).encode()


def outcomes_of(text, distinct):
    """What each of some packets comes to by the model, none of which makes a state."""
    job = Job(ruleset_of(text, (INTERFACE,)), tuple(map(network_of, INSIDE.split(","))), ZERO_SEED)
    capture = capture_of(distinct)
    header = read_header(capture)
    records, _ = records_of(capture, header.order)
    made = [step_of(job, 1, 0, header.link, Record(*record), StateTable(1)).outcome for record in records]
    if any(outcome.change for outcome in made):
        sys.exit("a rule has made a state")
    return job, made


def differs(program, folder, number):
    """Runs a random ruleset; the first thing that differs, or None."""
    chance = random.Random(f"walk {number}")
    text = without_states(some_long_ruleset(chance, chance.choice([1, 10, 16, 100, 1000, MOST_RULES])))
    distinct = [packet for _ in range(4) for packet in packets(chance)]
    try:
        job, made = outcomes_of(text, distinct)
    except Refused:
        return None
    drawn = [chance.randrange(len(distinct)) for _ in range(PACKETS)]
    names = {name: folder / name for name in ("capture", "rules", *OUTPUTS)}
    names["capture"].write_bytes(capture_of([distinct[place] for place in drawn]))
    names["rules"].write_bytes(text)
    files = [word for name in OUTPUTS for word in (f"--{name}", names[name])]
    words = ["--interface", "em0", "--address", "192.0.2.1/24", "--inside", INSIDE, "--workers", str(number % 2 * 4)]
    subprocess.run([program, "run", names["capture"], names["rules"], *words, *files], check=True,
                   stdout=subprocess.DEVNULL)
    for line, place in zip(names["verdicts"].read_text().splitlines(), drawn, strict=True):
        outcome = made[place]
        wanted = f"{outcome.direction} {outcome.verdict} {outcome.reason} r={dashed(outcome.rule)}"
        if " ".join(line.split()[2:6]) != wanted:
            return f"ruleset {number}: {line}, and by the model {wanted}"
    evaluations = Counter()
    for place, count in Counter(drawn).items():
        for rule in made[place].visited:
            evaluations[rule] += count
    for line in names["counters"].read_text().splitlines():
        kind, *numbers = line.split()
        if kind == "filter" and int(numbers[1]) != evaluations[int(numbers[0])]:
            return f"ruleset {number}: {line}, and by the model {evaluations[int(numbers[0])]} evaluations"
    return None


def main():
    parser = argparse.ArgumentParser(description="Compares walks over long rulesets with the model.")
    parser.add_argument("program")
    parser.add_argument("--many", type=int, default=50)
    asked = parser.parse_args()
    with tempfile.TemporaryDirectory() as folder:
        wrong = [found for number in range(asked.many) if (found := differs(asked.program, Path(folder), number))]
    print(f"{asked.many} rulesets over {PACKETS} packets each: {len(wrong)} differ")
    for found in wrong[:5]:
        print(found)
    sys.exit(bool(wrong))


if __name__ == "__main__":
    main()
