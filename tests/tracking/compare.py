"""Compares the program that follows conversations with the model of one state.

Compared are the written conversations, whose lines the model has to give too, and random ones.
"""

import subprocess
import sys
from pathlib import Path

import building
from answering import differing
from tracking import cases, model, reading

HERE = Path(__file__).resolve().parent
RANDOM_CONVERSATIONS = 20000
# one in so many of them is compared, and all of them with `--all`
PART = 4
KINDS = {"echo": 1, "error": 2, "icmp": 3, "fragment": 4, "other": 5, "tcp": 6, "udp": 17}


def key_bytes(key):
    """A key, `a.b.c.d:port,a.b.c.d:port`."""
    record = b""
    for endpoint in key.split(","):
        address, port = endpoint.split(":")
        record += bytes(map(int, address.split("."))) + int(port).to_bytes(2)
    return record


def rule_bytes(rule):
    return bytes(5) if rule is None else b"\1" + rule.to_bytes(4)


def packet_bytes(packet):
    scale = 255 if packet.scale is None else packet.scale
    return (bytes([packet.direction == "out"]) + packet.clock.to_bytes(4) + packet.length.to_bytes(2)
            + bytes([KINDS[packet.kind]]) + packet.sequence.to_bytes(4) + packet.acknowledgement.to_bytes(4)
            + bytes([packet.flags]) + packet.window.to_bytes(2) + bytes([scale]) + packet.payload.to_bytes(2))


def record(conversation):
    """A conversation as the program reads it."""
    number, protocol, wire, stack, filter_rule, translation_rule, seconds, packets = conversation
    return (number.to_bytes(8) + bytes([protocol]) + key_bytes(wire) + key_bytes(stack) + rule_bytes(filter_rule)
            + rule_bytes(translation_rule) + b"".join(second.to_bytes(4) for second in seconds)
            + len(packets).to_bytes(4) + b"".join(map(packet_bytes, packets)))


def answers(command, conversations):
    """The program's lines for each conversation."""
    given = b"".join(map(record, conversations))
    done = subprocess.run(command, input=given, stdout=subprocess.PIPE, check=True)
    lines = iter(done.stdout.decode().splitlines())
    told = [[next(lines, "no line") for _ in conversation.packets] for conversation in conversations]
    if rest := list(lines):
        raise SystemExit(f"{len(rest)} lines too many, the first {rest[0]}")
    return told


def show(name, conversation, expected, seen):
    print(f"{name}: {conversation.seconds}")
    for packet, line, other in zip(conversation.packets, expected, seen):
        print(f"  {packet}")
        print(f"    {line}" if line == other else f"    expected {line}\n    seen     {other}")


def written_conversations():
    return reading.read(sorted((HERE / "conversations").glob("*.txt")))


def compare_model():
    """How many of the written conversations differ from the model."""
    written = written_conversations()
    count = differing(((f"the model, {name}", conversation, expected, list(model.lines(conversation)))
                       for name, conversation, expected in written), show)
    print(f"{len(written)} written conversations: {count} differ from the model")
    return count


def compare_written(command):
    """How many of the written conversations differ from the program."""
    written = written_conversations()
    seen = answers(command, [each.conversation for each in written])
    count = differing(((name, conversation, expected, lines)
                       for (name, conversation, expected), lines in zip(written, seen)), show)
    print(f"{len(written)} written conversations: {count} differ from the program")
    return count


def compare_random(command, part):
    """How many random conversations differ, of one in `part`."""
    conversations = list(cases.conversations(RANDOM_CONVERSATIONS // part))
    expected = [list(model.lines(conversation)) for conversation in conversations]
    names = [f"random conversation {place}" for place in range(len(conversations))]
    count = differing(zip(names, conversations, expected, answers(command, conversations)), show)
    words = [line.split()[0] for lines in expected for line in lines]
    shares = ", ".join(f"{words.count(word)} {word}" for word in ("touched", "mismatch", "removed"))
    print(f"{len(conversations)} random conversations: {count} differ; of {len(words)} packets {shares}")
    return count


def model_alone():
    sys.exit(bool(compare_model()))


def main(part=PART):
    command = building.answers("conversations")
    sys.exit(bool(compare_model() + compare_written(command) + compare_random(command, part)))
