"""What other readers say of what the command `show` prints: tcpdump and tshark of a capture of pflog, and Python's
reader of JSON. What they say is compared with the lines of verdicts.

tcpdump and tshark are left out if they aren't there.
"""

import json
import re
import shutil
import subprocess

from captures.model import NANOSECONDS, read_header
from showing.packets import NOT_IP
from showing.pflog import HEADER_LENGTH, NONE, REASONS, time_of
from showing.printed import object_of
from showing.verdicts import verdict_in

# seconds
TIME_LIMIT = 60
TCPDUMP, TSHARK = "tcpdump", "tshark"
# of a packet: the time, the rule, the reason by number and in words, the action, the direction and the interface
TOLD = re.compile(rb"(?P<time>[0-9]+\.[0-9]+|\[Error converting time\]) rule (?P<rule>[0-9]+)/"
                  rb"(?P<reason>(?:[0-9]+|unkn)\([a-z0-9-]+\)): (?P<action>[a-z]+) "
                  rb"(?P<direction>in|out|in/out) on (?P<name>[^ :]+): ")
# what some tcpdump says of a second from this one on
NO_TIME, LATE = "[Error converting time]", 2**31
# what pf says for a reason; a tcpdump that has no word for it tells the number alone
WORDS = {0: "match", 3: "short", 8: "ip-option", 10: "state-mismatch", 11: "state-insert", 12: "state-limit",
         15: "map-failed"}
ACTIONS = {"pass": 0, "block": 1, "return": 1}
FIELDS = ("length", "af", "action", "reason", "ifname", "rulenr", "subrulenr", "uid", "pid", "dir")


def joined_of(question):
    """The packets of a question that are IPv4, each with what its line says. The question asks for all."""
    pairs = zip(question.joined().packets, map(verdict_in, question.verdicts.splitlines()), strict=True)
    return [(packet, said) for packet, said in pairs if packet.seen() != NOT_IP]


def is_there(reader):
    """Whether a reader is installed; if it isn't, that is said."""
    if shutil.which(reader):
        return True
    print(f"{reader} isn't there, so pflog isn't read by it", flush=True)
    return False


def read_by(words):
    """The lines that a reader prints."""
    done = subprocess.run(words, stdin=subprocess.DEVNULL, stdout=subprocess.PIPE, stderr=subprocess.DEVNULL,
                          timeout=TIME_LIMIT, check=False)
    return done.stdout.splitlines()


def has_nanoseconds(question):
    """Whether one of the captures counts nanoseconds."""
    return any(read_header(capture).fraction == NANOSECONDS for capture in question.case.captures())


# tcpdump

def expected_of_tcpdump(question, packet, said):
    """The words that tcpdump may have for a packet: each part with what may stand there."""
    number, is_fine = REASONS.get(said.reason, 0), has_nanoseconds(question)
    times = [time_of(packet, is_fine, carries) for carries in (False, True)]
    late = {NO_TIME} if packet.record.seconds >= LATE else set()
    return [{f"{second}.{fraction:0{9 if is_fine else 6}}" for second, fraction in times} | late,
            {str(NONE if said.rule is None else said.rule)},
            {f"{number}({WORDS[number]})", f"unkn({number})"}, {"pass" if said.verdict == "pass" else "block"},
            {"in/out" if said.direction == "-" else said.direction}, {question.names()[packet.place]}]


def expect_tcpdump(comparison, question, file):
    """tcpdump says of each packet what its line does."""
    if not is_there(TCPDUMP):
        return
    precision = ["--nano"] if has_nanoseconds(question) else []
    lines = read_by([TCPDUMP, "-n", "-e", "-q", "-tt", *precision, "-r", file])
    told = [tuple(map(bytes.decode, found.groups())) for found in map(TOLD.match, lines) if found]
    pairs = joined_of(question)
    comparison.expect(f"{question.case.name}: packets for tcpdump", len(pairs), len(told))
    for (packet, said), words in zip(pairs, told):
        allowed = expected_of_tcpdump(question, packet, said)
        right = tuple(word if word in some else sorted(some)[0] for word, some in zip(words, allowed))
        comparison.expect(f"{question.case.name}: packet {packet.number}, by tcpdump", right, words)


# tshark

def expected_of_tshark(question, packet, said):
    """The fields of a packet as tshark has them. It shows numbers without a sign as ones with a sign."""
    direction = {"in": 1, "out": 2, "-": 0}[said.direction]
    _, captured, _ = packet.fields()
    there = captured - packet.link_length()
    there -= 0 if packet.is_short() else max(0, there - packet.total())
    return tuple(map(str, (61, 2, ACTIONS[said.verdict], REASONS.get(said.reason, 0), question.names()[packet.place],
                           -1 if said.rule is None else said.rule, -1, -1, 100000, direction, there + HEADER_LENGTH)))


def expect_tshark(comparison, question, file):
    """tshark says of each packet what its line does."""
    if not is_there(TSHARK):
        return
    fields = [word for name in FIELDS for word in ("-e", f"pflog.{name}")]
    lines = read_by([TSHARK, "-n", "-r", file, "-T", "fields", *fields, "-e", "frame.cap_len"])
    pairs = joined_of(question)
    comparison.expect(f"{question.case.name}: packets for tshark", len(pairs), len(lines))
    for (packet, said), line in zip(pairs, lines):
        comparison.expect(f"{question.case.name}: packet {packet.number}, by tshark",
                          expected_of_tshark(question, packet, said), tuple(line.decode().split("\t")))


def expect_pflog(comparison, question, octets):
    """Both readers say of the packets of a capture of pflog what their lines do."""
    file = comparison.folder / "pflog"
    file.write_bytes(octets)
    expect_tcpdump(comparison, question, file)
    expect_tshark(comparison, question, file)


# JSON

def expect_json(comparison, question, octets):
    """Python reads of each line what its packet and its line of verdicts say, each name in its place."""
    objects = [json.loads(line, object_pairs_hook=list) for line in octets.splitlines()]
    said, rules = list(map(verdict_in, question.verdicts.splitlines())), question.rules()
    comparison.expect(f"{question.case.name}: objects", len(said), len(objects))
    for packet, each, pairs in zip(question.joined().packets, said, objects):
        expected = listed(object_of(packet, each, rules, question.names()[packet.place]))
        comparison.expect(f"{question.case.name}: packet {packet.number}, names of JSON",
                          [name for name, _ in expected], [name for name, _ in pairs])
        for (name, value), (_, read) in zip(expected, pairs):
            comparison.expect(f"{question.case.name}: packet {packet.number}, {name} in JSON", (type(value), value),
                              (type(read), read))


def listed(value):
    """An object as the pairs of its names and values."""
    return [(name, listed(each)) for name, each in value.items()] if isinstance(value, dict) else value
