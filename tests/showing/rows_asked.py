"""Rows of the packets that are asked for: each flag alone, some joined, and `--count`.

The packets of most rows are six, of which each is of another kind: a segment that is blocked, a datagram that passes
and makes a state, its answer, a segment that is answered with a refusal, what isn't IPv4, and a packet that is too
short.
"""

from itertools import count

from captures.packets import ACK, SYN, ipv4, tcp, udp
from rulesets.tree import Network
from runs.interface_rows import Taken
from showing.model import COUNT, TEXT
from showing.row import (ASKED_WORDS, KNOCK, KNOCK_WORDS, Row, capture_of, line_of, question_of, several, text_of,
                         verdicts_of)
from showing.rows_text import SHORT, SKIPPED
from steps.translation_words import ANSWERED, ASKED, E, H, P

RULES = ("nat on em0 from any to any -> em0\n\nblock in log\npass out log label \"out\"\n"
         "block return in proto tcp to port { 23, 25 }\npass in proto icmp")
TELNET = tcp(P, 4000, H, 23, SYN, 1)
PACKETS = (KNOCK, ASKED, ANSWERED, TELNET, b"\x60", KNOCK[:30])
VERDICTS = ("in block rule r=0 t=- s=-", "out pass rule r=1 t=0 s=2", "in pass state r=1 t=0 s=2",
            "in return rule r=2 t=- s=-", SKIPPED, SHORT)
LINES = tuple(line_of(words, number) for words, number in zip((
    f"rule 0 L3 (rule): block in on em0: {KNOCK_WORDS}",
    f"rule 1 L4, nat 0 L1 (rule, state 2): pass out on em0: {ASKED_WORDS}",
    "rule 1 L4, nat 0 L1 (state, state 2): pass in on em0: udp 198.51.100.7:53 > 10.0.0.5:1000 length 28",
    "rule 2 L5 (rule): return in on em0: tcp 198.51.100.7:4000 > 10.0.0.5:23 flags S length 40",
    "no rule (not-ip): skip on em0: not-ip", "no rule (short): block on em0: short"), count(1)))


def network(word, bits=32):
    return Network(int.from_bytes(map(int, word.split("."))), bits)


def of_six(form=TEXT, **asked):
    return question_of(RULES, capture_of(*PACKETS), verdicts_of(*VERDICTS), form, **asked)


# what is asked for, and the numbers of the packets that are shown
ASKING = (({}, (1, 2, 3, 4, 5, 6)),
          ({"only": ("pass",)}, (2, 3)), ({"only": ("block",)}, (1, 6)), ({"only": ("return",)}, (4,)),
          ({"only": ("skip",)}, (5,)), ({"only": ("block", "return")}, (1, 4, 6)),
          ({"only": ("skip", "pass")}, (2, 3, 5)), ({"only": ("pass", "block", "return", "skip")}, (1, 2, 3, 4, 5, 6)),
          ({"rule": 0}, (1,)), ({"rule": 1}, (2, 3)), ({"rule": 2}, (4,)), ({"rule": 3}, ()), ({"rule": 4}, ()),
          ({"rule": 99}, ()),
          # of line 1 is the translation rule, and nothing on line 2
          ({"line": 1}, (2, 3)), ({"line": 2}, ()), ({"line": 3}, (1,)), ({"line": 4}, (2, 3)), ({"line": 5}, (4,)),
          ({"line": 99}, ()),
          ({"host": network("10.0.0.5")}, (1, 2, 3, 4)), ({"host": network(P)}, (1, 2, 3, 4)),
          ({"host": network(E)}, ()), ({"host": network("10.0.0.0", 8)}, (1, 2, 3, 4)),
          ({"host": network("10.0.0.4", 32)}, ()), ({"host": network("10.0.0.4", 31)}, (1, 2, 3, 4)),
          ({"host": network("10.0.0.6", 31)}, ()), ({"host": network("10.255.255.255", 8)}, (1, 2, 3, 4)),
          ({"host": network("11.0.0.0", 8)}, ()), ({"host": network("0.0.0.0", 0)}, (1, 2, 3, 4)),
          # the answer passes by a state, and the rule of `return` says no `log`
          ({"logged": True}, (1, 2, 6)),
          # some joined
          ({"only": ("block",), "logged": True}, (1, 6)), ({"only": ("pass",), "logged": True}, (2,)),
          ({"only": ("pass",), "rule": 0}, ()), ({"rule": 1, "line": 1}, (2, 3)), ({"rule": 1, "line": 3}, ()),
          ({"rule": 1, "logged": True}, (2,)), ({"line": 3, "host": network(P)}, (1,)),
          ({"line": 3, "host": network(E)}, ()), ({"only": ("skip",), "host": network("0.0.0.0", 0)}, ()),
          ({"only": ("block",), "host": network("0.0.0.0", 0)}, (1,)),
          ({"only": ("pass", "return"), "rule": 1, "line": 4, "host": network(H), "logged": True}, (2,)))


def of_flags():
    """The lines that are shown, and how many there are."""
    for asked, numbers in ASKING:
        yield Row(f"asked for {asked}", of_six(**asked), text_of(*(LINES[number - 1] for number in numbers)))
        yield Row(f"counted, asked for {asked}", of_six(COUNT, **asked), text_of(f"{len(numbers)} of 6 packets"))


def of_lists():
    """Several rules of a line, and several lines."""
    rules = "block from { 10.0.0.5, 198.51.100.7 }\npass"
    lines = verdicts_of("in block rule r=1 t=- s=-", "out block rule r=0 t=- s=-", "in pass rule r=2 t=- s=-")
    packets = capture_of(KNOCK, ASKED, KNOCK)
    shown = (line_of(f"rule 1 L1 (rule): block in on em0: {KNOCK_WORDS}"),
             line_of(f"rule 0 L1 (rule): block out on em0: {ASKED_WORDS}", 2),
             line_of(f"rule 2 L2 (rule): pass in on em0: {KNOCK_WORDS}", 3))
    for asked, numbers in (({"line": 1}, (1, 2)), ({"line": 2}, (3,)), ({"rule": 0}, (2,)), ({"rule": 1}, (1,)),
                           ({"rule": 1, "line": 1}, (1,)), ({"rule": 2, "line": 1}, ())):
        yield Row(f"rules of a list, asked for {asked}", question_of(rules, packets, lines, **asked),
                  text_of(*(shown[number - 1] for number in numbers)))
    translations = "rdr on em0 from any to any -> 10.0.0.1\nblock in"
    both = verdicts_of("in block rule r=0 t=0 s=-", "out pass default r=- t=- s=-")
    for line, numbers in ((1, "1"), (2, "1"), (3, "0")):
        question = question_of(translations, capture_of(KNOCK, ASKED), both, COUNT, line=line)
        yield Row(f"a packet of two rules, by line {line}", question, text_of(f"{numbers} of 2 packets"))


# Logged packets

# what a line says by rule 0, which logs, or by rule 1, and whether each is logged
REASONS = (("in block rule r={} t=- s=-", True), ("in return rule r={} t=- s=-", True),
           ("in pass rule r={} t=- s=1", True), ("in block ip-option r={} t=- s=-", True),
           ("in block state-insert r={} t=- s=-", True), ("in block state-limit r={} t=- s=-", True))
MET = (("in pass state r={} t=- s=1", False), ("in pass state-error r={} t=- s=1", False),
       ("in block state-mismatch r={} t=- s=1", False), ("in block ip-option r={} t=- s=1", True))
LOGS = "rdr pass log on em0 all -> 10.0.0.1\nnat pass log on em0 all -> em0\nblock in log\nblock in"
# without a rule nothing is logged but what is too short; `log` of translation counts for nothing
WITHOUT_RULE = (("in pass default r=- t=- s=-", KNOCK, 0), ("in pass nat-pass r=- t=0 s=1", KNOCK, 0),
                ("out block nat-exhausted r=- t=0 s=-", KNOCK, 0), ("in block ip-option r=- t=- s=-", KNOCK, 0),
                ("in block state-limit r=- t=0 s=-", KNOCK, 0), ("in block state-insert r=- t=0 s=-", KNOCK, 0),
                ("- pass skip-on r=- t=- s=-", KNOCK, 0), (SHORT, KNOCK[:9], 1),
                ("- pass skip-on r=- t=- s=-", KNOCK[:9], 0), (SKIPPED, b"\x60", 0),
                ("in block rule r=1 t=0 s=-", KNOCK, 0), ("in block rule r=0 t=0 s=-", KNOCK, 1))


def counted(name, rules, frames, verdicts, found, **asked):
    """A row in which the packets that are asked for are counted."""
    return Row(name, question_of(rules, capture_of(*frames), verdicts_of(*verdicts), COUNT, **asked),
               text_of(f"{found} of {len(frames)} packets"))


def of_logs():
    for number in (0, 1):
        for verdict, is_so in REASONS:
            yield counted(f"logged, {verdict.format(number)}", LOGS, [KNOCK], [verdict.format(number)],
                          int(is_so and number == 0), logged=True)
        for verdict, is_so in MET:
            lines = ["in pass default r=- t=0 s=1", verdict.format(number)]
            yield counted(f"logged, {verdict.format(number)}", LOGS, [KNOCK] * 2, lines, int(is_so and number == 0),
                          logged=True)
    for verdict, frame, found in WITHOUT_RULE:
        yield counted(f"logged, {verdict}, {len(frame)} bytes", LOGS, [frame], [verdict], found, logged=True)


# rules that log, and those that don't
LOG_WORDS = (("block in log", 1), ("block log quick", 1), ("block drop out log proto tcp all", 1),
             ("block return log", 1), ("pass log no state", 1), ("pass in log quick on em0 inet from any to any", 1),
             ("pass \\\n in \\\n log", 1), ("pass # log", 0), ("pass on log0", 0), ('pass label "log"', 0),
             ("pass", 0), ("block return in quick", 0), ("anchor \"log\" {\npass\n}", 0),
             ("anchor in {\npass log\n}", 1),
             ("anchor {\nanchor out {\nblock log\n}\n}", 1), ('log0 = "tcp"\npass proto $log0', 0),
             ("pass proto { tcp,\n udp }\nblock log", 0), ("block log proto {\n tcp udp }", 1),
             ("pass log\npass", 1), ("pass\npass log", 0))


def of_log_words():
    """The first rule decides, whatever it says besides."""
    for rules, found in LOG_WORDS:
        yield counted(f"logged by {rules!r}", rules, [KNOCK], ["in block rule r=0 t=- s=-"], found, logged=True)


# Counts

def counts():
    for number in (0, 1, 2, 10):
        yield counted(f"{number} packets", "block", [KNOCK] * number, ["in block rule r=0 t=- s=-"] * number, number)
    lines = verdicts_of("in block rule r=0 t=- s=-")
    for length in (1, 16, 50):
        cut = capture_of(KNOCK, behind=capture_of(KNOCK)[24:24 + length])
        yield Row(f"a count of a capture that is cut behind {length} bytes", question_of("block", cut, lines, COUNT),
                  text_of("1 of 1 packets, cut"))
    yield Row("a count of no packet, cut", question_of("block", capture_of(KNOCK)[:-1], b"", COUNT),
              text_of("0 of 0 packets, cut"))
    whole, cut = Taken(((1, 0, KNOCK), (3, 0, KNOCK))), Taken(((2, 0, KNOCK),), b"x")
    verdicts = text_of(*(f"{number} {number} in block rule r=0 t=- s=- i=em{place}"
                         for number, place in ((1, 0), (2, 1), (3, 0))))
    yield Row("a count of two captures, the second one cut",
              several("block", [whole.bytes(), cut.bytes()], verdicts, COUNT), text_of("3 of 3 packets, cut"))


def parts():
    """By their hosts also parts of packets and all protocols are found."""
    frames = [ipv4(P, H, 47), ipv4(P, "10.0.0.6", 17, bytes(3), fragment=2), udp("10.0.0.6", 1, P, 2),
              tcp(P, 1, "10.0.0.7", 2, ACK, 1)]
    for host, found in (("10.0.0.5", 1), ("10.0.0.6", 2), ("10.0.0.7", 1), (P, 4)):
        yield counted(f"parts and protocols of {host}", "block", frames, ["in block rule r=0 t=- s=-"] * 4, found,
                      host=network(host))
    yield counted("both ends in a network", "block", [udp(H, 1, "10.0.0.6", 2)], ["in block rule r=0 t=- s=-"], 1,
                  host=network("10.0.0.0", 24))


def rows():
    for make in (of_flags, of_lists, of_logs, of_log_words, counts, parts):
        yield from make()
