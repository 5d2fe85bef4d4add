"""Command lines of the command `show` that fit and that don't. `capture`, `lines` and `rules` stand for its files."""

import runs.lines
from changes.lines import BAD_ALSO, also
from changes.lines import FORMS as ALL_FORMS
from rulesets.tree import Network
from runs.case import Line
from runs.lines import spelled
from showing.asking import CAPTURE, LINES
from showing.model import COUNT, JSON, NAME, PFLOG, TEXT

FILES = (CAPTURE, LINES, NAME)
FLAGS = {"--interface": "em0", "--address": "192.0.2.1/24"}
FORMS = {flag: ALL_FORMS[flag] for flag in (*FLAGS, "--also")}
# what the help shows, among other things
HELPED = (b"<CAPTURE>", b"<VERDICTS>", b"<RULES>", b"--only", b"--rule", b"--line", b"--host", b"--port <PORT>",
          b"--proto <PROTO>", b"--logged", b"--count", b"--format", b"--adapt",
          *(f"{flag} <{form}>".encode() for flag, form in FORMS.items()))
BAD_VALUES = {flag: runs.lines.BAD_VALUES[flag] for flag in FLAGS}
# values of the flags that ask for packets, of which the form isn't told here
BAD_ASKING = {
    "--only": ("", ",", "Pass", "PASS", "drop", "pass,", ",pass", "pass,,block", "pass, block", "pass block", "all",
               "pass;block", "pass|block", "pass,drop", "p", "skipped", " pass", "pass "),
    "--rule": ("", "x", "-1", "+1", "1.0", "0x1", " 1", "1 ", "1,2", "r=1", "-", "any"),
    "--line": ("", "x", "-1", "+1", "1.0", "0x1", " 1", "1 ", "1,2", "L1", "-", "any"),
    "--host": ("", "10.0.0", "10.0.0.0/33", "10.0.0.256", "10.0.0.0/", "/8", "10.0.0.0/8/8", "10.0.0.0.0", "em0", "any",
               "10.0.0.5,10.0.0.6", "!10.0.0.5", "10.0.0.5 ", " 10.0.0.5", "10.0.0.0/-1", "10.0.0.0/x", "10..0.5",
               "10.0.0.5:80"),
    "--format": ("", "Text", "TEXT", "xml", "pcap", "text,json", "text|json", "json ", " json", "count", "j"),
}
# words that are no number and no name for one, each with its flag in the line that says so
NO_NUMBERS = ("", "x", "-1", "+1", "-0", "1.0", "0x1", " 1", "1 ", "1,2", "-", "any", "1:2", "1-2", "!1", "= 1", "$p",
              "{", "99999999999", "18446744073709551616", "9" * 300, "0" * 300 + "9" * 6)
BAD_WORDS = {
    "--port": (*NO_NUMBERS, "65536", "065536", "SSH", "Ssh", "http ", " http", "https,http", "gopher", "imaps", "tcp",
               "icmp", "echoreq", "port", "80/tcp", "*", "http:https"),
    "--proto": (*NO_NUMBERS, "256", "0256", "65536", "TCP", "Tcp", "tcp ", " tcp", "tcp,udp", "tcp/udp", "ospf", "sctp",
                "ip", "ipv6", "icmp6", "http", "ssh", "echoreq", "proto", "all"),
}
# a value of each of them, and the flags without
GOOD_ASKING = {"--only": "pass", "--rule": "0", "--line": "1", "--host": "10.0.0.0/8", "--port": "80", "--proto": "tcp",
               "--format": "json"}
BARE = ("--logged", "--count")
# flags of other commands, and of none
UNKNOWN = ("--inside=10.0.0.0/8", "--mac=em0=02:00:00:00:00:01", "--tap=stack", "--seed=00", "--batch=7", "--workers=0",
           "--packets=p", "--counters=c", "--states=s", "--messages=m", "--peer=127.0.0.1:9", "--warn", "--json",
           "--verdicts=lines", "--quiet", "--log", "--rules=rules", "--hosts=10.0.0.5", "--ONLY=pass", "--pflog", "-c",
           "--logged=yes", "--count=1", "-x")


def show_line(flags, *more):
    return ("show", *FILES, *spelled(flags), *more)


def bad_values():
    """One value each that isn't of its form, in both spellings; the flag is named."""
    for flag, values in {**BAD_VALUES, "--also": tuple(BAD_ALSO), **BAD_ASKING, **BAD_WORDS}.items():
        others = {name: value for name, value in FLAGS.items() if name != flag}
        for value in values:
            if flag in BAD_ASKING:
                said = (b"invalid value '", f"' for '{flag} <".encode())
            elif flag in BAD_WORDS:
                said = (f"invalid value '{value}' for '{flag} <{flag[2:].upper()}>'".encode(),)
            else:
                part = BAD_ALSO[value] if flag == "--also" else value
                said = (f"invalid value '{part}' for '{flag} <{FORMS[flag]}>'".encode(),)
            yield Line(show_line(others, f"{flag}={value}"), said)
            if not value.startswith("-"):
                yield Line(show_line(others, flag, value), said)


def missing_words():
    for flag in FLAGS:
        others = {name: value for name, value in FLAGS.items() if name != flag}
        yield Line(show_line(others))
        yield Line(show_line(others, flag))
    for flag in ("--also", *GOOD_ASKING):
        yield Line(show_line(FLAGS, flag))
    for count in range(len(FILES)):
        yield Line(("show", *FILES[:count], *spelled(FLAGS)))
    yield Line(("show", *FILES))
    yield Line(("show",))


def surplus_words():
    for flag, value in (*FLAGS.items(), *GOOD_ASKING.items()):
        said = (f"'{flag} <".encode(), b"cannot be used multiple times")
        yield Line(show_line({**FLAGS, flag: value}, flag, value), said)
        yield Line(show_line({**FLAGS, flag: value}, f"{flag}={value}"), said)
    for flag in BARE:
        yield Line(show_line(FLAGS, flag, flag), (f"'{flag}' cannot be used multiple times".encode(),))
    for form in (TEXT, JSON, PFLOG):
        yield Line(show_line(FLAGS, "--count", "--format", form))
        yield Line(show_line(FLAGS, f"--format={form}", "--count"))
    for words in (("more",), ("--logged", "yes"), ("--count", "1"), ("--only", "pass", "block"), ("rules",)):
        yield Line(show_line(FLAGS, *words))
    for word in UNKNOWN:
        yield Line(show_line(FLAGS, word))


def interfaces():
    """Interfaces that are named twice, or too many, and two files that come from standard input."""
    for twice, names in (("em0", ("em0",)), ("em1", ("em1", "em1")), ("em2", ("em1", "em2", "em3", "em2"))):
        yield Line(show_line(FLAGS, *also(*names)), (f"interface twice: {twice}\n".encode(),))
    yield Line(show_line(FLAGS, *also(*(f"em{place}" for place in range(1, 9)))), (b"more than 8 interfaces\n",))
    flags, standard = spelled(FLAGS), "203.0.113.2/24,-"
    for words in (("show", "-", "-", NAME, *flags), ("show", CAPTURE, "-", NAME, *flags, "--also", f"em1,{standard}"),
                  ("show", "-", LINES, NAME, *flags, "--also", f"em1,{standard}"),
                  ("show", "-", "-", "missing", *flags),
                  (*show_line(FLAGS, "--also", f"em1,{standard}", f"--also=em2,{standard}"),)):
        yield Line(words, (b"same file: -\n",))


def bad():
    """Lines that don't fit. The files that they name have faults too, which aren't to be met."""
    yield from bad_values()
    yield from missing_words()
    yield from surplus_words()
    yield from interfaces()


def good():
    """Lines that fit: the words, which packets are asked for, and how they are printed."""
    flags = spelled(FLAGS)
    capture, verdicts, rules = FILES
    for words in ((*flags, *FILES), (capture, *flags, verdicts, rules), (capture, verdicts, "--logged", *flags, rules),
                  (*FILES, *(f"{flag}={value}" for flag, value in FLAGS.items())), (*flags, "--", *FILES)):
        is_logged = "--logged" in words
        yield words, {"logged": is_logged}, TEXT
        yield ("--count", *words), {"logged": is_logged}, COUNT
        yield ("--format=json", *words), {"logged": is_logged}, JSON
    for form in (TEXT, JSON, PFLOG):
        yield (*FILES, *flags, "--format", form), {}, form
        yield (*FILES, f"--format={form}", *flags, "--only=block"), {"only": ("block",)}, form
    for word in ("pass", "block,return", "return,block,skip", "pass,block,return,skip"):
        yield (*FILES, *flags, "--only", word), {"only": tuple(word.split(","))}, TEXT
    for number in (0, 1, 7, 65535):
        yield (*FILES, *flags, "--rule", str(number)), {"rule": number}, TEXT
        yield (f"--rule={number}", *FILES, *flags, "--count"), {"rule": number}, COUNT
    for number in (1, 2, 1048576):
        yield (*FILES, *flags, f"--line={number}", "--rule", "0"), {"line": number, "rule": 0}, TEXT
    for word, network in (("10.0.0.5", (0x0A000005, 32)), ("10.0.0.0/8", (0x0A000000, 8)),
                          ("010.000.0.05/032", (0x0A000005, 32)), ("0.0.0.0/0", (0, 0)), ("198.51.100.9/24", (
                              0xC6336409, 24)), ("255.255.255.255", (0xFFFFFFFF, 32))):
        yield (*FILES, *flags, "--host", word), {"host": Network(*network)}, TEXT
    for word in ("22", "ssh", "0022", "0", "65535", "00065535", "https"):
        yield (*FILES, *flags, "--port", word), {"port": word}, TEXT
        yield (f"--port={word}", *FILES, *flags, "--proto=tcp"), {"port": word, "proto": "tcp"}, TEXT
    for word in ("6", "tcp", "006", "0", "255", "0255", "udp"):
        yield (*FILES, *flags, "--proto", word), {"proto": word}, TEXT
        yield (*FILES, f"--proto={word}", *flags, "--port", "53", "--count"), {"proto": word, "port": "53"}, COUNT
    yield ("--logged", "--only=pass,block", *FILES, "--host=10.0.0.0/8", *flags, "--line", "2", "--format", "json"), {
        "logged": True, "only": ("pass", "block"), "host": Network(0x0A000000, 8), "line": 2}, JSON
