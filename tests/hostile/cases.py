"""Inputs that are drawn: each is a command line with the files that it names. They are made by the grammar and then
damaged, or are real ones that are damaged, or lie at an edge.
"""

import random
import string
import struct
from functools import lru_cache
from typing import NamedTuple

import steps.random_runs
import steps.translation_runs
from adapt.drawn import Drawer
from adapt.drawn_surroundings import hostile_surroundings
from captures.packets import capture_header, record
from expansions.hostile import doubled, hostile, nested
from expansions.random_texts import Writer
from listing.cases import KINDS as DAMAGE
from listing.cases import some_file
from rulesets.cases import PIECE, change_lines, change_pieces, written
from runs import lines
from runs import model as runs_model
from runs.case import Case
from runs.random_cases import some_capture
from showing.verdicts import REASONS
from standby import streams
from telling import shadow_texts

INTERFACE = ("--interface", "em0", "--address", "192.0.2.1/24")
INSIDE = ("--inside", "10.0.0.0/8")
OUTPUTS = ("verdicts", "packets", "counters", "states")
# files by these names
RULES, CAPTURE, MESSAGES, LEFT, NEW_RULES, VERDICTS = "rules", "capture", "messages", "left", "new_rules", "lines"
# names of tables of the captures' fields that are damaged: where they stand in a record's header, and their bytes
FIELDS = ((0, 4), (4, 4), (8, 4), (12, 4))
LINKS = (0, 1, 101)
EDGES = (0, 1, 2, 3, 13, 14, 15, 16, 17, 18, 19, 20, 21, 23, 24, 27, 28, 33, 34, 38, 40, 59, 60, 61, 262143, 262144)
MOST_CAPTURED = 262144
NUMBERS = (0, 1, 2, 127, 128, 255, 256, 32767, 32768, 65535, 65536, 262144, 262145, 2**31 - 1, 2**31, 2**32 - 2,
           2**32 - 1)


class Input(NamedTuple):
    """What a run of the program is given: its kind, its words, and the files in its folder by their names."""
    kind: str
    words: tuple
    files: dict


# Damage

def some_bytes(draw, octets):
    """Bytes with some of them changed, left out, doubled or cut off, or with others among them."""
    for _ in range(draw.choice((1, 1, 1, 2, 4, 8))):
        place = draw.randrange(len(octets) + 1)
        other = min(len(octets), place + draw.choice((1, 1, 2, 4, 16, 64)))
        way = draw.randrange(5)
        if way == 0:
            octets = octets[:place] + draw.randbytes(other - place) + octets[other:]
        elif way == 1:
            octets = octets[:place] + octets[other:]
        elif way == 2:
            octets = octets[:other] + octets[place:]
        elif way == 3:
            octets = octets[:place] + draw.randbytes(draw.randint(1, 8)) + octets[place:]
        else:
            octets = octets[:place] if draw.random() < 0.2 else octets
    return octets


@lru_cache
def real_rulesets():
    """Those of the folder of texts, with the words that stand in them."""
    texts = [ruleset.text for ruleset in written()]
    pieces = {piece for text in texts for piece in PIECE.findall(text)}
    return texts, sorted(piece for piece in pieces if piece.strip() and len(piece) <= 40)


def damaged_ruleset(draw, text):
    """A ruleset with words, lines or bytes damaged, or as it is."""
    _, vocabulary = real_rulesets()
    for _ in range(draw.choice((0, 1, 1, 2, 3))):
        way = draw.random()
        if way < 0.5:
            text = change_pieces(draw, text, vocabulary)
        elif way < 0.75:
            text = change_lines(draw, text)
        else:
            text = some_bytes(draw, text)
    return text


# Rulesets

def check(draw, kind, text):
    """The command `check` of a ruleset, by the strict reader or adapted."""
    return Input(kind, ("check", RULES, *INTERFACE, *(("--adapt",) if draw.random() < 0.3 else ())), {RULES: text})


def made_ruleset(draw):
    return check(draw, "rulesets, made", damaged_ruleset(draw, Writer(draw).text()))


def real_ruleset(draw):
    texts, _ = real_rulesets()
    return check(draw, "rulesets, real", damaged_ruleset(draw, draw.choice(texts)))


def edge(draw):
    """A small text near a limit: of depth, of macros in macros, of numbers, of names, of lists."""
    way = draw.randrange(6)
    if way == 0:
        depth = draw.choice((1, 15, 16, 17, 200))
        return nested(draw.choice(("anchor", "anchor proto { tcp, udp }", "anchor on { em0 em1 }")), "pass\n", depth)
    if way == 1:
        return doubled(draw.choice((1, 8, 12, 20, 40, 400))) + f"pass proto {{ $m{draw.randrange(20)} }}\n"
    if way == 2:
        number = draw.choice((*NUMBERS, 10**9, 10**20, 10**400))
        return draw.choice((f"set timeout tcp.first {number}\npass\n", f"set limit states {number}\npass\n",
                            f"pass proto {number}\n", f"pass to port {number}\n", f"pass keep state (max {number})\n",
                            f"pass proto icmp icmp-type {number}\n", f"set hostid {number}\n",
                            f"pass from 10.0.0.1/{number}\n"))
    if way == 3:
        name = "a" * draw.choice((1, 15, 16, 31, 32, 63, 64, 1000, 100000))
        return draw.choice((f"pass on {name}\n", f"{name} = 5\npass\n", f"table <{name}> {{ 10/8 }}\n",
                            f'pass label "{name}"\n', f"anchor {name}\n", f'"{name}\n', f"pass # {name}\n"))
    if way == 4:
        count = draw.choice((2, 16, 100, 300))
        addresses = " ".join(f"10.{place // 256}.{place % 256}.{draw.randrange(256)}" for place in range(count))
        return draw.choice((f"pass from {{ {addresses} }}\n", f"table <t> {{ {addresses} }}\npass from <t>\n",
                            f"pass from {{ {addresses} }} to {{ {addresses} }}\n"))
    piece = draw.choice(("{", "}", "(", "<", '"', "\\\n", ",", "!", " ", "\t", "$x "))
    return piece * draw.choice((1, 100, 10000, 300000))


def edge_ruleset(draw):
    text = edge(draw).encode()
    return check(draw, "rulesets, at an edge", some_bytes(draw, text) if draw.random() < 0.2 else text)


@lru_cache
def large_rulesets():
    return [(text.encode() if isinstance(text, str) else text) for _, text, *_ in hostile()]


def large_ruleset(draw):
    return check(draw, "rulesets, large", draw.choice(large_rulesets()))


def adapted(draw):
    """The command `adapt`, with files beside the ruleset of which some hold anything."""
    drawer = Drawer(draw)
    text = drawer.hostile() if draw.random() < 0.5 else drawer.text()
    around = hostile_surroundings(draw)
    files = {RULES: damaged_ruleset(draw, text if isinstance(text, bytes) else text.encode())}
    flags = [("--interface-address", f"{name}={address}") for name, address in around.interfaces]
    flags += [("--group", f"{group}={name}") for group, name in around.groups]
    for flag, texts in (("hosts", around.hosts), ("services", around.services)):
        for number, octets in enumerate(texts):
            files[f"{flag}{number}"] = octets
            flags.append((f"--{flag}", f"{flag}{number}"))
    for number, (name, octets) in enumerate(around.tables):
        files[f"table{number}"] = octets
        flags.append(("--table", f"{name}=table{number}"))
    return Input("adapt", ("adapt", RULES, *INTERFACE, *(word for flag in flags for word in flag)), files)


# Captures

def run_words(draw):
    """The words of a run, with settings of any kind."""
    words = ["run", CAPTURE, RULES, *INTERFACE]
    mac = draw.random() < 0.2
    words += INSIDE if not mac or draw.random() < 0.5 else ()
    words += ("--mac", "em0=02:00:00:00:00:01") if mac else ()
    words += ("--tap", "wire") if draw.random() < 0.3 else ()
    words += ("--warn",) if draw.random() < 0.3 else ()
    words += ("--batch", str(draw.choice((1, 2, 7, 256)))) if draw.random() < 0.5 else ()
    words += ("--workers", str(draw.choice((0, 0, 0, 1, 2))))
    for name in OUTPUTS:
        words += (f"--{name}", name)
    words += ("--messages", MESSAGES) if draw.random() < 0.3 else ()
    return tuple(words)


def capture_of_a_run(draw):
    """A ruleset and a capture that fit each other, of which the capture is damaged."""
    some_run = draw.choice((steps.random_runs.some_run, steps.translation_runs.some_run))
    count = draw.randint(0, 12)
    if some_run is steps.random_runs.some_run:
        run = some_run(draw, 0, count, (count, count))
    else:
        run = some_run(draw, 0, count, bytes(32))
    octets = some_capture(draw, run)
    files = {RULES: run.rules.encode(), CAPTURE: some_bytes(draw, octets) if draw.random() < 0.7 else octets}
    return Input("captures, damaged", run_words(draw), files)


def some_header(draw, order, captured, original):
    """The header of a record, with a field that says anything now and then."""
    fields = [draw.choice(NUMBERS), draw.choice(NUMBERS), captured, original]
    if draw.random() < 0.1:
        fields[draw.randrange(4)] = draw.choice(NUMBERS)
    return struct.pack(order + "IIII", *fields)


def some_frame(draw, link):
    """A frame of any bytes, behind the header of its link now and then, of a length at an edge."""
    length = draw.choice(EDGES[:-2]) if draw.random() < 0.999 else draw.choice(EDGES[-2:])
    frame = bytearray(draw.randbytes(length))
    place = {0: 4, 1: 14, 101: 0}[link]
    if link == 0 and length >= 4:
        frame[:4] = draw.choice((b"\2\0\0\0", b"\0\0\0\2", b"\x18\0\0\0"))
    if link == 1 and length >= 14:
        frame[12:14] = draw.choice((b"\x08\0", b"\x08\0", b"\x81\0", b"\x08\x06", b"\x86\xdd", b"\x88\xa8"))
    if length > place and draw.random() < 0.9:
        frame[place] = draw.choice((0x45, 0x45, 0x46, 0x4f, 0x44, 0x40, 0x65))
    if length > place + 9 and draw.random() < 0.9:
        frame[place + 9] = draw.choice((1, 6, 17, 50))
        frame[place + 2:place + 4] = struct.pack(">H", draw.choice((length - place, 20, 28, 40, 65535, 0)) % 65536)
        frame[place + 6:place + 8] = draw.choice((b"\0\0", b"\0\0", b"\x20\0", b"\0\1"))
    return bytes(frame)


def made_capture(draw):
    """A capture of frames of any bytes, whose times go as they like."""
    order, link = draw.choice("<>"), draw.choice(LINKS)
    magic = draw.choice((0xa1b2c3d4, 0xa1b23c4d))
    parts = [capture_header(order, magic, network=link)]
    for _ in range(draw.randint(0, 12)):
        frame = some_frame(draw, link)
        parts.append(some_header(draw, order, len(frame), draw.choice((len(frame), *NUMBERS))) + frame)
    octets = b"".join(parts)
    if draw.random() < 0.3:
        octets = octets[:draw.randrange(len(octets) + 1)]
    texts, _ = real_rulesets()
    rules = draw.choice((b"pass\n", b"block\npass out\n", b"pass no state\n", draw.choice(texts)))
    return Input("captures, made", run_words(draw), {RULES: rules, CAPTURE: octets})


# Messages

@lru_cache(maxsize=64)
def block(number):
    return list(streams.block(number))


def damaged_messages(draw):
    """A stream of messages with damage."""
    octets = draw.choice(block(draw.randrange(64))).octets
    if draw.random() < 0.3:
        octets = some_bytes(draw, octets)
    return Input("messages", ("standby", "--messages", MESSAGES), {MESSAGES: octets})


# States

def damaged_states(draw):
    """A file of states with damage, and now and then a long one."""
    octets = some_file(draw).octets
    if draw.random() < LONG:
        octets *= draw.choice((100, 3000, 20000))
    if draw.random() < 0.3:
        octets = some_bytes(draw, octets)
    return Input("states", ("states", LEFT, *(("--json",) if draw.random() < 0.5 else ())), {LEFT: octets})


# Views of rulesets and captures

def viewed_ruleset(given):
    """The same ruleset, whose rules are printed."""
    command, name, *flags = given.words
    adapts = ("--adapt",) if command == "adapt" else ()
    return Input("rules", ("rules", name, *adapts, *flags), given.files)


def shadowed_ruleset(draw):
    """A ruleset in which rules are likely to be shadowed."""
    return check(draw, "rulesets, shadows", damaged_ruleset(draw, shadow_texts.some_ruleset(draw)))


def viewed_capture(draw, given):
    """The same capture, of which the ruleset is compared with a damaged one."""
    ways = INSIDE + (("--tap", "wire") if "--tap" in given.words else ())
    ways += ("--verdicts",) if draw.random() < 0.3 else ()
    new = given.files[RULES]
    if draw.random() < 0.9:
        rows = new.splitlines(keepends=True)
        draw.shuffle(rows)
        new = b"".join(rows[:draw.randint(0, len(rows))]) if draw.random() < 0.5 else damaged_ruleset(draw, new)
    ways += ("--format", "json") if draw.random() < 0.3 else ()
    ways += ("--quiet",) if draw.random() < 0.3 else ()
    return Input("diff", ("diff", CAPTURE, RULES, NEW_RULES, *INTERFACE, *ways), {**given.files, NEW_RULES: new})


def viewed(draw):
    """A ruleset whose rules are printed, or a capture of which two rulesets are compared."""
    if draw.random() < 0.5:
        make = draw.choice((made_ruleset, real_ruleset, edge_ruleset, adapted, shadowed_ruleset))
        return viewed_ruleset(make(draw))
    return viewed_capture(draw, draw.choice((capture_of_a_run, made_capture))(draw))


# Packets with lines of verdicts

def some_verdict(draw, number):
    """A line of a packet, without its newline, which mostly says what a run could."""
    reason = draw.choice(sorted(REASONS))
    direction, words = draw.choice(("in", "out", "-")), f"{draw.choice(REASONS[reason])} {reason}"
    rules = (draw.choice(("-", 0, 0, 1, draw.choice(NUMBERS))) for _ in range(2))
    number = number if draw.random() < 0.98 else draw.choice(NUMBERS)
    ends = " ".join(f"{letter}={each}" for letter, each in zip("rts", (*rules, draw.choice(("-", number)))))
    return f"{number} {draw.choice((0, 0, *NUMBERS))} {direction} {words} {ends}"


def some_verdicts(draw, given):
    """The lines of a run over a capture, or any others, maybe with damage."""
    if draw.random() < 0.6:
        case = Case("", given.files[RULES], INSIDE[1], given.files[CAPTURE])
        octets = runs_model.run(case, runs_model.NONE).files.verdicts or b""
    else:
        octets = "".join(f"{some_verdict(draw, number)}\n" for number in range(1, draw.randint(1, 14))).encode()
    for kind in draw.choices(DAMAGE, k=draw.choice((0, 0, 0, 1, 2))):
        octets = kind(draw, octets)
    return some_bytes(draw, octets) if draw.random() < 0.1 else octets


def some_views(draw):
    """Flags that ask for packets, and how these are printed."""
    flags = (("--only", draw.choice(("pass", "block,return", "skip"))), ("--rule", str(draw.choice(NUMBERS[:8]))),
             ("--line", str(draw.choice(NUMBERS[1:8]))), ("--host", draw.choice(("10.0.0.5", "0.0.0.0/0"))),
             ("--logged",))
    printing = draw.choice(((), ("--count",), *(("--format", form) for form in ("text", "json", "pflog"))))
    return (*(word for flag in flags if draw.random() < 0.15 for word in flag), *printing)


def shown(draw):
    """A capture whose packets are shown, with lines of verdicts."""
    given = draw.choice((capture_of_a_run, made_capture))(draw)
    files = {**given.files, VERDICTS: some_verdicts(draw, given)}
    if draw.random() < 0.1:
        files[RULES] = damaged_ruleset(draw, files[RULES])
    adapts = ("--adapt",) if draw.random() < 0.1 else ()
    return Input("show", ("show", CAPTURE, VERDICTS, RULES, *INTERFACE, *some_views(draw), *adapts), files)


# Reports

def hostile_text(draw, text):
    """A ruleset that is read as before, with comments of any bytes on some of its lines."""
    marks = (b"<script>", b"</section>", b"&amp;", b"\xff\xfe", b"\0", b"\xef\xbf\xbe", b"\x1b[2J", b"\"'>",
             draw.randbytes(9))
    rows = text.split(b"\n")
    for _ in range(draw.choice((0, 1, 2, 5))):
        comment = draw.choice(marks).replace(b"\n", b"") * draw.choice((1, 1, 3, 3000))
        place = draw.randrange(len(rows))
        rows[place] += b"" if rows[place].endswith(b"\\") else b" # " + comment.rstrip(b"\\")
    return b"\n".join(rows)


def reported(draw):
    """A capture of which a report is made, with lines of verdicts and maybe with states."""
    given = shown(draw)
    files = {**given.files, RULES: hostile_text(draw, given.files[RULES])}
    more = ("--adapt",) if "--adapt" in given.words else ()
    if draw.random() < 0.5:
        files[LEFT] = damaged_states(draw).files[LEFT] if draw.random() < 0.5 else some_file(draw).octets
        more = (*more, "--states", LEFT)
    more = (*more, "--quiet") if draw.random() < 0.3 else more
    return Input("report", ("report", CAPTURE, VERDICTS, RULES, *INTERFACE, *more), files)


# Command lines

@lru_cache
def bad_lines():
    return [line.words for line in lines.bad()]


def command_line(draw):
    """Words of which some are damaged; no file is there."""
    words = list(draw.choice(bad_lines()))
    for _ in range(draw.randrange(3)):
        place = draw.randrange(len(words) + 1)
        way = draw.randrange(4)
        if way == 0:
            words.insert(place, draw.choice(("--", "-", "", "--warn", "--mac", "=", "\u00e9", "--inside=", "a" * 5000)))
        elif way == 1 and words:
            del words[place % len(words)]
        elif way == 2 and words:
            words[place % len(words)] += draw.choice((*string.punctuation, "0", "\u0416", " "))
        elif words:
            words.append(words[place % len(words)])
    return Input("command lines", tuple(word.replace("\0", "") for word in words), {})


# how often each kind is drawn
MAKERS = ((made_ruleset, 20), (real_ruleset, 15), (edge_ruleset, 8), (adapted, 12), (capture_of_a_run, 15),
          (made_capture, 18), (damaged_messages, 15), (command_line, 12))
# among this many inputs one is a large ruleset
LARGE = 2000
# how often an input is a file of states, and how often such a file is long; how often it is a view, shows packets, or
# is a report
OF_STATES, LONG, VIEWS, SHOWN, REPORTED = 0.1, 0.02, 0.1, 0.1, 0.1


def drawn(seed):
    """The input of a seed. Whether it is a file of states, or a view, or shows packets, or is a report, is drawn apart.
    So all others stay as they were without these."""
    apart = random.Random(f"states {seed}")
    if apart.random() < OF_STATES:
        return damaged_states(apart)
    apart = random.Random(f"views {seed}")
    if apart.random() < VIEWS:
        return viewed(apart)
    apart = random.Random(f"shown {seed}")
    if apart.random() < SHOWN:
        return shown(apart)
    apart = random.Random(f"reported {seed}")
    if apart.random() < REPORTED:
        return reported(apart)
    draw = random.Random(seed)
    if draw.randrange(LARGE) == 0:
        return large_ruleset(draw)
    makers, weights = zip(*MAKERS)
    return draw.choices(makers, weights)[0](draw)
