"""Command lines of the command `diff` that fit and that don't. `capture`, `old` and `new` stand for its files."""

from changes.printed import JSON, TEXT
from runs import lines
from runs.case import NO_SEED, Line
from runs.check_cases import BAD_ADDRESSES, BAD_INTERFACES
from runs.lines import MAC, NETWORKS_TWICE, REFUSED_PARTS, SEED, mac, spelled

FILES = ("capture", "old", "new")
FLAGS = {"--interface": "em0", "--address": "192.0.2.1/24", "--inside": "10.0.0.0/8"}
# those that may be missing
SEED_FLAG, TAP_FLAG, FORMAT_FLAG = ("--seed", SEED), ("--tap", "wire"), ("--format", JSON)
VERDICTS, QUIET = "--verdicts", "--quiet"
FORMS = {**lines.FORMS, "--also": "NAME,A.B.C.D/BITS,CAPTURE", "--format": "text|json"}
# what the help shows, among other things
HELPED = (b"<CAPTURE>", b"<OLD>", b"<NEW>", b"--verdicts", b"--quiet",
          *(f"{flag} <{FORMS[flag]}>".encode() for flag in (*FLAGS, "--seed", "--tap", "--mac", "--also", "--format")))
# values of --also that aren't of its form, each with the part that is wrong; with other than three parts the whole is
BAD_ALSO = {**{value: value for value in ("", ",", "em1", "em1,203.0.113.2/24", ",,,", "em1,203.0.113.2/24,missing,",
                                          "em1,203.0.113.2/24,missing,more", "em1;203.0.113.2/24;missing")},
            **{f"{name},203.0.113.2/24,missing": name for name in BAD_INTERFACES},
            **{f"em1,{address},missing": address for address in BAD_ADDRESSES}}
BAD_VALUES = {**{flag: lines.BAD_VALUES[flag] for flag in (*FLAGS, "--seed", "--tap", "--mac")},
              "--format": ("", "Text", "JSON", "pflog", "xml", "x", "text,json", "text|json", "json ", " json", "j")}
# flags of other commands, and of none
UNKNOWN = ("--packets=packets", "--counters=counters", "--states=states", "--messages=messages", "--peer=127.0.0.1:9",
           "--batch=7", "--workers=0", "--warn", "--json", "--text", "--count", "--quite", "--QUIET", "--quiet=yes",
           "--quiet=", "--verdict", "--VERDICTS", "--verdicts=verdicts", "--verdicts=", "--old=old", "--new=new", "-q",
           "-v", "-x")


def diff_line(flags, *more):
    return ("diff", *FILES, *spelled(flags), *more)


def bad_values():
    """One value each that isn't of its form, in both spellings; value, flag and form are named."""
    for flag, values in {**BAD_VALUES, "--also": tuple(BAD_ALSO)}.items():
        others = {name: value for name, value in FLAGS.items() if name != flag}
        for value in values:
            part = BAD_ALSO[value] if flag == "--also" else REFUSED_PARTS.get(flag, {}).get(value, value)
            said = (f"invalid value '{part}' for '{flag} <{FORMS[flag]}>'".encode(),)
            yield Line(diff_line(others, f"{flag}={value}"), said)
            if not value.startswith("-"):
                yield Line(diff_line(others, flag, value), said)


def missing_words():
    for flag in FLAGS:
        others = {name: value for name, value in FLAGS.items() if name != flag}
        yield Line(diff_line(others))
        yield Line(diff_line(others, flag))
    for flag in ("--seed", "--also", "--tap", "--mac", "--format"):
        yield Line(diff_line(FLAGS, flag))
    for count in range(len(FILES)):
        yield Line(("diff", *FILES[:count], *spelled(FLAGS)))
    yield Line(("diff", *FILES))
    yield Line(("diff",))


def surplus_words():
    for flag, value in (*FLAGS.items(), SEED_FLAG, TAP_FLAG, FORMAT_FLAG):
        said = (f"the argument '{flag} <{FORMS[flag]}>' cannot be used multiple times".encode(),)
        yield Line(diff_line({**FLAGS, flag: value}, flag, value), said)
        yield Line(diff_line({**FLAGS, flag: value}, f"{flag}={value}"), said)
    for word in (VERDICTS, QUIET):
        yield Line(diff_line(FLAGS, word, word), (f"'{word}' cannot be used multiple times".encode(),))
    for words in (("more",), (VERDICTS, "verdicts"), (QUIET, "yes"), ("old",), ("--packets", "packets"),
                  ("--batch", "7"), (JSON,)):
        yield Line(diff_line(FLAGS, *words))
    for word in UNKNOWN:
        yield Line(diff_line(FLAGS, word))


def also(*names):
    """The words of interfaces besides the first one. Their captures aren't there."""
    return tuple(word for place, name in enumerate(names, 1)
                 for word in ("--also", f"{name},203.0.113.{place}/24,missing"))


def interfaces():
    """Interfaces that are named twice, too many, or not at all, and captures that come from standard input twice."""
    for twice, names in (("em0", ("em0",)), ("em1", ("em1", "em1")), ("em2", ("em1", "em2", "em3", "em2"))):
        yield Line(diff_line(FLAGS, *also(*names)), (f"interface twice: {twice}\n".encode(),))
    yield Line(diff_line(FLAGS, *also(*(f"em{place}" for place in range(1, 9)))), (b"more than 8 interfaces\n",))
    for name, names in (("em1", ()), ("EM0", ()), ("em2", ("em1",))):
        yield Line(diff_line(FLAGS, *also(*names), *mac(name)), (f"no such interface: {name}\n".encode(),))
    for name, names in (("em0", ()), ("em1", ("em1",))):
        yield Line(diff_line(FLAGS, *also(*names), *mac(name), *mac(name)), (f"interface twice: {name}\n".encode(),))
    flags, standard = spelled(FLAGS), "203.0.113.2/24,-"
    for words in (("diff", "-", *FILES[1:], *flags, "--also", f"em1,{standard}"),
                  (*diff_line(FLAGS, "--also", f"em1,{standard}", "--also", f"em2,{standard}"),),
                  ("diff", "-", "missing", "missing", *flags, f"--also=em1,{standard}")):
        yield Line(words, (b"same file: -\n",))


def insides():
    """Networks that are inside and excepted; no inside, or none but excepted networks."""
    for networks, later in NETWORKS_TWICE.items():
        yield Line(diff_line({**FLAGS, "--inside": networks}), (f"network twice: {later}\n".encode(),))
    for networks in ("!10.0.0.0/8", "!10.0.0.0/8,!192.0.2.1"):
        said = (f"invalid value '{networks}' for '--inside <NETS>'".encode(),)
        yield Line(diff_line({**FLAGS, "--inside": networks}), said)
    without = {flag: value for flag, value in FLAGS.items() if flag != "--inside"}
    for more in (also("em1"), (*also("em1"), *mac("em0")), (*also("em1"), *mac("em1")), TAP_FLAG):
        yield Line(diff_line(without, *more), (b"--inside",))


def bad():
    """Lines that don't fit. The files that they name have faults too, which aren't to be met."""
    yield from bad_values()
    yield from missing_words()
    yield from surplus_words()
    yield from interfaces()
    yield from insides()


def good():
    """Lines that fit: the words, what is asked besides the case, and the settings of the case. Warnings are said unless
    that is asked for."""
    flags, by_verdict = spelled(FLAGS), {"by_verdict": True}
    capture, old, new = FILES
    for words in ((*flags, *FILES), (capture, *flags, old, new),
                  (capture, old, *spelled(dict(reversed(FLAGS.items()))), new),
                  (*FILES, *(f"{flag}={value}" for flag, value in FLAGS.items()))):
        yield words, {}, {}
        yield (VERDICTS, *words), by_verdict, {}
        yield (*words, VERDICTS), by_verdict, {}
    yield (capture, VERDICTS, old, *flags, new), by_verdict, {}
    yield (*flags, "--", *FILES), {}, {}
    for words in ((*FILES, *flags, QUIET), (QUIET, *flags, *FILES), (capture, old, QUIET, new, *flags)):
        yield words, {"is_quiet": True}, {}
    yield (*FILES, QUIET, *flags, VERDICTS, "--format", JSON), {"is_quiet": True, "form": JSON, **by_verdict}, {}
    for form in (TEXT, JSON):
        yield (*FILES, *flags, "--format", form), {"form": form}, {}
        yield (f"--format={form}", capture, VERDICTS, old, *flags, new), {"form": form, **by_verdict}, {}
    for seed in (NO_SEED, SEED, SEED.upper()):
        yield (*FILES, *flags, "--seed", seed), {}, {"seed": seed}
    for tap in ("stack", "wire"):
        yield (*FILES, *flags, f"--tap={tap}"), {}, {"tap": tap}
        yield ("--tap", tap, *FILES, *flags, VERDICTS), by_verdict, {"tap": tap}
    without = spelled({flag: value for flag, value in FLAGS.items() if flag != "--inside"})
    yield (*FILES, *without, *mac("em0")), {}, {"inside": None, "addresses": (("em0", MAC),)}
    for networks in ("10.0.0.0/8,!10.9.0.0/16", "!10.0.0.5,10.0.0.0/8", "010.0.0.5"):
        yield (*FILES, *spelled({**FLAGS, "--inside": networks})), {}, {"inside": networks}
