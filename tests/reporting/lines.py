"""Command lines of the command `report` that fit and that don't. `capture`, `lines`, `rules` and `left` stand for its
files."""

from changes.lines import BAD_ALSO, also
from reporting.asking import LEFT, QUIET
from runs.case import Line
from runs.lines import spelled
from showing.asking import CAPTURE, LINES
from showing.lines import BAD_VALUES, FILES, FLAGS, FORMS
from showing.model import NAME

STATES, PROGRESS = "--states", "--progress"
# what the help shows, among other things
HELPED = (b"<CAPTURE>", b"<VERDICTS>", b"<RULES>", b"--states", b"--adapt", b"--quiet", b"--progress",
          *(f"{flag} <{form}>".encode() for flag, form in FORMS.items()))
# flags of other commands, and of none
UNKNOWN = ("--inside=10.0.0.0/8", "--mac=em0=02:00:00:00:00:01", "--tap=stack", "--seed=00", "--batch=7", "--workers=0",
           "--packets=p", "--counters=c", "--messages=m", "--peer=127.0.0.1:9", "--warn", "--json", "--verdicts=lines",
           "--only=pass", "--rule=0", "--line=1", "--host=10.0.0.5", "--logged", "--count", "--format=html", "--html",
           "--title=x", "--STATES=states", "--state=states", "--progress=yes", "--quiet=yes", "--silent",
           "--QUIET", "-p", "-q", "-x")


def report_line(flags, *more):
    return ("report", *FILES, *spelled(flags), *more)


def bad_values():
    """One value each that isn't of its form, in both spellings; the flag is named."""
    for flag, values in {**BAD_VALUES, "--also": tuple(BAD_ALSO)}.items():
        others = {name: value for name, value in FLAGS.items() if name != flag}
        for value in values:
            part = BAD_ALSO[value] if flag == "--also" else value
            said = (f"invalid value '{part}' for '{flag} <{FORMS[flag]}>'".encode(),)
            yield Line(report_line(others, f"{flag}={value}"), said)
            if not value.startswith("-"):
                yield Line(report_line(others, flag, value), said)


def missing_words():
    for flag in FLAGS:
        others = {name: value for name, value in FLAGS.items() if name != flag}
        yield Line(report_line(others))
        yield Line(report_line(others, flag))
    for flag in ("--also", STATES):
        yield Line(report_line(FLAGS, flag))
    for count in range(len(FILES)):
        yield Line(("report", *FILES[:count], *spelled(FLAGS)))
        yield Line(("report", *FILES[:count], *spelled(FLAGS), STATES, LEFT))
    yield Line(("report", *FILES))
    yield Line(("report",))


def surplus_words():
    for flag, value in (*FLAGS.items(), (STATES, LEFT)):
        said = (f"'{flag} <".encode(), b"cannot be used multiple times")
        yield Line(report_line({**FLAGS, flag: value}, flag, value), said)
        yield Line(report_line({**FLAGS, flag: value}, f"{flag}={value}"), said)
    for flag in (PROGRESS, QUIET):
        yield Line(report_line(FLAGS, flag, flag), (f"'{flag}' cannot be used multiple times".encode(),))
    for words in (("more",), (PROGRESS, "yes"), (QUIET, "yes"), (STATES, LEFT, "more"), (NAME,)):
        yield Line(report_line(FLAGS, *words))
    for word in UNKNOWN:
        yield Line(report_line(FLAGS, word))


def interfaces():
    """Interfaces that are named twice, or too many."""
    for twice, names in (("em0", ("em0",)), ("em1", ("em1", "em1")), ("em2", ("em1", "em2", "em3", "em2"))):
        yield Line(report_line(FLAGS, *also(*names)), (f"interface twice: {twice}\n".encode(),))
    yield Line(report_line(FLAGS, *also(*(f"em{place}" for place in range(1, 9)))), (b"more than 8 interfaces\n",))


def standard_inputs():
    """Two files that come from standard input, of each two kinds."""
    flags, standard = spelled(FLAGS), ("--also", "em1,203.0.113.2/24,-")
    for words in (("-", "-", NAME, *flags), (CAPTURE, "-", NAME, *flags, STATES, "-"),
                  ("-", LINES, NAME, *flags, STATES, "-"), ("-", LINES, NAME, *flags, f"{STATES}=-"),
                  ("-", "-", NAME, *flags, STATES, "-"), ("-", LINES, NAME, *flags, *standard),
                  (CAPTURE, "-", NAME, *flags, *standard), (CAPTURE, LINES, NAME, *flags, *standard, STATES, "-"),
                  (CAPTURE, LINES, NAME, *flags, *standard, "--also=em2,203.0.113.3/24,-"),
                  ("-", "-", "missing", *flags), (CAPTURE, "-", "missing", *flags, STATES, "-")):
        yield Line(("report", *words), (b"same file: -\n",))


def bad():
    """Lines that don't fit. The files that they name have faults too, which aren't to be met."""
    yield from bad_values()
    yield from missing_words()
    yield from surplus_words()
    yield from interfaces()
    yield from standard_inputs()


def good():
    """Lines that fit: the words, whether states are asked for, and whether no warnings are."""
    flags = spelled(FLAGS)
    capture, verdicts, rules = FILES
    for words in ((*flags, *FILES), (capture, *flags, verdicts, rules), (*flags, "--", *FILES),
                  (*FILES, *(f"{flag}={value}" for flag, value in FLAGS.items()))):
        for more in ((), (PROGRESS,), (QUIET,)):
            yield ("report", *more, *words), False, QUIET in more
            yield ("report", *more, STATES, LEFT, *words), True, QUIET in more
            yield ("report", f"{STATES}={LEFT}", *more, *words), True, QUIET in more
    yield ("report", capture, STATES, LEFT, verdicts, PROGRESS, rules, *flags), True, False
    yield ("report", capture, STATES, LEFT, verdicts, QUIET, PROGRESS, rules, *flags), True, True
