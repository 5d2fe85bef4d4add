"""Command lines of the command `rules` that fit and that don't, by the words behind it."""

from runs import check_cases
from runs.case import Line
from runs.check_cases import BAD_ADDRESSES, BAD_INTERFACES, FITTING, RULES
from telling.asking import COUNTERS
from telling.model import FORMS, JSON, TEXT

ALSO, COUNTERS_FLAG = ("--also", "em1,203.0.113.2/24"), ("--counters", COUNTERS)
FORM = b"' for '--also <NAME,A.B.C.D/BITS>'"
# values of --also that have other than two parts
OTHER_PARTS = ("", "em1", "em1;203.0.113.2/24", "em1,203.0.113.2/24,", "em1,203.0.113.2/24,capture",
               "em1,203.0.113.2/24,capture,packets", ",,", "203.0.113.2/24", "em1=203.0.113.2/24")
WRONG_PARTS = (*(f"{name},203.0.113.2/24" for name in BAD_INTERFACES), *(f"em1,{address}" for address in BAD_ADDRESSES))
# words behind --format that are none of its
BAD_FORMS = ("", "Text", "JSON", "pflog", "html", "xml", "count", "j", "text,json", "text|json", "json ", " json")
FORM_FLAG = "--format <text|json>"
# flags of other commands
UNKNOWN = ("--inside=10.0.0.0/8", "--mac=em0=02:00:00:00:00:01", "--tap=stack", "--seed=00", "--batch=7", "--workers=0",
           "--verdicts=v", "--packets=p", "--states=s", "--messages=m", "--peer=127.0.0.1:9", "--warn", "--json",
           "--counter=told", "--count", "--rules=rules", "--listen=127.0.0.1:9", "--COUNTERS=told", "-c")


def also(*names):
    """The flags of interfaces beside the first one."""
    return tuple(word for place, name in enumerate(names) for word in ("--also", f"{name},203.0.113.{place}/24"))


def bad_forms(line):
    """Words that no ruleset is printed as, and the flag without a word, twice and where it stands for a file."""
    for value in BAD_FORMS:
        said = (f"invalid value '{value}' for '{FORM_FLAG}'".encode(),)
        yield Line((*line, f"--format={value}"), said)
        yield Line((*line, "--format", value), said)
    yield Line((*line, "--format"), (FORM_FLAG.encode(),))
    for first in FORMS:
        for second in FORMS:
            yield Line((*line, "--format", first, f"--format={second}"),
                       (f"'{FORM_FLAG}' cannot be used multiple times".encode(),))
    yield Line((*line, JSON))


def bad():
    """Lines that don't fit. The ruleset has a fault that isn't to be met."""
    yield from check_cases.bad_command_lines()
    line, twice = (RULES, *FITTING), (b"'--counters <FILE>' cannot be used multiple times",)
    yield Line(FITTING, (b"<RULES>",))
    yield Line((*line, "--counters"), (b"--counters <FILE>",))
    yield Line((*line, *COUNTERS_FLAG, *COUNTERS_FLAG), twice)
    yield Line((*line, f"--counters={COUNTERS}", *COUNTERS_FLAG), twice)
    yield Line((*line, COUNTERS))
    yield Line((*line, "--also"), (b"--also <NAME,A.B.C.D/BITS>",))
    for value in OTHER_PARTS:
        yield Line((*line, f"--also={value}"), (f"invalid value '{value}".encode() + FORM,))
    for value in WRONG_PARTS:
        yield Line((*line, f"--also={value}"), (b"invalid value '", FORM))
    yield from bad_forms(line)
    for word in UNKNOWN:
        yield Line((*line, word), (word.partition("=")[0].encode(),))
    for name, names in (("em0", ("em0",)), ("em1", ("em1", "em1")), ("em0", ("em1", "em2", "em0"))):
        yield Line((*line, *also(*names)), (f"interface twice: {name}\n".encode(),))
    names = [f"igb{place}" for place in range(60)]
    for count in (8, 60):
        yield Line((*line, *also(*names[:count])), (b"more than 8 interfaces\n",))


def good():
    """Lines that fit, each with the form in which the rules are printed. They mean the same but for that."""
    line = (RULES, *FITTING, *ALSO, *COUNTERS_FLAG)
    fitting = (
        line, (*COUNTERS_FLAG, *ALSO, *FITTING, RULES), (*FITTING[2:], RULES, *COUNTERS_FLAG, *FITTING[:2], *ALSO),
        (RULES, "--interface=em0", "--address=192.0.2.1/24", "--also=em1,203.0.113.2/24", f"--counters={COUNTERS}"),
        (f"--counters={COUNTERS}", *ALSO, *FITTING, "--", RULES),
        (RULES, *FITTING, "--also", "em1,203.000.113.02/024", "--counters", f"./{COUNTERS}"), (*line, "--adapt"),
        ("--adapt", *ALSO, RULES, *COUNTERS_FLAG, *FITTING))
    for words in fitting:
        yield words, TEXT
        for form in FORMS:
            yield ("--format", form, *words), form
            yield (f"--format={form}", *words), form
    yield (*line, "--format", JSON), JSON
    yield (*line, "--format", TEXT, "--adapt"), TEXT
