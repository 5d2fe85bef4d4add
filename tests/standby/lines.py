"""Command lines of the command `standby` that don't fit. It takes messages from a file or from a connection, and so has
one of two flags."""

from runs.case import Line
from runs.lines import BAD_VALUES

# the words that stand for a file of messages, and for a host with a port
MESSAGES, HERE = "messages", "here"
FORMS = {"--messages": "FILE", "--listen": "HOST:PORT"}
VALUES = {"--messages": MESSAGES, "--listen": HERE}
# what is said of each flag in the help
HELP = tuple(f"{flag} <{form}>".encode() for flag, form in FORMS.items())


def standby(*words):
    return ("standby", *words)


def bad_ends():
    """Values that are no host with a port, in both spellings."""
    for value in BAD_VALUES["--peer"]:
        said = (f"invalid value '{value}' for '--listen <HOST:PORT>'".encode(),)
        yield Line(standby(f"--listen={value}"), said)
        yield Line(standby("--listen", value), said)


def flags():
    """No flag, both, one twice, and one without a value."""
    both = b"--messages", b"--listen"
    yield Line(standby())
    yield Line(standby("--messages", MESSAGES, "--listen", HERE), both)
    yield Line(standby("--listen", HERE, "--messages", MESSAGES), both)
    yield Line(standby("--listen", HERE, "--messages=messages"), both)
    for flag, form in FORMS.items():
        yield Line(standby(flag))
        said = (f"the argument '{flag} <{form}>' cannot be used multiple times".encode(),)
        yield Line(standby(flag, VALUES[flag], flag, VALUES[flag]), said)


def surplus():
    """Words that are none of the command's."""
    for flag, value in VALUES.items():
        for word in (MESSAGES, "more", "--quiet", "-x", "--peer=127.0.0.1:9", "--seed=0", "--workers=0"):
            yield Line(standby(flag, value, word))
        yield Line(standby("--interface", "em0", flag, value))
    yield Line(standby(MESSAGES))
    yield Line(standby(f"--message={MESSAGES}"))
    yield Line(standby("--messages-from", MESSAGES))
    yield Line(standby("--listens=127.0.0.1:9"))
    yield Line(("stand-by", "--messages", MESSAGES))
    yield Line(("--messages", MESSAGES, "standby"))


def bad():
    """Lines that don't fit."""
    yield from flags()
    yield from bad_ends()
    yield from surplus()
