"""The cases of the command `check`: rulesets with an interface, and command lines that don't fit."""

from typing import NamedTuple

from expansions.cases import RUNS
from runs.case import EXAMPLES, Line
from runs.filter_cases import MANY_RULES, stored
from runs.max_texts import MAX_FAULTS, MAX_TEXTS
from runs.translation_faults import TRANSLATION_FAULTS

MOST_TEXT = 1048576
# of the stored texts each such one, and all those about how many rules there may be
STORED_STEP = {"rulesets": 11, "expansions": 3}
# values of flags that aren't of their form
BAD_INTERFACES = ("", "a_name_of_16_byt", "x" * 1000)
BAD_ADDRESSES = ("", "192.0.2.1", "192.0.2.1/", "/24", "192.0.2.1/33", "192.0.2.1/256", "192.0.2.1/4294967320",
                 "192.0.2.1/-1", "192.0.2.256/24", "256.0.2.1/24", "192.0.2/24", "192.0.2.1.1/24", "192.0.2.1/24/24",
                 "192.0.2.1/2x", "192.0.2.x/24", "192..2.1/24", "em0/24", "192.0.2.1 /24")
# a command line that fits, but for the word that is named
RULES, FITTING = "rules", ("--interface", "em0", "--address", "192.0.2.1/24")
# what the help and what is said of a value call its form
FORMS = {"--interface": "NAME", "--address": "A.B.C.D/BITS"}


class Check(NamedTuple):
    name: str
    text: bytes
    interface: str = "em0"
    network: str = "192.0.2.1/24"


def counted(name, text, count, checksum, interface="em0", network="192.0.2.1/24", translations=0):
    """A row of a text that is accepted, of `count` filter rules and `translations` rules of translation. Its checksum
    was told by another program."""
    line = f"{count} filter, {translations} translation, {checksum}\n"
    return (Check(name, text, interface, network), line.encode(), b"", 0)


def refused(text, fault, interface="em0", network="192.0.2.1/24"):
    """A row of a text with a fault."""
    return (Check(f"{fault}, {text[:30]!r}", text, interface, network), b"", f"pfreplay: rules {fault}\n".encode(), 1)


def rows():
    """Cases with the outcome written out: standard output, standard error and status."""
    yield counted("an empty text", b"", 0, "d41d8cd98f00b204e9800998ecf8427e")
    yield counted("one rule", b"pass in\n", 1, "5f49cf03ccf9333a4f324e3d1ba2b830")
    yield counted("a rule of lists", b"pass proto { tcp, udp } to { 10.0.0.1 10.0.0.2 } port { 80, 443 }\n",
                  8, "d877450c4dcf3e50293a9925dbdbf169")
    yield counted("anchors of a list", b"anchor on { em0, em1 } {\npass\nblock\n}\n",
                  4, "206464346a8e28b918b8fe09aab4876e")
    yield counted("an interface of a byte", b"pass from e:network\n", 1, "7ece055abb75068bf969c8e34876ad92", "e")
    yield counted("an interface of 15 bytes", b"pass from a_name_of_15_by:network\n",
                  1, "4a34cca6657248d1a708c2726e67d72b", "a_name_of_15_by", "0.0.0.0/0")
    yield counted("a network of 32 bits", b"pass from (igb1)\n", 1, "43108ef02922269c7d8d659be428cf46", "igb1",
                  "255.255.255.255/32")
    yield counted("a text of 1 MiB", b"#".ljust(MOST_TEXT, b"x"), 0, "6652934a6515a0c9e37ea806a54c402c")
    yield counted("65536 rules", b"pass\n" * 65536, 65536, "864a1c22cbe2d0712e23a154b01b13ae")
    yield refused(b"scrub in all", "line 1: left out: scrub")
    yield refused(b"pass\npass from em0\n", "line 2: left out: host name", "em1", "10.0.0.1/8")
    yield refused(b"#".ljust(MOST_TEXT + 1, b"x"), "line 1: too many")
    yield refused(b"\n" * (2 * MOST_TEXT), "line 1: too many")
    yield refused(b"\x01" * (MOST_TEXT + 1), "line 1: too many")
    yield refused(b"\n".ljust(MOST_TEXT, b"\x01"), "line 2: bad byte")
    yield from translation_rows()
    yield from max_rows()


def translation_rows():
    """Those of rulesets with translation."""
    yield counted("rules of a list", b"nat on em0 from { 10.0.0.0/8, 172.16.0.0/12 } to any -> em0\npass out\n",
                  1, "2ec9169a9de60ea87c6d33ed0819f346", translations=2)
    yield counted("anchors of translation",
                  b'nat-anchor "ftp-proxy/*"\nrdr-anchor "ftp-proxy/*"\nbinat-anchor a\npass\n', 1,
                  "d634aad84a38c6d7ca9f04e09b4d0fe5")
    yield counted("each kind of translation", b"no nat on em0 all\nbinat from 10.0.0.5 to any -> 192.0.2.9\n"
                  b"rdr pass proto tcp to em0 port { 80, 2000:2999 } -> 10.0.0.1 port 4000:*\n"
                  b"no rdr all\nno binat all\n", 0, "502b02bf7b0acd6050266d9219156470", translations=6)
    for text, line, kind in TRANSLATION_FAULTS:
        yield refused(text.encode(), f"line {line}: {kind}")


def max_rows():
    """Those of rulesets with `max`."""
    for text, count, checksum in MAX_TEXTS:
        yield counted(f"with max, {text!r}", text.encode(), count, checksum)
    for text, line, kind in MAX_FAULTS:
        yield refused(text.encode(), f"line {line}: {kind}")


def all_cases():
    """Cases that the model answers."""
    for path in sorted(EXAMPLES.glob("*.conf")):
        for interface, network in RUNS:
            yield Check(f"{path.name} on {interface} {network}", path.read_bytes(), interface, network)
    for folder, step in STORED_STEP.items():
        chosen = [path for number, path in enumerate(stored(folder))
                  if number % step == 0 or path.name.startswith(MANY_RULES)]
        for number, path in enumerate(chosen):
            # most of the texts are about the first of the interfaces; how many rules there may be is the same for all
            runs = {RUNS[0]} if path.name.startswith(MANY_RULES) else {RUNS[0], RUNS[number % len(RUNS)]}
            for interface, network in sorted(runs):
                yield Check(f"{folder}/{path.name} on {interface} {network}", path.read_bytes(), interface, network)


def bad_command_lines():
    """Command lines that don't fit, the words after `check`. The ruleset has a fault that isn't to be met."""
    interface, address = FITTING[:2], FITTING[2:]
    yield Line(())
    yield Line((RULES,))
    yield Line(FITTING)
    yield Line((RULES, *interface))
    yield Line((RULES, *address))
    yield Line((RULES, *interface, "--address"))
    yield Line((RULES, *address, "--interface"))
    for flag, value in (interface, address, ("--interface", "em1")):
        said = (f"the argument '{flag} <{FORMS[flag]}>' cannot be used multiple times".encode(),)
        yield Line((RULES, *FITTING, flag, value), said)
    yield Line((RULES, *FITTING, "--bits", "24"))
    yield Line((RULES, *FITTING, "--quiet"))
    yield Line((RULES, *FITTING, "-x"))
    yield Line((RULES, "10.0.0.0/8", *FITTING))
    yield Line((RULES, *FITTING, "10.0.0.0/8"))
    yield Line(("missing", *FITTING, "packets"))
    yield Line(("missing", *interface))
    for flag, values, other in (("--interface", BAD_INTERFACES, address), ("--address", BAD_ADDRESSES, interface)):
        for value in values:
            yield Line((RULES, flag, value, *other), (f"invalid value '{value}' for '{flag} <{FORMS[flag]}>'".encode(),))
