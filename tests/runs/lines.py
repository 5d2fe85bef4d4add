"""Command lines of the command `run` that fit and that don't."""

from runs import check_cases
from runs.case import NO_SEED, Line
from runs.check_cases import BAD_ADDRESSES, BAD_INTERFACES
from runs.model import OUTPUTS, REQUIRED

# the words that stand for files, and for the address of a peer
CAPTURE, RULES, MISSING, PEER = "capture", "rules", "missing", "peer"
SEED = "0123456789abcdef" * 4
FLAGS = {"--interface": "em0", "--address": "192.0.2.1/24", "--inside": "10.0.0.0/8",
         **{f"--{name}": name for name in REQUIRED}}
# those that may be missing
BATCH_FLAG, WORKERS_FLAG, TAP_FLAG = ("--batch", "7"), ("--workers", "2"), ("--tap", "wire")
SEED_FLAG, MESSAGES_FLAG, PEER_FLAG = ("--seed", SEED), ("--messages", "messages"), ("--peer", PEER)
# what the help and what is said of a value call its form
FORMS = {**check_cases.FORMS, "--inside": "NETS", "--seed": "HEX", "--batch": "1..4096", "--workers": "0..64",
         "--peer": "HOST:PORT", "--also": "NAME,A.B.C.D/BITS,CAPTURE,PACKETS", "--tap": "stack|wire",
         "--mac": "NAME=AA:BB:CC:DD:EE:FF",
         **{f"--{name}": "FILE" for name in OUTPUTS}}
# those that the help shows, among others
HELPED = ("--messages", "--peer", "--also", "--tap", "--mac")
WARN_FLAG = "--warn"
# values of --also that aren't of its form, each with the part that is wrong; with other than four parts the whole is
BAD_ALSO = {**{value: value for value in ("", ",", "em1", "em1,203.0.113.2/24", "em1,203.0.113.2/24,missing", ",,",
                                          "em1,203.0.113.2/24,missing,more,others", "em1,203.0.113.2/24,missing,more,",
                                          ",,,,", "em1;203.0.113.2/24;missing;more")},
            **{f"{name},203.0.113.2/24,missing,more": name for name in BAD_INTERFACES},
            **{f"em1,{address},missing,more": address for address in BAD_ADDRESSES}}
# values of --mac that aren't of its form; of one with a sign between two parts the first that is wrong is refused
BAD_MACS = ("em0", "em0=", "em0=02:00:00:00:00", "em0=02:00:00:00:00:01:03", "em0=2:0:0:0:0:1", "em0=02-00-00-00-00-01",
            "em0=020000000001", "em0=0g:00:00:00:00:01", "em0=02:00:00:00:00:0", "em0=02:00:00:00:00:001", "em0=:::::",
            "em0=02:00:00:00:00:01 ", "em0= 02:00:00:00:00:01", "em0=02:00:00:00:00:", "em0=02:00:00:00::01",
            "em0=02:00:00:00:00:01:", "em0=+2:00:00:00:00:01", "em0=02:00:00:00:00,01", "em0=0x:00:00:00:00:01",
            "em0=002:0:00:00:00:01", "em0=em0=02:00:00:00:00:01", "em0:02:00:00:00:00:01", "em0,02:00:00:00:00:01",
            "02:00:00:00:00:01", "", "=02:00:00:00:00:01", "=", "a_name_of_16_byt=02:00:00:00:00:01")


def refused_mac(value):
    """The part of a value of --mac that is refused."""
    name, sign, address = value.partition("=")
    if not sign:
        return value
    return name if name in BAD_INTERFACES else address


BAD_VALUES = {
    "--also": tuple(BAD_ALSO),
    "--mac": BAD_MACS,
    "--tap": ("", "Stack", "WIRE", "both", "stack,wire", "wire ", " stack", "stack|wire", "w", "wired", "0"),
    "--interface": BAD_INTERFACES,
    "--address": BAD_ADDRESSES,
    "--inside": ("", ",", "10.0.0.0/8,", ",10.0.0.0/8", "10.0.0.1,,10.0.0.2", "10.0.0.0/33", "10.0.0.0/", "/8", "10.0.0.256",
                 "10.0.0", "10.0.0.0.0", "10.0.0.0/8 ", "10.0.0.0/8, 192.0.2.1", "10.0.0.0/-1", "10.0.0.0/8/8", "10.0.0.x",
                 "10.0.0.1 10.0.0.2", "10.0.0.1;10.0.0.2", "em0", "any", "10.0.0.0/8,em0",
                 "10.0.0.1,10.0.0.0/4294967304", "!", "!!10.0.0.0/8", "! 10.0.0.0/8", "10.0.0.0/8!",
                 "10.0.0.0/8,!", "10.0.0.0/8,!!10.0.0.1",
                 "10.0.0.0/8,! 10.0.0.1", "10.0.0.0/8, !10.0.0.1", "10.0.0.0/8,!10.0.0.0/33", "!em0,10.0.0.0/8",
                 "10.0.0.0/8,!any", "10.0.0.0/8,!10.0.0.1!", "10.0.0.0/8,!/8"),
    "--seed": ("", "0", "0" * 63, "0" * 65, "0" * 128, "g" * 64, "0" * 63 + "G", "0x" + "0" * 62, "0" * 63 + " ",
               " " + "0" * 63, "-" + "0" * 63),
    "--batch": ("", "0", "00", "4097", "65536", "4294967552", "18446744073709551617", "-1", "+4", "0x4", "4.0", "4 ", " 4", "four"),
    "--workers": ("", "65", "256", "4294967296", "18446744073709551617", "-1", "+4", "0x4", "4.0", "4 ", " 4", "four"),
    "--peer": ("", ":", "9", ":9", "127.0.0.1", "127.0.0.1:", "127.0.0.1:0", "127.0.0.1:70000", "127.0.0.1:65536",
               "127.0.0.1:4294967305", "127.0.0.1:18446744073709551625", "127.0.0.1:-9", "127.0.0.1:+9", "127.0.0.1: 9",
               "127.0.0.1:9 ", "127.0.0.1:9x", "127.0.0.1:0x9", "127.0.0.1:http", "localhost", "localhost:",
               "localhost:0", "127.0.0.1/9", "127.0.0.1 9", "127.0.0.1:9:"),
}
# of a list of networks the first part that is none is refused
REFUSED_PARTS = {"--inside": {",": "", "10.0.0.0/8,": "", ",10.0.0.0/8": "", "10.0.0.1,,10.0.0.2": "",
                              "10.0.0.0/8, 192.0.2.1": " 192.0.2.1", "10.0.0.0/8,em0": "em0",
                              "10.0.0.1,10.0.0.0/4294967304": "10.0.0.0/4294967304", "10.0.0.0/8,!": "!",
                              "10.0.0.0/8,!!10.0.0.1": "!!10.0.0.1", "10.0.0.0/8,! 10.0.0.1": "! 10.0.0.1",
                              "10.0.0.0/8, !10.0.0.1": " !10.0.0.1", "10.0.0.0/8,!10.0.0.0/33": "!10.0.0.0/33",
                              "!em0,10.0.0.0/8": "!em0", "10.0.0.0/8,!any": "!any",
                              "10.0.0.0/8,!10.0.0.1!": "!10.0.0.1!", "10.0.0.0/8,!/8": "!/8"},
                 "--also": BAD_ALSO, "--mac": {value: refused_mac(value) for value in BAD_MACS}}
GOOD_SEEDS = ("0" * 64, "f" * 64, "F" * 64, SEED, SEED.upper(), SEED.swapcase(), "aB" * 32)
GOOD_INSIDES = ("10.0.0.5", "10.0.0.0/8,192.0.2.1", "0.0.0.0/0", "192.0.2.1/32,10.0.0.5/8,10.0.0.6/0", "10.0.0.5/0",
                "010.0.0.5", "000010.0.0.0/008", "10.0.0.0/8,!10.9.0.0/16", "!10.0.0.5,10.0.0.0/8",
                "10.0.0.0/8,!010.000.0.5/032", "0.0.0.0/0,!198.51.100.0/24,!203.0.113.0/24", "10.0.0.0/8,!0.0.0.0/0",
                "10.0.0.0/8,10.0.0.5/8,!10.0.0.4/31,!10.0.0.5/31", "!198.51.100.0/24,198.51.100.7",
                "10.0.0.5/8,!10.0.0.5/9")
# networks of the inside of which one is excepted too, each with the later word of the two
NETWORKS_TWICE = {"10.0.0.0/8,!10.0.0.0/8": "!10.0.0.0/8", "!10.0.0.0/8,10.0.0.0/8": "10.0.0.0/8",
                  "10.0.0.5/8,!10.9.9.9/8": "!10.9.9.9/8", "0.0.0.0/0,!10.0.0.5/0": "!10.0.0.5/0",
                  "10.0.0.5,!10.0.0.5/32": "!10.0.0.5/32", "!10.0.0.5/032,010.0.0.5": "010.0.0.5",
                  "192.0.2.1,10.0.0.0/8,!10.1.0.0/16,198.51.100.0/24,10.1.255.0/16": "10.1.255.0/16",
                  "10.0.0.0/8,!10.0.0.4/31,10.0.0.5/31": "10.0.0.5/31"}
MAC = "02:00:00:00:00:01"


def spelled(flags):
    return tuple(word for flag, value in flags.items() for word in (flag, value))


def run_line(flags, *more):
    return ("run", CAPTURE, RULES, *spelled(flags), *more)


def bad_values():
    """One value each that isn't of its form, in both spellings; value, flag and form are named."""
    for flag, values in BAD_VALUES.items():
        others = {name: value for name, value in FLAGS.items() if name != flag}
        for value in values:
            refused = REFUSED_PARTS.get(flag, {}).get(value, value)
            said = (f"invalid value '{refused}' for '{flag} <{FORMS[flag]}>'".encode(),)
            yield Line(run_line(others, f"{flag}={value}"), said)
            if not value.startswith("-"):
                yield Line(run_line(others, flag, value), said)


def missing_words():
    for flag in FLAGS:
        others = {name: value for name, value in FLAGS.items() if name != flag}
        yield Line(run_line(others))
        yield Line(run_line(others, flag))
    for flag in ("--seed", "--batch", "--workers", "--messages", "--peer", "--also", "--tap", "--mac"):
        yield Line(run_line(FLAGS, flag))
    yield Line(("run", *spelled(FLAGS)))
    yield Line(("run", CAPTURE, *spelled(FLAGS)))
    yield Line(("run", CAPTURE, RULES))
    yield Line(("run",))
    yield Line(())


def surplus_words():
    for flag, value in (*FLAGS.items(), SEED_FLAG, BATCH_FLAG, WORKERS_FLAG, MESSAGES_FLAG, PEER_FLAG, TAP_FLAG):
        again = {**FLAGS, flag: value}
        said = (f"the argument '{flag} <{FORMS[flag]}>' cannot be used multiple times".encode(),)
        yield Line(run_line(again, flag, value), said)
        yield Line(run_line(again, f"{flag}={value}"), said)
    yield Line(run_line(FLAGS, WARN_FLAG, WARN_FLAG))
    yield Line(run_line(FLAGS, f"{WARN_FLAG}=true"))
    yield Line(run_line(FLAGS, f"{WARN_FLAG}s"))
    # messages go to one place at most
    both = b"--messages", b"--peer"
    yield Line(run_line(FLAGS, *MESSAGES_FLAG, *PEER_FLAG), both)
    yield Line(run_line(FLAGS, *PEER_FLAG, *MESSAGES_FLAG), both)
    yield Line(run_line({**dict([PEER_FLAG]), **FLAGS}, "--messages=messages"), both)
    yield Line(run_line(FLAGS, "more"))
    yield Line(("run", "more", CAPTURE, RULES, *spelled(FLAGS)))
    for word in ("--quiet", "-x", "--bits=24", "--batches=256", "--worker=0", "--message=messages",
                 "--peers=192.0.2.9:9"):
        yield Line(run_line(FLAGS, word))
    yield Line(run_line(FLAGS, "--worker", "0"))
    # words of no command
    yield Line((RULES, "10.0.0.0/8"))
    yield Line((RULES, "10.0.0.0/8", "packets"))
    yield Line(("replay", CAPTURE, RULES, *spelled(FLAGS)))
    yield Line((CAPTURE, RULES, *spelled(FLAGS)))


def also(*names):
    """The words of interfaces besides the first one. Their files aren't there."""
    return tuple(word for place, name in enumerate(names, 1)
                 for word in ("--also", f"{name},203.0.113.{place}/24,missing,packets{place}"))


def interfaces():
    """Interfaces that are named twice, or too many, and one whose second value isn't of its form."""
    for twice, names in (("em0", ("em0",)), ("em1", ("em1", "em1")), ("em0", ("em1", "em2", "em0")),
                         ("em2", ("em1", "em2", "em3", "em2"))):
        yield Line(run_line(FLAGS, *also(*names)), (f"interface twice: {twice}\n".encode(),))
    names = [f"em{place}" for place in range(1, 9)]
    for many in (names, [*names, *(f"igb{place}" for place in range(50))]):
        yield Line(run_line(FLAGS, *also(*many)), (b"more than 8 interfaces\n",))
    yield Line(run_line(FLAGS, *also("em1"), "--also", "em2,203.0.113.9,missing,more"),
               (b"invalid value '203.0.113.9' for '--also <NAME,A.B.C.D/BITS,CAPTURE,PACKETS>'",))
    for command in ("check", "adapt"):
        yield Line((command, RULES, "--interface", "em0", "--address", "192.0.2.1/24", *also("em1")))


def mac(name, address=MAC):
    return ("--mac", f"{name}={address}")


def settings():
    """Link-level addresses of no interface, or two of one; networks that are inside and excepted; no inside, or none
    but excepted networks."""
    for name, names in (("em1", ()), ("EM0", ()), ("em", ()), ("em00", ()), ("em2", ("em1",))):
        yield Line(run_line(FLAGS, *also(*names), *mac(name)), (f"no such interface: {name}\n".encode(),))
        yield Line(run_line(FLAGS, *mac("em0"), *also(*names), *mac(name)), (f"no such interface: {name}\n".encode(),))
    for name, names in (("em0", ()), ("em0", ("em1",)), ("em1", ("em1",))):
        again = mac(name), mac(name, "02:00:00:00:00:02")
        yield Line(run_line(FLAGS, *also(*names), *again[0], *again[1]), (f"interface twice: {name}\n".encode(),))
        yield Line(run_line(FLAGS, *again[0], *also(*names), *again[0]), (f"interface twice: {name}\n".encode(),))
    for networks, later in NETWORKS_TWICE.items():
        for more in ((), mac("em0")):
            yield Line(run_line({**FLAGS, "--inside": networks}, *more), (f"network twice: {later}\n".encode(),))
    for networks in ("!10.0.0.0/8", "!0.0.0.0/0", "!10.0.0.0/8,!192.0.2.1"):
        said = (f"invalid value '{networks}' for '--inside <NETS>'".encode(),)
        for more in ((), mac("em0")):
            yield Line(run_line({**FLAGS, "--inside": networks}, *more), said)
    without = {flag: value for flag, value in FLAGS.items() if flag != "--inside"}
    for more in (also("em1"), (*also("em1"), *mac("em0")), (*also("em1"), *mac("em1")),
                 (*also("em1", "em2"), *mac("em2"), *mac("em0")), TAP_FLAG):
        yield Line(run_line(without, *more), (b"--inside",))
    for command in ("check", "adapt"):
        for more in (TAP_FLAG, mac("em0"), (WARN_FLAG,)):
            yield Line((command, RULES, "--interface", "em0", "--address", "192.0.2.1/24", *more))


def bad():
    """Lines that don't fit. The files that they name have faults too, which aren't to be met."""
    yield from bad_values()
    yield from interfaces()
    yield from settings()
    yield from missing_words()
    yield from surplus_words()


def good():
    """Lines that fit and mean one run with its messages in a file, but for the inside networks and the seed: the words
    of each, and both of these."""
    flags, inside = (*spelled(FLAGS), *MESSAGES_FLAG), FLAGS["--inside"]
    for words in ((*flags, CAPTURE, RULES), (CAPTURE, *flags, RULES),
                  (*MESSAGES_FLAG, CAPTURE, RULES, *spelled(dict(reversed(FLAGS.items())))),
                  (CAPTURE, RULES, "--messages=messages", *(f"{flag}={value}" for flag, value in FLAGS.items())),
                  (*flags[:4], CAPTURE, *flags[4:10], RULES, *flags[10:])):
        yield words, inside, NO_SEED
    for seed in GOOD_SEEDS:
        yield (CAPTURE, RULES, *flags, "--seed", seed), inside, seed
        yield (f"--seed={seed}", CAPTURE, RULES, *flags), inside, seed
    for batch, workers in (("1", "0"), ("0001", "064"), ("4096", "64"), ("256", "4")):
        yield (CAPTURE, RULES, *flags, "--batch", batch, "--workers", workers), inside, NO_SEED
        yield (f"--workers={workers}", CAPTURE, RULES, f"--batch={batch}", *flags), inside, NO_SEED
    for networks in GOOD_INSIDES:
        yield (CAPTURE, RULES, *spelled({**FLAGS, "--inside": networks}), *MESSAGES_FLAG), networks, NO_SEED


def settled():
    """Lines that fit and have settings: the words of each, and the settings of its case."""
    flags = (*spelled(FLAGS), *MESSAGES_FLAG)
    without = spelled({flag: value for flag, value in FLAGS.items() if flag != "--inside"})
    for tap in ("stack", "wire"):
        yield (CAPTURE, RULES, *flags, "--tap", tap), {"tap": tap}
        yield (f"--tap={tap}", CAPTURE, *flags, RULES), {"tap": tap}
    for word in (MAC, "02:00:00:00:00:11", "aB:cD:Ef:01:23:45", "FF:FF:FF:ff:ff:ff", "00:00:00:00:00:00"):
        addressed = {"addresses": (("em0", word),)}
        yield (CAPTURE, RULES, *flags, *mac("em0", word)), addressed
        yield (f"--mac=em0={word}", *flags, CAPTURE, RULES, "--tap=wire"), {**addressed, "tap": "wire"}
        yield (CAPTURE, *mac("em0", word), RULES, *without, *MESSAGES_FLAG), {**addressed, "inside": None}
    excepted = "10.0.0.0/8,192.0.2.0/24,!10.0.0.0/30"
    yield (CAPTURE, RULES, *spelled({**FLAGS, "--inside": excepted}), *MESSAGES_FLAG, *TAP_FLAG), {
        "inside": excepted, "tap": "wire"}
    # a name is what stands before the first of the signs
    yield (CAPTURE, RULES, *spelled({**FLAGS, "--interface": "e"}), *MESSAGES_FLAG, *mac("e")), {
        "interface": "e", "addresses": (("e", MAC),)}


def peers():
    """The words of lines that fit, with a peer by its address and by its name, and with zeros before its port."""
    flags = spelled(FLAGS)
    yield (CAPTURE, RULES, *flags, *PEER_FLAG)
    yield ("--peer=peer", CAPTURE, RULES, *flags)
    yield (*PEER_FLAG, *flags[:6], CAPTURE, *flags[6:], RULES)
    for peer in ("localhost:peer", "127.0.0.1:000peer", "127.000.0.01:peer"):
        yield (CAPTURE, RULES, *flags, "--peer", peer)
