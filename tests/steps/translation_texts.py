"""Random rulesets with translation for runs: few rules over few hosts and ports, ranges of few ports, small tables and
short timeouts, so that ports run out and come free again. Some rules of the filter are for few states."""

from expansions.options import TIMEOUT_SECONDS
from steps.texts import some_rule, some_statements, sometimes, written

# most packets are between the same ends, so that they stand in each other's way
INSIDE_HOSTS, OUTSIDE_HOSTS = ("10.0.0.5", "10.0.0.6"), ("198.51.100.7",) * 8 + ("198.51.100.8",)
# the interface's address, and another one of its network
OWN_HOSTS = ("192.0.2.1", "192.0.2.9")
# ports of hosts inside, of servers outside, and of own addresses
INSIDE_PORTS, SERVER_PORTS = tuple(range(1000, 1008)), (53,) * 8 + (80,)
OWN_PORTS = (80, 80, 8080, 8080, 53, 1000, 2000, 2001, 2003)

KINDS = ("nat",) * 2 + ("rdr",) * 5 + ("binat",) * 4
PLACES = ("on em0",) * 6 + ("on !em1", "on { em1, em0 }", "on em1", "on !em0")
PROTOCOLS = ("proto udp", "proto tcp", "proto icmp", "proto { tcp, udp }", "proto { udp, icmp }", "proto gre")
# what `nat` rules ask and give
NAT_SOURCES = ("from 10.0.0.0/8",) * 4 + (
    "from any", "from 10.0.0.5", "from 10.0.0.6", "from !10.0.0.6", "from <hosts>", "from 10.0.0.5 port 1000",
    "from port 1000:1001")
OUTSIDE_ENDS = ("", "", "", "to any", "to 198.51.100.7", "to 198.51.100.0/24", "to !198.51.100.7", "to port 53",
                "to any port { 53, 80 }")
NAT_TARGETS = ("em0",) * 4 + ("(em0)", "192.0.2.9", "self", "10.0.0.5")
RANGES = ("port 50001", "port 7", "port 50001:50002", "port 50001:50002", "port 50001:50003", "port 50001:50004",
          "port 0:1", "port 65533:65535", "port 1000:1007", "", "static-port", "port 50001:50003 static-port")
# those of a rule that most packets from the inside come to
WIDE_RANGES = ("port 50001:50002", "port 50001:50002", "port 0:1", "port 0:1", "port 65534:65535", "port 65534:65535",
               "port 50001:50003", "port 50001:50004", "port 50001:50008", "port 50001", "")
# what `rdr` rules ask; the ports beside what they may be sent to
RDR_SOURCES = ("from any", "from 198.51.100.7", "from !198.51.100.7")
OWN_ENDS = ("to em0", "to em0", "to 192.0.2.9", "to any", "to 192.0.2.0/24", "to !10.0.0.0/8")
REDIRECTED = (("", ("", "port 80", "port 80")), ("port 80", ("", "port 8080", "port 8080:*")),
              ("port { 80, 8080 }", ("port 80", "port 80:*")), ("port > 1000", ("", "port 53")),
              ("port 2000:2003", ("", "port 80", "port 4000:*", "port 65532:*")))
RDR_TARGETS = (*INSIDE_HOSTS, "em0")
BINAT_SOURCES = ("10.0.0.5", "10.0.0.6", "10.0.0.6 port 1000", "10.0.0.5 port { 1000, 1001 }")
BINAT_TARGETS = ("192.0.2.9", "192.0.2.9", "em0", "10.0.0.6")
# rules of the filter that most packets come to, and some that judge what is behind a translation, or never hit for it
FIRST_RULES = ("pass",) * 8 + ("pass allow-opts", "pass no state", "pass no state allow-opts", "pass out", "block",
                               "block return", "", "", "pass keep state (max 2)", "pass keep state (max 5)")
BEHIND_RULES = ("block out from 10.0.0.0/8", "pass out from em0", "block in to em0", "pass in to 10.0.0.0/8",
                "block in to port 8080", "pass in to 10.0.0.5 port { 80, 4000:4003 }",
                "block return out proto udp from em0 port 50001", "pass out from any port >= 50001 no state",
                "block in proto icmp to 10.0.0.5", "pass quick proto tcp flags any",
                "pass out from em0 keep state (max 1)", "pass in to { 10.0.0.5, 10.0.0.6 } keep state (max 2)",
                "pass quick from em0 keep state (max 1)", "anchor quick {\npass keep state (max 3)\n}")
SECONDS = (2, 5, 10, 20)


def some_ends(draw, kind):
    """What a rule asks of both ends, and what it translates to."""
    if kind == "nat":
        target = f"{draw.choice(NAT_TARGETS)} {draw.choice(RANGES)}"
        return f"{draw.choice(NAT_SOURCES)} {draw.choice(OUTSIDE_ENDS)}", target
    if kind == "rdr":
        ports, moved = draw.choice(REDIRECTED)
        target = f"{draw.choice(RDR_TARGETS)} {draw.choice(moved)}"
        return f"{sometimes(draw, 0.2, RDR_SOURCES)} {draw.choice(OWN_ENDS)} {ports}", target
    return f"from {draw.choice(BINAT_SOURCES)} {draw.choice(OUTSIDE_ENDS)}", draw.choice(BINAT_TARGETS)


def some_translation(draw):
    kind = draw.choice(KINDS)
    ends, target = some_ends(draw, kind)
    criteria = [sometimes(draw, 0.3, PLACES), sometimes(draw, 0.2, PROTOCOLS), ends]
    if draw.random() < (0.3 if kind == "binat" else 0.15):
        return written(["no", kind, *criteria])
    return written([kind, sometimes(draw, 0.15, ("pass", "pass log")), *criteria, "->", target])


def some_options(draw):
    if draw.random() < 0.3:
        yield f"set limit states {draw.randint(2, 8)}"
    for name in draw.sample(sorted(TIMEOUT_SECONDS), draw.choice((0, 0, 4, 14))):
        yield f"set timeout {name} {draw.choice(SECONDS)}"
    if draw.random() < 0.15:
        yield "set block-policy return"
    if draw.random() < 0.02:
        yield "set skip on em0"


def some_filter(draw):
    """Rules of the filter."""
    yield draw.choice(FIRST_RULES)
    for _ in range(draw.choice((0, 0, 1, 2))):
        yield draw.choice(BEHIND_RULES) if draw.random() < 0.7 else some_rule(draw)
    if draw.random() < 0.1:
        yield from some_statements(draw, 0, 2)


def some_text(draw):
    """The text of a ruleset."""
    translations = [some_translation(draw) for _ in range(draw.randint(3, 7))]
    if draw.random() < 0.75:
        wide = f"nat on em0 from any to any -> em0 {draw.choice(WIDE_RANGES)}"
        translations.insert(draw.choice((0, 1, 3)), wide)
    options = ["table <hosts> { 10.0.0.0/8, !10.0.0.6 }", *some_options(draw)]
    return "\n".join([*options, *translations, *some_filter(draw)])
