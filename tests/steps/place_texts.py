"""Random rulesets for runs on several interfaces: those of other runs, whose states are bound by their rules and by the
policy then and whose rules name interfaces, some in which connections often want a key that another one has, and some
for few flows."""

import re

from steps import texts, translation_texts

POLICIES = ("floating", "if-bound", "if-bound")
BINDINGS = frozenset(POLICIES)
# the words of a rule's state, with what stands in brackets
STATE = re.compile(r"keep state(?: \(([^)]*)\))?")
# rules whose states are bound otherwise than those before them, by the way of a packet, its kind or their number
OTHER_RULES = ("pass out keep state (if-bound)\npass in keep state (floating)",
               "pass out keep state (floating)\npass in keep state (if-bound)",
               "pass keep state (if-bound)\npass keep state (max 4, floating)",
               "pass keep state (floating)\npass keep state (max 2, if-bound)", "pass keep state (floating)",
               "pass keep state (max 6, if-bound)\npass keep state (max 2, floating)",
               "pass flags any keep state (if-bound)\npass proto tcp flags S/SA keep state (floating)")
# several of these send to one server, or give one address
TRANSLATIONS = ("rdr to em0 port { 80, 8080 } -> 10.0.0.5 port 80", "rdr to em0 port 2000:2003 -> 10.0.0.5 port 80",
                "rdr to 192.0.2.9 -> 10.0.0.5 port 80", "rdr pass to 192.0.2.9 port 80 -> 10.0.0.5 port 80",
                "rdr proto icmp to em0 -> 10.0.0.5", "rdr proto gre to em0 -> 10.0.0.5",
                "binat from 10.0.0.5 to any -> 192.0.2.9", "binat from 10.0.0.6 to any -> 192.0.2.9",
                "binat pass from 10.0.0.6 to any -> 192.0.2.9", "nat from 10.0.0.5 to any -> em0 static-port")
NATS = ("nat from any to any -> em0 port 50001:50002", "nat from any to any -> em0 port 50001:50004",
        "nat pass from any to any -> em0 port 50001:50003")
SECONDS = (5, 10, 20, 60)
# what stands in a rule before the interfaces that it names, and in what follows the addresses of the first interface
BEFORE_PLACES = re.compile(r'(?:(?:pass|block(?: drop| return)?)(?: in| out)?(?: log)?(?: quick)?'
                           r'|anchor(?: "inner")?(?: in| out)?(?: quick)?|(?:no )?(?:nat|rdr|binat)(?: pass)?(?: log)?)'
                           r'(?= |$)')
OWN_HOST = re.compile(r"(from|to) (!?) ?(?:em0|self|192\.0\.2\.1)(?= |$)(?! -)")
OWN_TARGET = re.compile(r"-> (?:em0|self|\(em0\))(?= |$)")
# the third interface isn't one of each run
RULE_PLACES = ("on em0", "on em0", "on em1", "on em1", "on ! em0", "on !em1", "on { em0, em1 }", "on em2", "on ! em2")
OWN_HOSTS = ("self", "self", "self", "em0", "em1", "em1:network", "(em1)", "em0:network")
OWN_TARGETS = ("em0", "em0", "em1", "(em1)", "192.0.2.9")
SKIPPED = ("em0", "em1", "em1", "{ em2, em9 }", "em3")
# rules by addresses of interfaces, with which rulesets end
OWN_RULES = ("pass in to self", "pass in to ! self no state", "block in from any to em1", "pass out from self",
             "block return in to !self", "pass in to { em1 self }", "pass on em1 from any to self",
             "block out on em1 from ! self to any", "pass in to <own> keep state (max 3)", "block out to <own>")
OWN_TABLE = "table <own> { self, 203.0.113.0/24, !203.0.113.9, !192.0.2.9 }"
# rulesets for few flows, with which states that are bound to several interfaces stand in the way of one for all, and of
# a port
WAY_RULES = ("pass out keep state (if-bound)\npass in keep state (floating)",
             "pass keep state (floating)\npass out keep state (if-bound)")
PORT_RULES = ("nat from any to any -> em0 port 50001\npass keep state (if-bound)",
              "nat from any to any -> em0 port 50001:50002\npass in keep state (if-bound)\npass out")


def bound_state(draw, options):
    """The words of a rule's state, which mostly say how it is bound."""
    options = options.split(", ") if options else []
    if draw.random() < 0.5 and not BINDINGS.intersection(options):
        options.append(draw.choice(POLICIES))
    return f"keep state ({', '.join(options)})" if options else "keep state"


def bound_line(draw, line):
    """A line of a ruleset; a rule that keeps state mostly says how that is bound."""
    if line.startswith("pass") and "state" not in line and line.count("{") == line.count("}"):
        line += " keep state"
    return STATE.sub(lambda found: bound_state(draw, found[1]), line)


def bound_text(draw, text):
    """The text of a ruleset whose states are bound in each way."""
    behind = [draw.choice(OTHER_RULES)] if draw.random() < 0.3 else []
    return "\n".join([*(bound_line(draw, line) for line in text.split("\n")), *behind])


def colliding_text(draw):
    """A ruleset with which many connections want keys that others have."""
    timeouts = [f"set timeout {name} {draw.choice(SECONDS)}" for name in ("udp.first", "tcp.first", "other.first")]
    return "\n".join([*timeouts, *draw.sample(TRANSLATIONS, 4), draw.choice(NATS), draw.choice(OTHER_RULES)])


def some_udp_timeouts(draw):
    return [f"set timeout udp.{name} {draw.choice(SECONDS)}" for name in ("first", "single", "multiple")]


def some_way_text(draw):
    """A ruleset whose states are bound by the way of their packets."""
    return "\n".join([*some_udp_timeouts(draw), draw.choice(WAY_RULES)])


def some_port_text(draw):
    """A ruleset with translation to ports that packets are sent to."""
    return "\n".join([*some_udp_timeouts(draw), draw.choice(PORT_RULES)])


def placed_line(draw, line):
    """A line of a ruleset; many rules name interfaces, and have addresses of others than the first."""
    before = BEFORE_PLACES.match(line)
    if before and " on " not in line and draw.random() < 0.3:
        line = f"{before[0]} {draw.choice(RULE_PLACES)}{line[before.end():]}"
    if draw.random() < 0.6:
        line = OWN_HOST.sub(lambda found: f"{found[1]} {found[2]}{draw.choice(OWN_HOSTS)}", line)
    return OWN_TARGET.sub(lambda _: f"-> {draw.choice(OWN_TARGETS)}", line)


def placed_text(draw, text):
    """The text of a ruleset whose rules name interfaces."""
    lines = [placed_line(draw, line) for line in text.split("\n")]
    if draw.random() < 0.15:
        lines.insert(0, f"set skip on {draw.choice(SKIPPED)}")
    behind = draw.sample(OWN_RULES, draw.choice((0, 1, 1, 2)))
    return "\n".join([*lines, OWN_TABLE, *behind])


def some_policy(draw):
    return f"set state-policy {draw.choice(POLICIES)}\n" if draw.random() < 0.9 else ""


def some_text(draw):
    """The text of a ruleset without translation."""
    text = bound_text(draw, texts.some_text(draw))
    return some_policy(draw) + (placed_text(draw, text) if draw.random() < 0.8 else text)


def some_translated_text(draw):
    """The text of a ruleset with translation."""
    text = colliding_text(draw) if draw.random() < 0.5 else bound_text(draw, translation_texts.some_text(draw))
    return some_policy(draw) + (placed_text(draw, text) if draw.random() < 0.5 else text)
