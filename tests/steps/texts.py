"""Random rulesets for runs with states: few rules over the hosts and ports of the packets, many of them with states, small
tables, rules for few states, and short timeouts."""

from expansions.options import TIMEOUT_SECONDS
from steps.filter_texts import HOSTS, NETWORKS, PORTS, some_ruleset

FIRST_RULES = ("pass",) * 4 + ("pass out",) * 2 + ("pass allow-opts",) * 2 + (
    "pass flags any", "block", "block in", "block return", "pass no state", "pass keep state (max 1)",
    "pass keep state (max 2)", "pass flags any keep state (max 1)", "pass flags any keep state (max 3)")
ACTIONS = ("pass",) * 6 + ("block", "block drop", "block return")
WAYS = ("", "", "in", "out")
PLACES = ("on em0", "on !em1", "on em1", "on { em0, em1 }")
PROTOCOLS = ("proto tcp", "proto udp", "proto icmp", "proto gre", "proto { tcp, udp }", "proto { udp, icmp, gre }")
STATES = ("", "", "", "", "keep state", "no state")
MOST = (1, 1, 2, 3, 5)
FLAGS = ("flags any", "flags any", "flags S/SA", "flags A/A", "flags R/R", "flags F/F")
TYPES = ("echoreq", "{ echoreq, echorep }", "unreach", "unreach code 1", "{ unreach, timex, paramprob }", "13")
SECONDS = (0, 1, 2, 5, 10, 20, 30, 60, 120, 300)
DEEPEST = 2


def sometimes(draw, likelihood, choices):
    return draw.choice(choices) if draw.random() < likelihood else ""


def some_port(draw):
    low, high = sorted(draw.sample(PORTS, 2))
    return draw.choice((str(low), f"{low}:{high}", f"!= {low}", f">= {high}", f"{low} <> {high}", f"{{ {low}, {high} }}"))


def some_end(draw, side):
    host = sometimes(draw, 0.3, HOSTS + NETWORKS)
    port = f"port {some_port(draw)}" if draw.random() < 0.15 else ""
    negation = "! " if host and draw.random() < 0.2 else ""
    return f"{side} {negation}{host} {port}" if host or port else ""


def some_criteria(draw):
    ends = f"{some_end(draw, 'from')} {some_end(draw, 'to')}".strip()
    return [sometimes(draw, 0.1, PLACES), sometimes(draw, 0.35, PROTOCOLS), ends or sometimes(draw, 0.5, ("all",))]


def some_states(draw):
    """Whether a rule keeps state, and now and then how many states of it there may be."""
    return f"keep state (max {draw.choice(MOST)})" if draw.random() < 0.3 else draw.choice(STATES)


def written(words):
    return " ".join(word for word in words if word)


def some_rule(draw):
    types = f"icmp-type {draw.choice(TYPES)}" if draw.random() < 0.1 else ""
    return written([draw.choice(ACTIONS), draw.choice(WAYS), sometimes(draw, 0.15, ("quick",)), *some_criteria(draw),
                    sometimes(draw, 0.3, FLAGS), types, some_states(draw), sometimes(draw, 0.3, ("allow-opts",))])


def some_anchor(draw, depth):
    criteria = some_criteria(draw) if draw.random() < 0.4 else []
    head = written(["anchor", sometimes(draw, 0.5, ('"inner"',)), draw.choice(WAYS), sometimes(draw, 0.3, ("quick",)),
                    *criteria])
    return "\n".join([head + " {", *some_statements(draw, depth, draw.randint(0, 3)), "}"])


def some_statements(draw, depth, count):
    return [some_anchor(draw, depth + 1) if depth < DEEPEST and draw.random() < 0.2 else some_rule(draw)
            for _ in range(count)]


def some_options(draw):
    """What makes states go soon, and leaves room for few."""
    if draw.random() < 0.7:
        yield f"set limit states {draw.randint(1, 5)}"
    for name in draw.sample(sorted(TIMEOUT_SECONDS), draw.choice((0, 0, 3, 14))):
        yield f"set timeout {name} {draw.choice(SECONDS)}"
    if draw.random() < 0.2:
        yield "set block-policy return"
    if draw.random() < 0.1:
        yield f"set skip on {draw.choice(('em0', 'em1', 'lo0', 'em', '{ lo0, em1 }', '{ lo0, em0 }'))}"


def some_text(draw):
    """The text of a ruleset; now and then one of the whole filter language, where maybe a byte is gone or another, and most
    options to skip an interface."""
    options = list(some_options(draw))
    if draw.random() < 0.2:
        lines = some_ruleset(draw).decode().split("\n")
        return "\n".join([*options, *(line for line in lines if "skip" not in line or draw.random() < 0.1)])
    first = [draw.choice(FIRST_RULES)] if draw.random() < 0.8 else []
    return "\n".join([*options, *first, *some_statements(draw, 0, draw.randint(0, 6))])
