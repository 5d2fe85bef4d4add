"""Rulesets in which rules are likely to be shadowed: few rules over few values of each criterion, many of which hold
others of them."""

HOSTS = ("10.0.0.0/8", "10.0.0.0/16", "10.1.0.0/16", "10.1.2.3", "10.1.2.3", "10.0.0.5", "!10.0.0.0/8", "!10.1.2.3",
         "10.0.0.5 - 10.1.2.3", "!10.0.0.5 - 10.0.0.9", "<t>", "!<t>", "<empty>", "self", "!self", "192.0.2.1",
         "0.0.0.0/0")
TABLES = "table <t> { 10.0.0.0/8, !10.1.0.0/16, 10.1.2.3 }", "table <empty>"
PORTS = ("80", "80", "443", "!= 80", "!= 22", "80:90", "80:443", "< 81", ">= 80", "79 >< 81", "80 <> 90", "80:80")
PROTOCOLS = ("tcp", "tcp", "udp", "icmp", "gre")
INTERFACES = ("em0", "em0", "!em0", "em1", "!em1")
DIRECTIONS = ("in", "in", "out")
TYPES = ("echoreq", "echoreq", "echoreq code 0", "unreach", "unreach code 1", "unreach code 3")
FLAGS = ("any", "any", "S/SA", "S/SA", "A/A")
# what is done, and what is said of states
ACTIONS = (("block", ""), ("block return", ""), ("pass", ""), ("pass", ""), ("pass", " no state"),
           ("pass", " keep state (max 1)"))
# how often a rule asks for each thing, how often it is quick, and an anchor is
ASKED, QUICK, QUICK_ANCHOR = 0.2, 0.3, 0.4
# how often an anchor stands in the place of a rule, how many are in one another, and how many statements there are
ANCHOR, DEEPEST, MOST_STATEMENTS = 0.25, 2, 6


def sometimes(draw, words, some, likelihood=ASKED):
    """These words and one of some others, or nothing."""
    return f" {words}{draw.choice(some)}" if draw.random() < likelihood else ""


def some_end(draw, side):
    hosts, ports = sometimes(draw, "", HOSTS), sometimes(draw, "port ", PORTS, ASKED / 2)
    return f" {side}{hosts or ' any'}{ports}" if hosts or ports else ""


def some_criteria(draw):
    return (sometimes(draw, "on ", INTERFACES) + sometimes(draw, "proto ", PROTOCOLS) + some_end(draw, "from")
            + some_end(draw, "to"))


def some_way(draw, likelihood):
    return sometimes(draw, "", DIRECTIONS) + sometimes(draw, "", ["quick"], likelihood)


def some_rule(draw):
    action, state = draw.choice(ACTIONS)
    options = sometimes(draw, "flags ", FLAGS) + sometimes(draw, "icmp-type ", TYPES, ASKED / 2)
    return "".join([action, some_way(draw, QUICK), some_criteria(draw), options, state])


def some_anchor(draw, depth):
    asked = some_criteria(draw) if draw.random() < 0.3 else ""
    return "\n".join([f"anchor{some_way(draw, QUICK_ANCHOR)}{asked} {{", *some_statements(draw, depth + 1), "}"])


def some_statements(draw, depth=0):
    return [some_anchor(draw, depth) if depth < DEEPEST and draw.random() < ANCHOR else some_rule(draw)
            for _ in range(draw.randint(1, MOST_STATEMENTS))]


def some_ruleset(draw):
    """The bytes of a ruleset. Now and then a line stands there twice, which makes equal rules."""
    statements = some_statements(draw)
    if draw.random() < 0.3:
        statements.append(draw.choice(statements))
    return "\n".join((*TABLES, *statements)).encode()
