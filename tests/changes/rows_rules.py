"""Rows in which another rule decides and comes to the same verdict: by an option or a word alone, or by a table's name.

Each of these changes is none if verdicts alone count.
"""

from captures.packets import UNREACHABLE, icmp_error, udp
from changes.row import CAME, FLOW_BACK, FLOW_CAME, FLOW_KNOCK, FLOW_OUT, TRAFFIC, none, one_line, row
from steps.translation_words import ANSWERED, ASKED, OTHER, E

# rules that differ in what is written behind these words, in one option or in one word
OPTIONS = (("", "allow-opts"),
           ("", "keep state (max 10)"), ("keep state (max 10)", "keep state (max 11)"), ("", "keep state (no-sync)"),
           ("", "keep state (if-bound)"), ("keep state (floating)", "keep state (if-bound)"), ("", "no state"),
           ("", "flags any"), ("", "flags S/SA"), ("flags S/SA", "flags S/SAFR"), ("no state", "no state allow-opts"))
CRITERIA = (("", "quick"), ("", "on em0"), ("on em0", "on !em1"), ("", "proto udp"),
            ("proto udp", "proto udp to port 9"), ("to port 9", "to port 9:9"), ("to port 9", "to port 8 >< 10"),
            ("to port 9", "to port <= 9"), ("to port 9", "from port 9 to port 9"), ("", "from 198.51.100.7"),
            ("", "from 0.0.0.0/0"),
            ("from 198.51.100.7", "from 198.51.100.7 - 198.51.100.7"), ("from 198.51.100.7", "from 198.51.100.0/24"),
            ("from !10.0.0.5", "from !10.0.0.6"), ("from 198.51.100.7", "to 192.0.2.1"))
OF_BLOCK = (("", "quick"), ("", "proto udp"), ("on em0", "on !em1"), ("from 198.51.100.7", "from !10.0.0.5"))
# a label says nothing about packets
LABELS = (("", 'label "web"'), ('label "web"', 'label "Web"'), ("", 'label ""'),
          ('label "a"', 'label "a label b"'), ('allow-opts label "a"', 'allow-opts label "b"'))


def single():
    for action, each in (("pass in", (*OPTIONS, *CRITERIA)), ("block in", OF_BLOCK), ("block return in", OF_BLOCK[:1])):
        verdict = "return" if "return" in action else action.split()[0]
        for words in each:
            old, new = (f"{action} {more}".strip() for more in words)
            name = f"{old!r} and {new!r}"
            yield one_line(name, old, new, [CAME], FLOW_CAME, f"{verdict} L1 -> {verdict} L1")
            yield none(f"{name}, by the verdict", old, new, [CAME], by_verdict=True)


def by_labels():
    for action in ("pass in", "block in", "block return in"):
        for words in LABELS[:3] if action != "pass in" else LABELS:
            old, new = (f"{action} {more}".strip() for more in words)
            yield none(f"{old!r} and {new!r}", old, new, [CAME])
    yield none("a label of a rule of nat's", "nat on em0 from 10.0.0.0/8 to any -> em0 port 50001\npass out label a",
               "nat on em0 from 10.0.0.0/8 to any -> em0 port 50001\npass out", [ASKED])


def by_policy():
    yield one_line("states that the policy binds", "pass in", "set state-policy if-bound\npass in", [CAME], FLOW_CAME,
                   "pass L1 -> pass L2")
    yield none("states that the policy binds, of a rule that says how its are bound",
               "pass in keep state (floating)", "set state-policy if-bound\npass in keep state (floating)", [CAME])


def of_states():
    """Later packets pass by the state of a rule that another one is in the place of."""
    error = icmp_error(OTHER, UNREACHABLE, 1, ASKED)
    old, new, pair = "pass out", "pass out allow-opts", "pass L1 -> pass L1"
    yield row("packets of a state whose rule is another one", old, new, [ASKED, ANSWERED, error],
              f"{FLOW_OUT}  {pair}  1 packet, first 1, 2 follow", f"{pair}: 3 packets in 2 flows, 2 follow",
              "3 of 3 packets change: 1 cause")
    yield none("packets of a state whose rule is another one, by the verdict", old, new, [ASKED, ANSWERED, error],
               by_verdict=True)
    yield one_line("an answer too late for its state", "block in\npass out", "pass out\npass in no state",
                   [(0, ASKED), (60, ANSWERED)], FLOW_BACK, "block L1 -> pass L2", 2)
    yield row("an answer by a state, and by a rule for answers", "block in\npass out keep state",
              "block in\npass out no state\npass in from any port 53 no state", [ASKED, ANSWERED],
              f"{FLOW_OUT}  pass L2 -> pass L2  1 packet, first 1, 1 follows", "pass L2 -> pass L2: 1 packet in 1 flow",
              "pass L2 -> pass L3: 1 packet in 1 flow, 1 follows", "2 of 2 packets change: 1 cause")


def lists_and_tables():
    table = "table <{}> {{ {} }}\nblock in\npass in from <{}>"
    held, other = "198.51.100.7", "203.0.113.9"
    yield one_line("a table of another name", table.format("far", held, "far"), table.format("near", held, "near"),
                   [CAME], FLOW_CAME, "pass L3 -> pass L3")
    yield one_line("a table that doesn't hold the host any more", table.format("far", held, "far"),
                   table.format("far", other, "far"), [CAME], FLOW_CAME, "pass L3 -> block L2")
    yield one_line("a table that holds another host too", table.format("far", held, "far"),
                   table.format("far", f"{held} {other}", "far"), [CAME, udp(OTHER, 9, E, 9)],
                   "udp 203.0.113.9:9 > 192.0.2.1:9", "block L2 -> pass L3", 2)
    yield one_line("a table in the place of a host", f"block in\npass in from {held}\n",
                   table.format("far", held, "far"), [CAME], FLOW_CAME, "pass L2 -> pass L3")
    yield one_line("a list in the place of a network", "pass in from 198.51.100.0/24",
                   f"pass in from {{ {other}, {held} }}", [CAME], FLOW_CAME, "pass L1 -> pass L1")
    yield row("a list that gains an option", "block\npass in proto { udp, tcp }",
              "block\npass in proto { udp, tcp } allow-opts", TRAFFIC,
              f"{FLOW_BACK}  pass L2 -> pass L2  1 packet, first 2",
              f"{FLOW_CAME}  pass L2 -> pass L2  1 packet, first 3",
              f"{FLOW_KNOCK}  pass L2 -> pass L2  1 packet, first 4", "pass L2 -> pass L2: 3 packets in 3 flows",
              "3 of 4 packets change: 3 causes")


def rows():
    for make in (single, by_labels, by_policy, of_states, lists_and_tables):
        yield from make()
