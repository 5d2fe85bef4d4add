"""Random rulesets of the whole filter language, over few addresses, ports, flags and types, so that rules often hit."""

# the interface of the run is em0, with 192.0.2.1/24
INSIDE_HOSTS = ("10.0.0.5", "10.0.0.6", "10.1.2.3", "10.1.3.3")
OUTSIDE_HOSTS = ("198.51.100.7", "198.51.100.8", "203.0.113.9", "192.0.2.1", "192.0.2.77")
HOSTS = INSIDE_HOSTS + OUTSIDE_HOSTS
NETWORKS = ("10.0.0.0/8", "10.1.0.0/16", "10.1.2.0/24", "198.51.100.0/24", "198.51.100.6/31", "192.0.2.0/24",
            "0.0.0.0/0", "128.0.0.0/1", "203.0.113.9/32")
RANGES = ("10.0.0.6 - 10.1.2.3", "10.0.0.0 - 198.51.100.7", "198.51.100.8 - 203.0.113.9", "192.0.2.1 - 192.0.2.1")
FORMS = ("self", "em0", "em0:0", "em0:network", "(em0)", "(em0:network)", "$own", "($own)", "$own:network")
TABLES = ("few", "many")
PORTS = (22, 53, 80, 443, 1024, 49152)
SERVICES = {22: "ssh", 53: "domain", 80: "http", 443: "https"}
PORT_SIGNS = ("=", "!=", "<", "<=", ">", ">=")
PROTOCOLS = ("tcp", "udp", "icmp", "gre", "igmp", "6", "17", "1", "50")
TYPES = ("echoreq", "echorep", "unreach", "timex", "redir", "0", "3", "8", "11", "13")
STATES = ("no state", "keep state", "keep state (if-bound, no-sync)", "keep state (max 1)", "keep state (max 3, no-sync)")
FLAGS = ("any", "S/SA", "S/S", "A/A", "SA/SA", "F/F", "R/R", "P/PU", "S/SAFR", "E/EW", "SS/A", "FSRPAUEW/FSRPAUEW")
INTERFACES = ("em0", "em0", "!em1", "!em1", "em1", "!em0", "lo0", "$own")
OPTIONS = ("set block-policy return", "set block-policy drop", "set skip on em0", "set skip on { lo0 em0 }",
           "set state-policy if-bound", "set timeout tcp.first 10", "set limit states 10", "set debug urgent",
           "set loginterface $own")
MACROS = {
    "own": '"em0"',
    "clients": '"{ 10.0.0.5, 10.1.2.0/24 }"',
    "servers": '198.51.100.7 "203.0.113.9"',
    "far": '"! 198.51.100.0/24"',
    "web": '"{ 80 443 }"',
    "high": '"> 1023"',
    "transports": '"{ tcp, udp }"',
    "types": '"{ 8, unreach code 1 }"',
}
HOST_USES = ("$clients", "$far", "!$desk", "$desk", "$desk/24")
DEEPEST = 3
# rules that hit many packets, for rulesets to begin with
FIRST_RULES = ("block", "pass", "block return in", "pass out allow-opts", "block all no state", "pass flags any")


def sometimes(chance, likelihood, words):
    return words if chance.random() < likelihood else []


def listed(chance, element, least=2, most=3):
    """One element, or now and then a list of them."""
    if chance.random() < 0.8:
        return element(chance)
    elements = [element(chance) for _ in range(chance.randint(least, most))]
    return "{ " + chance.choice([", ", " ", "\n"]).join(elements) + " }"


def some_host(chance):
    kind = chance.random()
    if kind < 0.1:
        return "any"
    if kind < 0.25:
        return chance.choice(HOST_USES)
    host = chance.choice([chance.choice(HOSTS), chance.choice(NETWORKS), chance.choice(NETWORKS), chance.choice(RANGES),
                          chance.choice(FORMS), f"<{chance.choice(TABLES)}>"])
    return "!" * (chance.random() < 0.25) + host


def some_port(chance):
    low, high = chance.choice(PORTS), chance.choice(PORTS)
    word = chance.choice([str(low), SERVICES.get(low, str(low))])
    kind = chance.random()
    if kind < 0.1:
        return chance.choice(["$web", "$high"])
    if kind < 0.35:
        return word
    if kind < 0.6:
        return f"{chance.choice(PORT_SIGNS)} {word}"
    if kind < 0.75:
        return f"{min(low, high)}:{max(low, high)}"
    return f"{word} {chance.choice(['><', '<>'])} {high}"


def some_protocol(chance):
    return "$transports" if chance.random() < 0.1 else chance.choice(PROTOCOLS[:3] + PROTOCOLS)


def some_type(chance):
    if chance.random() < 0.1:
        return "$types"
    return chance.choice(TYPES) + f" code {chance.choice([0, 1, 3])}" * (chance.random() < 0.4)


def some_end(chance, side):
    """One side of a rule: hosts, ports, both or nothing."""
    hosts = sometimes(chance, 0.3, [listed(chance, some_host)])
    ports = sometimes(chance, 0.18, ["port", listed(chance, some_port)])
    return [side, *hosts, *ports] if hosts or ports else []


def some_criteria(chance):
    words = sometimes(chance, 0.15, ["on", listed(chance, lambda chance: chance.choice(INTERFACES))])
    words += sometimes(chance, 0.1, ["inet"])
    words += sometimes(chance, 0.35, ["proto", listed(chance, some_protocol)])
    return words + (some_end(chance, "from") + some_end(chance, "to") or sometimes(chance, 0.5, ["all"]))


def some_rule_options(chance):
    """Options of a rule in any order."""
    options = [sometimes(chance, 0.25, ["flags", chance.choice(FLAGS)]),
               sometimes(chance, 0.15, ["icmp-type", listed(chance, some_type)]),
               sometimes(chance, 0.3, ["allow-opts"]),
               sometimes(chance, 0.1, ["label", '"of a rule"']),
               sometimes(chance, 0.5, [chance.choice(STATES)])]
    chance.shuffle(options)
    return [word for words in options for word in words]


def some_rule(chance):
    words = [chance.choice(["pass", "pass", "block", "block drop", "block return"])]
    words += chance.choice([[], [], ["in"], ["out"]]) + sometimes(chance, 0.1, ["log"])
    words += sometimes(chance, 0.15, ["quick"])
    return " ".join(words + some_criteria(chance) + some_rule_options(chance))


def some_anchor(chance, depth):
    words = ["anchor"] + sometimes(chance, 0.5, ['"inner"']) + chance.choice([[], [], ["in"], ["out"]])
    words += sometimes(chance, 0.35, ["quick"])
    # what an outer anchor asks for is asked for by all inside it, so it mostly asks for little
    words += some_criteria(chance) if chance.random() < 0.4 else []
    body = some_statements(chance, depth, chance.randint(0, 4))
    return "\n".join([" ".join([*words, "{"]), *body, "}"])


def some_statements(chance, depth, count):
    """Rules and anchors, as far as anchors may still stand in one another."""
    return [some_anchor(chance, depth + 1) if depth < DEEPEST and chance.random() < 0.3 else some_rule(chance)
            for _ in range(count)]


def some_table(chance, name):
    """A table of networks within one another, about a third of them with a not; no two of them are one."""
    # the last of the networks is one of the hosts
    entries = chance.sample(HOSTS + NETWORKS[:-1], chance.randint(0, 6)) + sometimes(chance, 0.2, ["$desk/30"])
    words = [entry if "$" in entry or chance.random() < 0.65 else f"!{entry}" for entry in entries]
    return f"table <{name}> {chance.choice(['', 'persist ', 'const '])}{{ {', '.join(words)} }}"


def some_ruleset(chance):
    """The bytes of a ruleset; now and then one byte of it is another, or gone."""
    lines = [f"{name} = {value}" for name, value in MACROS.items()]
    lines.append(f'desk = "{chance.choice(HOSTS)}"')
    lines += chance.sample(OPTIONS, chance.choice([0, 0, 1, 2]))
    lines += [some_table(chance, name) for name in TABLES]
    lines += sometimes(chance, 0.4, [chance.choice(FIRST_RULES)])
    lines += some_statements(chance, 0, chance.randint(1, 8))
    text = "\n".join(lines + [""] * chance.randint(0, 1)).encode()
    if chance.random() < 0.05:
        place = chance.randrange(len(text))
        text = text[:place] + chance.choice([b"", b"}", b"\n", b"0", b"x", b"$"]) + text[place + 1:]
    return text
