"""Random rulesets for the comparison of an expansion with its model. Most are for several interfaces."""

import random

from expansions.cases import RUNS, SEED, Text
from expansions.hosts import interface_of
from rulesets.parts import LONGEST_INTERFACE

INTERFACES = ("em0", "em1", "lo0", "igb1", "vlan_5", "a_name_of_15_by")
PROTOCOLS = ("tcp", "udp", "icmp", "igmp", "gre", "esp", "ah", "0", "6", "255")
SERVICES = ("ftp", "ssh", "telnet", "smtp", "domain", "http", "www", "pop3", "ntp", "imap", "snmp", "https")
ICMP_TYPES = ("echorep", "unreach", "redir", "echoreq", "timex", "paramprob", "0", "8", "255")
# beside labels that no other rule of the text has
LABELS = ('""', '" "', '"a label"', '"# no comment {"', '"\t$a, \\ b"', "http", "a/b:c.*", "0")
NO_LABELS = ("", "tag", "in", "$a", "{ a }", "a b", '"\x7f"', '"caf\u00e9"')
MOST_STATES = (1, 2, 10, 4294967295)
FLAG_SETS = ("any", "S/SA", "SA/SA", "FUP/FSRPAUEW", "S/S", "A/A")
NETWORKS = ("10.0.0.0/8", "10.1.2.3/8", "10.1.0.0/16", "10.1.2.0/24", "10.1.2.3", "10.1.2.4/31", "10.1.2.5/32",
            "0.0.0.0/0", "192.0.2.1", "192.0.2.0/24", "192.0.2.77/25", "255.255.255.255", "203.0.113.6/31")
# interfaces beside the one that the texts name most: one has its address, and one is called as a form of it
OTHER_RUNS = (("em7", "203.0.113.2/24"), ("wg0", "198.18.0.1/15"), ("{i}:0", "198.51.100.2/30"), ("ppp0", "{a}/32"),
              ("em1:network", "10.200.0.1/32"))
# never with a not where they are a table's entries, so that few tables clash
OWN_FORMS = ("self", "self", "{i}", "{i}:0", "{i}:network", "({i})", "({i}:0)", "({i}:network)")
TIMEOUTS = ("tcp.first", "tcp.opening", "tcp.established", "tcp.closing", "tcp.finwait", "tcp.closed", "udp.first",
            "udp.single", "udp.multiple", "icmp.first", "icmp.error", "other.first", "other.single", "other.multiple",
            "interval", "frag", "src.track")
LIMITS = ("states", "frags", "src-nodes", "table-entries", "tables")
TABLES = ("t", "u", "bad_hosts", "v4")
MACROS = ("a", "b", "c", "ext_if", "m1", "m2", "S")
# what macros are made for: elements of lists, the one address of a translation, the name of an interface, the free word
# of an option
KINDS = ("interface", "skipped", "protocol", "icmp", "host", "host", "port", "moved_port", "entry", "entry", "single",
         "single", "name", "name", "free_word")
# those of which a value holds one
ONE_ALONE = ("single", "name", "free_word")
# forms of an interface that are one address, whatever its network
SINGLE_FORMS = ("{i}", "{i}:0", "({i})", "({i}:0)")
# first ports of a map; from the last of them the longest range just gets to the last port
FIRST_PORTS = (0, 80, 8080, 40000, 64536)
MOVED_LENGTHS = (0, 1, 99, 535, 999)
# what fits no place, or not every one
JUNK = ('""', '"$a"', '"{"', '"}"', '"{ }"', '"!"', '"a;"', '"/8"', '"# b"', '"10.0.0.300"', '"10.0.0.0/33"', '"10.0"',
        '"65536"', '"90:80"', '"nosuch"', '"tag"', '"log"', '"10.0.0.9 - 10.0.0.1"', '"<nosuch>"', '"a_name_of_16_byt"',
        '"{ 1, }"', '"{ { 1 } }"', '"1 2"', '"any"', '"self"', '"no"', "tag", "256", "2:1", "10.0.0.1.1", '"> 80"', '"-"')


class Writer:
    """Writes a random ruleset, mostly without faults or with one."""

    def __init__(self, draw):
        self.draw = draw
        self.interfaces = self.some_interfaces()
        self.faults = draw.choice((0, 0, 1, 1, 2))
        # what each macro and table that is defined so far was made for
        self.macros, self.tables = {}, []
        self.labels = 0

    def some_interfaces(self):
        """One interface, or two or three in any order."""
        name, network = self.draw.choice(RUNS)
        others = [(other.replace("{i}", name), word.replace("{a}", network.partition("/")[0]))
                  for other, word in self.draw.sample(OTHER_RUNS, self.draw.choice((0, 1, 1, 2)))]
        found = [(name, network), *((other, word) for other, word in others if len(other) <= LONGEST_INTERFACE)]
        self.draw.shuffle(found)
        return tuple(interface_of(*each) for each in found)

    def own_name(self):
        """The name of an interface of the run."""
        return self.draw.choice(self.interfaces).name

    def is_several(self):
        return len(self.interfaces) > 1

    def chance(self, percent):
        return self.draw.randrange(100) < percent

    def fault(self, percent=4):
        """Whether to write something wrong here."""
        if self.faults and self.chance(percent):
            self.faults -= 1
            return True
        return False

    def either(self, percent, word, other=""):
        return word if self.chance(percent) else other

    # Elements of lists

    def item(self, kind):
        """One element as it is written out."""
        return getattr(self, kind)()

    def interface(self):
        own = self.either(40, self.own_name(), self.draw.choice(INTERFACES))
        return self.either(20, self.draw.choice(("!", "! "))) + own

    def skipped(self):
        return self.draw.choice(INTERFACES)

    def protocol(self):
        return self.draw.choice(PROTOCOLS)

    def icmp(self):
        return self.draw.choice(ICMP_TYPES) + self.either(30, f" code {self.draw.choice((0, 1, 13, 255))}")

    def one_port(self):
        return self.draw.choice((*SERVICES, "0", "22", "80", "443", "1024", "65535"))

    def port(self):
        low, high = sorted(self.draw.choices(range(65536), k=2))
        return self.draw.choice((
            self.one_port(), self.one_port(), f"{self.draw.choice(('=', '!=', '<', '<=', '>', '>='))} {self.one_port()}",
            f"{low}:{high}", f"{low} >< {high}", f"{low} <> {high}", "ftp:http"))

    def form(self):
        if self.fault(10):
            return self.draw.choice(("www.example.com", "em9", "em9:0", "em0:1", "em9:network", "(em9)", "EM0", "xem0"))
        if self.chance(25) and "name" in self.macros.values():
            return f"({self.use('name')}{self.either(40, self.draw.choice((':0', ':network')))})"
        return self.draw.choice(OWN_FORMS).replace("{i}", self.own_name())

    def table_use(self):
        if not self.tables or self.fault(5):
            return self.either(50, "<nosuch>", f"<{self.draw.choice(TABLES)}>") if self.faults else "10.9.9.9"
        return f"<{self.draw.choice(self.tables)}>"

    def host(self):
        plain = self.draw.choices(("any", self.draw.choice(NETWORKS), self.form(), "10.0.0.1 - 10.0.0.9", self.table_use()),
                                  (1, 6, 4, 1, 4))[0]
        return self.either(20, self.draw.choice(("!", "! "))) + plain

    def entry(self):
        """An entry; whether there is a not goes by what is written, so that the same text never clashes with itself."""
        if self.chance(25):
            return self.form()
        network = f"10.{self.draw.randrange(40)}.{self.draw.randrange(3)}.0/24"
        network = self.either(30, self.draw.choice(NETWORKS), network)
        if self.fault(6):
            return "!" + self.draw.choice((network, "self", "self", self.draw.choice(self.interfaces).address))
        return "!" * (network[-4:] == "0/24" and int(network.split(".")[1]) % 3 == 0) + network

    def moved_port(self):
        """Ports that a map moves: any other sign is a fault there."""
        if self.fault(6):
            return self.port()
        low = self.draw.randrange(64000)
        return self.draw.choice((self.one_port(), f"= {self.one_port()}", f"{low}:{low + self.draw.choice(MOVED_LENGTHS)}"))

    def no_single(self):
        """What stands for no address or for several."""
        network = self.draw.choice(NETWORKS)
        return self.draw.choice((
            "any", f"!{network}", network, f"{{ {network} }}", f"{network} - 10.9.9.9", f"<{self.draw.choice(TABLES)}>",
            f"{self.own_name()}:network", f"({self.own_name()}:network)", "www.example.com", "em9", "(em9:0)"))

    def single(self):
        """One address, as a target and the source of a binat rule."""
        if self.is_several() and self.fault(8):
            return "self"
        if self.fault(8):
            return self.no_single()
        if self.chance(15) and "name" in self.macros.values():
            return f"({self.use('name')}{self.either(30, ':0')})"
        own = SINGLE_FORMS if self.is_several() else ("self", *SINGLE_FORMS)
        return self.draw.choice((*own, "10.1.2.5/32", "10.1.2.3", "255.255.255.255")).replace("{i}", self.own_name())

    def name(self):
        return self.either(85, self.own_name(), self.draw.choice(INTERFACES)) if self.faults else self.own_name()

    def free_word(self):
        return self.draw.choice(("0", "17", "none", "urgent", "em0", "a.b"))

    # Macros

    def use(self, kind):
        """The use of a macro that was made for such elements; or the item itself where there is none."""
        fitting = [name for name, made_for in self.macros.items() if made_for == kind]
        if self.fault():
            return "$" + self.draw.choice(("nosuch", *self.macros))
        if not fitting:
            return self.item(kind)
        name = self.draw.choice(fitting)
        if kind in ("host", "entry", "interface") and self.fault(8):
            return f"!${name}"
        if self.fault(6):
            return f"${name}{self.draw.choice((':0', '/24', ':network', '/33', ':80', '/x', ':'))}"
        return f"${name}"

    def element(self, kind):
        return self.use(kind) if self.chance(30) else self.item(kind)

    def separator(self):
        return self.draw.choice((", ", ", ", " ", " ,", ",", " \\\n ", ",\n\t", " # c\n"))

    def braced(self, elements):
        text = "{ "
        for place, element in enumerate(elements):
            text += (self.separator() if place else "") + element
        return text + " }"

    def several(self):
        """The length of a list; most are short, so that the rules don't get too many."""
        return self.draw.choice((1, 1, 2, 2, 2, 3, 3, 5))

    def list(self, kind, percent=40):
        if not self.chance(percent):
            return self.element(kind)
        return self.braced([self.element(kind) for _ in range(self.several())])

    def own_item(self, kind):
        """Now and then the word for all addresses, where macros are made for such elements. As one address it is at
        fault if there are several."""
        if kind == "single" and self.is_several():
            return "self" if self.fault(25) else ""
        return self.either(15, self.either(25, "!") + "self") if kind in ("host", "entry") else ""

    def value(self, kind):
        """The pieces of a macro's value for such elements."""
        if self.fault(15):
            return self.draw.choice(JUNK)
        item = self.own_item(kind) or self.item(kind)
        way = self.draw.randrange(12)
        if way < 5 or kind in ONE_ALONE:
            return f'"{self.either(15, " ")}{item}{self.either(15, "  ")}"'
        if way < 8:
            items = self.draw.choice((" ", ", ", ",")).join(self.item(kind) for _ in range(self.several()))
            return f'"{{ {items} }}"'
        if way < 9:
            inner = self.use(kind) if kind in self.macros.values() else f'"{item}"'
            return f'"{{" {inner} "{item}" "}}"'
        if way < 10 and kind in self.macros.values():
            return self.use(kind)
        if way < 11 and kind in ("skipped", "protocol"):
            return item
        return f'"{{ {item}," "{item} }}"'

    def suffixed(self, suffixes):
        """A definition by a suffix, where there is a macro that takes one."""
        if "name" not in self.macros.values():
            return '"10.0.0.1"'
        return self.use("name") + self.draw.choice(suffixes)

    def macro(self):
        name, kind = self.draw.choice(MACROS), self.draw.choice(KINDS)
        if kind in ("host", "entry", "single") and self.chance(15):
            text = f"{name} = {self.suffixed((':0',) if kind == 'single' else (':0', ':network'))}"
        else:
            text = f"{name} = {self.value(kind)}"
        self.macros[name] = kind
        return text

    # Tables and options

    def table(self):
        free = [name for name in TABLES if name not in self.tables]
        if not free or (self.tables and self.fault()):
            free = list(TABLES)
            if not self.faults and all(name in self.tables for name in free):
                return "# no table"
        name = self.draw.choice(free)
        flags = " ".join(self.draw.sample(("persist", "const", "counters"), self.draw.randrange(3)))
        elements = [self.element("entry") for _ in range(self.draw.randrange(6))]
        if self.fault(15):
            # it clashes with the same address, as what `self` may stand for
            elements.append(f"!{self.draw.choice(self.interfaces).address}")
            self.draw.shuffle(elements)
        entries = self.either(80, self.braced(elements))
        self.tables.append(name)
        return f"table <{name}> {flags} {entries}"

    def pairs(self, word, names, most):
        """A name with its number, or several in braces."""
        def pair():
            return f"{self.draw.choice(names)} {self.draw.randrange(1, most)}"
        if self.chance(60):
            return f"set {word} {pair()}"
        return f"set {word} {self.braced([pair() for _ in range(self.several())])}"

    def option(self):
        way = self.draw.randrange(8)
        if way == 0:
            return f"set skip on {self.list('skipped')}"
        if way < 3:
            return self.pairs("timeout", TIMEOUTS, 100000)
        if way == 3:
            return self.pairs("limit", LIMITS, 1000000)
        if way == 4:
            return f"set block-policy {self.draw.choice(('drop', 'return'))}"
        if way == 5:
            return f"set state-policy {self.draw.choice(('if-bound', 'floating'))}"
        if way == 6:
            return f"set hostid {self.draw.choice(('7', '0xffffffff', '4294967295', '0xbeef'))}"
        free = self.either(40, self.use("free_word"), self.draw.choice(('"x y"', "none", "em0")))
        return self.draw.choice(("set optimization normal", f"set require-order {free}", f"set loginterface {free}",
                                 f"set debug {free}", f"set ruleset-optimization {free}"))

    # Rules

    def part(self, side):
        host = self.either(75, f" {self.list('host')}")
        port = self.either(40, f" port {self.list('port', 30)}")
        return f" {side}{host}{port}" if host or port else ""

    def packets(self):
        """What stands before the hosts of criteria."""
        text = self.either(30, f" on {self.list('interface')}") + self.either(20, " inet")
        return text + self.either(35, f" proto {self.list('protocol')}")

    def criteria(self):
        text = self.packets()
        if self.chance(25):
            return text + self.either(60, " all")
        return text + self.either(60, self.part("from")) + self.either(60, self.part("to"))

    def state(self):
        options = self.draw.sample(("no-sync", self.draw.choice(("floating", "if-bound")),
                                    f"max {self.draw.choice(MOST_STATES)}"), self.draw.randrange(4))
        within = f" ({', '.join(options)})" if options else ""
        return self.either(30, " no state", f" keep state{within}")

    def label(self):
        if self.fault(2):
            return f" label {self.draw.choice(NO_LABELS)}"
        self.labels += 1
        own = f"r{self.labels}", f'"rule {self.labels}"'
        return f" label {self.draw.choice((*own, self.draw.choice(LABELS)))}"

    def rule_options(self):
        options = [self.either(25, f" flags {self.draw.choice(FLAG_SETS)}"), self.either(25, self.state()),
                   self.either(20, f" icmp-type {self.list('icmp')}"), self.either(10, " allow-opts"),
                   self.label() if self.chance(35) else ""]
        self.draw.shuffle(options)
        return "".join(options)

    def rule(self):
        action = self.draw.choice(("pass", "pass", "block", "block drop", "block return"))
        return (action + self.draw.choice(("", "", " in", " out")) + self.either(10, " log") + self.either(25, " quick")
                + self.criteria() + self.rule_options())

    def anchor(self, depth):
        name = self.draw.choice(("", ' "a"', " a/b", ' "inner one"'))
        head = (f"anchor{name}" + self.draw.choice(("", "", " in", " out")) + self.either(20, " quick")
                + self.either(70, self.criteria()))
        if self.chance(10):
            return head
        lines = [self.filter(depth + 1) for _ in range(self.draw.choice((0, 1, 1, 2, 2, 3)))]
        return head + " {\n" + "".join(f"{line}{self.either(10, chr(10))}\n" for line in lines) + "}"

    def filter(self, depth=0):
        return self.anchor(depth) if depth < 5 and self.chance(30) else self.rule()

    # Translation

    def passed(self):
        return self.either(25, self.draw.choice((" pass", " pass log")))

    def nat(self):
        ports = self.draw.choice(("5", "0", "http", "1024:65535", "50001:50001", "ssh:http"))
        if self.fault(8):
            ports = self.draw.choice(("{ 1 2 }", "90:80", "65536", "5:*", self.use("port"), "nosuch", "> 5"))
        return (f"nat{self.passed()}{self.criteria()} -> {self.element('single')}" + self.either(40, f" port {ports}")
                + self.either(20, " static-port"))

    def rdr(self):
        if self.chance(35):
            return self.map()
        port = self.draw.choice(("5", "0", "http", "65535"))
        if self.fault(8):
            port = self.draw.choice(("{ 1 2 }", "80:90", "65536", "65536:*", "5:*", self.use("port"), "nosuch:*", "> 5"))
        return f"rdr{self.passed()}{self.criteria()} -> {self.element('single')}" + self.either(50, f" port {port}")

    def map(self):
        """A rule that moves ports by one distance."""
        first = self.draw.choice(FIRST_PORTS)
        if self.fault(8):
            first = self.draw.choice((64537, 65535, "www"))
        head = f"rdr{self.passed()}{self.packets()}{self.either(40, self.part('from'))} to"
        hosts = self.either(60, f" {self.list('host')}")
        return f"{head}{hosts} port {self.list('moved_port')} -> {self.element('single')} port {first}:*"

    def binat(self):
        source = self.element("single") + self.either(30, f" port {self.list('port', 30)}")
        head = f"binat{self.passed()}{self.packets()} from {source}"
        return f"{head}{self.either(60, self.part('to'))} -> {self.element('single')}"

    def translation(self):
        way = self.draw.randrange(12)
        if way == 0:
            return f"{self.draw.choice(('nat', 'rdr', 'binat'))}-anchor " + self.draw.choice(("a", "a/b", '"inner one"'))
        if way < 3:
            return f"no {self.draw.choice(('nat', 'rdr', 'binat'))}{self.passed()}{self.criteria()}"
        return self.draw.choice((self.nat, self.rdr, self.rdr, self.binat))()

    # Texts

    def definition(self):
        return self.table() if self.chance(35) else self.macro()

    def text(self):
        lines = []
        for write, most in ((self.option, 6), (self.translation, 6), (self.filter, 9)):
            lines += [self.definition() for _ in range(self.draw.randrange(5))]
            for _ in range(self.draw.randrange(most)):
                if self.fault(1):
                    # it may be out of order
                    lines.append(self.draw.choice((self.option, self.translation, self.filter))())
                else:
                    lines.append(self.definition() if self.chance(30) else write())
        return "".join(f"{line}\n" for line in lines).encode()


def random_texts(count):
    for number in range(count):
        writer = Writer(random.Random(f"{SEED} {number}"))
        text = writer.text()
        yield Text(f"random {number}", text, writer.interfaces)
