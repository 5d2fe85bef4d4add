"""Random texts: statements of pieces of the grammar in any order, and hostile texts."""

from adapt import names
from adapt.drawn_forms import MACROS, POOL_WORDS, Forms
from adapt.drawn_surroundings import ADDRESSES, GROUP_NAMES, SERVICE_NAMES

BATCH = 10


def words(text):
    """The pieces of a text, in which `~` stands for a blank."""
    return tuple(piece.replace("~", " ") for piece in text.split())


ENDS = words("any 10/8 172.16/12 192.168.1/24 10.0.0.0/8 10.0.0.1 (em0) em0 em0:network <t> <u> self !10/8 1.2/16")
SIX = words("::1 !::1/128 !~fe80::1 2001:db8::/32 fe80::1%em0 ::ffff:10.0.0.1 1:2:3:4:5:6:7:8 ::")
SERVICES = (*(name.decode() for name in names.SERVICES), *words("ssh http https 25 8080 1024:65535 http:https 443"))
PROTOCOLS = (*(name.decode() for name in names.PROTOCOLS), *words("tcp udp icmp gre 47 6"))
TYPES = (*(name.decode() for name in names.ICMP), *words("echoreq unreach timex 8 11"))
VALUES = words('web "a~b" $ext (a) (a,b) {a,b} <t> 5 all em0 (em0~10.0.0.1) "x#y"')
STATE_OPTIONS = words("""
    no-sync floating if-bound pflow sloppy source-track source-track~rule source-track~global flush flush~global
    overload~<t> overload~t tcp.first~30 udp.multiple~5 adaptive.start~50 adaptive.end~60 max~100 max~$ext
    max-src-nodes~5 max-src-states~5 max-src-conn~7 max-src-conn-rate~15/5 src.track~3 max global tcp.first
    """)
RARE = words("""
    inet6 icmp6-type tagged user group os probability fragment tos urpf-failed no-route received-on
    """)
SETTINGS = words("""
    fingerprints~"/etc/pf.os" syncookies~adaptive syncookies keepcounters reassemble~yes reassemble~yes~no-df
    state-defaults~pflow optimization~aggressive optimization~conservative optimization~satellite
    optimization~high-latency optimization~normal optimization~other skip~on~lo0 block-policy~return
    limit~states~100 hostid~7 timeout~tcp.first~30 timeout~adaptive.start~5 timeout~adaptive.end~0
    debug~urgent ruleset-optimization~basic optimization
    """)
BLANKS = (" ",) * 30 + ("  ", "\t", " \t ", "\r ", " \\\n ", "\\\n")
BLANKS_OF_VALUES = tuple(blank for blank in BLANKS if "\r" not in blank)
LINE_ENDS = ("\n",) * 8 + ("\r\n", " # of tag x { (\n", "\n\n", " \n", " # a \\\n b\n")
BYTES = bytes(range(256))


class Drawer(Forms):
    """Draws statements and texts."""

    def hosts(self, pieces):
        """One of the hosts, or some in braces, with an IPv6 address among them now and then, or nothing but these."""
        kind = self.random.random()
        if kind < 0.7:
            return self.listed(pieces)
        if kind < 0.75:
            return self.one_of(*SIX)
        items = self.random.choices(SIX, k=self.random.randint(1, 3))
        items += self.random.choices(pieces, k=self.random.randint(1, 3)) if kind < 0.95 else []
        return f"{{ {self.sixes(items)} }}"

    def sixes(self, items):
        """Elements of a list in any order."""
        self.random.shuffle(items)
        return self.one_of(", ", ",", " ", " , ", ",\n  ", "\n, ", " \n").join(items)

    def timeouts(self):
        """Timeouts in braces."""
        pairs = ("adaptive.start 5", "adaptive.end 6", "adaptive.start 0", "tcp.first 30", "udp.multiple 5")
        return f"timeout {{ {self.sixes(self.random.choices(pairs, k=self.random.randint(1, 4)))} }}"

    def port(self):
        return self.one_of("", "", "= ", "!= ", "> ", "<= ") + self.one_of(*SERVICES)

    def end(self):
        ports = f" port {self.listed(tuple(self.port() for _ in range(6)))}" if self.is_so(0.5) else ""
        return self.hosts(ENDS) + ports

    def answer(self):
        return self.one_of("return-rst", "return-rst(ttl 5)", "return-icmp (net-unr, host-unr)", "return-icmp6",
                           "return-icmp6( 3 )", "return", "drop")

    def state(self):
        options = self.random.choices(STATE_OPTIONS, k=self.random.randint(1, 5))
        comma = self.one_of(", ", ", ", ",", " ", " , ")
        kind = self.one_of("keep state", "keep state", "modulate state", "synproxy state", "modulate", "flags S/SA")
        return f"{kind}{self.one_of(' ', ' ', '')}({comma.join(options)})" if self.is_so(0.7) else kind

    def option(self):
        """What stands behind the hosts of a rule, or anywhere else."""
        kind = self.random.randint(0, 9)
        value = self.one_of(*VALUES)
        if kind < 3:
            return self.state()
        if kind == 3:
            return f"tag {value}"
        if kind == 4:
            return f"{self.one_of('queue', 'dnpipe', 'dnqueue')} {value}"
        if kind == 5:
            return f"{self.one_of('ridentifier', 'tracker')} {self.one_of('1000001', value)}"
        if kind == 6:
            return f"{self.one_of('route-to', 'reply-to', 'dup-to', 'rtable')} {value}"
        if kind == 7:
            return self.one_of("fastroute", "allow-opts", "flags S/SA", "no state", 'label "tag x"', "label web")
        if kind == 8:
            return f"icmp-type {self.listed(TYPES)}" + (f" code {self.one_of(*TYPES)}" if self.is_so(0.3) else "")
        return self.one_of("log (all)", "log", "log(all, to pflog0)", "keep state", "no state")

    def rule(self):
        start = self.one_of("pass", "pass", "pass", "block", f"block {self.answer()}", "nat on em0", "rdr", "binat",
                            "no nat", "no rdr", "rdr pass", "no binat")
        parts = [self.one_of("in", "out", "log", "log (all)", "log (all, to pflog1)", "quick") for _ in range(2)
                 if self.is_so(0.5)]
        # a rule has one `on`: of others the program tells by themselves whether they are those of the run
        parts += [f"on {self.listed(('em0', '!em1', 'lo0'))}"] if " on " not in start and self.is_so(0.5) else []
        parts += [self.option()] if self.is_so(0.3) else []
        parts += ["inet"] if self.is_so(0.3) else []
        parts += [f"proto {self.listed(PROTOCOLS)}"] if self.is_so(0.5) else []
        parts += self.one_of(["all"], [], [f"from {self.end()}"], [f"from {self.end()}", f"to {self.end()}"],
                             [f"to {self.end()}"])
        parts += [self.option() for _ in range(self.random.randint(0, 3))]
        parts += [f"-> {self.one_of(*ENDS)}"] if start[0] in "nrb" and start[:2] != "bl" and self.is_so(0.7) else []
        if self.is_so(0.1):
            self.random.shuffle(parts)
        if self.is_so(0.06):
            parts.insert(self.random.randint(0, len(parts)), self.one_of(*RARE))
        return " ".join([start, *parts])

    def statement(self, depth=0):
        kind = self.random.randint(0, 23)
        if kind > 19:
            return self.new_statement()
        if kind < 12:
            return self.rule()
        if kind == 12:
            return self.one_of("scrub in all", "no scrub on em0", "scrub fragment reassemble", "no match",
                               "match in all scrub (no-df)", "match out on em0 tag x",
                               "scrub in on { em0,\n em1 } all no-df")
        if kind == 13:
            return self.one_of("altq on em0 cbq bandwidth 10Mb queue { a, b }", "queue a bandwidth 50% cbq(default)",
                               "altq on em0 queue { a,\n # c\n b }", "queue b")
        if kind < 16:
            return f"set {self.one_of(*SETTINGS) if self.is_so(0.8) else self.timeouts()}"
        if kind == 16:
            entries = self.one_of(", ", " ", ",\n ").join(self.random.choices(ENDS, k=self.random.randint(0, 4)))
            if self.is_so(0.3):
                entries = self.sixes(self.random.choices((*ENDS, *SIX), k=self.random.randint(1, 4)))
            flags = self.one_of("", "const ", "persist ", "counters ", "const persist counters ")
            return f"table <{self.one_of('t', 'u')}> {flags}{{ {entries} }}"
        if kind == 17:
            return self.one_of('ext = "em0"', 'x = "scrub tag y"', "y = tag", 'z = "{ 10/8, imaps }"', "tag = 5")
        head = self.one_of("anchor", "nat-anchor", "anchor", "rdr-anchor")
        head += self.one_of(" a", " ", " web/*", ' "b"')
        head += f" {self.one_of('', 'in', 'on em0')} {self.option() if self.is_so(0.3) else ''}"
        if depth > 2 or not head.startswith("anchor") or self.is_so(0.3):
            return head
        body = "\n".join(self.statement(depth + 1) for _ in range(self.random.randint(0, 3)))
        return f"{head} {{\n{body}\n}}"

    def line(self):
        """A statement with blanks and ends of lines of any kind."""
        return self.blanked(self.statement())

    def blanked(self, statement):
        """A statement with blanks of any kind. There is no carriage return in the value of a macro: FORMATS has such a
        value as unknown, and the program knows it."""
        blanks = BLANKS_OF_VALUES if " = " in statement else BLANKS
        parts = statement.split(" ")
        return "".join(part + self.one_of(*blanks) for part in parts[:-1]) + parts[-1]

    def text(self, count=BATCH):
        """A text of some statements."""
        lines = "".join(self.one_of("", "", "  ") + self.line() + self.one_of(*LINE_ENDS) for _ in range(count))
        return (lines.rstrip("\n") if self.is_so(0.2) else lines).encode()

    # Texts in the order of the language, of which most are accepted

    def fitting_hosts(self):
        hosts = ("any", "10/8", "172.16/12", "192.168.1/24", "10.0.0.1", "(em0)", "em0:network", "<t>", "!10/8", "self")
        ports = [f"port {self.listed((*SERVICES, '> finger', '!= imaps', 'nntp >< 2000'))}"] if self.is_so(0.5) else []
        ends = ["from", self.hosts(hosts)] if self.is_so(0.6) else []
        ends += ["to", self.hosts(hosts), *ports] if self.is_so(0.6) else []
        return ends or ["all"]

    def fitting_state(self):
        kept = self.random.sample(("no-sync", "max 100", self.one_of("floating", "if-bound")), self.random.randint(0, 3))
        gone = ("max-src-conn 7", "source-track rule", "max-src-nodes 5", "max-src-conn-rate 15/5", "sloppy", "pflow",
                "overload <t> flush global", "overload <t>", "tcp.first 30", "adaptive.end 9", "src.track 7")
        options = kept + self.random.sample(gone, self.random.randint(0, 3))
        self.random.shuffle(options)
        kind = self.one_of("keep state", "modulate state", "synproxy state")
        comma = self.one_of(", ", ",", " ", " , ")
        return f"{kind}{self.one_of(' ', '')}({comma.join(options)})" if options else kind

    def goes(self):
        """Words that are left out, or nothing."""
        return self.some(0.12, "tag x", 'tag "a b"', "queue (a, b)", "queue a", "ridentifier 5", "fastroute",
                         "route-to (em0 10.0.0.1)", "reply-to { (em0 10.0.0.1), (em1 10.0.0.2) }", "dup-to em3",
                         "rtable 2", "dnpipe (1, 2)", "dnqueue 5", "tracker 7")

    def fitting_rule(self):
        start = [self.one_of("pass", "pass", "block", f"block {self.answer()}"), *self.some(0.6, "in", "out")]
        start += self.some(0.3, "log", "log (all)", "log (all, to pflog1)", "log(user)")
        start += [*self.some(0.4, "quick"), *self.goes()]
        start += [f"on {self.listed(('em0', '!em1', 'lo0'))}"] if self.is_so(0.5) else []
        start += [*self.goes(), *self.some(0.4, "inet")]
        start += [f"proto {self.listed(PROTOCOLS)}"] if self.is_so(0.6) else []
        options = self.some(0.3, "flags S/SA") + self.some(0.2, "allow-opts")
        options += self.some(0.2, 'label "tag x"', "label imaps")
        options += [self.fitting_state()] if self.is_so(0.6) else self.some(0.2, "no state")
        options += self.goes() + self.goes() + self.some(0.03, *RARE)
        options += [f"icmp-type {self.listed((*TYPES[:24], 'unreach code needfrag'))}"] if self.is_so(0.1) else []
        self.random.shuffle(options)
        return " ".join([*start, *self.fitting_hosts(), *options])

    def fitting_line(self, statement):
        return self.blanked(statement) + self.one_of(*LINE_ENDS)

    def fitting(self, count=BATCH):
        """A text whose statements are in order."""
        flags = self.one_of("const", "persist", "counters persist", "persist counters const")
        statements = [f"table <t> {flags} {{ {self.sixes(['10/8', '!10.1/16', *self.some(0.5, *SIX)])} }}"]
        statements += self.some(0.5, f"set {self.timeouts()}", "set timeout adaptive.start 5")
        statements += self.some(0.7, "set optimization aggressive", "set reassemble yes", "set fingerprints x",
                                "altq on em0 x")
        statements += self.some(0.5, "scrub in all", "queue a", "set skip on lo0", "set keepcounters")
        statements += self.some(0.5, "nat on em0 inet from 10/8 to any tag x -> (em0)", "no nat proto carp",
                                "rdr pass on em0 proto tcp from any to any port imaps -> 10.0.0.1 port imaps",
                                "rdr-anchor web/*", "nat on em0 inet6 from any to any -> em0")
        while len(statements) < count:
            rule = self.fitting_rule()
            if self.is_so(0.1):
                rule = f"anchor a{self.one_of('', ' tag x', ' in on em0')} {{\n{rule}\n{self.fitting_rule()}\n}}"
            statements.append(rule)
        return "".join(map(self.fitting_line, statements)).encode()

    def written(self, count=BATCH):
        """A text in the forms that programs write."""
        return "".join(map(self.fitting_line, self.written_statements(count))).encode()

    # Hostile texts

    def broken(self):
        """A text with some of its bytes gone, doubled, or others."""
        text = bytearray(self.text(4) if self.is_so(0.5) else self.written(4))
        for _ in range(self.random.randint(1, 8)):
            at = self.random.randrange(len(text))
            text[at:at + self.random.randint(0, 3)] = self.random.choice(
                (b"", b"{", b"}", b"(", b")", b"<", b'"', b"\\", b"\n", b"#", bytes([self.random.choice(BYTES)]), b"$"))
        return bytes(text)

    def pieces(self):
        """Pieces in any order."""
        every = (*ENDS, *SERVICES, *VALUES, *self.new_pieces(), *STATE_OPTIONS, *RARE, *"{}(),=!<>\n\n\n\\\"", "->",
                 "pass", "from", "set", "anchor", "table", "tag", "log", "port", "proto", "scrub", "keep", "state", "é",
                 "x" * 5000)
        return self.one_of(" ", "").join(self.random.choices(every, k=self.random.randint(1, 60))).encode()

    def new_pieces(self):
        """Words of the forms that programs write."""
        return (*ADDRESSES, *GROUP_NAMES, *SERVICE_NAMES, *POOL_WORDS, *(f"${name}" for name in MACROS),
                *(f"${name}:network" for name in MACROS), *(f"\n{self.macro(name)}\n" for name in MACROS),
                "antispoof", "for", "inet", "label", "file", "<a-b>", "table <a-b>", "(self)", "->", "nat", "rdr", "on",
                "limit", "anchors", "no-route", "urpf-failed", "max-src-conn-rate", "/", "-", "><")

    def bytes(self):
        return bytes(self.random.choices(BYTES, k=self.random.randint(0, 300)))

    def hostile(self):
        return self.one_of(self.broken, self.broken, self.pieces, self.bytes)()
