"""Random statements with macros, tables, pools and words that surroundings give."""

from adapt.drawn_surroundings import ADDRESSES, FILES, GROUP_NAMES, SERVICE_NAMES

ODD_TABLES = ("f2b-sshd", "bad.hosts", "a-b", "a.b", "a_b", "user", "http", "tbl.r9999.s", "bogons", "t",
              "a-name-that-has-more-than-31-bytes", "a-name-that-has-more-than-31-bytes-too", "1-2", "port")
MACROS = {
    "ext_if": ('"em0"', "em0"),
    "int_if": ('"em1"', "em1", '"em2"'),
    "lan": ('"10/8"', "$int_if:network", '"{ 10.0.0.0/24, 172.16/12 }"', '"egress"'),
    "ports": ('"{ ssh, imaps }"', '"{ 22, 80 }"', '"{ auth ftp-data:ftp \\\n pop3s }"', '"squid"', '"25"'),
    "more": ('"{" $ports "8080 }"', '"{ $ports }"', '"{ nntp }"', "$ports"),
    "bad": ('"<f2b-sshd>"', '"{ <f2b-sshd>, 10.1/16 }"', '"<t>"', '"{ ::1, no-route, 10.0.0.1 }"'),
    "gw": ('" route-to ( em0 192.0.2.254 ) "', '"reply-to (em0 192.0.2.254)"', '""'),
    "kept": ('"keep state"', '"modulate state (max 100)"', '"keep state (no-sync, sloppy)"', '"flags S/SA"'),
    "web": ('"10.0.0.40"', '"{ 10.0.0.11, 10.0.0.12 }"', '"10.0.0.0/24"', '"10.0.0.1 - 10.0.0.9"', '"www.example.com"'),
    "name": ('"web"', '"a b"', '"f2b-sshd"'),
    "num": ('"1023"', "80"),
    "fam": ('"inet"', '"inet6"', '"quick"', '"inet" "log"'),
    "odd": ('"a # b"', '"{ 80"', "80 { 1 }", '"x', "$unknown", '"a \\ b"', "{ 80, 443 }"),
    "protos": ('"{ tcp, carp }"', '"udp"', '"{ icmp ospf }"'),
    "ifs": ('"{ em0, egress }"', '"em0"', '"dmz"', '"{ em0 (em1) }"'),
    "nets": ('"{ (em0) (self) }"', '"{" $lan "(em1) }"', '"{ 10.0.0.1, 10/8 }"', '"10.0.0.1"'),
}
WITH_FILES = [name for name, _ in FILES]
POOL_WORDS = ("round-robin", "round-robin sticky-address", "random", "bitmask", "source-hash", "source-hash 0x1f",
              'source-hash "key" sticky-address', "static-port", "random sticky-address")


class Choices:
    """Draws pieces."""

    def __init__(self, random):
        self.random = random

    def one_of(self, *pieces):
        return self.random.choice(pieces)

    def is_so(self, share):
        return self.random.random() < share

    def some(self, share, *pieces):
        """One of the pieces, or nothing."""
        return [self.one_of(*pieces)] if self.is_so(share) else []

    def listed(self, pieces):
        """One of the pieces, or some in braces."""
        if self.is_so(0.6):
            return self.one_of(*pieces)
        items = self.random.choices(pieces, k=self.random.randint(1, 4))
        comma = self.one_of(", ", ",", " ", " , ", ",\n  ", "  # , imaps\n ")
        return f"{{{self.one_of('', ' ')}{comma.join(items)}{self.one_of('', ' ')}}}"


class Forms(Choices):
    """Draws statements in the forms that programs write."""

    def macro(self, name):
        return f"{name} = {self.one_of(*MACROS[name])}"

    def macros(self):
        """Definitions of most macros, in an order in which each comes before its uses."""
        names = [name for name in MACROS if name != "odd" and self.is_so(0.98) or self.is_so(0.1)]
        return [self.macro(name) for name in names]

    def table_name(self):
        return f"<{self.one_of(*ODD_TABLES)}>"

    def odd_table(self, name=None):
        """A table with a name that has to change, and maybe with a file."""
        name = name or self.one_of(*ODD_TABLES)
        flags = self.one_of("", "persist ", "const ", "persist counters ")
        entries = self.some(0.5, "{ 10/8, !10.1/16 }", "{ $nets }", "{ $lan, (self) }", "{ mail www.example.com }",
                            "{ em1:network, ::1, egress }", "{ }")
        if self.is_so(0.5):
            entries = ['file "/etc/list"', *self.some(0.2, 'file "/etc/more"')]
        return f"table <{name}> {flags}{' '.join(entries)}"

    def antispoof(self):
        start = ["antispoof", *self.some(0.4, "log"), *self.some(0.5, "quick"), *self.some(0.95, "for")]
        interfaces = self.one_of("em0", "lo0", "em1", "$ext_if", "$int_if", "{ lo0, em0 }", "{ lo0 $int_if\n (em0) }",
                                 "(em0)", "em9", "$ifs", "($ext_if)")
        tail = self.some(0.5, "inet") + self.some(0.1, "inet6")
        # a label that is a known macro isn't drawn: the program leaves the whole text as it is then
        tail += self.some(0.3, 'label "a b"', "label x")
        return " ".join([*start, interfaces, *tail])

    def source(self):
        """Hosts in one of the new forms."""
        hosts = (*ADDRESSES, *(f"({name})" for name in ADDRESSES[:12]), *(f"!{name}" for name in ADDRESSES[:14]),
                 "$lan", "$bad", "$nets", "$int_if:network", "$ext_if", "($ext_if)", "($int_if:network)", "!$web",
                 "(self)",
                 "10.0.0.1", "$web", "! (em1)", "10/8", *self.some(0.2, "no-route", "::1"))
        tables = tuple(f"<{name}>" for name in ODD_TABLES)
        if self.is_so(0.25):
            return self.listed(tables + ("any",))
        if self.is_so(0.05):
            return f"{{ 10.0.0.1, {self.one_of('no-route', '!urpf-failed')} }}"
        if self.is_so(0.05):
            return self.one_of("no-route", "! urpf-failed", "{ ::1, no-route }", "{ urpf-failed }")
        return "any" if self.is_so(0.3) else self.listed(hosts)

    def destination_ports(self):
        ports = (*SERVICE_NAMES, "imaps:pop3s", "1024:nfsd", "ftp-data:ftp", "$ports", "$more", "ssh", "http:https",
                 "> squid", "!= game", "< imaps", "squid >< webmin", "> $num", "$num", "$num:nfsd", "game",
                 "gameserver")
        if self.is_so(0.02):
            return "imaps:nowhere"
        # `< 1024 > 5000` isn't drawn: the program counts the port among the names of tables
        return self.listed(ports) if self.is_so(0.9) else self.one_of("{ < 1024, > 5000 }", "{ < imaps, > squid, = ssh }")

    def options(self):
        """What stands behind the hosts."""
        options = self.some(0.3, 'label "one" label "two"', 'label "x"', 'label $name label $name',
                            'label a label b label c', f'label "{"long" * 16}"')
        options += self.some(0.2, "set prio 5", "set (prio 5, queue x)", "set prio (3, 5)", "set queue a", "set tos 3")
        options += self.some(0.3, "$kept", "keep state $gw", "flags $name", "keep state (max $num, no-sync)",
                             "keep state ($num)", "keep state (max-src-conn-rate 15/5)",
                             "keep state (max-src-conn-rate 10 / 5, no-sync)", "keep state (max-src-conn-rate 10 /5)",
                             "keep state (overload <f2b-sshd> flush)")
        # a macro behind `code` isn't drawn in braces, where the program leaves it
        options += self.some(0.1, "icmp-type $num", "icmp-type unreach code $num", "tag $name",
                             "queue $name")
        return options

    def new_rule(self):
        parts = [self.one_of("pass", "pass", "block"), *self.some(0.5, "in", "out"), *self.some(0.2, "quick", "$fam")]
        parts += self.some(0.5, "on $ext_if", "on $ifs", "on { $ext_if egress }", "on !$ext_if", "on ! egress",
                           *(f"on {name}" for name in GROUP_NAMES))
        parts += self.some(0.3, "$gw", "inet", "$fam")
        parts += self.some(0.5, "proto tcp", "proto $protos", "proto { $protos 47 }", "proto { tcp udp }")
        ends = []
        if self.is_so(0.5):
            ends += ["from", self.source()]
        if self.is_so(0.7):
            ends += ["to", self.source(), *([f"port {self.destination_ports()}"] if self.is_so(0.6) else [])]
        return " ".join([*parts, *(ends or ["all"]), *self.options()])

    def target(self):
        return self.one_of("{ 10.0.0.11, 10.0.0.12 }", "{ ::1 10.0.0.5 }", "10.0.0.0/24", "192.0.2.1/32",
                           "10.0.0.1 - 10.0.0.9", "10.0.0.7 - 10.0.0.9", "$web", "(em0)", "em0", "($ext_if)",
                           "{ (em0), 10.0.0.5 }", "<t>",
                           "{ <a-b> 10.0.0.1 }", "www.example.com", "gw", "(em1)", "egress", "{ mail\n gw }", "$lan",
                           "{ 10.0.0.0/24, 10.1.0.0/24 }", "(self)")

    def translation(self):
        kind = self.one_of("nat", "nat", "rdr", "rdr pass", "binat")
        parts = [kind, *self.some(0.9, "on em0", "on $ext_if", "on egress"), *self.some(0.4, "inet")]
        parts += ["from", "10.0.0.5" if kind == "binat" else self.source(), "to", self.one_of("any", "(em0)", "$web")]
        parts += [f"port {self.destination_ports()}"] if self.is_so(0.3) else []
        ports = self.some(0.4, "port 8080", "port 1024:65535", "port $num", "port imaps", "port squid",
                          "port 1024:nfsd")
        return " ".join([*parts, "->", self.target(), *ports, *self.some(0.5, *POOL_WORDS)])

    def new_setting(self):
        return "set " + self.one_of("limit anchors 500", "limit { anchors 500, eth-anchors 600 }", "limit states 500",
                                    "limit { states 5 anchors 500 }", "fail-policy return", "skip on egress",
                                    "skip on { lo0 dmz }", "skip on $ifs", "skip on $ext_if", "timeout { $name 5 }",
                                    "reassemble yes", "state-defaults no-sync", "limit eth-anchors 5")

    def new_statement(self):
        """A statement of any of these kinds."""
        return self.one_of(self.new_rule, self.new_rule, self.new_rule, self.translation, self.antispoof,
                           self.odd_table, self.new_setting, lambda: self.macro(self.one_of(*MACROS)))()

    def defined(self, name):
        """A table, with a file now and then, and often if surroundings may give what it holds."""
        is_odd = self.is_so(0.4 if name in WITH_FILES else 0.05)
        return self.odd_table(name) if is_odd else f"table <{name}> {{ 10/8 }}"

    def written_statements(self, count):
        """Statements in the order of the language."""
        tables = [self.defined(name) for name in ODD_TABLES if name != "t" and self.is_so(0.95)]
        statements = [*self.macros(), *self.some(0.4, self.new_setting()), "table <t> persist", *tables]
        statements += self.some(0.5, self.translation()) + self.some(0.3, self.translation())
        statements += self.some(0.4, self.antispoof())
        for _ in range(self.random.randint(1, count // 2)):
            rule = self.new_rule()
            if self.is_so(0.1):
                rule = f"anchor {self.one_of('x', '$name', 'on $ifs', 'on egress')} {{\n{rule}\n {self.antispoof()}\n}}"
            statements.append(rule)
        return statements
