"""Hostile texts, whose answers need no model."""

from expansions.cases import EM0, Text
from expansions.hosts import Interface


def addresses(count):
    return ", ".join(f"10.{n >> 16}.{n >> 8 & 255}.{n & 255}" for n in range(count))


def nested(head, body, depth=16):
    """Anchors in one another round the lines of a body."""
    return f"{head} {{\n" * depth + body + "}\n" * depth


def doubled(times, item="1"):
    """Macros of which each is twice the one before."""
    return f'm0 = "{item}"\n' + "".join(f"m{n} = $m{n - 1} $m{n - 1}\n" for n in range(1, times + 1))


def counted(rules, translations=0):
    return f"{rules} filter, {translations} translation"


def of_own():
    """Tables in which `self` counts as often as there are interfaces, where all together have 65536 entries at most. Each
    stands with what it comes to for one interface, two and three."""
    fine, much, later = counted(0), "line 1: too many", "line 2: too many"
    selves = "self " * 32768
    yield "65535 and self", f"table <t> {{ {addresses(65535)}, self }}\n", (fine, much, much)
    yield "65534 and self", f"table <t> {{ {addresses(65534)}, self }}\n", (fine, fine, much)
    yield "65534 and a self of a macro", f'x = "self"\ntable <t> {{ {addresses(65534)}, !$x }}\n', (fine, fine, later)
    yield "self, often", f"table <t> {{ {selves}}}\n", (fine, fine, much)
    yield "self, once more", f"table <t> {{ {selves} self }}\n", (fine, much, much)
    yield "self, often in a macro", f'x = "{{ {selves}}}"\ntable <t> {{ $x }}\n', (fine, fine, later)
    yield "self, once more beside a macro", f'x = "{{ {selves}}}"\ntable <t> {{ $x self }}\n', (fine, later, later)
    yield ("two tables and self", f"table <t> {{ {addresses(65534)} }}\ntable <u> {{ self }}\n", (fine, fine, later))
    yield ("an undefined macro before self", f"table <t> {{ {selves} $y }}\n", ("line 1: undefined macro", much, much))
    yield ("self as often as there may be rules", f"pass from {{ {selves}{selves}}}\n", (counted(65536),) * 3)


def several():
    """The same as texts."""
    interfaces = (EM0, Interface("em1", "203.0.113.2", 24), Interface("em2", "198.18.0.1", 24))
    return [Text(f"{name}, {count} interfaces", text.encode(), interfaces[:count], answer)
            for name, text, answers in of_own() for count, answer in enumerate(answers, 1)]


def ports_in_macro():
    """A macro of all ports."""
    return f'x = "{{ {" ".join(map(str, range(65536)))} }}"\n'


def of_lists():
    """Lists of addresses, and labels."""
    many = f"pass from {{ {addresses(256)} }} to {{ {addresses(256)} }}\n"
    return (
        ("256 by 256", many, counted(65536)),
        ("256 by 256 and one", many + "pass\n", "line 2: too many"),
        ("one and 256 by 256", "pass\n" + many, "line 2: too many"),
        ("256 by 256 and an anchor of none", many + "anchor {\n}\nanchor proto { 1 2 }\n", counted(65536)),
        ("256 by 256 and a table", many + f"table <t> {{ {addresses(65536)} }}\n", counted(65536)),
        ("65536 labels", "pass label a\n" * 65536, counted(65536)),
        ("65537 labels", "pass label a\n" * 65537, "line 65537: too many"),
        ("65536 labels and a rule", "pass label a\n" * 65536 + "pass\n", "line 65537: too many"),
        ("65537 labels in an anchor", "\nanchor {\n" + "pass label a\n" * 65537 + "}\n", "line 2: too many"),
        ("32768 labels in each of two anchors", "anchor proto { 1 2 } {\n" + "pass label a\n" * 32768 + "}\n",
         counted(65536)),
    )


def of_anchors():
    """Anchors in one another, of which each is there more than once."""
    pair = nested("anchor proto { tcp, udp }", "pass\n")
    hundred = "{ " + " ".join(str(number) for number in range(100)) + " }"
    return (
        ("16 anchors of two", pair, counted(65536)),
        ("11 anchors of two, with all lines", nested("anchor proto { tcp, udp }", "pass\n", 11), None),
        ("16 anchors of two round two rules", nested("anchor proto { tcp, udp }", "pass\npass\n"), "line 1: too many"),
        ("16 anchors of two and a rule", pair + "pass\n", "line 34: too many"),
        ("a rule and 16 anchors of two", "pass\n" + pair, "line 2: too many"),
        ("16 anchors of a hundred round none", nested(f"anchor proto {hundred}", ""), counted(0)),
        ("16 anchors of a hundred round a rule", nested(f"anchor proto {hundred}", "pass\n"), "line 1: too many"),
        ("16 anchors of a hundred round none and a rule", nested(f"anchor proto {hundred}", "") + "pass\n", counted(1)),
        ("16 anchors of a hundred round a fault", nested(f"anchor proto {hundred}", "anchor proto $x\n"),
         "line 17: too deep"),
        ("15 anchors of a hundred round a fault", nested(f"anchor proto {hundred}", "anchor proto $x\n", 15),
         "line 16: undefined macro"),
    )


def of_tables_and_ports():
    """Entries of tables, and ports."""
    ports = ports_in_macro()
    return (
        ("a table of 65536", f"# entries\ntable <t> {{ {addresses(65536)} }}\n", counted(0)),
        ("a table of 65537", f"# entries\ntable <t> {{ {addresses(65537)} }}\n", "line 2: too many"),
        ("a table of 65537 that are one", "# entries\ntable <t>\\\n{ " + "self " * 65537 + "}\n", "line 2: too many"),
        ("two tables of 65537", f"table <t> {{ {addresses(65536)} }}\ntable <u> {{ 10.0.0.1 }}\n", "line 2: too many"),
        ("a table of 65537 by macros", f'x = "{{ {addresses(65536)} }}"\ntable <t> {{ $x self }}\n', "line 2: too many"),
        ("ports of a macro", ports + "pass to port $x\n", counted(65536)),
        ("ports of a macro and one", ports + "pass to port { $x 1 }\n", "line 2: too many"),
        ("undefined macros", "pass to port { " + "$x " * 65537 + "}\n", "line 1: too many"),
        ("as many undefined macros as may be", "pass to port { " + "$x\n" * 65536 + "}\n", "line 1: undefined macro"),
    )


def of_doublings():
    """Macros of which each is twice the one before, up to forty times."""
    forty = doubled(40)
    braced = forty + 'l = "{" $m40 "}"\n'
    return (
        ("forty doublings", forty, counted(0)),
        ("forty doublings and a rule", forty + "pass to port $m0\n", counted(1)),
        ("forty doublings as a port", forty + "pass to port $m40\n", "line 42: unknown word"),
        ("forty doublings as a port in braces", forty + "pass to port { 1 $m40 }\n", "line 42: unknown word"),
        ("forty doublings with a suffix", forty + "pass to $m40/8\n", "line 42: unknown word"),
        ("forty doublings with a suffix in a definition", forty + "x = $m40/8\n", "line 42: unknown word"),
        ("forty doublings with a not", forty + "pass to !$m40\n", "line 42: unknown word"),
        ("forty doublings in brackets", forty + "pass to ($m40)\n", "line 42: unknown word"),
        ("forty doublings as an entry", forty + "table <t> { $m40 }\n", "line 42: unknown word"),
        ("forty doublings as a free word", forty + "set debug $m40\n", "line 42: unknown word"),
        ("forty doublings that are redefined", forty + 'm40 = "1"\npass to port $m40\n', counted(1)),
        ("a list of forty doublings", braced, counted(0)),
        ("a list of forty doublings as a port", braced + "pass to port $l\n", "line 43: too many"),
        ("a list of forty doublings as an entry", doubled(40, "self") + 'l = "{" $m40 "}"\ntable <t> {\n$l }\n',
         "line 43: too many"),
        ("a list of sixteen doublings", doubled(16) + 'l = "{" $m16 "}"\npass to port $l\n', counted(65536)),
        ("a list of seventeen doublings", doubled(17) + 'l = "{" $m17 "}"\npass to port $l\n', "line 20: too many"),
        ("forty doublings of nothing", doubled(40, ""), counted(0)),
        ("sixteen doublings of nothing round a port", doubled(16, "") + 'l = "80" $m16\npass to port $l\n', counted(1)),
    )


def of_translations():
    """Rules of translation."""
    translated = f"no nat from {{ {addresses(256)} }} to {{ {addresses(256)} }}\n"
    ports = ports_in_macro()
    return (
        ("256 by 256 that aren't translated", translated, counted(0, 65536)),
        ("256 by 256 that aren't translated, and a rule", translated + "pass\n", "line 2: too many"),
        ("256 by 256 that aren't translated, and a binat rule", translated + "binat from em0 -> em0\n",
         "line 2: too many"),
        ("256 by 256 that aren't translated, and an anchor of none", translated + "nat-anchor a\nanchor {\n}\n",
         counted(0, 65536)),
        ("half of both kinds", f"rdr to {{ {addresses(32768)} }} -> em0\nblock to {{ {addresses(32768)} }}\n",
         counted(32768, 32768)),
        ("half of both kinds and a rule", f"rdr to {{ {addresses(32768)} }} -> em0\nblock to {{ {addresses(32769)} }}\n",
         "line 2: too many"),
        ("a map of the ports of a macro", ports + "rdr to port $x -> em0 port 65535:*\n", counted(0, 65536)),
        ("a map of the ports of a macro and one", ports + "rdr to port { $x 1 } -> em0 port 5:*\n", "line 2: too many"),
        ("forty doublings as a target", doubled(40, "10.0.0.1") + "nat -> $m40\n", "line 42: unknown word"),
        ("forty doublings as a source of binat", doubled(40, "10.0.0.1") + "binat from $m40 -> em0\n",
         "line 42: unknown word"),
        ("a list of forty doublings as a target", doubled(40, "10.0.0.1") + 'l = "{" $m40 "}"\nrdr -> $l\n',
         "line 43: left out: pool"),
        ("sixteen doublings of nothing round a target", doubled(16, "") + 'l = "em0" $m16\nnat -> $l\n', counted(0, 1)),
    )


def of_long_values():
    """Macros whose values are long, and one that doubles what is no word."""
    half = 2 ** 19
    long = f'x = "{{{" 1" * (half // 2)} }}"\n'
    blanks = f'x = "{" " * half}self"\n'
    zeros = f'x = "{"0" * half}80"\n'
    long_fault = f'x = "{{{" 10.0.0.300" * (half // 11)} }}"\n'
    return (
        ("a long value round no rule, often", long + "anchor proto $x\n" * 24000, counted(0)),
        ("a long value with a table round no rule, often",
         f'table <t> {{ 10.0.0.1 }}\nx = "{{ <t>{" self" * (half // 5)} }}"\n' + "anchor from $x\n" * 24000,
         counted(0)),
        ("a long value of a table that is defined later", f'x = "{{ <t>{" self" * (half // 5)} }}"\n'
         + "anchor to port 80\n" * 9000 + "table <t> { 10.0.0.1 }\n" + "anchor from $x\n" * 9000
         + "anchor from <u>\n", "line 18003: undefined table"),
        ("a long value in a list, often", long + "pass proto { $x $x $x $x }\n" * 9000, "line 2: too many"),
        ("blanks of a long value, often", blanks + "pass to $x\n" * 30000, counted(30000)),
        ("blanks of a long value in brackets, often", blanks.replace("self", "em0") + "pass to ($x)\n" * 30000,
         counted(30000)),
        ("blanks of a long value as a target, often", blanks + "nat -> $x\n" * 30000, counted(0, 30000)),
        ("blanks of a long value with a suffix, often", blanks.replace("self", "em0") + "pass to $x:0\n" * 30000,
         counted(30000)),
        ("blanks of a long value as a free word, often", blanks + "set debug $x\n" * 30000, counted(0)),
        ("zeros of a long value, often", zeros + "pass to port $x\n" * 30000, counted(30000)),
        ("a long word with a suffix", zeros + "pass to port $x:90\n", "line 2: unknown word"),
        ("as long a word as may have a suffix", f'x = "{"0" * 253}80"\npass to port $x:90\n', counted(1)),
        ("a longer word with a suffix", f'x = "{"0" * 254}80"\npass to port $x:90\n', "line 2: unknown word"),
        ("faults of a long value, often", long_fault + "pass to { " + "$x " * 65000 + "}\n", "line 2: bad address"),
        ("faults of a long value in brackets, often", long_fault + "pass to { " + "($x) " * 65000 + "}\n",
         "line 2: unknown word"),
        ("a long value in others, often", long + 'y = "{"' + " $x" * 100000 + ' "}"\n', counted(0)),
        ("a long value in others that are used", long + "y = " + "$x " * 100000 + "\npass proto $y\n",
         "line 3: too many"),
        ("forty doublings of what is no word", doubled(40, "$") + "pass to port $m40\n", "line 2: unknown word"),
    )


def hostile():
    """Texts that ask for much, with how many rules they make, or their fault."""
    kinds = (of_lists, of_anchors, of_tables_and_ports, of_doublings, of_translations, of_long_values)
    return [*several(), *(Text(name, text.encode(), answer=answer) for make in kinds for name, text, answer in make())]
