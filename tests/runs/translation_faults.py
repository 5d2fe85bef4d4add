"""Rulesets whose rules of translation have a fault, with the line and the kind."""

NAT = "nat on em0 from 10.0.0.0/8 to any ->"
RDR, BINAT = "rdr on em0 proto tcp from any to em0 port 80:89 ->", "binat on em0 from 10.0.0.5 to any ->"
EACH = (NAT, RDR, BINAT)

# targets that are more than one address, and those that are no address which may stand there
POOLS = ("{ 192.0.2.9 }", "{ 192.0.2.8, 192.0.2.9 }", "<few>", "192.0.2.0/24", "192.0.2.8/31", "0.0.0.0/0",
         "em0:network", "(em0:network)")
NO_TARGETS = ("any", "!192.0.2.9", "!em0", "192.0.2.1 - 192.0.2.9", "192.0.2.9 - 192.0.2.1", "192.0.2.256",
              "1.2.3.4.5")

LEFT_OUT_AS_POOLS = (
    *(f"{rule} {target}" for rule in EACH for target in POOLS),
    f"{RDR} 10.0.0.1 port 80:90", f"{RDR} 10.0.0.1 port 90:80", f"{RDR} 10.0.0.1 port {{ 80 }}",
    f"{NAT} em0 port {{ 1, 2 }}",
    "binat from { 10.0.0.5 } to any -> 192.0.2.9", "binat from 10.0.0.4/31 to any -> 192.0.2.9",
    "binat from em0:network to any -> 192.0.2.9", "binat from (em0:network) to any -> 192.0.2.9",
)
BAD_ADDRESSES = (
    *(f"{rule} {target}" for rule in EACH for target in NO_TARGETS),
    "binat from any to any -> 192.0.2.9", "binat from !10.0.0.5 to any -> 192.0.2.9",
    "binat from <few> to any -> 192.0.2.9", "binat from 10.0.0.1 - 10.0.0.5 to any -> 192.0.2.9",
    "binat from 10.0.0.256 to any -> 192.0.2.9",
)
BAD_NUMBERS = (
    *(f"{rule} 192.0.2.9/33" for rule in EACH),
    f"{NAT} em0 port 60000:50000", f"{NAT} em0 port 65536", f"{NAT} em0 port 1:65536",
    f"{RDR} 10.0.0.1 port 65536", f"{RDR} 10.0.0.1 port 65536:*", f"{RDR} 10.0.0.1 port 80:65536",
    # ports that would be moved past the last one, and maps of no range
    f"{RDR} 10.0.0.1 port 65527:*", f"{RDR} 10.0.0.1 port 65535:*", "rdr to em0 -> 10.0.0.1 port 4000:*",
    "rdr from any port 80 to em0 -> 10.0.0.1 port 4000:*", "rdr to port > 80 -> 10.0.0.1 port 4000:*",
    "rdr to port != 80 -> 10.0.0.1 port 4000:*", "rdr to port { 80, 90 >< 99 } -> 10.0.0.1 port 4000:*",
    "binat from 10.0.0.5/33 to any -> 192.0.2.9",
)
UNKNOWN_WORDS = (
    "binat on em0 -> 192.0.2.9", "binat on em0 to any -> 192.0.2.9", "binat all -> 192.0.2.9",
    "binat from port 80 -> 192.0.2.9", "binat from 10.0.0.5 to any -> 192.0.2.9 port 80",
    "binat from 10.0.0.5 to any -> 192.0.2.9 static-port", "nat on em0 from any to any", NAT,
    f"{NAT} em0 static-port static-port", f"{NAT} em0 static-port port 80", f"{NAT} em0 port", f"{NAT} em0 port > 80",
    f"{RDR} 10.0.0.1 static-port", f"no {NAT} em0", "no pass", "no", "no nat-anchor a", "nat log all -> em0",
    "nat in all -> em0", "nat quick all -> em0", "nat all keep state -> em0", "nat-anchor", "rdr-anchor a all",
    'binat-anchor "a" {\n}',
)
OTHERS = (
    (f"{NAT} em0 port 80:*", 1, "left out: service"), (f"{NAT} em0 port gopher", 1, "left out: service"),
    (f"{RDR} 10.0.0.1 port gopher:*", 1, "left out: service"), (f"{RDR} 10.0.0.1 port *:80", 1, "left out: service"),
    (f"{NAT} em0 round-robin", 1, "left out: round-robin"),
    (f"{NAT} em0 port 1:2 sticky-address", 1, "left out: sticky-address"),
    ("nat pass log (all) all -> em0", 1, "left out: log"), (f"{NAT} 10/8", 1, "left out: short address"),
    (f"{NAT} gateway", 1, "left out: host name"), (f"{NAT} em1", 1, "left out: host name"),
    (f"{NAT} $x", 1, "undefined macro"), ("nat from <t> to any -> em0", 1, "undefined table"),
    # faults of a value stand where it is used
    (f'x = "{{ 192.0.2.9 }}"\n\n{NAT} $x', 3, "left out: pool"),
    (f'x = "192.0.2.8/31"\n{RDR} $x', 2, "left out: pool"), (f'x = "<few>"\n{BINAT} $x', 2, "left out: pool"),
    ('x = "<few>"\nbinat from $x to any -> em0', 2, "bad address"), (f'x = "any"\n{NAT} $x', 2, "bad address"),
    (f'x = "! 192.0.2.9"\n{RDR} $x', 2, "bad address"),
    (f'x = "192.0.2.1 - 192.0.2.9"\n{BINAT} $x', 2, "bad address"),
    (f'x = "80"\n{NAT} em0 port $x', 2, "unknown word"),
    ('x = "{ 80, 90:99 }"\nrdr to port $x -> 10.0.0.1 port 65527:*', 2, "bad number"),
    # what goes before and after
    (f"pass\n{NAT} em0", 2, "out of order"), ("anchor {\npass\n}\nno rdr all", 4, "out of order"),
    ("block in\nrdr-anchor a", 2, "out of order"), (f"{NAT} em0\nset skip on lo0", 2, "out of order"),
    (f"{NAT} em0\n\nset timeout tcp.first 5", 3, "out of order"), (f"anchor {{\n{NAT} em0\n}}", 2, "unknown word"),
    ("anchor {\nno nat all\n}", 2, "unknown word"), (f"{NAT} em0\n{RDR} 10.0.0.1\npass surplus", 3, "unknown word"),
)


def of_kind(kind, texts):
    """Rulesets of one rule with a fault of this kind. The table that some of them name is defined on a line before."""
    for text in texts:
        yield (f"table <few> {{ 192.0.2.8 192.0.2.9 }}\n{text}", 2, kind) if "<few>" in text else (text, 1, kind)


TRANSLATION_FAULTS = (*of_kind("left out: pool", LEFT_OUT_AS_POOLS), *of_kind("bad address", BAD_ADDRESSES),
                      *of_kind("bad number", BAD_NUMBERS), *of_kind("unknown word", UNKNOWN_WORDS), *OTHERS)
