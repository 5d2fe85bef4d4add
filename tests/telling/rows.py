"""Rulesets whose answer is written out by hand, as docs/FORMATS.md says it.

Most are of one rule, which stands on the last line of its text. The interface is em0 with 192.0.2.1/24. Others are em1
with 203.0.113.2/24 and em2 with 198.18.0.1/15.
"""

from expansions.hosts import Interface
from telling import rows_counters, rows_json, rows_lists, rows_shadows
from telling.row import EM0, EM1, THREE, TWO, alone, fault, told

# Single rules: a text, and what is printed of the rule on its last line

ACTIONS = (
    ("pass", "pass all keep state"),
    ("pass all", "pass all keep state"),
    ("block", "block drop all"),
    ("block drop", "block drop all"),
    ("block return all", "block return all"),
    ("set block-policy return\nblock", "block return all"),
    ("set block-policy return\nblock drop", "block drop all"),
    ("set block-policy drop\nblock return", "block return all"),
    ("set block-policy return\nset block-policy drop\nblock", "block drop all"),
    ("pass in", "pass in all keep state"),
    ("pass out", "pass out all keep state"),
    ("block in", "block drop in all"),
    ("block out all", "block drop out all"),
    ("pass quick", "pass quick all keep state"),
    ("block return out quick all", "block return out quick all"),
    # that packets are logged isn't printed
    ("pass log", "pass all keep state"),
    ("block in log quick", "block drop in quick all"),
    # nor are options
    ("set skip on lo0\nset timeout tcp.first 60\nset limit states 5\nset hostid 7\nblock", "block drop all"),
)
INTERFACES = (
    ("block on em0", "block drop on em0 all"),
    ("block on !em0", "block drop on ! em0 all"),
    ("block on ! em1", "block drop on ! em1 all"),
    ("pass in quick on { em0 }", "pass in quick on em0 all keep state"),
    # whether the run has it isn't asked, and a name is any free word
    ("block on lo0", "block drop on lo0 all"),
    ("block on em0:network", "block drop on em0:network all"),
    ("block on http", "block drop on http all"),
    ("block on 10.0.0.1", "block drop on 10.0.0.1 all"),
    ("block on a_name_of_15_by", "block drop on a_name_of_15_by all"),
    ('i = "em1"\nblock on !$i', "block drop on ! em1 all"),
)
PROTOCOLS = {"icmp": "icmp", "igmp": "igmp", "tcp": "tcp", "udp": "udp", "gre": "gre", "esp": "esp", "ah": "ah",
             "1": "icmp", "2": "igmp", "6": "tcp", "17": "udp", "47": "gre", "50": "esp", "51": "ah",
             "0": "0", "3": "3", "4": "4", "41": "41", "58": "58", "89": "89", "132": "132", "255": "255"}
# hosts as they are written, and as they are printed; with one interface `self` is its address
HOSTS = {
    "10.0.0.1": "10.0.0.1", "10.0.0.1/32": "10.0.0.1", "010.0.0.01": "10.0.0.1", "10.0.0.0/8": "10.0.0.0/8",
    "10.1.2.3/8": "10.0.0.0/8", "10.0.0.1/31": "10.0.0.0/31", "0.0.0.0/0": "0.0.0.0/0", "10.1.2.3/0": "0.0.0.0/0",
    "255.255.255.255": "255.255.255.255", "10.0.0.1 - 10.0.0.9": "10.0.0.1 - 10.0.0.9",
    "10.0.0.1 - 10.0.0.1": "10.0.0.1 - 10.0.0.1", "!10.0.0.1": "! 10.0.0.1", "! 10.0.0.0/8": "! 10.0.0.0/8",
    "!10.0.0.1 - 10.0.0.9": "! 10.0.0.1 - 10.0.0.9", "em0": "192.0.2.1", "em0:0": "192.0.2.1", "(em0)": "192.0.2.1",
    "(em0:0)": "192.0.2.1", "em0:network": "192.0.2.0/24", "(em0:network)": "192.0.2.0/24", "!em0": "! 192.0.2.1",
    "self": "192.0.2.1", "! self": "! 192.0.2.1", "$a": "10.0.0.7", "!$a": "! 10.0.0.7", "$a/24": "10.0.0.0/24",
}
ANY_HOSTS = (
    ("block all", "block drop all"),
    ("block from any", "block drop all"),
    ("block to any", "block drop all"),
    ("block from any to any", "block drop all"),
    ("block from ! any", "block drop from ! any to any"),
    ("block to !any", "block drop from any to ! any"),
    ("block from ! any to 10.0.0.1", "block drop inet from ! any to 10.0.0.1"),
    ("block from port 80", "block drop from any port = 80 to any"),
    ("block from any to any port 80", "block drop from any to any port = 80"),
    ("block to port 80", "block drop from any to any port = 80"),
)
# `inet` stands for what the rule asks, and not because it is written
INET = (
    ("block inet", "block drop all"),
    ("block inet all", "block drop all"),
    ("pass inet proto tcp", "pass proto tcp all keep state"),
    ("block inet from 10.0.0.1", "block drop inet from 10.0.0.1 to any"),
    ("block from any to 10.0.0.1", "block drop inet from any to 10.0.0.1"),
    ("block on em0 proto udp from any to 10.0.0.0/8", "block drop on em0 inet proto udp from any to 10.0.0.0/8"),
    ("block from 10.0.0.1 - 10.0.0.9", "block drop inet from 10.0.0.1 - 10.0.0.9 to any"),
    ("block from 0.0.0.0/0 to any", "block drop inet from 0.0.0.0/0 to any"),
    ("table <t>\nblock inet from <t>", "block drop from <t> to any"),
    ("table <t>\nblock from <t> to 10.0.0.1", "block drop inet from <t> to 10.0.0.1"),
    ("table <t>\nblock from 10.0.0.1 to !<t>", "block drop inet from 10.0.0.1 to ! <t>"),
)
TABLES = (
    ("table <t>\nblock from <t>", "block drop from <t> to any"),
    ("table <t> persist { 10.0.0.1 }\nblock to <t>", "block drop from any to <t>"),
    ("table <t>\nblock from ! <t> to <t>", "block drop from ! <t> to <t>"),
    ("table <a_2> const { !10.0.0.1 }\nblock in from !<a_2> port 53",
     "block drop in from ! <a_2> port = 53 to any"),
    ('table <t>\nx = "<t>"\nblock from !<t> to $x', "block drop from ! <t> to <t>"),
    ("table <a23456789012345678901234567890x>\nblock from <a23456789012345678901234567890x>",
     "block drop from <a23456789012345678901234567890x> to any"),
)
PORTS = {
    "80": "= 80", "= 80": "= 80", "!= 80": "!= 80", "< 1024": "< 1024", "<= 1024": "<= 1024", "> 1023": "> 1023",
    ">= 1024": ">= 1024", "80:90": "80:90", "80 >< 90": "80 >< 90", "80 <> 90": "80 <> 90", "90 >< 80": "90 >< 80",
    "90<>80": "90 <> 80", "0": "= 0", "65535": "= 65535", "0:065535": "0:65535", "80:80": "80:80", "00080": "= 80",
    "80 >< 80": "80 >< 80", "http": "= 80", "= ssh": "= 22", "!= ssh": "!= 22", "<domain": "< 53", "<= snmp": "<= 161",
    ">imap": "> 143", ">= ntp": ">= 123", "ftp:http": "21:80", "http:443": "80:443", "ssh >< www": "22 >< 80",
    "https <> pop3": "443 <> 110", "$p": "> 1023",
}
SERVICES = {"ftp": 21, "ssh": 22, "telnet": 23, "smtp": 25, "domain": 53, "http": 80, "www": 80, "pop3": 110,
            "ntp": 123, "imap": 143, "snmp": 161, "https": 443}
FLAGS = (
    # the flags that a rule asks by itself aren't printed, and the same ones that are written are
    ("pass proto tcp", "pass proto tcp all keep state"),
    ("pass flags S/SA", "pass all flags S/SA keep state"),
    ("pass flags S/AS keep state", "pass all flags S/SA keep state"),
    ("pass flags any", "pass all flags any keep state"),
    ("pass flags any keep state (max 5)", "pass all flags any keep state (max 5)"),
    # no flags are asked without this word either
    ("pass flags any no state", "pass all no state"),
    ("block flags any", "block drop all"),
    ("block return flags any keep state", "block return all"),
    ("pass no state flags S/SA", "pass all flags S/SA no state"),
    ("block flags S/SA", "block drop all flags S/SA"),
    ("block flags FSRPAUEW/FSRPAUEW", "block drop all flags FSRPAUEW/FSRPAUEW"),
    ("block flags WEUAPRSF/WEUAPRSF", "block drop all flags FSRPAUEW/FSRPAUEW"),
    ("block flags SF/WUF", "block drop all flags FS/FUW"),
    ("block flags SS/AA", "block drop all flags S/A"),
    ("pass out proto udp flags A/A", "pass out proto udp all flags A/A keep state"),
    *((f"block flags {letter}/{letter}", f"block drop all flags {letter}/{letter}") for letter in "FSRPAUEW"),
)
TYPES = {"echorep": "echorep", "unreach": "unreach", "redir": "redir", "echoreq": "echoreq", "timex": "timex",
         "paramprob": "paramprob", "0": "echorep", "3": "unreach", "5": "redir", "8": "echoreq", "11": "timex",
         "12": "paramprob", "1": "1", "4": "4", "13": "13", "30": "30", "255": "255",
         "echoreq code 0": "echoreq code 0", "3 code 4": "unreach code 4", "255 code 255": "255 code 255"}
STATES = (
    ("pass keep state", "pass all keep state"),
    ("pass no state", "pass all no state"),
    ("pass keep state (max 100)", "pass all keep state (max 100)"),
    ("pass keep state (max 4294967295)", "pass all keep state (max 4294967295)"),
    ("pass keep state (max 1)", "pass all keep state (max 1)"),
    ("pass keep state (no-sync)", "pass all keep state (no-sync)"),
    ("pass keep state (if-bound)", "pass all keep state (if-bound)"),
    ("pass keep state (floating)", "pass all keep state"),
    ("pass keep state (no-sync floating)", "pass all keep state (no-sync)"),
    ("pass keep state (if-bound, no-sync, max 010)", "pass all keep state (max 10, no-sync, if-bound)"),
    ("pass keep state (if-bound max 7)", "pass all keep state (max 7, if-bound)"),
    ("pass keep state (no-sync, if-bound)", "pass all keep state (no-sync, if-bound)"),
    ("set state-policy if-bound\npass", "pass all keep state (if-bound)"),
    ("set state-policy if-bound\npass keep state (max 2)", "pass all keep state (max 2, if-bound)"),
    ("set state-policy if-bound\npass keep state (if-bound)", "pass all keep state (if-bound)"),
    ("set state-policy if-bound\npass keep state (floating, no-sync)", "pass all keep state (no-sync)"),
    ("set state-policy if-bound\npass no state", "pass all no state"),
    ("set state-policy if-bound\nblock", "block drop all"),
    ("set state-policy if-bound\nset state-policy floating\npass", "pass all keep state"),
    # a rule that blocks keeps none, whatever it says of states
    ("block no state", "block drop all"),
    ("block keep state", "block drop all"),
    ("block return keep state (max 3, no-sync, if-bound)", "block return all"),
)
LONG_LABEL = "l" * 300
OPTIONS = (
    ("pass allow-opts", "pass all keep state allow-opts"),
    ("block allow-opts", "block drop all allow-opts"),
    ("pass no state allow-opts", "pass all no state allow-opts"),
    ('block label "web"', 'block drop all label "web"'),
    ("block label web", 'block drop all label "web"'),
    ('block label ""', 'block drop all label ""'),
    ('block label " "', 'block drop all label " "'),
    ("block label http", 'block drop all label "http"'),
    ("block label 10", 'block drop all label "10"'),
    ("block label a/b:c.*-d", 'block drop all label "a/b:c.*-d"'),
    ('block label "# no comment"', 'block drop all label "# no comment"'),
    ('block label "$x {} <t> (a, b)" # c', 'block drop all label "$x {} <t> (a, b)"'),
    ('block label "a\\b\\"', 'block drop all label "a\\b\\"'),
    ('block label "\ta  b\r"', 'block drop all label "\ta  b\r"'),
    (f'block label "{LONG_LABEL}"', f'block drop all label "{LONG_LABEL}"'),
    ('pass label "web" allow-opts keep state (no-sync, floating) flags S/SA',
     'pass all flags S/SA keep state (no-sync) allow-opts label "web"'),
)
WHOLE = (
    ("pass out log quick on !em1 inet proto 1 from !10.0.0.0/8 to self icmp-type 8 code 0 allow-opts label a "
     "keep state (if-bound max 5) flags any",
     "pass out quick on ! em1 inet proto icmp from ! 10.0.0.0/8 to 192.0.2.1 flags any icmp-type echoreq code 0 "
     'keep state (max 5, if-bound) allow-opts label "a"'),
    ("block return in log quick on em0 inet proto tcp from 10.0.0.1 - 10.0.0.9 port >1023 to !em0 port 80:90 "
     "flags SA/SA",
     "block return in quick on em0 inet proto tcp from 10.0.0.1 - 10.0.0.9 port > 1023 to ! 192.0.2.1 port 80:90 "
     "flags SA/SA"),
    ("pass in on em0 proto udp from port != 53 to port 1 <> 9 no state",
     "pass in on em0 proto udp from any port != 53 to any port 1 <> 9 no state"),
)


def filter_rows():
    for text, words in (*ACTIONS, *INTERFACES, *ANY_HOSTS, *INET, *TABLES, *FLAGS, *STATES, *OPTIONS, *WHOLE):
        yield alone(text, words)
    for written, printed in PROTOCOLS.items():
        yield alone(f"pass proto {written}", f"pass proto {printed} all keep state")
    for written, printed in HOSTS.items():
        yield alone(f'a = "10.0.0.7"\nblock from {written}', f"block drop inet from {printed} to any")
        yield alone(f'a = "10.0.0.7"\nblock to {written} port 80', f"block drop inet from any to {printed} port = 80")
    for written, printed in (*PORTS.items(), *((name, f"= {port}") for name, port in SERVICES.items())):
        yield alone(f'p = "> 1023"\nblock to port {written}', f"block drop from any to any port {printed}")
        yield alone(f'p = "> 1023"\nblock from em0 port {written} to em0',
                    f"block drop inet from 192.0.2.1 port {printed} to 192.0.2.1")
    for written, printed in TYPES.items():
        yield alone(f"block icmp-type {written}", f"block drop all icmp-type {printed}")
        yield alone(f"pass proto icmp icmp-type {written}", f"pass proto icmp all icmp-type {printed} keep state")


# Rules of translation

NAT = (
    ("nat on em0 from 10.0.0.0/8 to any -> em0", "nat on em0 inet from 10.0.0.0/8 to any -> 192.0.2.1"),
    ("nat on !em1 proto udp from 10.0.0.0/8 to !10.0.0.0/8 port 53 -> (em0)",
     "nat on ! em1 inet proto udp from 10.0.0.0/8 to ! 10.0.0.0/8 port = 53 -> 192.0.2.1"),
    # the target is an address in the rule
    ("nat on em0 from any to any -> em0", "nat on em0 inet all -> 192.0.2.1"),
    ("nat -> 192.0.2.9", "nat inet all -> 192.0.2.9"),
    ("nat all -> self", "nat inet all -> 192.0.2.1"),
    ("nat from port > 1023 -> 192.0.2.9", "nat inet from any port > 1023 to any -> 192.0.2.9"),
    ("table <t>\nnat from !<t> to any -> em0:0", "nat inet from ! <t> to any -> 192.0.2.1"),
    ("nat pass on em0 -> em0", "nat pass on em0 inet all -> 192.0.2.1"),
    ("nat pass log on em0 -> em0", "nat pass on em0 inet all -> 192.0.2.1"),
    ("nat -> em0 port 5000", "nat inet all -> 192.0.2.1 port 5000"),
    ("nat -> em0 port http", "nat inet all -> 192.0.2.1 port 80"),
    ("nat -> em0 port 1024:65535", "nat inet all -> 192.0.2.1 port 1024:65535"),
    ("nat -> em0 port 50001:65535", "nat inet all -> 192.0.2.1 port 50001:65535"),
    ("nat -> em0 port ssh:0443", "nat inet all -> 192.0.2.1 port 22:443"),
    ("nat -> em0 port 0", "nat inet all -> 192.0.2.1 port 0"),
    ("nat -> em0 static-port", "nat inet all -> 192.0.2.1 static-port"),
    ("no nat on em0 from 10.0.0.5 to any", "no nat on em0 inet from 10.0.0.5 to any"),
    ("no nat", "no nat all"),
    ("no nat pass log proto tcp all", "no nat pass proto tcp all"),
)
RDR = (
    ("rdr on em0 proto tcp from any to em0 port 80 -> 10.0.0.5",
     "rdr on em0 inet proto tcp from any to 192.0.2.1 port = 80 -> 10.0.0.5"),
    ("rdr to any port 80 -> 10.0.0.5 port 8080", "rdr inet from any to any port = 80 -> 10.0.0.5 port 8080"),
    ("rdr -> 10.0.0.5 port https", "rdr inet all -> 10.0.0.5 port 443"),
    ("rdr -> 10.0.0.5 port 0", "rdr inet all -> 10.0.0.5 port 0"),
    ("rdr proto tcp from any to any port 2000:2999 -> 10.0.0.1 port 4000:*",
     "rdr inet proto tcp from any to any port 2000:2999 -> 10.0.0.1 port 4000:*"),
    ("rdr to port 80 -> 10.0.0.1 port http:*", "rdr inet from any to any port = 80 -> 10.0.0.1 port 80:*"),
    ("rdr pass proto udp from 10.0.0.0/8 -> em0", "rdr pass inet proto udp from 10.0.0.0/8 to any -> 192.0.2.1"),
    ("no rdr on em0 proto tcp to 192.0.2.9 port 22", "no rdr on em0 inet proto tcp from any to 192.0.2.9 port = 22"),
    ("no rdr pass", "no rdr pass all"),
)
BINAT = (
    ("binat from 10.0.0.5 to any -> 192.0.2.9", "binat inet from 10.0.0.5 to any -> 192.0.2.9"),
    ("binat from 10.0.0.5 -> em0", "binat inet from 10.0.0.5 to any -> 192.0.2.1"),
    ("binat pass on em0 proto tcp from 10.0.0.5 port 80 to !10.0.0.0/8 -> 192.0.2.9",
     "binat pass on em0 inet proto tcp from 10.0.0.5 port = 80 to ! 10.0.0.0/8 -> 192.0.2.9"),
    ("table <t>\nbinat from self to <t> port 1:9 -> 192.0.2.9",
     "binat inet from 192.0.2.1 to <t> port 1:9 -> 192.0.2.9"),
    ("no binat on em0 from 10.0.0.0/8 to any port 53",
     "no binat on em0 inet from 10.0.0.0/8 to any port = 53"),
    ("no binat all", "no binat all"),
    ("no binat pass log from ! any", "no binat pass from ! any to any"),
)
# one port and a range of one are the same, and a range may stand beside `static-port`
SAME_PORTS = (
    ("nat -> em0 port 5000:5000", "nat inet all -> 192.0.2.1 port 5000"),
    ("nat -> em0 port 50001:50003 static-port", "nat inet all -> 192.0.2.1 port 50001:50003 static-port"),
)


def translation_rows():
    for text, words in (*NAT, *RDR, *BINAT, *SAME_PORTS):
        yield alone(text, words)
    yield told("rdr to port { 80, 2000:2999 } -> 10.0.0.1 port 4000:*",
               "@0 L1 rdr inet from any to any port = 80 -> 10.0.0.1 port 4000:*",
               "@1 L1 rdr inet from any to any port 2000:2999 -> 10.0.0.1 port 4000:*")
    # numbers go over all kinds as they are written, and filter rules have their own
    yield told("rdr on em0 proto tcp to em0 port 80 -> 10.0.0.5\n"
               "nat on em0 from { 10.0.0.0/8, 172.16.0.0/12 } to any -> em0\nnat-anchor \"ftp-proxy/*\"\n"
               "binat from 10.0.0.9 to any -> 192.0.2.9\nno nat all\nno rdr pass on { em0 em1 }\n"
               "nat pass -> em0 static-port\nblock in\npass out",
               "@0 L1 rdr on em0 inet proto tcp from any to 192.0.2.1 port = 80 -> 10.0.0.5",
               "@1 L2 nat on em0 inet from 10.0.0.0/8 to any -> 192.0.2.1",
               "@2 L2 nat on em0 inet from 172.16.0.0/12 to any -> 192.0.2.1",
               "@3 L4 binat inet from 10.0.0.9 to any -> 192.0.2.9",
               "@4 L5 no nat all",
               "@5 L6 no rdr pass on em0 all",
               "@6 L6 no rdr pass on em1 all",
               "@7 L7 nat pass inet all -> 192.0.2.1 static-port",
               "@0 L8 block drop in all",
               "@1 L9 pass out all keep state")
    yield told("table <t>\nbinat from 10.0.0.9 to { 198.51.100.7, <t> } -> 192.0.2.9",
               "@0 L2 binat inet from 10.0.0.9 to 198.51.100.7 -> 192.0.2.9",
               "@1 L2 binat inet from 10.0.0.9 to <t> -> 192.0.2.9")


# Several interfaces

EIGHT = (EM0, *(Interface(f"igb{place}", f"10.{place}.0.1", 16) for place in range(7)))
# what is printed with em0 and em1 of a host
PLACED_HOSTS = {"self": "self", "!self": "! self", "em0": "192.0.2.1", "em1": "203.0.113.2",
                "em1:0": "203.0.113.2", "(em1)": "203.0.113.2", "em1:network": "203.0.113.0/24",
                "!(em1:network)": "! 203.0.113.0/24"}


def placed_rows():
    for written, printed in PLACED_HOSTS.items():
        # the addresses of several interfaces are no address
        inet = "" if "self" in printed else "inet "
        yield alone(f"block from {written}", f"block drop {inet}from {printed} to any", TWO)
        yield alone(f"block from any to {written} port 53", f"block drop {inet}from any to {printed} port = 53", TWO)
    yield alone("block from self to self", "block drop from self to self", TWO)
    yield alone("block from self to !self", "block drop from self to ! self", EIGHT)
    yield alone("block from self to 10.0.0.1", "block drop inet from self to 10.0.0.1", THREE)
    yield alone('own = "self"\nblock from !$own', "block drop from ! self to any", TWO)
    yield alone("block from self", "block drop from self to any", (EM1, EM0))
    yield alone("block from self", "block drop from self to any", (EM0, Interface("em1", "192.0.2.1", 16)))


def rows_of_several():
    """Rules, anchors and translations for several interfaces, and for one of another name."""
    yield told("pass from { self em1 }", "@0 L1 pass from self to any keep state",
               "@1 L1 pass inet from 203.0.113.2 to any keep state", interfaces=TWO)
    yield told("table <t> { self }\nblock on { em0 em1 } from <t>", "@0 L2 block drop on em0 from <t> to any",
               "@1 L2 block drop on em1 from <t> to any", interfaces=TWO)
    yield told("anchor from self {\nblock to em1\n}", "anchor from self to any {",
               "@0 L2   block drop inet from any to 203.0.113.2", "}", interfaces=TWO)
    yield alone("nat on em1 from self to any -> em0", "nat on em1 inet from self to any -> 192.0.2.1", TWO)
    yield alone("rdr on em0 from any to em0 -> em1", "rdr on em0 inet from any to 192.0.2.1 -> 203.0.113.2", TWO)
    yield alone("no rdr from any to !self", "no rdr from any to ! self", TWO)
    yield alone("no binat from self", "no binat from self to any", THREE)
    # the interface need not be the first one, and may be called otherwise
    yield alone("block from em0", "block drop inet from 192.0.2.1 to any", (EM1, EM0))
    yield alone("block from e:network", "block drop inet from 10.1.2.0/30 to any", (Interface("e", "10.1.2.3", 30),))
    yield alone("block from igb1:network", "block drop inet from 172.16.0.0/12 to any",
                (Interface("igb1", "172.16.254.1", 12),))
    yield alone("block from em0:network", "block drop inet from 10.0.0.1 to any", (Interface("em0", "10.0.0.1", 32),))
    yield alone("block from em0:network", "block drop inet from 0.0.0.0/0 to any", (Interface("em0", "10.0.0.1", 0),))
    yield fault("nat on em0 from any to any -> self", "line 1: left out: pool", TWO)
    yield fault("pass\nbinat from em0 to any -> self", "line 2: out of order", TWO)
    yield fault("table <t> { self, !203.0.113.2 }", "line 1: clash", TWO)
    yield fault("pass from { self em1 }", "line 1: left out: host name")


# Texts that are refused, as by `check`

REFUSED = (
    ("pass all\npass to", "line 2: unknown word"), ("pass port 80 from 10.0.0.256", "line 1: unknown word"),
    ("pass from 10.0.0.256 to", "line 1: bad address"), ("pass to port 99999:gopher", "line 1: left out: service"),
    ("scrub in all", "line 1: left out: scrub"), ("pass all tag x", "line 1: left out: tag"),
    ("set scrub on", "line 1: left out: set scrub"), ("pass all\nset bogus", "line 2: out of order"),
    ("pass all\nnat on em0 from any to any -> em0", "line 2: out of order"),
    ("pass all label $l", "line 1: unknown word"), ("pass on \xe9", "line 1: bad byte"),
    ("pass all\npass all label \"web", "line 2: unterminated"),
    ("pass all\n}", "line 2: unknown word"), ("set limit states 0", "line 1: bad number"),
    ("set timeout adaptive.start 5", "line 1: left out: timeout"), ("pass log (all) all", "line 1: left out: log"),
    ("pass from 10/8", "line 1: left out: short address"), ("pass from 10.0.0.1 - em0", "line 1: left out: host name"),
    ("pass proto 256", "line 1: bad number"), ("pass keep state (max 0)", "line 1: bad number"),
    ("anchor a {\nnat all\n}", "line 2: unknown word"), ("anchor {\n" * 17 + "}\n" * 17, "line 17: too deep"),
    ("pass in from $x to any", "line 1: undefined macro"), ("pass from <nowhere>", "line 1: undefined table"),
    ("pass from gateway", "line 1: left out: host name"), ("table <t> { 10.0.0.1, !10.0.0.1 }", "line 1: clash"),
    ('x = "{ 10.0.0.256 10/8 }"\npass from $x', "line 2: left out: short address"),
    ("nat from any to any -> em0:network", "line 1: left out: pool"),
    ('t = "{ 192.0.2.1 }"\nnat from any to any -> $t', "line 2: left out: pool"),
    ("rdr proto tcp from any to any -> 10.0.0.1 port 4000:*", "line 1: bad number"),
    ("pass\n" * 65537, "line 65537: too many"), ("#".ljust(1048577, "x"), "line 1: too many"),
)


def rows():
    yield from filter_rows()
    yield from translation_rows()
    yield from rows_lists.rows()
    yield from placed_rows()
    yield from rows_of_several()
    for text, said in REFUSED:
        yield fault(text, said)
    yield from rows_counters.rows()
    yield from rows_shadows.rows()
    yield from rows_json.rows()
