"""Runs of the examples by rulesets that were adapted, and by the same rulesets written by hand in the strict language.

The verdicts have to be the same, line by line, and so have the packets, the counters and the states.
"""

import tempfile
from pathlib import Path

from adapt.asking import FLAGS
from adapt.cases import TEXTS, TESTS, surroundings_beside
from adapt.model import adapt
from adapt.verdict_rows import WRITTEN, Row
from runs.case import Case
from runs.model import run

EXAMPLES = TESTS.parent / "examples"
OUTPUTS = ("verdicts", "packets", "counters", "states")


OLDER = (
    Row("pfsense_states", "home", "10.0.0.0/24", """
        table <virusprot>
        nat on em0 inet from 10.0.0.0/24 to any -> (em0)
        rdr on em0 inet proto tcp from any to (em0) port 8080 -> 10.0.0.40 port 80
        block in inet all
        block in quick from <virusprot> to any
        pass in quick on em0 inet proto tcp from any to 10.0.0.40 port 80 flags S/SA
        pass in quick on em0 inet proto tcp from any to 10.0.0.30 port 22 flags S/SA
        pass in quick on em0 inet proto udp from any to any port 1194 keep state (no-sync)
        pass in quick on em0 inet proto esp from any to (em0)
        pass out quick on em0 inet all
        """),
    Row("policy_tags", "home", "10.0.0.0/24", """
        set skip on em1
        nat on em0 from 10.0.0.0/24 to any -> (em0)
        block
        pass in on em1 from 10.0.0.0/24
        pass in on em0 proto tcp to 10.0.0.40 port 80
        pass out on em0 from 10.0.0.0/24
        """),
    Row("two_uplinks_one", "home", "10.0.0.0/24", """
        nat on em0 from 10.0.0.0/24 to any -> 192.0.2.1
        block in on em0
        pass in on em1 proto tcp from 10.0.0.0/24
        pass in on em0 proto tcp to 10.0.0.40 port 80
        pass out on em0 from 198.51.100.1
        pass out on em0 from 10.0.0.0/24
        """),
    Row("altq_cbq", "home", "10.0.0.0/24", """
        block return out on em0
        pass out on em0 proto tcp from 10.0.0.0/25 to any port 80
        pass out on em0 proto tcp from 10.0.0.128/25 to any port 80
        pass out on em0 proto tcp to port ssh
        pass out on em0 proto tcp to port smtp
        """),
    Row("busy_web", "server", "192.0.2.1", """
        table <abusers>
        table <monitors> { 203.0.113.0/28 198.51.100.9 }
        set limit states 200000
        set timeout { tcp.first 30 tcp.opening 5 tcp.established 18000 tcp.closing 60 tcp.finwait 20 tcp.closed 30 }
        block return all
        block in quick on em0 from <abusers>
        block in quick on em0 proto tcp all flags SF/SF
        pass in quick on em0 proto tcp from <monitors> to 192.0.2.1 port { 443, 8443 }
        pass in on em0 proto tcp from any to 192.0.2.1 port { 80, 443 } flags S/SA
        pass in on em0 proto icmp from any to 192.0.2.1 icmp-type { 8, 3 code 4 }
        pass out on em0 proto { tcp, udp } from 192.0.2.1 to any port { 53, 123, 80, 443, 873 }
        """),
    Row("fail2ban", "server", "192.0.2.1", """
        set block-policy return
        table <f2b>
        anchor "f2b/*"
        anchor "blacklistd/*" in on em0
        block in quick on em0 proto tcp from <f2b> to any port { 22, 993, 587, 465 }
        anchor "mail" in on em0 proto tcp to (em0) {
            pass proto tcp to port { 25, 587, 993, 995 } flags S/SA
            block proto udp
        }
        pass out on em0
        """),
    Row("router_protocols", "router", "198.51.100.0/24,203.0.113.0/26", """
        set timeout udp.multiple 90
        block
        pass on em0 proto 112 keep state (no-sync)
        pass on em0 proto { 89, 103, 2, 112 } allow-opts
        pass on em0 proto tcp to port 179
        pass on em0 proto udp from port 520 to port 520
        pass on em0 proto { 50, 51, 108, 97, 115, 132 } from 198.51.100.0/24
        pass on em0 proto udp to 192.0.2.1 port { 500, 4500, 1194, 1812, 1813, 514 }
        pass in on em0 proto icmp icmp-type { 4, 9, 10, 17, 3 code 1, 11 code 0 }
        pass out on em0
        """),
)

ROWS = (*OLDER, *WRITTEN)


def left(asker, text, row):
    """What a run leaves in its files, and what it prints."""
    with tempfile.TemporaryDirectory() as folder:
        files = [Path(folder) / name for name in OUTPUTS]
        words = [word for name, file in zip(OUTPUTS, files) for word in (f"--{name}", str(file))]
        rules = Path(folder) / "rules"
        rules.write_bytes(text)
        seen = asker.ran(["run", EXAMPLES / f"{row.capture}.pcap", rules, *FLAGS, "--inside", row.inside, *words])
        if seen.returncode:
            return None, seen.stderr
        return tuple(file.read_bytes() for file in files), seen.stdout


def fault_by_model(row):
    """What is wrong with a row, or nothing, if models answer in the place of the program."""
    path = TEXTS / f"{row.name}.conf"
    capture = (EXAMPLES / f"{row.capture}.pcap").read_bytes()
    adapted = adapt(path.read_bytes(), surroundings_beside(path))
    if adapted.errors:
        return f"errors {adapted.errors}"
    texts = (adapted.text, row.strict.encode())
    one, other = (run(Case(row.name, text, row.inside, capture)).parts() for text in texts)
    differing = [name for name in ("out", "err", "status", *OUTPUTS) if one[name] != other[name]]
    return f"other {', '.join(differing)}" if differing else None


def fault_of(asker, row):
    """What is wrong with a row, or nothing."""
    path = TEXTS / f"{row.name}.conf"
    adapted = asker.adapted(path.read_bytes(), surroundings_beside(path))
    if adapted.status:
        return f"status {adapted.status}"
    (one, said), (other, also) = left(asker, adapted.text, row), left(asker, row.strict.encode(), row)
    if one is None or other is None:
        return f"no run: {said!r} {also!r}"
    for name, seen, expected in zip(OUTPUTS, one, other):
        if seen != expected:
            return f"other {name}"
    return None if said == also else f"said {said!r} and not {also!r}"
