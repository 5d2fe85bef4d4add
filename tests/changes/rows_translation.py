"""Rows of rulesets with translation: rules of `nat`, `rdr` and `binat` that come, go and change.

ASKED goes from port 1000 of H to port 53 of P. ANSWER comes back to port 50001 of the firewall's address E, and
ANSWERED comes to H itself.
"""

from captures.packets import echo, udp
from changes.row import CAME, FLOW_BACK, FLOW_CAME, FLOW_OUT, none, one_line, row
from steps.translation_words import ANSWER, ANSWERED, ASKED, H2, NAT, ONE_PORT, SERVER, B, E, H, P

BASE = "block in\npass out"
FLOW_ANSWER = "udp 198.51.100.7:53 > 192.0.2.1:50001"
TO_WEB, FLOW_TO_WEB = udp(P, 9, E, 80), "udp 198.51.100.7:9 > 192.0.2.1:80"
RDR = f"rdr on em0 proto udp from any to em0 port 80 -> {SERVER} port 8080"
TO_SERVER = f"block in\npass in to {SERVER}"


# Rules of nat

def nat_comes_and_goes():
    translated, packets = f"{ONE_PORT}\n{BASE}", [ASKED, ANSWER, ANSWERED]
    pairs = ("pass L2 -> pass L3 nat L1", "block L1 -> pass L3 nat L1", "pass L2 -> block L2")
    yield row("nat comes", BASE, translated, packets, f"{FLOW_OUT}  {pairs[0]}  1 packet, first 1, 2 follow",
              # the answer to the translated end is of another flow, and follows by its state
              f"{pairs[1]}: 1 packet in 1 flow, 1 follows", f"{pairs[0]}: 1 packet in 1 flow",
              # the other answer is of the flow of the question
              f"{pairs[2]}: 1 packet in 1 flow, 1 follows", "3 of 3 packets change: 1 cause")
    pairs = ("pass L3 nat L1 -> pass L2", "pass L3 nat L1 -> block L1", "block L2 -> pass L2")
    yield row("nat goes", translated, BASE, packets, f"{FLOW_OUT}  {pairs[0]}  1 packet, first 1, 2 follow",
              f"{pairs[2]}: 1 packet in 1 flow, 1 follows", f"{pairs[0]}: 1 packet in 1 flow",
              f"{pairs[1]}: 1 packet in 1 flow, 1 follows", "3 of 3 packets change: 1 cause")
    pairs = ("block L1 -> pass L3 nat L1", "pass L2 -> block L2")
    yield row("nat comes, by the verdict", BASE, translated, packets, f"{FLOW_ANSWER}  {pairs[0]}  1 packet, first 2",
              f"{FLOW_BACK}  {pairs[1]}  1 packet, first 3", *(f"{pair}: 1 packet in 1 flow" for pair in pairs),
              "2 of 3 packets change: 2 causes", by_verdict=True)
    yield one_line("nat without a rule of the filter", "", ONE_PORT, [ASKED], FLOW_OUT,
                   "pass default -> pass default nat L1")


# rules of nat for ASKED that differ in one thing
NATS = ((ONE_PORT, f"{NAT} port 50002"), (ONE_PORT, ONE_PORT.replace("-> em0", f"-> {B}")),
        (ONE_PORT, f"{NAT} static-port"), (NAT, f"{NAT} static-port"), (ONE_PORT, f"{NAT} port 50001:50002"),
        (ONE_PORT, NAT),
        (ONE_PORT, ONE_PORT.replace("10.0.0.0/8", "10.0.0.5")), (ONE_PORT, ONE_PORT.replace(" on em0", "")),
        (ONE_PORT, ONE_PORT.replace(" from", " proto udp from")), (ONE_PORT, ONE_PORT.replace("to any", f"to {P}")))


def nat_that_passes():
    passing = ONE_PORT.replace("nat", "nat pass")
    yield one_line("nat that passes", f"{ONE_PORT}\n{BASE}", f"{passing}\n{BASE}", [ASKED], FLOW_OUT,
                   "pass L3 nat L1 -> pass nat L1")
    yield one_line("nat that passes what was blocked", "block", f"{passing}\nblock", [ASKED], FLOW_OUT,
                   "block L1 -> pass nat L1")
    yield one_line("nat that passes without a rule of the filter", ONE_PORT, passing, [ASKED], FLOW_OUT,
                   "pass default nat L1 -> pass nat L1")
    pair = "pass nat L1 -> block L1"
    yield row("a state of nat that passes", f"{passing}\nblock", "block", [ASKED, ANSWER],
              f"{FLOW_OUT}  {pair}  1 packet, first 1, 1 follows", f"{pair}: 2 packets in 2 flows, 1 follows",
              "2 of 2 packets change: 1 cause")


def nat_changes():
    for old, new in NATS:
        yield one_line(f"nat, {old!r} and {new!r}", f"{old}\n{BASE}", f"{new}\n{BASE}", [ASKED], FLOW_OUT,
                       "pass L3 nat L1 -> pass L3 nat L1")
        yield none(f"nat, {old!r} and {new!r}, by the verdict", f"{old}\n{BASE}", f"{new}\n{BASE}", [ASKED],
                   by_verdict=True)
    yield one_line("nat of a packet that is blocked anyway", f"{ONE_PORT}\nblock", "block", [ASKED], FLOW_OUT,
                   "block L2 nat L1 -> block L1")
    yield one_line("a rule that forbids nat", f"{ONE_PORT}\n{BASE}", f"no nat from {H} to any\n{ONE_PORT}\n{BASE}",
                   [ASKED], FLOW_OUT, "pass L3 nat L1 -> pass L4")
    yield none("a rule that forbids nat for another host", f"{ONE_PORT}\n{BASE}",
               f"no nat from 10.9.9.9 to any\n{ONE_PORT}\n{BASE}", [ASKED, ANSWER])
    yield none("a rule of nat before it that doesn't hold", f"{ONE_PORT}\n{BASE}",
               f"nat on em0 from 10.9.0.0/16 to any -> {B}\n\n{ONE_PORT}\n{BASE}", [ASKED, ANSWER])
    yield one_line("a rule of nat before it that holds", f"{ONE_PORT}\n{BASE}",
                   f"nat on em0 from any to any -> {B}\n{ONE_PORT}\n{BASE}", [ASKED], FLOW_OUT,
                   "pass L3 nat L1 -> pass L4 nat L1")
    listed = "nat on em0 from {{ {}, 10.0.0.5 }} to any -> em0 port 50001\n" + BASE
    yield none("a list of nat whose other element changes", listed.format("10.9.9.9"), listed.format("10.8.8.8"),
               [ASKED, ANSWER])
    yield row("a rule of the filter behind nat", f"{ONE_PORT}\n{BASE}", f"{ONE_PORT}\nblock in\npass out allow-opts",
              [ASKED, ANSWER], f"{FLOW_OUT}  pass L3 nat L1 -> pass L3 nat L1  1 packet, first 1, 1 follows",
              "pass L3 nat L1 -> pass L3 nat L1: 2 packets in 2 flows, 1 follows", "2 of 2 packets change: 1 cause")


# Rules of rdr

def redirected():
    yield one_line("rdr comes", TO_SERVER, f"{RDR}\n{TO_SERVER}", [TO_WEB], FLOW_TO_WEB, "block L1 -> pass L3 rdr L1")
    yield one_line("rdr goes", f"{RDR}\n{TO_SERVER}", TO_SERVER, [TO_WEB, CAME], FLOW_TO_WEB,
                   "pass L3 rdr L1 -> block L1")
    yield one_line("rdr to another port", f"{RDR}\n{TO_SERVER}", f"{RDR[:-1]}1\n{TO_SERVER}", [TO_WEB], FLOW_TO_WEB,
                   "pass L3 rdr L1 -> pass L3 rdr L1")
    yield one_line("rdr to another host", f"{RDR}\n{TO_SERVER}", f"{RDR.replace(SERVER, H)}\n{TO_SERVER}", [TO_WEB],
                   FLOW_TO_WEB, "pass L3 rdr L1 -> block L2 rdr L1")
    yield one_line("rdr of a packet that is blocked anyway", "block", f"{RDR}\nblock", [CAME, TO_WEB], FLOW_TO_WEB,
                   "block L1 -> block L2 rdr L1", 2)
    yield one_line("rdr that passes", f"{RDR}\n{TO_SERVER}", f"{RDR.replace('rdr', 'rdr pass', 1)}\n{TO_SERVER}",
                   [TO_WEB], FLOW_TO_WEB, "pass L3 rdr L1 -> pass rdr L1")
    reply = udp(SERVER, 8080, P, 9)
    yield row("a reply to a redirected packet", f"{RDR}\n{TO_SERVER}", f"{TO_SERVER}\npass out no state",
              [TO_WEB, reply], f"{FLOW_TO_WEB}  pass L3 rdr L1 -> block L1  1 packet, first 1, 1 follows",
              "pass L3 rdr L1 -> block L1: 1 packet in 1 flow",
              "pass L3 rdr L1 -> pass L3: 1 packet in 1 flow, 1 follows", "2 of 2 packets change: 1 cause")
    listed = f"rdr to em0 port {{{{ {{}}, 80 }}}} -> {SERVER} port 8080\n{TO_SERVER}"
    yield none("a list of rdr whose other element changes", listed.format(81), listed.format(82), [TO_WEB])


# Rules of binat

def one_for_another():
    binat = f"binat on em0 from {H} to any -> {B}"
    came, flow_came = udp(P, 9, B, 80), "udp 198.51.100.7:9 > 192.0.2.9:80"
    opened = f"block in\npass in to {H}\npass out"
    yield row("binat comes", opened, f"{binat}\n{opened}", [ASKED, came],
              f"{flow_came}  block L1 -> pass L3 binat L1  1 packet, first 2",
              f"{FLOW_OUT}  pass L3 -> pass L4 binat L1  1 packet, first 1",
              "block L1 -> pass L3 binat L1: 1 packet in 1 flow", "pass L3 -> pass L4 binat L1: 1 packet in 1 flow",
              "2 of 2 packets change: 2 causes")
    yield one_line("binat to another address", f"{binat}\n{opened}", f"{binat[:-1]}8\n{opened}", [came], flow_came,
                   "pass L3 binat L1 -> block L2")
    for more in ("", " static-port"):
        yield one_line(f"nat{more} in the place of binat", f"{binat}\n{opened}",
                       f"nat on em0 from {H} to any -> {B}{more}\n{opened}", [ASKED], FLOW_OUT,
                       "pass L4 binat L1 -> pass L4 nat L1")
    yield one_line("rdr in the place of binat", f"{binat}\n{opened}", f"rdr on em0 from any to {B} -> {H}\n{opened}",
                   [came], flow_came, "pass L3 binat L1 -> pass L3 rdr L1")


def of_all_kinds():
    came, flow_came = udp(P, 9, B, 80), "udp 198.51.100.7:9 > 192.0.2.9:80"
    binat = f"binat on em0 from {H} to any -> {B}"
    nat, rdr = "nat on em0 from any to any -> em0 port 50001", f"rdr on em0 from any to em0 -> {SERVER}"
    kinds, moved = f"{nat}\n{rdr}\n{binat}\npass", f"{binat}\n{rdr}\n\n{nat}\npass"
    packets = [ASKED, came, udp(H2, 9, P, 9), CAME]
    yield none("rules of all kinds in another order", kinds, moved, packets)
    yield row("rules of all kinds that go", kinds, "pass", packets,
              f"{FLOW_OUT}  pass L4 binat L3 -> pass L1  1 packet, first 1",
              f"{flow_came}  pass L4 binat L3 -> pass L1  1 packet, first 2",
              "udp 10.0.0.6:9 > 198.51.100.7:9  pass L4 nat L1 -> pass L1  1 packet, first 3",
              f"{FLOW_CAME}  pass L4 rdr L2 -> pass L1  1 packet, first 4",
              "pass L4 binat L3 -> pass L1: 2 packets in 2 flows", "pass L4 nat L1 -> pass L1: 1 packet in 1 flow",
              "pass L4 rdr L2 -> pass L1: 1 packet in 1 flow", "4 of 4 packets change: 4 causes")


def echoes():
    """An echo has no ports in its flow, though its identifier is translated."""
    request, back = echo(H, P, True, 7, 1), echo(P, E, False, 7, 1)
    yield row("a translated echo and its reply", f"{NAT} static-port\n{BASE}", BASE, [request, back],
              "icmp 10.0.0.5 > 198.51.100.7  pass L3 nat L1 -> pass L2  1 packet, first 1, 1 follows",
              "pass L3 nat L1 -> pass L2: 1 packet in 1 flow",
              "pass L3 nat L1 -> block L1: 1 packet in 1 flow, 1 follows", "2 of 2 packets change: 1 cause")


def rows():
    for make in (nat_comes_and_goes, nat_that_passes, nat_changes, redirected, one_for_another, of_all_kinds, echoes):
        yield from make()
