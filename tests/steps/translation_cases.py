"""Cases of translation with the outcomes written out: which rule holds, which port is picked, what the filter judges,
and which states stand in the way."""

from captures.packets import ACK, ICMP, MORE_FRAGMENTS, RST, SYN, TCP, UDP, echo, ipv4, summed_message, tcp, udp
from steps.error_cases import error
from steps.translation_words import (ANSWER, ANSWERED, ASKED, EXHAUSTED, GRE, INSIDE_END, MADE, NAT, ONE_END, ONE_PORT,
                                     OPENING, OPENING_WIRE, OPTIONS, OWN_INSIDE, TOLD_IN, TOUCHED_IN, TOUCHED_OUT, WIRE,
                                     B, E, H, H2, P, P2, SERVER, by_state, case, made, stopped, told, untranslated)


# Which rule

def order_cases():
    yield case("the first rule of a kind", f"{ONE_PORT}\n{NAT} port 50002\npass", (ASKED, MADE, WIRE))
    yield case("a rule that doesn't hold goes before", f"nat on em1 from any to any -> em0\n{ONE_PORT}\npass",
               (ASKED, made("out", ONE_END, translation=1, visited="0 0,1"), WIRE))
    kinds = (f"nat from any to any -> em0 port 50001\nrdr from any to any -> {SERVER}\n"
             f"binat from {H} to any -> {B}\npass")
    yield case("a kind before another, whatever is written first", kinds,
               (ASKED, made("out", "192.0.2.9:1000", translation=2, visited="0 2"), udp(B, 1000, P, 53)),
               (udp(H2, 1000, P, 53), made("out", ONE_END, 2, visited="0 2,0"), WIRE),
               (udp(P, 9, E, 9), made("in", "10.0.0.1:9", 3, translation=1, visited="0 2,1"), udp(P, 9, SERVER, 9)),
               (udp(P, 9, B, 9), made("in", "10.0.0.5:9", 4, translation=2, visited="0 2"), udp(P, 9, H, 9)),
               counters="filter 0 4 4 112\ntranslation 0 1 1 28\ntranslation 1 1 1 28\ntranslation 2 4 2 56\n"
                        "total 4 4 0 0 0\n")
    yield case("a list of translations", "nat from { 10.0.0.6, 10.0.0.5 } to any -> em0 port 50001\npass",
               (ASKED, made("out", ONE_END, translation=1, visited="0 0,1"), WIRE))
    yield case("anchors of translation hold nothing", f'nat-anchor "a/*"\n{ONE_PORT}\nrdr-anchor b\npass',
               (ASKED, MADE, WIRE))


def ending_cases():
    """Rules that say no."""
    yield case("a rule that says no goes before others of its kind", f"no nat on em0 from any to {P}\n{ONE_PORT}\npass",
               (ASKED, untranslated("out", 1)),
               (udp(H, 1000, P2, 53), made("out", ONE_END, 2, translation=1, visited="0 0,1"), udp(E, 50001, P2, 53)),
               counters="filter 0 2 2 56\ntranslation 0 2 0 0\ntranslation 1 1 1 28\ntotal 2 2 0 0 0\n")
    yield case("a rule that says no behind the one that holds", f"{ONE_PORT}\nno nat from any to any\npass",
               (ASKED, MADE, WIRE))
    yield case("a rule that says no and would pass", f"no nat pass from any to any\n{ONE_PORT}\nblock",
               (ASKED, stopped("out", "rule", 0, "-")))
    yield case("all kinds are ended", f"no binat all\nno nat all\nno rdr all\nbinat from {H} to any -> {B}\n"
               f"nat from any to any -> em0\nrdr from any to any -> {SERVER}\npass",
               (ASKED, untranslated("out", 1, "0 0,1")), (udp(P, 9, E, 9), untranslated("in", 2, "0 0,2")))
    yield case("rdr behind a binat that is ended",
               f"no binat all\nbinat from {H} to any -> {B}\nrdr to {B} port 80 -> {SERVER}\npass",
               (udp(P, 9, B, 80), made("in", "10.0.0.1:80", translation=2, visited="0 0,2"), udp(P, 9, SERVER, 80)))


# what a rule may write, with whether it holds of the datagram that is asked
ENDS_HELD = (
    ("from 10.0.0.5 to any", True), ("from 10.0.0.6 to any", False), ("from !10.0.0.6 to any", True),
    ("from 10.0.0.0 - 10.0.0.5 to any", True), ("from <t> to any", True), ("from !<t> to any", False),
    ("from any to 198.51.100.0/24", True), ("from any to !198.51.100.7", False), ("from any to em0", False),
    ("from any port 1000 to any port 53", True), ("from any port 53 to any port 1000", False),
    ("from any port > 1000 to any", False), ("from any to port 50:60", True), ("all", True),
)
PLACES_HELD = (("em0", True), ("!em0", False), ("em1", False), ("!em1", True), ("em", False))
PROTOCOLS_HELD = (("udp", True), ("tcp", False), ("17", True))


def criteria_cases():
    untouched = (ASKED, untranslated("out", 1))
    for interface, held in PLACES_HELD:
        yield case(f"translation on {interface}", f"nat on {interface} from any to any -> em0 port 50001\npass",
                   (ASKED, MADE, WIRE) if held else untouched)
    for protocol, held in PROTOCOLS_HELD:
        yield case(f"translation of the protocol {protocol}",
                   f"nat proto {protocol} from any to any -> em0 port 50001\npass",
                   (ASKED, MADE, WIRE) if held else untouched)
    for ends, held in ENDS_HELD:
        yield case(f"translation {ends}",
                   f"table <t> {{ 10.0.0.0/8 !10.0.0.6 }}\nnat {ends} -> em0 port 50001\npass",
                   (ASKED, MADE, WIRE) if held else untouched)
    yield case("the direction of nat", f"nat from any to any -> {E} port 50001\npass",
               (udp(P, 9, E, 9), "in pass rule r=0 s=1; 0; made 1"))
    yield case("the direction of rdr", f"rdr from any to any -> {SERVER}\npass",
               (ASKED, "out pass rule r=0 s=1; 0; made 1"))
    yield case("a port is asked of TCP and UDP alone",
               f"nat from any port 0:65535 to any -> em0\nrdr to port 0:65535 -> {SERVER}\npass",
               (ipv4(H, P, GRE, bytes(8)), untranslated("out", 1)), (echo(H, P, True, 7, 1), untranslated("out", 2)),
               (echo(P, E, True, 7, 1), untranslated("in", 3, "0 1")))
    behind = tcp(H, 1000, P, 80, ACK, 1001, 1)
    yield case("flags aren't asked", f"{ONE_PORT}\npass",
               (behind, made("out", ONE_END, rule="-", reason="default"), tcp(E, 50001, P, 80, ACK, 1001, 1)),
               states="1 6 out 198.51.100.7:80,192.0.2.1:50001 198.51.100.7:80,10.0.0.5:1000 r=- t=0 "
                      "2/1001/1002/64240/- 0/0/1/1/- 0 120 1 40 0 0\n",
               counters="filter 0 1 0 0\ntranslation 0 1 0 0\ntotal 1 1 0 0 0\n")


def binat_cases():
    rules = f"binat from {H} port 1000 to {P} port 53 -> {B}\npass"
    yield case("ports of a binat rule, from the inside", rules,
               (ASKED, made("out", "192.0.2.9:1000"), udp(B, 1000, P, 53)),
               (udp(H, 1001, P, 53), untranslated("out", 2)), (udp(H, 1000, P, 54), untranslated("out", 3)),
               (udp(H, 53, P, 1000), untranslated("out", 4)))
    # the last but one has the key behind the firewall that the first has there
    yield case("ports of a binat rule, from the outside", rules,
               (udp(P, 53, B, 1000), made("in", INSIDE_END), ANSWERED),
               (udp(P, 53, B, 1001), untranslated("in", 2)), (udp(P, 54, B, 1000), untranslated("in", 3)),
               (udp(P, 1000, B, 53), untranslated("in", 4)), (udp(P2, 53, B, 1000), untranslated("in", 5)),
               (ANSWERED, stopped("in", "state-insert", 0, "-")), (udp(P, 53, H, 1001), untranslated("in", 7)))
    yield case("a binat rule asks the inside end alone for its from", f"binat from {H} to {P} -> {B}\npass",
               (udp(H2, 9, B, 9), untranslated("out", 1)), (udp(B, 9, P, 9), untranslated("in", 2)))
    yield case("a binat rule with a not", f"binat from {H} to !{P} -> {B}\npass",
               (ASKED, untranslated("out", 1)), (udp(P, 9, B, 9), untranslated("in", 2)),
               (udp(P2, 9, B, 9), made("in", "10.0.0.5:9", 3), udp(P2, 9, H, 9)))
    yield case("a protocol and an interface of binat",
               f"binat on em1 from {H} to any -> {B}\nbinat on em0 proto tcp from {H} to any -> {B}\npass",
               (udp(P, 9, B, 9), untranslated("in", 1, "0 0,1")),
               (tcp(P, 9, B, 80, SYN, 1), made("in", "10.0.0.5:80", 2, translation=1, visited="0 0,1"),
                tcp(P, 9, H, 80, SYN, 1)))
    yield case("no binat asks both ways for what is written",
               f"no binat from {P} to {B}\nno binat from {H} port 1000 to any\nbinat from {H} to any -> {B}\npass",
               (udp(P, 9, B, 9), untranslated("in", 1)),
               (udp(P2, 9, B, 1000), made("in", INSIDE_END, 2, translation=2, visited="0 0,1,2"), udp(P2, 9, H, 1000)),
               (ASKED, untranslated("out", 3, "0 0,1")),
               (udp(H, 1001, P, 53), made("out", "192.0.2.9:1001", 4, translation=2, visited="0 0,1,2"),
                udp(B, 1001, P, 53)))
    yield case("binat of echoes and of other protocols", f"binat from {H} to any -> {B}\npass",
               (echo(P, B, True, 7, 1), made("in", "10.0.0.5:7"), echo(P, H, True, 7, 1)),
               (echo(H, P, False, 7, 1), by_state("out", "192.0.2.9:7"), echo(B, P, False, 7, 1)),
               (ipv4(P, B, GRE, bytes(4)), made("in", "10.0.0.5:0", 3), ipv4(P, H, GRE, bytes(4))),
               states="1 1 in 198.51.100.7:7,192.0.2.9:7 198.51.100.7:7,10.0.0.5:7 r=0 t=0 0/0/0/0/- 0/0/0/0/- "
                      "0 10 1 28 1 28\n"
                      "3 47 in 198.51.100.7:0,192.0.2.9:0 198.51.100.7:0,10.0.0.5:0 r=0 t=0 1/0/0/0/- 0/0/0/0/- "
                      "0 60 1 24 0 0\n")


# targets of a redirection of the ports 2000 to 2002, with the port that 2001 becomes
TARGETS = ((SERVER, 2001), (f"{SERVER} port 53", 53), (f"{SERVER} port 0", 0), (f"{SERVER} port 2000:*", 2001),
           (f"{SERVER} port 0:*", 1), (f"{SERVER} port 65533:*", 65534))


def rdr_cases():
    for target, port in TARGETS:
        yield case(f"a redirection to {target}", f"rdr proto udp to em0 port 2000:2002 -> {target}\npass",
                   (udp(P, 9, E, 2001), made("in", f"10.0.0.1:{port}"), udp(P, 9, SERVER, port)))
    yield case("the ends of ports that are moved", f"rdr to em0 port 2000:2002 -> {SERVER} port 65533:*\npass",
               (udp(P, 9, E, 2000), made("in", "10.0.0.1:65533"), udp(P, 9, SERVER, 65533)),
               (udp(P, 9, E, 2002), made("in", "10.0.0.1:65535", 2), udp(P, 9, SERVER, 65535)),
               (udp(P, 9, E, 2003), untranslated("in", 3)))
    yield case("one port that is moved", f"rdr to em0 port 80 -> {SERVER} port 8080:*\npass",
               (tcp(P, 9, E, 80, SYN, 1), made("in", "10.0.0.1:8080"), tcp(P, 9, SERVER, 8080, SYN, 1)))
    yield case("each of a list of ports is moved by itself",
               f"rdr to em0 port {{ 80, 90:99 }} -> {SERVER} port 8000:*\npass",
               (udp(P, 9, E, 80), made("in", "10.0.0.1:8000"), udp(P, 9, SERVER, 8000)),
               (udp(P, 9, E, 91), made("in", "10.0.0.1:8001", 2, translation=1, visited="0 0,1"),
                udp(P, 9, SERVER, 8001)))
    rules = f"rdr from any to em0 -> {SERVER} port 80\npass"
    redirected = (udp(P, 9, E, 9), made("in", "10.0.0.1:80"), udp(P, 9, SERVER, 80))
    yield case("a port that a redirection can't give", rules, redirected,
               (echo(P, E, True, 7, 1), made("in", "10.0.0.1:7", 2), echo(P, SERVER, True, 7, 1)),
               (ipv4(P, E, GRE, b""), made("in", "10.0.0.1:0", 3), ipv4(P, SERVER, GRE, b"")))
    yield case("an answer to a redirected packet", rules, redirected,
               (udp(SERVER, 80, P, 9), by_state("out", "192.0.2.1:9"), udp(E, 9, P, 9)),
               states="1 17 in 198.51.100.7:9,192.0.2.1:9 198.51.100.7:9,10.0.0.1:80 r=0 t=0 2/0/0/0/- 1/0/0/0/- "
                      "0 30 1 28 1 28\n")


# Which port

# what a rule may write of ports, with what the first packet of a run gets: a port, and an identifier
PICKS = (("port 7", 7, 5840), ("port 0", 0, 5840), ("port 65535", 65535, 5840), ("port 0:65535", 16367, 5840),
         ("port 65534:65535", 65535, 5840), ("port 50001:50004", 50004, 5840), ("", 61765, 5840),
         ("static-port", 1000, 7), ("port 7:9 static-port", 1000, 7))


def pick_cases():
    for ports, port, identifier in PICKS:
        yield case(f"a pick by '{ports}'", f"{NAT} {ports}\npass",
                   (ASKED, made("out", f"192.0.2.1:{port}"), udp(E, port, P, 53)))
        yield case(f"an identifier by '{ports}'", f"{NAT} {ports}\npass",
                   (echo(H, P, True, 7, 1), made("out", f"192.0.2.1:{identifier}"), echo(E, P, True, identifier, 1)))
        yield case(f"no port by '{ports}'", f"{NAT} {ports}\npass",
                   (ipv4(H, P, GRE, b""), made("out", "192.0.2.1:0"), ipv4(E, P, GRE, b"")))
    yield case("a pick by another seed", f"{NAT}\npass", (ASKED, made("out", "192.0.2.1:51303"), udp(E, 51303, P, 53)),
               seed=255)
    yield case("one port for several ends outside", f"{ONE_PORT}\npass", (ASKED, MADE, WIRE),
               (udp(H2, 1000, P, 54), made("out", ONE_END, 2), udp(E, 50001, P, 54)),
               (udp(H, 1000, P2, 53), made("out", ONE_END, 3), udp(E, 50001, P2, 53)),
               (tcp(H, 1000, P, 53, SYN, 1), made("out", ONE_END, 4), tcp(E, 50001, P, 53, SYN, 1)),
               (udp(H2, 1000, P, 53), EXHAUSTED))
    shared = f"nat from {H} to any -> em0 port 50001\nnat from {H2} to any -> {{}} port 50001\npass"
    yield case("rules with one address and one port", shared.format("em0"), (ASKED, MADE, WIRE),
               (udp(H2, 9, P, 53), stopped("out", "nat-exhausted", translation=1, visited="- 0,1")))
    yield case("another address has its own ports", shared.format(B), (ASKED, MADE, WIRE),
               (udp(H2, 9, P, 53), made("out", "192.0.2.9:50001", 2, translation=1, visited="0 0,1"),
                udp(B, 50001, P, 53)))
    yield case("an identifier that is taken", f"{NAT} static-port\npass",
               (echo(H, P, True, 7, 1), made("out", "192.0.2.1:7"), echo(E, P, True, 7, 1)),
               (echo(H2, P, True, 7, 1), EXHAUSTED),
               (echo(H2, P, True, 8, 1), made("out", "192.0.2.1:8", 3), echo(E, P, True, 8, 1)))


def range_cases():
    """Packets that get each of four ports. The cuts of packets 1 to 7 are 50004, 50001, 50003, 50002, 50002, 50004 and
    50001."""
    four = f"{NAT} port 50001:50004\npass\nblock in"

    def picked(number, port):
        return (udp(H, 1000 + number, P, 53), made("out", f"192.0.2.1:{port}", number, visited="0,1 0"),
                udp(E, port, P, 53))

    filler = (udp(P, 9, E, 9), "in block rule r=1 s=-; 0,1; -")
    yield case("each port of a range once", four, picked(1, 50004), picked(2, 50001), picked(3, 50003),
               picked(4, 50002), (udp(H, 1005, P, 53), EXHAUSTED))
    yield case("down from the cut, and up from it", four, picked(1, 50004), picked(2, 50001), filler, filler, filler,
               picked(6, 50003), picked(7, 50002), (udp(H, 1008, P, 53), EXHAUSTED))


def freed_cases():
    second = udp(H2, 1000, P, 53)
    yield case("a port that comes free", f"set timeout udp.first 5\n{ONE_PORT}\npass", (0, ASKED, MADE, WIRE),
               (4, second, EXHAUSTED), (5, second, made("out", ONE_END, 3), WIRE), (5, ASKED, EXHAUSTED),
               (5, ANSWER, by_state("in", "10.0.0.6:1000", 3), udp(P, 53, H2, 1000)),
               counters="filter 0 2 3 84\ntranslation 0 4 3 84\ntotal 5 3 2 0 0\n")
    yield case("a port behind a SYN that removes a state", f"{ONE_PORT}\npass", (OPENING, MADE, OPENING_WIRE),
               (tcp(P, 80, E, 50001, RST | ACK, 0, 1001), TOUCHED_IN, tcp(P, 80, H, 1000, RST | ACK, 0, 1001)),
               (OPENING, "out block state-mismatch r=0 t=0 s=1; - -; removed 1; -"),
               (tcp(H2, 9, P, 80, SYN, 5), made("out", ONE_END, 4), tcp(E, 50001, P, 80, SYN, 5)), (OPENING, EXHAUSTED))


# The filter

def filter_cases():
    yield case("the filter judges what leaves",
               f"{ONE_PORT}\nblock out from 10.0.0.0/8\npass out from em0 port 50001",
               (ASKED, made("out", ONE_END, rule=1, visited="0,1 0"), WIRE))
    yield case("the filter judges what gets inside", f"rdr to em0 port 53 -> {SERVER} port 5353\nblock in to em0\n"
               f"block in to port 53\npass in to {SERVER} port 5353",
               (udp(P, 9, E, 53), made("in", "10.0.0.1:5353", rule=2, visited="0,1,2 0"), udp(P, 9, SERVER, 5353)))
    yield case("an anchor round what leaves", f"{ONE_PORT}\nblock\nanchor out from em0 {{\npass quick\n}}",
               (ASKED, made("out", ONE_END, rule=1, visited="0,1 0"), WIRE))
    yield case("the direction of a translated packet stays", f"rdr to em0 -> {P2}\nblock out\npass in",
               (udp(P, 9, E, 9), made("in", "198.51.100.8:9", rule=1, visited="0,1 0"), udp(P, 9, P2, 9)))
    yield case("a translated packet that is answered", f"{ONE_PORT}\nblock return",
               (ASKED, "out return rule r=0 t=0 s=-; 0 0; -; -"), states="",
               counters="filter 0 1 1 28\ntranslation 0 1 1 28\ntotal 1 0 0 1 0\n")
    yield case("nothing is translated where nothing is filtered", f"set skip on em0\n{ONE_PORT}\nblock",
               (ASKED, "- pass skip-on r=- s=-; -; -"),
               counters="filter 0 0 0 0\ntranslation 0 0 0 0\ntotal 1 1 0 0 0\n")
    yield case("what is too short isn't translated", f"{ONE_PORT}\npass", (ASKED[:27], "- block short r=- s=-; -; -"))


def passing_cases():
    """Translations that pass, and those that no rule of the filter decides on."""
    passing = f"{ONE_PORT.replace('nat', 'nat pass')}\nblock"
    passed = made("out", ONE_END, rule="-", visited="- 0", reason="nat-pass")
    came = udp(P, 9, E, 9)
    for rules, packet, words, frame in (
            (passing, ASKED, passed, WIRE),
            (f"rdr pass log to em0 -> {SERVER}\nblock", came,
             made("in", "10.0.0.1:9", rule="-", visited="- 0", reason="nat-pass"), udp(P, 9, SERVER, 9)),
            (f"binat pass from {H} to any -> {B}\nblock", ASKED,
             made("out", "192.0.2.9:1000", rule="-", visited="- 0", reason="nat-pass"), udp(B, 1000, P, 53))):
        yield case(f"a translation that passes: {rules}", rules, (packet, words, frame),
                   counters="filter 0 0 0 0\ntranslation 0 1 1 28\ntotal 1 1 0 0 0\n")
    by_none = by_state("in", INSIDE_END, rule="-")
    yield case("a state without a rule of the filter counts for its translation", passing, (ASKED, passed, WIRE),
               (ANSWER, by_none, ANSWERED),
               (error(WIRE, destination=E), told("in", INSIDE_END, rule="-"), error(ASKED)),
               counters="filter 0 0 0 0\ntranslation 0 1 3 112\ntotal 3 3 0 0 0\n")
    yield case("a state by default counts for its translation, but its first packet doesn't", ONE_PORT,
               (ASKED, made("out", ONE_END, rule="-", visited="- 0", reason="default"), WIRE),
               (ANSWER, by_none, ANSWERED), counters="translation 0 1 1 28\ntotal 2 2 0 0 0\n")


def option_cases():
    with_options, wire = udp(H, 1000, P, 53, **OPTIONS), udp(E, 50001, P, 53, **OPTIONS)
    told_with_options = error(WIRE, destination=E, **OPTIONS)
    by_rule, by_none = stopped("out", "ip-option", 0), stopped("out", "ip-option", visited="- 0")
    yield case("IP options by a rule that allows them", f"{ONE_PORT}\npass allow-opts", (with_options, MADE, wire),
               (with_options, TOUCHED_OUT, wire))
    yield case("IP options by a rule that doesn't", f"{ONE_PORT}\npass", (with_options, by_rule), states="",
               counters="filter 0 1 0 0\ntranslation 0 1 0 0\ntotal 1 0 1 0 0\n")
    yield case("IP options by default", ONE_PORT, (with_options, by_none), states="")
    yield case("IP options by a translation that passes", f"{ONE_PORT.replace('nat', 'nat pass')}\npass allow-opts",
               (with_options, by_none), states="")
    yield case("IP options of a state without a rule", ONE_PORT,
               (ASKED, made("out", ONE_END, rule="-", visited="- 0", reason="default"), WIRE),
               (with_options, stopped("out", "ip-option", visited="- -", state=1)),
               (told_with_options, stopped("in", "ip-option", visited="- -", state=1)))
    yield case("IP options of a state by a rule without state that allows them",
               f"{ONE_PORT}\npass no state allow-opts", (with_options, MADE, wire), (with_options, TOUCHED_OUT, wire),
               (udp(P, 53, E, 50001, **OPTIONS), TOUCHED_IN, udp(P, 53, H, 1000, **OPTIONS)),
               (told_with_options, TOLD_IN, error(ASKED, **OPTIONS)))
    yield case("IP options of a state by a rule without state that doesn't", f"{ONE_PORT}\npass no state",
               (ASKED, MADE, WIRE), (with_options, stopped("out", "ip-option", 0, visited="- -", state=1)))
    yield case("IP options and no free port", f"{ONE_PORT}\npass", (ASKED, MADE, WIRE),
               (udp(H2, 1000, P, 53, **OPTIONS), EXHAUSTED))
    yield case("IP options of a blocked packet that is translated", f"{ONE_PORT}\nblock allow-opts",
               (with_options, stopped("out", "rule", 0)))


# The states

def taken_cases():
    """Keys that other states have."""
    two = f"rdr to em0 port {{ 80, 8080 }} -> {SERVER} port 80\n"
    first, frame = udp(P, 9, E, 80), udp(P, 9, SERVER, 80)
    opened, second = (first, made("in", "10.0.0.1:80"), frame), udp(P, 9, E, 8080)
    taken = (second, stopped("in", "state-insert", 0, 1, "0 0,1"))
    yield case("a key behind the firewall that is taken", f"{two}pass", opened, taken,
               (first, by_state("in", "10.0.0.1:80"), frame))
    yield case("a key that is taken and a full table", f"set limit states 1\n{two}pass", opened, taken,
               (udp(P2, 9, E, 80), stopped("in", "state-limit", 0)))
    yield case("a key that is taken, by default", two,
               (first, made("in", "10.0.0.1:80", rule="-", visited="- 0", reason="default"), frame),
               (second, stopped("in", "state-insert", "-", 1, "- 0,1")),
               counters="translation 0 2 0 0\ntranslation 1 1 0 0\ntotal 2 1 1 0 0\n")
    yield case("a key that is taken, by a translation that passes", f"{two.replace('rdr', 'rdr pass')}block",
               (first, made("in", "10.0.0.1:80", rule="-", visited="- 0", reason="nat-pass"), frame),
               (second, stopped("in", "state-insert", "-", 1, "- 0,1")))
    yield case("a key that is taken and IP options", f"{two}pass", opened,
               (udp(P, 9, E, 8080, **OPTIONS), stopped("in", "ip-option", 0, 1, "0 0,1")))
    yield case("a key on the wire that a packet has untranslated", f"{ONE_PORT}\npass", (ASKED, MADE, WIRE),
               (WIRE, stopped("out", "state-insert", 0, "-")), (udp(E, 50001, P, 54), untranslated("out", 3)),
               inside=OWN_INSIDE)
    yield case("a key behind the firewall that a packet has untranslated", f"rdr to em0 -> {SERVER}\npass",
               (udp(P, 9, E, 9), made("in", "10.0.0.1:9"), udp(P, 9, SERVER, 9)),
               (udp(P, 9, SERVER, 9), stopped("in", "state-insert", 0, "-")))
    yield case("a packet without state and a key that is taken",
               f"{ONE_PORT}\npass out quick from 10.0.0.0/8\npass no state",
               (ASKED, made("out", ONE_END, rule=1, visited="0,1 0"), WIRE),
               (WIRE, "out pass rule r=1 t=- s=-; 0,1 0; -; -"), inside=OWN_INSIDE)
    yield case("a binat's key that a state has",
               f"binat from {H} to any -> em0\nnat from {H2} to any -> em0 static-port\npass",
               (udp(H2, 1000, P, 53), made("out", "192.0.2.1:1000", translation=1, visited="0 0,1"),
                udp(E, 1000, P, 53)), (ASKED, stopped("out", "state-insert", 0)))


def limit_cases():
    limited = "set limit states 1\n"
    yield case("a full table", f"{limited}{NAT} port 50001:50002\npass",
               (ASKED, made("out", "192.0.2.1:50002"), udp(E, 50002, P, 53)),
               (udp(H2, 9, P, 53), stopped("out", "state-limit", 0)),
               counters="filter 0 2 1 28\ntranslation 0 2 1 28\ntotal 2 1 1 0 0\n")
    yield case("a full table and no free port", f"{limited}{ONE_PORT}\npass", (ASKED, MADE, WIRE),
               (udp(H2, 9, P, 53), EXHAUSTED))
    yield case("a full table and a rule without state", f"{limited}{ONE_PORT}\npass no state", (ASKED, MADE, WIRE),
               (udp(H2, 9, P, 54), stopped("out", "state-limit", 0)),
               (udp(P, 9, E, 9), "in pass rule r=0 s=-; 0; -"))


def same_cases():
    """Translations to what stands there."""
    made_same = "out pass rule r=0 t=0 s=1; 0 0; made 1; -"
    yield case("a translation to what stands there", f"nat from {H} to any -> {H} static-port\npass",
               (ASKED, made_same), (ANSWERED, "in pass state r=0 t=0 s=1; - -; touched 1; -"),
               (error(ASKED), "in pass state-error r=0 t=0 s=1; - -; -; -"),
               states="1 17 out 198.51.100.7:53,10.0.0.5:1000 198.51.100.7:53,10.0.0.5:1000 r=0 t=0 2/0/0/0/- "
                      "1/0/0/0/- 0 30 1 28 1 28\n")
    rules = "rdr to em0 port 53 -> em0 port 53"
    yield case("a redirection to what stands there", f"{rules}\nblock",
               (udp(P, 9, E, 53), stopped("in", "rule", 0)))
    yield case("a redirection to what stands there, without state", f"{rules}\npass no state",
               (udp(P, 9, E, 53), made_same.replace("out", "in")))


def connection_cases():
    data = tcp(H, 1000, P, 80, ACK, 1001, 5001, payload=b"text")
    mismatched = {"payload": bytes(8)}
    yield case("a connection of TCP", f"{ONE_PORT}\npass out", (OPENING, MADE, OPENING_WIRE),
               (tcp(P, 80, E, 50001, SYN | ACK, 5000, 1001), TOUCHED_IN, tcp(P, 80, H, 1000, SYN | ACK, 5000, 1001)),
               (data, TOUCHED_OUT, tcp(E, 50001, P, 80, ACK, 1001, 5001, payload=b"text")),
               (tcp(H, 1000, P, 80, ACK, 2**31, 5001, **mismatched),
                stopped("out", "state-mismatch", 0, visited="- -", state=1)),
               (tcp(P, 80, E, 50001, ACK, 5001, 2**30, **mismatched),
                stopped("in", "state-mismatch", 0, visited="- -", state=1)),
               states="1 6 out 198.51.100.7:80,192.0.2.1:50001 198.51.100.7:80,10.0.0.5:1000 r=0 t=0 "
                      "4/1005/65241/64240/- 4/5001/69241/64240/- 0 86400 2 84 1 40\n",
               counters="filter 0 1 3 124\ntranslation 0 1 3 124\ntotal 5 3 2 0 0\n")
    filtered = "in block rule r=0 s=-; 0,1; -"
    yield case("packets of other keys", f"{ONE_PORT}\nblock in\npass out",
               (ASKED, made("out", ONE_END, rule=1, visited="0,1 0"), WIRE), (ANSWERED, filtered),
               (udp(P, 53, E, 50002), filtered), (udp(P2, 53, E, 50001), filtered))
    # rules of each kind that translate all that they can
    all_kinds = f"{ONE_PORT}\nrdr to em0 -> {SERVER}\nbinat from {H2} to any -> {B}\npass"
    out, came = "out pass rule r=0 s=-; 0; -", "in pass rule r=0 s=-; 0; -"
    yield case("fragments aren't translated", all_kinds, (ipv4(H, P, UDP, bytes(8), fragment=1), out),
               (ipv4(H2, P, TCP, bytes(24), fragment=MORE_FRAGMENTS), out),
               (ipv4(P, E, UDP, bytes(8), fragment=MORE_FRAGMENTS), came))
    message = summed_message(13, 0, bytes(16))
    yield case("other messages of ICMP aren't translated", all_kinds, (ipv4(H, P, ICMP, message), out),
               (ipv4(H2, P, ICMP, message), out), (ipv4(P, E, ICMP, message), came))


def cases():
    for make in (order_cases, ending_cases, criteria_cases, binat_cases, rdr_cases, pick_cases, range_cases,
                 freed_cases, filter_cases, passing_cases, option_cases, taken_cases, limit_cases, same_cases,
                 connection_cases):
        yield from make()
