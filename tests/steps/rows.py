"""Whole runs that are written out in full: the line of each packet, the states and the counters.

The packets are of raw IP, H is inside and P outside; UDP datagrams have 28 bytes and TCP packets no options, unless it is
said otherwise.
"""

from captures.packets import ACK, MORE_FRAGMENTS, NANOSECONDS, SYN, TCP, UDP, capture_header, ipv4, record, tcp, udp
from steps import translation_rows
from steps.replay import Texts
from steps.run import Expected, Run

H, P, HERE = "10.0.0.5", "198.51.100.7", "192.0.2.1"
OTHER = "203.0.113.9"
KEYS = "198.51.100.7:80,10.0.0.5:1000 198.51.100.7:80,10.0.0.5:1000"
FOUR_OPTION_BYTES = bytes([1, 1, 1, 1])


def h_to_p(flags, sequence, acknowledgement=0, window=1000, length=0, options=b""):
    return tcp(H, 1000, P, 80, flags, sequence, acknowledgement, window, options, bytes(length))


def p_to_h(flags, sequence, acknowledgement=0, window=2000, length=0, options=b""):
    return tcp(P, 80, H, 1000, flags, sequence, acknowledgement, window, options, bytes(length))


def scale(shift):
    return bytes([3, 3, shift, 0])


def row(name, rules, records, words, states="", **expected):
    """A run whose states are written out: its records are packets at second 0, or pairs of a second and a packet."""
    timed = [each if isinstance(each, tuple) else (0, each) for each in records]
    return Expected(Run(name, rules, timed), words, states, **expected)


FIRST_SYN = h_to_p(SYN, 1000)
OPENING = [FIRST_SYN, p_to_h(SYN | ACK, 5000, 1001), h_to_p(ACK, 1001, 5001)]
OPENED = ["out pass rule r=0 s=1; 0; made 1", "in pass state r=0 s=1; -; touched 1",
          "out pass state r=0 s=1; -; touched 1"]
OPENED_LINES = "1 0 out pass rule r=0 t=- s=1\n2 0 in pass state r=0 t=- s=1\n3 0 out pass state r=0 t=- s=1\n"
DATA_PASSES, DATA_FAILS = "out pass state r=0 s=1; -; touched 1", "out block state-mismatch r=0 s=1; -; -"
# the same, with the first number near the end of all numbers
LATE = 4294967000
LATE_OPENING = [h_to_p(SYN, LATE), p_to_h(SYN | ACK, 5000, LATE + 1), h_to_p(ACK, LATE + 1, 5001)]


def data(length, sequence=1001):
    return h_to_p(ACK, sequence, 5001, length=length)


def opening_rows():
    yield row("one SYN", "pass out", [FIRST_SYN], ["out pass rule r=0 s=1; 0; made 1"],
              f"1 6 out {KEYS} r=0 t=- 2/1000/1002/1000/- 0/0/1/1/- 0 120 1 40 0 0\n",
              counters="filter 0 1 1 40\ntotal 1 1 0 0 0\n", passed=[1], verdicts="1 0 out pass rule r=0 t=- s=1\n")
    yield row("a SYN sent twice", "pass out", [FIRST_SYN, FIRST_SYN],
              ["out pass rule r=0 s=1; 0; made 1", "out pass state r=0 s=1; -; touched 1"],
              f"1 6 out {KEYS} r=0 t=- 2/1001/1002/1000/- 0/0/1000/1/- 0 30 2 80 0 0\n",
              counters="filter 0 1 2 80\ntotal 2 2 0 0 0\n", passed=[1, 2],
              verdicts="1 0 out pass rule r=0 t=- s=1\n2 0 out pass state r=0 t=- s=1\n")
    yield row("a connection and 100 bytes", "pass out", [*OPENING, data(100)], [*OPENED, DATA_PASSES],
              f"1 6 out {KEYS} r=0 t=- 4/1101/3001/1000/- 4/5001/6001/2000/- 0 86400 3 220 1 40\n",
              counters="filter 0 1 4 260\ntotal 4 4 0 0 0\n", passed=[1, 2, 3, 4],
              verdicts=OPENED_LINES + "4 0 out pass state r=0 t=- s=1\n")
    yield row("a connection and 100 bytes, with shifts",
              "pass out", [h_to_p(SYN, 1000, options=scale(2)), p_to_h(SYN | ACK, 5000, 1001, options=scale(3)),
                           h_to_p(ACK, 1001, 5001), data(100)],
              [*OPENED, DATA_PASSES],
              f"1 6 out {KEYS} r=0 t=- 4/1101/3001/1000/2 4/5001/9001/250/3 0 86400 3 224 1 44\n")


# four bytes of options of a SYN, with whether they offer a shift of 2
SHIFTS_OFFERED = ((scale(2), True), (bytes([1, 3, 3, 2]), True), (bytes([3, 4, 2, 2]), False), (bytes([3, 1, 3, 2]), False),
                  (bytes([2, 5, 3, 2]), False), (bytes([0, 3, 3, 2]), False))


def option_rows():
    """A shift behind a filler, options that are longer and shorter than a shift is, one that ends behind the header, and
    the end of the options (RFC 7323, section 2.2, and RFC 9293, section 3.1)."""
    for options, offered in SHIFTS_OFFERED:
        window = "250/2" if offered else "1000/-"
        yield row(f"a SYN with the options {options.hex()}", "pass out", [h_to_p(SYN, 1000, options=options)],
                  ["out pass rule r=0 s=1; 0; made 1"],
                  f"1 6 out {KEYS} r=0 t=- 2/1000/1002/{window} 0/0/1/1/- 0 120 1 44 0 0\n")
    behind_options = tcp(H, 1000, P, 80, SYN, 1000, window=1000, options=scale(2), ip_options=FOUR_OPTION_BYTES)
    yield row("a SYN with a shift behind IP options", "pass out allow-opts", [behind_options],
              ["out pass rule r=0 s=1; 0; made 1"],
              f"1 6 out {KEYS} r=0 t=- 2/1000/1002/250/2 0/0/1/1/- 0 120 1 48 0 0\n")


def window_rows():
    opened = f"1 6 out {KEYS} r=0 t=- 4/1000/3001/1000/- 4/5001/6001/2000/- 0 86400 2 80 1 40\n"
    late = f"1 6 out {KEYS} r=0 t=- 4/4294967000/1705/1000/- 4/5001/6001/2000/- 0 86400 2 80 1 40\n"
    yield row("as many bytes as fit", "pass out", [*OPENING, data(2000)], [*OPENED, DATA_PASSES],
              f"1 6 out {KEYS} r=0 t=- 4/3001/3001/1000/- 4/5001/6001/2000/- 0 86400 3 2120 1 40\n")
    yield row("a byte more than fits", "pass out", [*OPENING, data(2001)], [*OPENED, DATA_FAILS], opened,
              counters="filter 0 1 3 120\ntotal 4 3 1 0 0\n", passed=[1, 2, 3],
              verdicts=OPENED_LINES + "4 0 out block state-mismatch r=0 t=- s=1\n")
    yield row("as many bytes as fit, over the end of the numbers",
              "pass out", [*LATE_OPENING, data(2000, LATE + 1)], [*OPENED, DATA_PASSES],
              f"1 6 out {KEYS} r=0 t=- 4/1705/1705/1000/- 4/5001/6001/2000/- 0 86400 3 2120 1 40\n")
    yield row("a byte more than fits, over the end of the numbers",
              "pass out", [*LATE_OPENING, data(2001, LATE + 1)], [*OPENED, DATA_FAILS], late)


def time_rows():
    made, replied = "out pass rule r=1 s=1; 0,1; made 1", "in pass state r=1 s=1; -; touched 1"
    asked = udp(H, 1000, P, 53)
    reply = udp(P, 53, H, 1000)
    keys = "198.51.100.7:53,10.0.0.5:1000 198.51.100.7:53,10.0.0.5:1000"
    yield row("a reply in time", "block in\npass out", [asked, (59, reply)], [made, replied],
              f"1 17 out {keys} r=1 t=- 2/0/0/0/- 1/0/0/0/- 0 89 1 28 1 28\n",
              verdicts="1 0 out pass rule r=1 t=- s=1\n2 59 in pass state r=1 t=- s=1\n")
    yield row("a reply too late", "block in\npass out", [asked, (60, reply)],
              [made, "in block rule r=0 s=-; 0,1; -"], "", counters="filter 0 2 1 28\nfilter 1 2 1 28\ntotal 2 1 1 0 0\n",
              passed=[1], verdicts="1 0 out pass rule r=1 t=- s=1\n2 60 in block rule r=0 t=- s=-\n")
    third = "198.51.100.7:53,10.0.0.5:1002 198.51.100.7:53,10.0.0.5:1002"
    yield row("room for one state", "set limit states 1\npass out",
              [asked, (30, udp(H, 1001, P, 53)), (60, udp(H, 1002, P, 53))],
              ["out pass rule r=0 s=1; 0; made 1", "out block state-limit r=0 s=-; 0; -",
               "out pass rule r=0 s=3; 0; made 3"],
              f"3 17 out {third} r=0 t=- 1/0/0/0/- 0/0/0/0/- 60 120 1 28 0 0\n",
              counters="filter 0 3 2 56\ntotal 3 2 1 0 0\n", passed=[1, 3],
              verdicts="1 0 out pass rule r=0 t=- s=1\n2 30 out block state-limit r=0 t=- s=-\n"
                       "3 60 out pass rule r=0 t=- s=3\n")
    yield row("a state for no time", "set timeout udp.first 0\npass out\nblock in", [asked, udp(OTHER, 9, HERE, 9)],
              ["out pass rule r=0 s=1; 0,1; made 1", "in block rule r=1 s=-; 0,1; -"], "",
              counters="filter 0 2 1 28\nfilter 1 2 1 28\ntotal 2 1 1 0 0\n", passed=[1],
              verdicts="1 0 out pass rule r=0 t=- s=1\n2 0 in block rule r=1 t=- s=-\n")
    yield row("a state for no time, made by the last packet", "set timeout udp.first 0\npass out", [(7, asked)],
              ["out pass rule r=0 s=1; 0; made 1"],
              f"1 17 out {keys} r=0 t=- 1/0/0/0/- 0/0/0/0/- 7 7 1 28 0 0\n")


def filter_rows():
    from_p = udp(P, 9, HERE, 9)
    yield row("a quick rule in an anchor", 'block all\nanchor "a" {\npass quick all\n}\nblock quick all', [from_p],
              ["in pass rule r=1 s=1; 0,1; made 1"],
              "1 17 in 198.51.100.7:9,192.0.2.1:9 198.51.100.7:9,192.0.2.1:9 r=1 t=- 1/0/0/0/- 0/0/0/0/- 0 60 1 28 0 0\n",
              counters="filter 0 1 0 0\nfilter 1 1 1 28\nfilter 2 0 0 0\ntotal 1 1 0 0 0\n", passed=[1],
              verdicts="1 0 in pass rule r=1 t=- s=1\n")
    yield row("a fragment and a rule with a port", "block in proto udp from any to any port 53",
              [ipv4(P, HERE, UDP, from_p[20:], fragment=MORE_FRAGMENTS)], ["in pass default r=- s=-; 0; -"],
              counters="filter 0 1 0 0\ntotal 1 1 0 0 0\n", passed=[1], verdicts="1 0 in pass default r=- t=- s=-\n")
    yield row("IP options that no rule allows", "pass in",
              [ipv4(P, HERE, TCP, tcp(P, 9, HERE, 80, SYN, 1)[20:], ip_options=FOUR_OPTION_BYTES)],
              ["in block ip-option r=0 s=-; 0; -"], counters="filter 0 1 0 0\ntotal 1 0 1 0 0\n", passed=[],
              verdicts="1 0 in block ip-option r=0 t=- s=-\n")
    yield row("a packet that is answered", "block return in", [from_p], ["in return rule r=0 s=-; 0; -"],
              counters="filter 0 1 1 28\ntotal 1 0 0 1 0\n", passed=[], verdicts="1 0 in return rule r=0 t=- s=-\n")
    yield row("seconds that go back", "block in", [(10, from_p), (5, from_p), (11, from_p)],
              ["in block rule r=0 s=-; 0; -"] * 3, counters="filter 0 3 3 84\ntotal 3 0 3 0 0\n", passed=[],
              verdicts="1 10 in block rule r=0 t=- s=-\n2 10 in block rule r=0 t=- s=-\n3 11 in block rule r=0 t=- s=-\n")


def ends():
    """Captures by their ends, each with a name, the bytes, the texts that `block in` leaves, and the tail."""
    packet = udp(P, 9, HERE, 9)
    line = "in block rule r=0 t=- s=-\n"
    skipped = record(3, 0, b"", order=">")
    header = capture_header(">", NANOSECONDS)
    two = capture_header() + record(1, 0, packet) + record(2, 0, packet)
    verdicts, counters = f"1 1 {line}2 2 {line}", "filter 0 2 2 56\ntotal 2 0 2 0 0\n"
    yield ("no record", capture_header(), Texts("", capture_header(), "filter 0 0 0 0\ntotal 0 0 0 0 0\n", ""), "clean")
    yield ("headers of the other byte order", header + skipped + record(2, 0, packet, order=">"),
           Texts(f"1 3 - skip not-ip r=- t=- s=-\n2 3 {line}", header + skipped,
                 "filter 0 1 1 28\ntotal 2 0 1 0 1\n", ""), "clean")
    yield ("the end in a record's bytes", two + record(3, 0, packet)[:-1], Texts(verdicts, two[:24], counters, ""), "cut")
    yield ("the end in a record's header", two + record(3, 0, packet)[:15], Texts(verdicts, two[:24], counters, ""), "cut")
    yield ("a record that is too long", two + record(3, 0, packet, captured=262145), Texts(verdicts, two[:24], None, None),
           "record too long 262145")


def rows():
    yield from opening_rows()
    yield from option_rows()
    yield from window_rows()
    yield from time_rows()
    yield from filter_rows()
    yield from translation_rows.rows()
