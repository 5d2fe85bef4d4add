"""Files of states whose answer is written out by hand.

The lines that pfctl prints stand in their order, and so do those of JSON, where they are written out. H is 10.0.0.5
inside, P is 198.51.100.7 outside, and 192.0.2.1 is the firewall's own address.
"""

from typing import NamedTuple

from runs.model import Outcome, refused


class Row(NamedTuple):
    """A file with the lines that pfctl prints, or what is said if it is refused; and maybe with the lines of JSON."""
    name: str
    octets: bytes
    lines: tuple = ()
    objects: tuple | None = None
    said: str = ""

    def outcome(self, as_json):
        """None if it isn't written out."""
        if self.said:
            return refused(self.said)
        lines = self.objects if as_json else self.lines
        return None if lines is None else Outcome(text_of(*lines), b"", 0)


def text_of(*lines):
    return "".join(f"{line}\n" for line in lines).encode("latin-1")


def states(lines, name, *shown, objects=None):
    return Row(name, text_of(*lines), shown, objects)


# TCP

TCP_IN = ("11 6 in 198.51.100.7:50600,192.0.2.1:22 198.51.100.7:50600,192.0.2.1:22 r=3 t=- 10/1000/66281/502/7 "
          "9/5041/69297/510/- 1767261610 1767261710 3 128 2 96")
TCP_IN_SHOWN = "all tcp 192.0.2.1:22 <- 198.51.100.7:50600       FIN_WAIT_2:TIME_WAIT"
TCP_IN_OBJECT = (
    '{"number":11,"interface":null,"protocol":6,"direction":"in","wire":{"outside":{"address":"198.51.100.7",'
    '"port":50600},"inside":{"address":"192.0.2.1","port":22}},"stack":{"outside":{"address":"198.51.100.7",'
    '"port":50600},"inside":{"address":"192.0.2.1","port":22}},"rule":3,"translation":null,"maker":{"state":'
    '"TIME_WAIT","low":1000,"high":66281,"window":502,"scale":7},"other":{"state":"FIN_WAIT_2","low":5041,'
    '"high":69297,"window":510,"scale":null},"made":1767261610,"deadline":1767261710,"forth":{"packets":3,'
    '"bytes":128},"back":{"packets":2,"bytes":96}}')
TCP_OUT = ("7 6 out 198.51.100.7:443,10.0.0.5:40000 198.51.100.7:443,10.0.0.5:40000 r=0 t=- 2/1000/1002/1000/- "
           "0/0/1/1/- 5 35 1 40 0 0")
TCP_OUT_SHOWN = "all tcp 10.0.0.5:40000 -> 198.51.100.7:443       SYN_SENT:CLOSED"
NAT = ("3 6 out 198.51.100.7:443,192.0.2.1:50001 198.51.100.7:443,10.0.0.5:40001 r=- t=0 4/1101/3001/1000/2 "
       "4/5001/9001/250/3 5 86405 3 160 2 1500")
NAT_SHOWN = "all tcp 192.0.2.1:50001 (10.0.0.5:40001) -> 198.51.100.7:443       ESTABLISHED:ESTABLISHED"
NAT_OBJECT = (
    '{"number":3,"interface":null,"protocol":6,"direction":"out","wire":{"outside":{"address":"198.51.100.7",'
    '"port":443},"inside":{"address":"192.0.2.1","port":50001}},"stack":{"outside":{"address":"198.51.100.7",'
    '"port":443},"inside":{"address":"10.0.0.5","port":40001}},"rule":null,"translation":0,"maker":{"state":'
    '"ESTABLISHED","low":1101,"high":3001,"window":1000,"scale":2},"other":{"state":"ESTABLISHED","low":5001,'
    '"high":9001,"window":250,"scale":3},"made":5,"deadline":86405,"forth":{"packets":3,"bytes":160},"back":'
    '{"packets":2,"bytes":1500}}')
RDR = ("9 6 in 198.51.100.7:50601,192.0.2.1:8080 198.51.100.7:50601,10.0.0.40:80 r=1 t=2 5/1/2/3/0 8/4/5/6/14 0 9 1 40 "
       "1 40")
RDR_SHOWN = "all tcp 10.0.0.40:80 (192.0.2.1:8080) <- 198.51.100.7:50601       LAST_ACK:CLOSE_WAIT"
# the address alone is another one, or the port alone
BINAT = "4 6 out 198.51.100.7:25,192.0.2.8:900 198.51.100.7:25,10.0.0.8:900 r=0 t=1 6/1/2/3/- 7/4/5/6/- 0 9 1 40 1 40"
BINAT_SHOWN = "all tcp 192.0.2.8:900 (10.0.0.8:900) -> 198.51.100.7:25       FIN_WAIT_1:CLOSING"
PORT_ALONE = ("5 6 in 198.51.100.7:26,192.0.2.1:99 198.51.100.7:26,192.0.2.1:98 r=0 t=1 1/1/2/3/- 3/4/5/6/- 0 9 1 40 "
              "1 40")
PORT_ALONE_SHOWN = "all tcp 192.0.2.1:98 (192.0.2.1:99) <- 198.51.100.7:26       SYN_RCVD:LISTEN"


def tcp_rows():
    yield states([TCP_IN], "TCP in", TCP_IN_SHOWN, objects=(TCP_IN_OBJECT,))
    yield states([TCP_OUT], "TCP out", TCP_OUT_SHOWN)
    yield states([NAT], "TCP out by nat", NAT_SHOWN, objects=(NAT_OBJECT,))
    yield states([RDR], "TCP in by rdr", RDR_SHOWN)
    yield states([TCP_IN, NAT], "two of TCP", NAT_SHOWN, TCP_IN_SHOWN, objects=(NAT_OBJECT, TCP_IN_OBJECT))
    yield states([RDR, PORT_ALONE, TCP_OUT, BINAT, TCP_IN, NAT], "TCP both ways, translated and not", TCP_OUT_SHOWN,
                 NAT_SHOWN, BINAT_SHOWN, RDR_SHOWN, TCP_IN_SHOWN, PORT_ALONE_SHOWN)


# Other protocols

UDP = "2 17 out 198.51.100.7:53,10.0.0.5:1000 198.51.100.7:53,10.0.0.5:1000 r=0 t=- 2/0/0/0/- 1/0/0/0/- 5 35 2 122 1 77"
UDP_SHOWN = "all udp 10.0.0.5:1000 -> 198.51.100.7:53       MULTIPLE:SINGLE"
UDP_OBJECT = (
    '{"number":2,"interface":null,"protocol":17,"direction":"out","wire":{"outside":{"address":"198.51.100.7",'
    '"port":53},"inside":{"address":"10.0.0.5","port":1000}},"stack":{"outside":{"address":"198.51.100.7",'
    '"port":53},"inside":{"address":"10.0.0.5","port":1000}},"rule":0,"translation":null,"maker":{"state":'
    '"MULTIPLE"},"other":{"state":"SINGLE"},"made":5,"deadline":35,"forth":{"packets":2,"bytes":122},"back":'
    '{"packets":1,"bytes":77}}')
UDP_IN = "6 17 in 198.51.100.7:9,192.0.2.1:161 198.51.100.7:9,10.0.0.5:161 r=0 t=0 1/0/0/0/- 0/0/0/0/- 5 65 1 61 0 0"
UDP_IN_SHOWN = "all udp 10.0.0.5:161 (192.0.2.1:161) <- 198.51.100.7:9       NO_TRAFFIC:SINGLE"
ECHO = "8 1 in 198.51.100.7:770,192.0.2.1:770 198.51.100.7:770,192.0.2.1:770 r=7 t=- 0/0/0/0/- 0/0/0/0/- 5 15 1 28 1 28"
ECHO_SHOWN = "all icmp 192.0.2.1:770 <- 198.51.100.7:770       0:0"
ECHO_OBJECT = (
    '{"number":8,"interface":null,"protocol":1,"direction":"in","wire":{"outside":{"address":"198.51.100.7",'
    '"port":770},"inside":{"address":"192.0.2.1","port":770}},"stack":{"outside":{"address":"198.51.100.7",'
    '"port":770},"inside":{"address":"192.0.2.1","port":770}},"rule":7,"translation":null,"maker":null,'
    '"other":null,"made":5,"deadline":15,"forth":{"packets":1,"bytes":28},"back":{"packets":1,"bytes":28}}')
# the identifier stands at both ends, and it is shown once that it is another one
NAT_ECHO = ("9 1 out 198.51.100.7:7001,192.0.2.1:7001 198.51.100.7:7,10.0.0.5:7 r=0 t=0 0/0/0/0/- 0/0/0/0/- 5 15 1 28 "
            "0 0")
NAT_ECHO_SHOWN = "all icmp 192.0.2.1:7001 (10.0.0.5:7) -> 198.51.100.7:7001       0:0"
# no rule does this
ECHO_IN = "9 1 in 198.51.100.7:7001,192.0.2.1:7001 198.51.100.7:7,192.0.2.1:7 r=0 t=0 0/0/0/0/- 0/0/0/0/- 5 15 1 28 0 0"
ECHO_IN_SHOWN = "all icmp 192.0.2.1:7 <- 198.51.100.7:7 (198.51.100.7:7001)       0:0"
GRE = "1 47 out 198.51.100.7:0,192.0.2.1:0 198.51.100.7:0,10.0.0.5:0 r=0 t=0 1/0/0/0/- 0/0/0/0/- 5 65 1 28 0 0"
GRE_SHOWN = "all gre 192.0.2.1 (10.0.0.5) -> 198.51.100.7       SINGLE:NO_TRAFFIC"
GRE_OBJECT = (
    '{"number":1,"interface":null,"protocol":47,"direction":"out","wire":{"outside":{"address":"198.51.100.7",'
    '"port":0},"inside":{"address":"192.0.2.1","port":0}},"stack":{"outside":{"address":"198.51.100.7","port":0},'
    '"inside":{"address":"10.0.0.5","port":0}},"rule":0,"translation":0,"maker":{"state":"SINGLE"},"other":{"state":'
    '"NO_TRAFFIC"},"made":5,"deadline":65,"forth":{"packets":1,"bytes":28},"back":{"packets":0,"bytes":0}}')
NAMED = {0: "0", 1: "icmp", 2: "igmp", 3: "3", 4: "4", 6: "tcp", 17: "udp", 41: "41", 47: "gre", 50: "esp", 51: "ah",
         58: "58", 89: "ospf", 103: "pim", 112: "carp", 132: "sctp", 133: "133", 240: "240", 255: "255"}


def of_protocol(protocol):
    code = 0 if protocol == 1 else 1
    return f"1 {protocol} out 2.0.0.2:0,3.0.0.3:0 2.0.0.2:0,3.0.0.3:0 r=- t=- {code}/0/0/0/- 0/0/0/0/- 5 65 1 28 0 0"


def level_shown(protocol):
    return {1: "0:0", 6: "LISTEN:CLOSED"}.get(protocol, "SINGLE:NO_TRAFFIC")


def other_rows():
    yield states([UDP], "UDP out", UDP_SHOWN, objects=(UDP_OBJECT,))
    yield states([UDP_IN], "UDP in by rdr", UDP_IN_SHOWN)
    yield states([ECHO], "an echo", ECHO_SHOWN, objects=(ECHO_OBJECT,))
    yield states([NAT_ECHO], "an echo out by nat", NAT_ECHO_SHOWN)
    yield states([ECHO_IN], "an echo in, with another identifier behind", ECHO_IN_SHOWN)
    yield states([GRE], "GRE by nat, with port 0", GRE_SHOWN, objects=(GRE_OBJECT,))
    yield states([GRE, UDP, NAT, ECHO], "a state of each kind", ECHO_SHOWN, NAT_SHOWN, UDP_SHOWN, GRE_SHOWN,
                 objects=(ECHO_OBJECT, NAT_OBJECT, UDP_OBJECT, GRE_OBJECT))
    yield states([of_protocol(protocol) for protocol in reversed(NAMED)], "protocols with a name and without",
                 *(f"all {name} 3.0.0.3 -> 2.0.0.2       {level_shown(protocol)}" for protocol, name in NAMED.items()))
    rest = "r=0 t=- 1/0/0/0/- 0/0/0/0/- 0 9 1 28 0 0"
    yield states([f"1 17 out 198.51.100.7:0,10.0.0.5:53 198.51.100.7:0,10.0.0.5:53 {rest}",
                  f"2 17 in 198.51.100.7:53,10.0.0.5:7 198.51.100.7:53,10.0.0.5:0 {rest}"],
                 "port 0 of UDP", "all udp 10.0.0.5 (10.0.0.5:7) <- 198.51.100.7:53       NO_TRAFFIC:SINGLE",
                 "all udp 10.0.0.5:53 -> 198.51.100.7       SINGLE:NO_TRAFFIC")
    # no rule does this to the end outside
    yield states([f"1 17 out 8.8.8.8:53,10.0.0.5:1 9.9.9.9:53,10.0.0.5:1 {rest}",
                  f"2 17 in 8.8.8.8:53,10.0.0.5:1 8.8.8.8:54,10.0.0.5:1 {rest}"],
                 "an end outside that is another one",
                 "all udp 10.0.0.5:1 -> 8.8.8.8:53 (9.9.9.9:53)       SINGLE:NO_TRAFFIC",
                 "all udp 10.0.0.5:1 <- 8.8.8.8:54 (8.8.8.8:53)       NO_TRAFFIC:SINGLE")


# Names of TCP's states

TCP_CODES = ("CLOSED", "LISTEN", "SYN_SENT", "SYN_RCVD", "ESTABLISHED", "CLOSE_WAIT", "FIN_WAIT_1", "CLOSING",
             "LAST_ACK", "FIN_WAIT_2", "TIME_WAIT")


def of_codes(number, direction, maker, other):
    return (f"{number} 6 {direction} 2.0.0.2:2,3.0.0.3:3 2.0.0.2:2,3.0.0.3:3 r=- t=- {maker}/1/2/3/- {other}/1/2/3/- "
            "0 9 1 40 0 0")


def name_rows():
    codes = [(maker, (maker + 3) % 11) for maker in range(11)]
    for direction, arrow in (("out", "->"), ("in", "<-")):
        pairs = [pair if direction == "out" else pair[::-1] for pair in codes]
        yield states([of_codes(100 + maker, direction, maker, other) for maker, other in codes],
                     f"names of TCP's states, {direction}",
                     *(f"all tcp 3.0.0.3:3 {arrow} 2.0.0.2:2       {TCP_CODES[first]}:{TCP_CODES[second]}"
                       for first, second in pairs))


# Orders

def plain(number, protocol=17, outside="2.0.0.2:2", inside="3.0.0.3:3", stack=None):
    stack = stack or f"{outside},{inside}"
    return f"{number} {protocol} out {outside},{inside} {stack} r=- t=- 1/0/0/0/- 0/0/0/0/- {number} 9 1 28 0 0"


def shown(protocol="udp", outside="2.0.0.2:2", inside="3.0.0.3:3", name="all"):
    return f"{name} {protocol} {inside} -> {outside}       SINGLE:NO_TRAFFIC"


def order_rows():
    yield states([plain(1, 132), plain(2, 50), plain(3, 17), plain(4, 2)], "by protocol", shown("igmp"), shown("udp"),
                 shown("esp"), shown("sctp"))
    insides = ["9.0.0.1:5", "10.0.0.1:4", "10.0.0.1:30", "100.0.0.1:1", "200.0.0.1:65535", "200.0.0.2:1"]
    yield states([plain(number, inside=inside) for number, inside in enumerate(reversed(insides))], "by the end inside",
                 *(shown(inside=inside) for inside in insides))
    yield states([plain(number, outside=end) for number, end in enumerate(reversed(insides))], "by the end outside",
                 *(shown(outside=end) for end in insides))
    yield states([plain(1, stack="2.0.0.2:2,9.0.0.2:1"), plain(2, outside="2.0.0.2:1", stack="2.0.0.2:2,9.0.0.1:2"),
                  plain(3, inside="1.0.0.1:1", stack="2.0.0.2:2,9.0.0.3:1"),
                  plain(4, outside="2.0.0.2:1", stack="2.0.0.2:9,9.0.0.2:1")],
                 "by the end inside behind the firewall, and the one outside on the wire",
                 "all udp 3.0.0.3:3 (9.0.0.1:2) -> 2.0.0.2:1 (2.0.0.2:2)       SINGLE:NO_TRAFFIC",
                 "all udp 3.0.0.3:3 (9.0.0.2:1) -> 2.0.0.2:1 (2.0.0.2:9)       SINGLE:NO_TRAFFIC",
                 "all udp 3.0.0.3:3 (9.0.0.2:1) -> 2.0.0.2:2       SINGLE:NO_TRAFFIC",
                 "all udp 1.0.0.1:1 (9.0.0.3:1) -> 2.0.0.2:2       SINGLE:NO_TRAFFIC")
    yield states([f"{plain(number)} i={name}" for number, name in ((30, "a"), (200, "b"), (4, "c"), (30, "d"))],
                 "by number, and in their order", *(shown(name=name) for name in "cadb"))
    # the order of protocols comes before that of ends, and that of ends before that of numbers
    yield states([plain(1, 51, inside="1.0.0.1:1"), plain(2, 17, inside="9.0.0.1:1"), plain(9, 17, inside="8.0.0.1:9")],
                 "protocols before ends before numbers", shown(inside="8.0.0.1:9"), shown(inside="9.0.0.1:1"),
                 shown("ah", inside="1.0.0.1:1"))


# Interfaces

HIDDEN = 'a"\\\x80\xe9\xff~'
LONGEST = "n" * 15
HIDDEN_OBJECT = '"a\\u0022\\u005c\\u0080\\u00e9\\u00ff~"'


def object_of_plain(number, interface):
    return (f'{{"number":{number},"interface":{interface},"protocol":17,"direction":"out","wire":{{"outside":'
            '{"address":"2.0.0.2","port":2},"inside":{"address":"3.0.0.3","port":3}},"stack":{"outside":{"address":'
            '"2.0.0.2","port":2},"inside":{"address":"3.0.0.3","port":3}},"rule":null,"translation":null,"maker":'
            '{"state":"SINGLE"},"other":{"state":"NO_TRAFFIC"},'
            f'"made":{number},"deadline":9,"forth":{{"packets":1,"bytes":28}},"back":{{"packets":0,"bytes":0}}}}')


def interface_rows():
    yield states([f"{plain(1)} i=em0", f"{plain(2)} i=-", f"{plain(3)} i=igb1.20", plain(4)], "interfaces",
                 shown(name="em0"), shown(), shown(name="igb1.20"), shown(),
                 objects=(object_of_plain(1, '"em0"'), object_of_plain(2, "null"), object_of_plain(3, '"igb1.20"'),
                          object_of_plain(4, "null")))
    yield states([f"{plain(1)} i={HIDDEN}"], "a name with quotation marks, and bytes that aren't printed",
                 shown(name=HIDDEN), objects=(object_of_plain(1, HIDDEN_OBJECT),))
    yield states([f"{plain(1)} i=--", f"{plain(2)} i=i=em0", f"{plain(3)} i=all"], "names that look like others",
                 shown(name="--"), shown(name="i=em0"), shown(name="all"),
                 objects=(object_of_plain(1, '"--"'), object_of_plain(2, '"i=em0"'), object_of_plain(3, '"all"')))
    yield states([f"{plain(1)} i={LONGEST}"], "a name of 15 bytes", shown(name=LONGEST),
                 objects=(object_of_plain(1, f'"{LONGEST}"'),))


# Limits of numbers

M64, M32 = 18446744073709551615, 4294967295
GREATEST = (f"{M64} 6 in 255.255.255.255:65535,255.255.255.255:65535 0.0.0.0:0,0.0.0.0:0 r={M64} t={M64} "
            f"10/{M32}/{M32}/65535/255 0/0/0/0/0 {M32} {M64} {M64} {M64} {M64} {M64}")
LEAST = "0 0 out 0.0.0.0:0,0.0.0.0:0 0.0.0.0:0,0.0.0.0:0 r=0 t=0 0/0/0/0/- 0/0/0/0/- 0 0 0 0 0 0"
GREATEST_OBJECT = (
    '{"number":18446744073709551615,"interface":null,"protocol":6,"direction":"in","wire":{"outside":{"address":'
    '"255.255.255.255","port":65535},"inside":{"address":"255.255.255.255","port":65535}},"stack":{"outside":'
    '{"address":"0.0.0.0","port":0},"inside":{"address":"0.0.0.0","port":0}},"rule":18446744073709551615,'
    '"translation":18446744073709551615,"maker":{"state":"TIME_WAIT","low":4294967295,"high":4294967295,'
    '"window":65535,"scale":255},"other":{"state":"CLOSED","low":0,"high":0,"window":0,"scale":0},"made":4294967295,'
    '"deadline":18446744073709551615,"forth":{"packets":18446744073709551615,"bytes":18446744073709551615},"back":'
    '{"packets":18446744073709551615,"bytes":18446744073709551615}}')
LEAST_OBJECT = (
    '{"number":0,"interface":null,"protocol":0,"direction":"out","wire":{"outside":{"address":"0.0.0.0","port":0},'
    '"inside":{"address":"0.0.0.0","port":0}},"stack":{"outside":{"address":"0.0.0.0","port":0},"inside":{"address":'
    '"0.0.0.0","port":0}},"rule":0,"translation":0,"maker":{"state":"NO_TRAFFIC"},"other":{"state":"NO_TRAFFIC"},'
    '"made":0,"deadline":0,"forth":{"packets":0,"bytes":0},"back":{"packets":0,"bytes":0}}')


def limit_rows():
    yield states([GREATEST, LEAST], "numbers at their limits",
                 "all 0 0.0.0.0 -> 0.0.0.0       NO_TRAFFIC:NO_TRAFFIC",
                 "all tcp 0.0.0.0 (255.255.255.255:65535) <- 0.0.0.0 (255.255.255.255:65535)       CLOSED:TIME_WAIT",
                 objects=(LEAST_OBJECT, GREATEST_OBJECT))
    yield Row("an empty file", b"", (), ())


# Files that are refused

# what stands in a line once, and what stands there instead, so that it is no state's
WRONG_KEYS = ("198.51.100.7:443;10.0.0.5:40000", "198.51.100.7:443,10.0.0.5:65536", "198.51.100.7:443,10.0.0.5:",
              "198.51.100.7:443,10.0.0.256:40000", "198.51.100.7:443,10.0.5:40000", "198.51.100.7:443,10.0.0.05:40000",
              "198.51.100.7,10.0.0.5:40000", "198.51.100.7:0443,10.0.0.5:40000", "198.51.100.7:443", ",", "",
              "198.51.100.7:443,10.0.0.5:40000,10.0.0.5:40000", "198.51.100.7:443:443,10.0.0.5:40000",
              "198.51.100..7:443,10.0.0.5:40000", "198.51.100.7.7:443,10.0.0.5:40000",
              "198.51.100.7:443,10.0.0.5:40000,")
WRONG_OF_TCP = {
    "7 6": ("07 6", "+7 6", "-7 6", "0x7 6", "18446744073709551616 6", "x 6", " 6", "7 06", "7 256", "7 x", "7 -6",
            "7 17", "7 1", "7 tcp"),
    " out ": (" Out ", " outbound ", " i ", " - ", "  "),
    " out 198.51.100.7:443,10.0.0.5:40000 ": tuple(f" out {key} " for key in WRONG_KEYS),
    "r=0": ("r=", "r=00", "r=0-", "R=0", "r=18446744073709551616", "r=any", "0", "t=0"),
    "t=-": ("t=", "t=--", "t=-1", "t=01", "-", "r=-", "t=18446744073709551616"),
    "2/1000/1002/1000/-": ("11/1000/1002/1000/-", "02/1000/1002/1000/-", "2/4294967296/1002/1000/-",
                           "2/1000/4294967296/1000/-", "2/1000/1002/65536/-", "2/1000/1002/1000/256",
                           "2/1000/1002/1000/", "2/1000/1002/1000", "2/1000/1002/1000/-/-", "2/1000/1002/1000/07",
                           "-/1000/1002/1000/-", "2//1002/1000/-", "2/1000/1002/1000/--"),
    "5 35": ("05 35", "5 035", "4294967296 35", "5 18446744073709551616", "- 35", "5 -"),
    "1 40 0 0": ("01 40 0 0", "1 40 0 00", "1 40 0 18446744073709551616", "1 18446744073709551616 0 0", "1 40 0 -",
                 "1 40 0", "1 40 0 0 0", "1 40 0 0 ", "1 40  0 0", "1 40 0 0 em0", "1 40 0 0 I=em0", "1 40 0 0 i",
                 "1 40 0 0 i=em0 ", "1 40 0 0 i=em 0", "1 40 0 0 i=em0 i=em1", "1 40 0 0  i=em0", "1 40 0 0 i=em0 i=",
                 "1 40 0 0 i=", f"1 40 0 0 i={LONGEST}n", "1 40 0 0 i=a\x01", "1 40 0 0 i=\x1b[m", "1 40 0 0 i=a\x7f",
                 "1 40 0 0\r", "1 40 0 0\t", "1 40 0 0\0", "1 40 0\t0"),
}
WRONG_OF_UDP = {"2/0/0/0/-": ("3/0/0/0/-", "2/1/0/0/-", "2/0/1/0/-", "2/0/0/1/-", "2/0/0/0/0", "2/0/0/0", "2/0/0/0/-/-",
                              "2/00/0/0/-", "02/0/0/0/-", "10/0/0/0/-", "2", "/0/0/0/-", "2/0/0/0/--"),
                " 17 ": (" 1 ", " 017 ", " udp ")}
# both ends of an echo have the code 0
WRONG_OF_ECHO = {"0/0/0/0/- 0": ("1/0/0/0/- 0", "00/0/0/0/- 0", "0/0/0/1/- 0", "0/0/0/0/0 0", "-/0/0/0/- 0",
                                 "0/0/0/- 0"),
                 "0/0/0/0/- 5": ("1/0/0/0/- 5", "0/0/0/0/7 5", "0 5")}
HELD = "43 6 in 203.0.113.100:52000,192.0.2.1:443 203.0.113.100:52000,192.0.2.1:443 r=6 2/9000/9002/1024/- 0/0/1/1/- 0"
OTHER_TEXTS = {"an empty line": "", "a line of standby": HELD, "a verdict": "26 1767261634 in pass rule r=5 t=- s=26",
               "a counter": "total 46 25 6 13 2", "what pfctl prints": TCP_IN_SHOWN, "an object": TCP_IN_OBJECT,
               "a blank": " ", "a blank before": f" {TCP_OUT}", "two lines in one": f"{TCP_OUT} {TCP_OUT}"}
BYTES = (b"\0", b"\0\n", b"\xd4\xc3\xb2\xa1\2\0\4\0", b"\x7fELF\n", b"\xff" * 40 + b"\n", b"\r\n", b"i=\n", b" i=\n")


def refusal(name, octets, line):
    return Row(name, octets, said=f"states line {line}: no state")


def changed(line, wrong):
    """The lines of which a piece is another one."""
    for piece, others in wrong.items():
        before, after = line.split(piece, 1)
        yield from ((f"{other!r} for {piece!r}", f"{before}{other}{after}") for other in others)


def refused_rows():
    good = text_of(TCP_IN, UDP)
    for line, wrong in ((TCP_OUT, WRONG_OF_TCP), (UDP, WRONG_OF_UDP), (ECHO, WRONG_OF_ECHO)):
        for name, other in changed(line, wrong):
            yield refusal(name, good + text_of(other), 3)
    for name, text in OTHER_TEXTS.items():
        yield refusal(name, text_of(text), 1)
        yield refusal(f"{name} behind others", good + text_of(text, *[UDP] * 3), 3)
    for octets in BYTES:
        yield refusal(f"bytes {octets!r}", octets, 1)
    yield refusal("no newline at the end", good[:-1], 2)
    yield refusal("one line without a newline", text_of(UDP)[:-1], 1)
    yield refusal("a part of a line at the end", good + b"4", 3)
    yield refusal("the first of two", text_of(UDP, HELD, TCP_OUT, ""), 2)
    yield refusal("a line far behind", text_of(UDP) * 1000 + b"\n", 1001)


def rows():
    yield from tcp_rows()
    yield from other_rows()
    yield from name_rows()
    yield from order_rows()
    yield from interface_rows()
    yield from limit_rows()
    yield from refused_rows()
