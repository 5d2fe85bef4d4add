"""What the command `states` answers to a file of states that a run left: a second implementation, written from
docs/FORMATS.md, section "States", and from what pfctl(8) prints of a state.

- Each line has the words of that section, with single blanks between them and a newline at the end. A number has no
  more digits than it needs, and fits into its bits. The first line that isn't such a line is refused by its number.
- The states come by protocol, by the end inside behind the firewall, by the end outside on the wire, and by number. An
  end comes by its address, and then by its port.
- pfctl shows a state from the side to which its first packet went: on the wire if that went out, behind the firewall if
  it came in. The other side stands in brackets behind an end that is another one there.
"""

import re
from typing import NamedTuple

from runs.model import Outcome, refused

ICMP, TCP = 1, 6
NUMBER = re.compile(rb"0|[1-9][0-9]*")
# more than the digits of any number that fits
MOST_DIGITS = 20
WORDS = 15
TCP_NAMES = ("CLOSED", "LISTEN", "SYN_SENT", "SYN_RCVD", "ESTABLISHED", "CLOSE_WAIT", "FIN_WAIT_1", "CLOSING",
             "LAST_ACK", "FIN_WAIT_2", "TIME_WAIT")
OTHER_NAMES = ("NO_TRAFFIC", "SINGLE", "MULTIPLE")
# of an interface's name, and what it hasn't
MOST_BYTES, CONTROLS = 15, {*range(32), 127}
# what an end has behind its code that isn't one of TCP
NO_SEQUENCES = b"/0/0/0/-"
PROTOCOLS = {1: "icmp", 2: "igmp", 6: "tcp", 17: "udp", 47: "gre", 50: "esp", 51: "ah", 89: "ospf", 103: "pim",
             112: "carp", 132: "sctp"}


class NoState(Exception):
    """A line isn't that of a state."""


class End(NamedTuple):
    """The address is a number, so that ends compare as they are ordered."""
    address: int
    port: int


class Key(NamedTuple):
    """A connection on one side of the firewall."""
    outside: End
    inside: End


class Peer(NamedTuple):
    """What was seen of an end. One that isn't of TCP has no sequences, and one of ICMP no code either."""
    code: int | None = None
    low: int | None = None
    high: int | None = None
    window: int | None = None
    offer: int | None = None


class State(NamedTuple):
    """The name is None if the line names no interface. `forth` and `back` are packets and bytes."""
    number: int
    protocol: int
    direction: str
    wire: Key
    stack: Key
    rule: int | None
    translation: int | None
    maker: Peer
    other: Peer
    made: int
    deadline: int
    forth: tuple
    back: tuple
    name: bytes | None


# Lines

def number_in(word, bits):
    if len(word) > MOST_DIGITS or not NUMBER.fullmatch(word) or int(word) >> bits:
        raise NoState
    return int(word)


def number_or_none(word, bits):
    return None if word == b"-" else number_in(word, bits)


def parts_of(word, sign, count):
    """The parts of a word between these signs, of which there have to be `count`."""
    parts = word.split(sign)
    if len(parts) != count:
        raise NoState
    return parts


def end_in(word):
    address, port = parts_of(word, b":", 2)
    octets = bytes(number_in(part, 8) for part in parts_of(address, b".", 4))
    return End(int.from_bytes(octets), number_in(port, 16))


def key_in(word):
    return Key(*map(end_in, parts_of(word, b",", 2)))


def rule_in(word, mark):
    if not word.startswith(mark):
        raise NoState
    return number_or_none(word.removeprefix(mark), 64)


def code_in(word, names):
    code = number_in(word, 8)
    if code >= len(names):
        raise NoState
    return code


def peer_in(word, protocol):
    if protocol == TCP:
        code, low, high, window, offer = parts_of(word, b"/", 5)
        return Peer(code_in(code, TCP_NAMES), number_in(low, 32), number_in(high, 32), number_in(window, 16),
                    number_or_none(offer, 8))
    if not word.endswith(NO_SEQUENCES):
        raise NoState
    code = word.removesuffix(NO_SEQUENCES)
    if protocol != ICMP:
        return Peer(code_in(code, OTHER_NAMES))
    if code != b"0":
        raise NoState
    return Peer()


def direction_in(word):
    if word not in (b"in", b"out"):
        raise NoState
    return word.decode()


def name_in(words):
    """The name in the words that are left of a line, of which there is one at most."""
    if not words:
        return None
    word, *more = words
    name = word.removeprefix(b"i=")
    if more or not word.startswith(b"i=") or not 1 <= len(name) <= MOST_BYTES or CONTROLS & {*name}:
        raise NoState
    return name


def state_in(line):
    """The state of a line without its newline."""
    words = line.split(b" ")
    if len(words) < WORDS:
        raise NoState
    number, protocol, direction, wire, stack, rule, translation, maker, other, made, deadline, *counts = words[:WORDS]
    protocol = number_in(protocol, 8)
    forth_packets, forth_bytes, back_packets, back_bytes = (number_in(word, 64) for word in counts)
    return State(number_in(number, 64), protocol, direction_in(direction), key_in(wire), key_in(stack),
                 rule_in(rule, b"r="), rule_in(translation, b"t="), peer_in(maker, protocol), peer_in(other, protocol),
                 number_in(made, 32), number_in(deadline, 64), (forth_packets, forth_bytes), (back_packets, back_bytes),
                 name_in(words[WORDS:]))


def states_in(octets):
    """The states of a file in the order of its lines. NoState says the number of the first line that has none."""
    *lines, rest = octets.split(b"\n")
    states = []
    for number, line in enumerate(lines, 1):
        try:
            states.append(state_in(line))
        except NoState:
            raise NoState(number) from None
    if rest:
        raise NoState(len(lines) + 1)
    return states


def order_of(state):
    return state.protocol, state.stack.inside, state.wire.outside, state.number


# What is printed

def dotted(address):
    return ".".join(map(str, address.to_bytes(4)))


def host(end):
    return f"{dotted(end.address)}:{end.port}" if end.port else dotted(end.address)


def on_both_sides(near, far):
    return host(near) if near == far else f"{host(near)} ({host(far)})"


def as_compared(state, near, far):
    """The far side as pfctl compares it with the near one. The identifier of an echo stands at both ends, and pfctl
    shows once that it is translated: the end outside has that of the near side if the first packet went out, and else
    the end inside."""
    if state.protocol != ICMP:
        return far
    name = "outside" if state.direction == "out" else "inside"
    return far._replace(**{name: getattr(far, name)._replace(port=getattr(near, name).port)})


def level(state, peer):
    """How far an end has come. pfctl prints that of ICMP as a number, which stays 0."""
    if state.protocol == ICMP:
        return "0"
    return (TCP_NAMES if state.protocol == TCP else OTHER_NAMES)[peer.code]


def interface_of(state):
    """The name of the interface to which a state is bound, or None."""
    return None if state.name in (None, b"-") else state.name


def pfctl_line(state):
    """As pfctl prints it, with the newline."""
    near, far, arrow, first, second = state.wire, state.stack, "->", state.maker, state.other
    if state.direction == "in":
        near, far, arrow, first, second = far, near, "<-", second, first
    far = as_compared(state, near, far)
    protocol = PROTOCOLS.get(state.protocol, state.protocol)
    ends = f"{on_both_sides(near.inside, far.inside)} {arrow} {on_both_sides(near.outside, far.outside)}"
    name = b"all" if interface_of(state) is None else interface_of(state)
    return name + f" {protocol} {ends}       {level(state, first)}:{level(state, second)}\n".encode()


def object_of_end(end):
    return {"address": dotted(end.address), "port": end.port}


def object_of_key(key):
    return {"outside": object_of_end(key.outside), "inside": object_of_end(key.inside)}


def object_of_peer(state, peer):
    if state.protocol == ICMP:
        return None
    name = {"state": level(state, peer)}
    if state.protocol != TCP:
        return name
    return {**name, "low": peer.low, "high": peer.high, "window": peer.window, "scale": peer.offer}


def object_of(state):
    """What the object of JSON has, by its names and in their order. Each byte of a name is a character."""
    name = interface_of(state)
    interface = None if name is None else name.decode("latin-1")
    forth, back = (dict(zip(("packets", "bytes"), counts)) for counts in (state.forth, state.back))
    return {"number": state.number, "interface": interface, "protocol": state.protocol, "direction": state.direction,
            "wire": object_of_key(state.wire), "stack": object_of_key(state.stack), "rule": state.rule,
            "translation": state.translation, "maker": object_of_peer(state, state.maker),
            "other": object_of_peer(state, state.other), "made": state.made, "deadline": state.deadline,
            "forth": forth, "back": back}


def spelled(value):
    """A value of JSON as it is printed: without blanks, and with all but printed ASCII escaped."""
    if isinstance(value, dict):
        return "{" + ",".join(f'"{name}":{spelled(each)}' for name, each in value.items()) + "}"
    if isinstance(value, list):
        return "[" + ",".join(map(spelled, value)) + "]"
    if isinstance(value, str):
        return '"' + "".join(letter if " " <= letter <= "~" and letter not in '"\\' else f"\\u{ord(letter):04x}"
                             for letter in value) + '"'
    if value is None or isinstance(value, bool):
        return {None: "null", True: "true", False: "false"}[value]
    return str(value)


def json_line(state):
    return f"{spelled(object_of(state))}\n".encode()


def answer(octets, as_json):
    """What the command leaves to which a file of these bytes is given."""
    try:
        states = sorted(states_in(octets), key=order_of)
    except NoState as fault:
        return refused(f"states line {fault}: no state")
    return Outcome(b"".join(map(json_line if as_json else pfctl_line, states)), b"", 0)
