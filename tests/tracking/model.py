"""A model of states and of what packets do to them: a second implementation of docs/FORMATS.md, section "What becomes of a
state", written from the text alone.

A conversation is what its packets share, and its packets; `lines` says for each of them what it makes of the state.
"""

from dataclasses import dataclass, replace
from typing import NamedTuple

TCP, UDP, ICMP = 6, 17, 1
FIN, SYN, RST, ACK = 1, 2, 4, 16
# the seconds of the timeouts by their codes where nothing is set
DEFAULT_SECONDS = (120, 30, 86400, 900, 45, 90, 60, 30, 60, 20, 10, 60, 30, 60)
(TCP_FIRST, TCP_OPENING, TCP_ESTABLISHED, TCP_CLOSING, TCP_FINWAIT, TCP_CLOSED, UDP_FIRST, UDP_SINGLE, UDP_MULTIPLE,
 ICMP_FIRST, ICMP_ERROR, OTHER_FIRST, OTHER_SINGLE, OTHER_MULTIPLE) = range(14)
CLOSED, SYN_SENT, ESTABLISHED, CLOSING, FIN_WAIT_2, TIME_WAIT = 0, 2, 4, 7, 9, 10
SILENT, SINGLE, MULTIPLE = 0, 1, 2
ACKNOWLEDGED_REACH = 67035


class Packet(NamedTuple):
    """A packet: `kind` is tcp, udp, echo, error, icmp, fragment or other, and what stands behind it is TCP's."""
    direction: str
    clock: int
    length: int
    kind: str
    sequence: int = 0
    acknowledgement: int = 0
    flags: int = 0
    window: int = 0
    scale: int | None = None
    payload: int = 0

    def offer(self):
        """The shift of windows that it offers, if it does."""
        return self.scale if self.flags & SYN else None

    def end(self):
        return around(self.sequence + self.payload + bool(self.flags & SYN) + bool(self.flags & FIN))


class Conversation(NamedTuple):
    number: int
    protocol: int
    wire: str
    stack: str
    filter_rule: int | None
    translation_rule: int | None
    seconds: tuple
    packets: list


@dataclass(frozen=True)
class Peer:
    code: int
    low: int = 0
    high: int = 0
    window: int = 0
    offer: int | None = None

    def line(self):
        return f"{self.code}/{self.low}/{self.high}/{self.window}/{dashed(self.offer)}"


@dataclass(frozen=True)
class State:
    direction: str
    kind: str
    maker: Peer
    other: Peer
    made: int
    deadline: int
    # packets and bytes the maker's way and the other way
    counts: tuple

    def line(self, conversation):
        first, second, *_ = conversation
        rules = f"r={dashed(conversation.filter_rule)} t={dashed(conversation.translation_rule)}"
        counts = " ".join(map(str, self.counts))
        return (f"{first} {second} {self.direction} {conversation.wire} {conversation.stack} {rules} "
                f"{self.maker.line()} {self.other.line()} {self.made} {self.deadline} {counts}")


def dashed(number):
    return "-" if number is None else number


def around(number):
    return number % 2**32


def is_at_least(number, other):
    return around(number - other) < 2**31


def shift_of(offer):
    """The shift that an offer counts as."""
    return min(offer, 14)


def divided(window, offer):
    """A window divided by 2^shift, rounded up."""
    return -(-window // 2**shift_of(offer))


# What the first packet makes

def first_tcp_peers(packet):
    offer = packet.offer()
    window = packet.window if offer is None else divided(packet.window, offer)
    maker = Peer(SYN_SENT, packet.sequence, around(packet.end() + 1), max(window, 1), offer)
    return maker, Peer(CLOSED, 0, 1, 1)


def first(packet, seconds):
    """The state that a packet makes."""
    if packet.kind == "tcp":
        (maker, other), timeout = first_tcp_peers(packet), TCP_FIRST
    elif packet.kind == "echo":
        maker, other, timeout = Peer(0), Peer(0), ICMP_FIRST
    else:
        maker, other, timeout = Peer(SINGLE), Peer(SILENT), UDP_FIRST if packet.kind == "udp" else OTHER_FIRST
    return State(packet.direction, packet.kind, maker, other, packet.clock, packet.clock + seconds[timeout],
                 (1, packet.length, 0, 0))


# What later packets do. Each answers the sender, the other end and the timeout; or None where the packet doesn't fit; or
# REMOVED.

REMOVED = "removed"


def datagram(sender, other, single, multiple):
    if sender.code == SILENT:
        sender = replace(sender, code=SINGLE)
    if other.code == SINGLE:
        other = replace(other, code=MULTIPLE)
    return sender, other, multiple if sender.code == other.code == MULTIPLE else single


class Segment:
    """A TCP packet that comes to a state, through the steps of the text."""

    def __init__(self, sender, other, packet):
        self.sender = sender
        self.other = other
        self.packet = packet
        self.window = packet.window
        self.sequence = packet.sequence
        self.end = packet.end()
        self.data_end = around(self.end - bool(packet.flags & FIN))
        self.sender_shift = self.other_shift = 0

    def has(self, flag):
        return bool(self.packet.flags & flag)

    def take_shifts(self):
        if self.sender.offer is not None and self.other.offer is not None:
            self.sender_shift, self.other_shift = shift_of(self.sender.offer), shift_of(self.other.offer)

    def agree_on_shifts(self):
        """A first SYN of the sender's that answers the offer of the other end."""
        offer = self.packet.offer()
        if offer is None:
            window = min(self.other.window << shift_of(self.other.offer), 65535)
            self.other = replace(self.other, window=window, offer=None)
        else:
            self.sender = replace(self.sender, offer=offer)
            self.window = divided(self.window, offer)
            self.take_shifts()

    def open_sender(self):
        """The sender's first packet."""
        if self.has(SYN) and self.other.offer is not None:
            self.agree_on_shifts()
        high = self.sender.high
        reach = around(self.end + max(self.other.window << self.other_shift, 1))
        if high == 1 or is_at_least(reach, high):
            high = reach
        self.sender = replace(self.sender, code=SYN_SENT, low=self.packet.sequence, high=high,
                              window=max(self.sender.window, self.window))

    def acknowledged(self):
        number = self.packet.acknowledgement
        if not self.has(ACK) or self.has(RST) and number == 0 or self.other.code < SYN_SENT:
            return self.other.low
        return number

    def fits(self, acknowledged):
        """Whether it is accepted."""
        before = around(self.other.low - acknowledged)
        behind = around(acknowledged - self.other.low)
        lowest = around(self.sender.low - (self.other.window << self.other_shift))
        return (is_at_least(self.sender.high, self.data_end) and is_at_least(self.sequence, lowest)
                and (before <= ACKNOWLEDGED_REACH << self.sender_shift or behind <= ACKNOWLEDGED_REACH))

    def move(self, acknowledged):
        """The numbers of both ends behind it."""
        low = self.end if is_at_least(self.end, self.sender.low) else self.sender.low
        self.sender = replace(self.sender, window=max(self.sender.window, self.window), low=low)
        window = self.window << self.sender_shift
        if is_at_least(acknowledged + window, self.other.high):
            self.other = replace(self.other, high=around(acknowledged + max(window, 1)))

    def raise_ends(self):
        code, other_code = self.sender.code, self.other.code
        if self.has(SYN):
            code = max(code, SYN_SENT)
        if self.has(FIN):
            code = max(code, CLOSING)
        if self.has(ACK):
            other_code = {SYN_SENT: ESTABLISHED, CLOSING: FIN_WAIT_2}.get(other_code, other_code)
        if self.has(RST):
            code = other_code = TIME_WAIT
        self.sender = replace(self.sender, code=code)
        self.other = replace(self.other, code=other_code)

    def follow(self):
        ended = min(self.sender.code, self.other.code) >= FIN_WAIT_2
        if ended and self.has(SYN) and not self.has(ACK):
            return REMOVED
        if not self.has(SYN):
            self.take_shifts()
        if self.sender.code < SYN_SENT:
            self.open_sender()
        acknowledged = self.acknowledged()
        if self.end == self.sequence:
            self.sequence = self.data_end = self.end = self.sender.low
        if not self.fits(acknowledged):
            return None
        self.move(acknowledged)
        self.raise_ends()
        return self.sender, self.other, tcp_timeout(self.sender.code, self.other.code)


def tcp_timeout(first_code, second_code):
    lesser, greater = sorted((first_code, second_code))
    if lesser >= FIN_WAIT_2:
        return TCP_CLOSED
    if lesser >= CLOSING:
        return TCP_FINWAIT
    if lesser < ESTABLISHED:
        return TCP_OPENING
    return TCP_CLOSING if greater >= CLOSING else TCP_ESTABLISHED


def track(kind, sender, other, packet):
    if packet.kind != kind:
        return None
    if kind == "tcp":
        return Segment(sender, other, packet).follow()
    if kind == "echo":
        return sender, other, ICMP_ERROR
    if kind == "udp":
        return datagram(sender, other, UDP_SINGLE, UDP_MULTIPLE)
    return datagram(sender, other, OTHER_SINGLE, OTHER_MULTIPLE)


def touch(state, packet, seconds):
    """The state behind a packet, or None where the packet doesn't fit, or REMOVED."""
    is_forth = packet.direction == state.direction
    ends = (state.maker, state.other) if is_forth else (state.other, state.maker)
    done = track(state.kind, *ends, packet)
    if done is None or done == REMOVED:
        return done
    sender, other, timeout = done
    maker, other = (sender, other) if is_forth else (other, sender)
    counts = list(state.counts)
    place = 0 if is_forth else 2
    counts[place] += 1
    counts[place + 1] += packet.length
    return replace(state, maker=maker, other=other, deadline=packet.clock + seconds[timeout], counts=tuple(counts))


def lines(conversation):
    """What each packet of a conversation does, a line for each."""
    state = None
    for packet in conversation.packets:
        if state is None:
            state = first(packet, conversation.seconds)
            yield state.line(conversation)
            continue
        behind = touch(state, packet, conversation.seconds)
        if behind is None:
            yield "mismatch"
        elif behind == REMOVED:
            state = None
            yield "removed"
        else:
            state = behind
            yield "touched " + state.line(conversation)
