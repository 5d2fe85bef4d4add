"""Random conversations, of values near the bounds: what a packet holds is drawn by what the model says of the ends before
it."""

import random

from tracking import model
from tracking.model import ACK, ACKNOWLEDGED_REACH, FIN, ICMP, RST, SYN, TCP, UDP, Conversation, Packet, around

SEED = 20261123
FLAGS = (SYN, SYN | ACK, ACK, ACK, ACK, ACK | 8, FIN | ACK, FIN | ACK, FIN, RST, RST | ACK, 0, SYN | FIN, SYN | FIN | ACK,
         SYN | RST, FIN | RST, 255)
STARTS = (0, 1, 1000, 2**31 - 1000, 2**31, 2**32 - 67036, 2**32 - 1000, 2**32 - 1)
WINDOWS = (0, 1, 2, 100, 1000, 32768, 65535)
SCALES = (0, 1, 2, 7, 14, 15, 254)
PAYLOADS = (0, 0, 1, 100, 1460, 65495)
CLOSE = (-1, 0, 0, 0, 1)
# the protocols and the kinds of packets of their states
KINDS = ((TCP, "tcp"),) * 8 + ((UDP, "udp"), (47, "other"), (ICMP, "echo"))
ALL_KINDS = ("tcp", "udp", "echo", "error", "icmp", "fragment", "other")
KEYS = ("198.51.100.7:80,10.0.0.5:1000", "198.51.100.7:53,192.0.2.1:50001", "0.0.0.0:0,255.255.255.255:65535")


def sequence_of(draw, sender, other, shift):
    """A sequence number, by the ends before the packet."""
    place = draw.choice((sender.low, sender.low, sender.low, sender.low - (other.window << shift), sender.high,
                         sender.low + 2**31, other.low))
    return around(place + draw.choice(CLOSE))


def acknowledgement_of(draw, sender, other, shift):
    reach = draw.choice((0, 0, 0, 0, ACKNOWLEDGED_REACH, -ACKNOWLEDGED_REACH, -(ACKNOWLEDGED_REACH << shift), 2**31))
    place = draw.choice((other.low, other.low, other.low, other.low, other.high, sender.low))
    return draw.choice((around(place + reach + draw.choice(CLOSE)),) * 9 + (0,))


def payload_of(draw, sender, sequence):
    """A length of data; often one that ends where the sender's last byte may be."""
    left = around(sender.high - sequence) + draw.choice(CLOSE)
    if 0 <= left < 65536 and draw.random() < 0.3:
        return left
    return draw.choice(PAYLOADS)


def segment(draw, state, packet):
    """A TCP packet with the direction and the clock of another."""
    sender, other = (state.maker, state.other) if packet.direction == state.direction else (state.other, state.maker)
    scaled = sender.offer is not None and other.offer is not None
    shift, other_shift = (min(sender.offer, 14), min(other.offer, 14)) if scaled else (0, 0)
    flags = draw.choice(FLAGS)
    sequence = sequence_of(draw, sender, other, other_shift)
    offered = flags & SYN and draw.random() < 0.6
    return packet._replace(
        sequence=sequence, acknowledgement=acknowledgement_of(draw, sender, other, shift),
        flags=flags, window=draw.choice(WINDOWS), scale=draw.choice(SCALES) if offered else None,
        payload=payload_of(draw, sender, sequence))


def later_packet(draw, state, clock):
    kind = state.kind if draw.random() < 0.97 else draw.choice(ALL_KINDS)
    packet = Packet(draw.choice(("in", "out")), clock, draw.choice((20, 40, 1500, 65535)), kind)
    return segment(draw, state, packet) if kind == state.kind == "tcp" else packet


def first_packet(draw, kind, clock):
    packet = Packet(draw.choice(("in", "out")), clock, draw.choice((20, 40, 1500, 65535)), kind)
    if kind != "tcp":
        return packet
    flags = draw.choice(FLAGS + (SYN,) * len(FLAGS))
    offered = flags & SYN and draw.random() < 0.6
    return packet._replace(sequence=draw.choice(STARTS), acknowledgement=draw.choice(STARTS), flags=flags,
                           window=draw.choice(WINDOWS), scale=draw.choice(SCALES) if offered else None,
                           payload=draw.choice((0, 0, 0, 1, 1460)))


def packets(draw, kind, seconds):
    """The packets of a conversation."""
    clock = draw.choice((0, 1000, 2**32 - 100))
    state = None
    for _ in range(draw.randint(6, 14)):
        clock = min(clock + draw.choice((0, 0, 1, 30)), 2**32 - 1)
        if state is None:
            packet = first_packet(draw, kind, clock)
            state = model.first(packet, seconds)
        else:
            packet = later_packet(draw, state, clock)
            behind = model.touch(state, packet, seconds)
            if behind is not None:
                state = None if behind == model.REMOVED else behind
        yield packet


def rule(draw):
    return draw.choice((None, 0, 1, 2**32 - 1))


def conversation(draw):
    protocol, kind = draw.choice(KINDS)
    # all differ, so that a deadline tells which of them it is of
    seconds = tuple(draw.sample(range(100000), 13) + [2**32 - 1])
    number = draw.choice((1, 2, 2**32, 2**64 - 1))
    return Conversation(number, protocol, draw.choice(KEYS), draw.choice(KEYS), rule(draw), rule(draw), seconds,
                        list(packets(draw, kind, seconds)))


def conversations(count):
    """`count` conversations, the same in every run."""
    draw = random.Random(SEED)
    return [conversation(draw) for _ in range(count)]
