"""The conversations of the hosts: who calls whom, what comes of it, and where the gateway sees them.

Each one has an end of its own, an address and a port that no translation changes. So every packet tells its
conversation, on both interfaces.
"""

import subprocess
import sys
from contextlib import ExitStack, contextmanager
from pathlib import Path
from typing import NamedTuple

from captures.frames import ICMP, TCP, UDP
from gateway.network import INNER, INNER_ADDRESS, INSIDE, OUTER, OUTER_ADDRESS, OUTSIDE, OUTSIDE_PINGS, within

HOST = Path(__file__).resolve().parent / "host.py"
ANSWERED, REFUSED, SILENCE = "answered", "refused", "silence"
# seconds for an answer, where other comparisons may run at the same time, and where none will come
PATIENCE, SHORT_PATIENCE = 10, 0.4
PINGS = 2
PROTOCOLS = {"tcp": TCP, "greeting": TCP, "udp": UDP, "ping": ICMP}
# the ports on which something listens, by the part of the network
LISTENERS = {"inside": (("tcp", 80), ("udp", 80)),
             "gateway": (("tcp", 22),),
             "outside": (("tcp", 7001), ("tcp", 7002), ("tcp", 7003), ("greeting", 7004), ("udp", 7006), ("udp", 7007),
                         ("tcp", 7009), ("udp", 7010), ("tcp", 25), ("udp", 7999))}


class Conversation(NamedTuple):
    """A call of a part of the network, with its end, an address and a port; a ping has port 0. The packets come to the
    interfaces in this order, and at the first one they are blocked if there is nothing but silence. On em0 a rule of
    translation is asked, and `rdr` names the one that lets them in."""
    caller: str
    kind: str
    address: str
    port: int
    own_port: int
    size: int
    comes_to: str
    end: tuple
    interfaces: tuple
    rdr: int | None = None

    def name(self):
        return f"{self.kind} of {self.size} bytes from {self.caller} to {self.address}:{self.port}"

    def mark(self):
        """What tells it in a packet: the protocol, and an end."""
        return (PROTOCOLS[self.kind], *self.end)

    def is_blocked(self):
        return self.comes_to == SILENCE


def outward(kind, port, size, comes_to=ANSWERED):
    """From inside to the host outside, on a port of its own there. What the gateway refuses is refused on em1."""
    return Conversation("inside", kind, OUTSIDE, port, 40000 + port % 1000, size, comes_to, (OUTSIDE, port),
                        (INNER,) if comes_to == SILENCE else (INNER, OUTER))


def inward(kind, port, own_port, size, comes_to=ANSWERED, address=OUTER_ADDRESS):
    """From outside, on a port of its own there, to the gateway's address, some ports of which are redirected."""
    is_redirected = comes_to != SILENCE
    return Conversation("outside", kind, address, port, own_port, size, comes_to, (OUTSIDE, own_port),
                        (OUTER, INNER) if is_redirected else (OUTER,),
                        {"tcp": 1, "udp": 2}[kind] if is_redirected else None)


def ping(caller, address, end, *interfaces):
    return Conversation(caller, "ping", address, 0, 0, 56, ANSWERED, (end, 0), interfaces)


CONVERSATIONS = (
    # connections of the house; nobody listens on port 7005, and the gateway refuses port 25
    outward("tcp", 7001, 1), outward("tcp", 7002, 5000), outward("tcp", 7003, 200000), outward("greeting", 7004, 0),
    outward("tcp", 7005, 1, REFUSED), outward("tcp", 25, 1, SILENCE),
    # its datagrams; the third one is answered by an ICMP error
    outward("udp", 7006, 100), outward("udp", 7007, 1400), outward("udp", 7008, 10, REFUSED),
    # what comes by `rdr`: port 80 is served, 81 isn't
    inward("tcp", 8080, 6001, 1), inward("tcp", 8080, 6002, 50000), inward("tcp", 8081, 6003, 1, REFUSED),
    inward("udp", 8080, 6004, 100), inward("udp", 8081, 6005, 10, REFUSED),
    # what the gateway refuses: a service for the house alone, one that isn't there, and a host of the house
    inward("tcp", 22, 6006, 1, SILENCE), inward("udp", 161, 6007, 40, SILENCE),
    inward("tcp", 22, 6008, 1, SILENCE, INSIDE),
    # the gateway itself
    Conversation("gateway", "tcp", OUTSIDE, 7009, 40901, 3000, ANSWERED, (OUTSIDE, 7009), (OUTER,)),
    Conversation("gateway", "udp", OUTSIDE, 7010, 40902, 100, ANSWERED, (OUTSIDE, 7010), (OUTER,)),
    Conversation("inside", "tcp", INNER_ADDRESS, 22, 40903, 100, ANSWERED, (INNER_ADDRESS, 22), (INNER,)),
    ping("inside", OUTSIDE_PINGS[0], OUTSIDE_PINGS[0], INNER, OUTER),
    ping("outside", OUTER_ADDRESS, OUTSIDE_PINGS[1], OUTER),
    ping("gateway", OUTSIDE_PINGS[2], OUTSIDE_PINGS[2], OUTER),
    ping("inside", INNER_ADDRESS, INNER_ADDRESS, INNER),
)
# behind all others; where the captures have its answer, they have all
LAST = outward("udp", 7999, 20)
ALL = (*CONVERSATIONS, LAST)


class Hosts:
    """The processes that listen and call, one in each namespace."""

    def __init__(self, network, processes):
        self.network = network
        self.processes = processes

    def told(self, part, *words):
        """What the process of a part of the network answers to a line."""
        process = self.processes[part]
        print(*words, file=process.stdin, flush=True)
        return process.stdout.readline().strip()

    def listen(self):
        for part, listeners in LISTENERS.items():
            for kind, port in listeners:
                if (answer := self.told(part, "listen", kind, port)) != "listening":
                    raise SystemExit(f"{part} doesn't listen on {kind} {port}: {answer}")

    def held(self, conversation):
        """What comes of a conversation."""
        if conversation.kind == "ping":
            return self.pinged(conversation)
        patience = SHORT_PATIENCE if conversation.is_blocked() else PATIENCE
        return self.told(conversation.caller, "call", conversation.kind, conversation.address, conversation.port,
                         conversation.own_port, conversation.size, patience)

    def pinged(self, conversation):
        namespace = getattr(self.network, conversation.caller)
        source = ["-I", conversation.end[0]] if conversation.caller == "outside" else []
        words = ["ping", "-n", "-q", "-c", str(PINGS), "-i", "0.2", "-W", str(PATIENCE), *source, conversation.address]
        ran = subprocess.run(within(namespace, *words), stdin=subprocess.DEVNULL, stdout=subprocess.PIPE,
                             stderr=subprocess.STDOUT, check=False)
        return SILENCE if ran.returncode else ANSWERED


@contextmanager
def hosts(network):
    """Hosts that listen. They are gone behind this."""
    with ExitStack() as stack:
        processes = {}
        for part, namespace in network._asdict().items():
            words = within(namespace, sys.executable, "-B", str(HOST))
            process = stack.enter_context(
                subprocess.Popen(words, stdin=subprocess.PIPE, stdout=subprocess.PIPE, text=True))
            # before it is waited for
            stack.callback(process.kill)
            processes[part] = process
        found = Hosts(network, processes)
        found.listen()
        yield found
