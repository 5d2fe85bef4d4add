"""Three network namespaces: a host inside, a gateway with two interfaces, and a host outside.

    inside 10.0.0.2 -- em1 10.0.0.1, gateway, 192.0.2.1 em0 -- 192.0.2.10 to 192.0.2.13 outside

The gateway translates and filters by nftables. The namespaces are gone behind a comparison, also behind one that fails.
"""

import os
import shutil
import subprocess
from contextlib import contextmanager
from pathlib import Path
from typing import NamedTuple

HERE = Path(__file__).resolve().parent
# commands, and the packages of Debian that have them
NEEDED = {"ip": "iproute2", "nft": "nftables", "ethtool": "ethtool", "tcpdump": "tcpdump", "ping": "iputils-ping"}

OUTER, INNER = "em0", "em1"
OUTER_ADDRESS, INNER_ADDRESS, INSIDE = "192.0.2.1", "10.0.0.1", "10.0.0.2"
# the host outside has one address for connections, and one for each ping
OUTSIDE, *OUTSIDE_PINGS = (f"192.0.2.{number}" for number in range(10, 14))
# of the gateway's interfaces
STATIONS = {OUTER: "02:00:00:00:00:01", INNER: "02:00:00:00:00:02"}
# what makes a network card of a veth that shows packets as a cable carries them
OFFLOADS = ("tx", "rx", "sg", "tso", "gso", "gro")
# no port of the house is one that the gateway translates to
HOUSE_PORTS = "32768 49999"


class LeftOut(Exception):
    """Why there can be no such network here."""

    def __str__(self):
        """In one line."""
        return " ".join(super().__str__().split())


class Network(NamedTuple):
    """The names of the namespaces."""
    inside: str
    gateway: str
    outside: str


def within(namespace, *words):
    """The command that runs another one in a namespace."""
    return ["ip", "netns", "exec", namespace, *words]


def set_up(*words):
    """Runs a command of the setup; where it fails, there can be no such network."""
    ran = subprocess.run(words, stdin=subprocess.DEVNULL, stdout=subprocess.DEVNULL, stderr=subprocess.PIPE,
                         check=False)
    if ran.returncode:
        raise LeftOut(f"{' '.join(words)}: {ran.stderr.decode(errors='replace') or ran.returncode}")


def check_needed():
    """The comparison is left out if something is missing that the network needs."""
    if os.geteuid():
        raise LeftOut("not root")
    if missing := [package for command, package in NEEDED.items() if not shutil.which(command)]:
        raise LeftOut(f"commands of these packages are missing: {' '.join(missing)}")


def set_system(namespace, name, value):
    """Sets /proc/sys/net/NAME of a namespace to a value, if it is there."""
    set_up(*within(namespace, "sh", "-c", f"test ! -e /proc/sys/net/{name} || echo '{value}' >/proc/sys/net/{name}"))


def add_namespace(name):
    """A namespace without IPv6."""
    set_up("ip", "netns", "add", name)
    for devices in ("all", "default"):
        set_system(name, f"ipv6/conf/{devices}/disable_ipv6", 1)
    set_up("ip", "-n", name, "link", "set", "lo", "up")


def add_cable(gateway, interface, address, host, *host_addresses):
    """A cable between an interface of the gateway, with an address of 24 bits, and a host."""
    set_up("ip", "link", "add", interface, "netns", gateway, "address", STATIONS[interface], "type", "veth",
           "peer", "name", "eth0", "netns", host)
    for namespace, device, addresses in ((gateway, interface, [address]), (host, "eth0", host_addresses)):
        set_up(*within(namespace, "ethtool", "-K", device, *(word for each in OFFLOADS for word in (each, "off"))))
        for each in addresses:
            set_up("ip", "-n", namespace, "address", "add", f"{each}/24", "dev", device)
        set_up("ip", "-n", namespace, "link", "set", device, "up")
    set_up("ip", "-n", host, "route", "add", "default", "via", address)


def build(network):
    for name in network:
        add_namespace(name)
    add_cable(network.gateway, OUTER, OUTER_ADDRESS, network.outside, OUTSIDE, *OUTSIDE_PINGS)
    add_cable(network.gateway, INNER, INNER_ADDRESS, network.inside, INSIDE)
    set_system(network.inside, "ipv4/ip_local_port_range", HOUSE_PORTS)
    set_up(*within(network.gateway, "nft", "-f", str(HERE / "gateway.nft")))
    set_system(network.gateway, "ipv4/ip_forward", 1)


@contextmanager
def gateway():
    """The network, which is gone behind this."""
    check_needed()
    network = Network(*(f"pfr{os.getpid()}-{part}" for part in Network._fields))
    try:
        build(network)
        yield network
    finally:
        for name in network:
            subprocess.run(["ip", "netns", "delete", name], stderr=subprocess.DEVNULL, check=False)
