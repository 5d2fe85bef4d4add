"""What a text can't say: addresses of interfaces and hosts, groups, ports of services, and what tables' files hold."""

import ipaddress
import re
from typing import NamedTuple

from adapt import names

INTERFACE, ADDRESS = "em0", "192.0.2.1/24"
FOUR = re.compile(rb"[0-9]+\.[0-9]+\.[0-9]+\.[0-9]+")
PORT = re.compile(rb"([0-9]+)/(?:tcp|udp)")


class Surroundings(NamedTuple):
    """The flags of a run: pairs of names and values, and what files hold. `includes` are for another model."""
    interfaces: tuple = ()
    groups: tuple = ()
    hosts: tuple = ()
    services: tuple = ()
    tables: tuple = ()
    includes: tuple = ()
    interface: str = INTERFACE
    address: str = ADDRESS


NOTHING = Surroundings()


def forms_of(name, address):
    """How an interface is written as an address: each form with its value."""
    seen = ipaddress.ip_interface(address)
    values = {"": seen.ip, ":0": seen.ip, ":network": seen.network, ":broadcast": seen.network.broadcast_address}
    return {(name + form).encode(): str(value).encode() for form, value in values.items()}


class Given:
    """What surroundings give for words."""

    def __init__(self, surroundings):
        self.interface = surroundings.interface.encode()
        self.address = surroundings.address
        self.addresses, self.members, self.ports, self.files = {}, {}, {}, {}
        own = dict([(surroundings.interface, surroundings.address)])
        for name, address in surroundings.interfaces:
            if name != surroundings.interface:
                self.take_forms(name, address)
                own.setdefault(name, address)
        for group, name in surroundings.groups:
            put(self.members, group.encode(), name.encode())
            if name in own:
                self.take_forms(group, own[name])
        for text in surroundings.hosts:
            self.take_hosts(text)
        for text in surroundings.services:
            self.take_services(text)
        for name, text in surroundings.tables:
            self.files.setdefault(name.encode(), []).extend(entries_of(text))

    def take_forms(self, name, address):
        for form, value in forms_of(name, address).items():
            put(self.addresses, form, value)

    def take_hosts(self, text):
        """Lines of an address and its names; other addresses than those of four parts are passed over."""
        for line in text.split(b"\n"):
            address, *hosts = line.split(b"#")[0].split() or [b""]
            for host in hosts:
                if FOUR.fullmatch(address):
                    put(self.addresses, host, address)

    def take_services(self, text):
        """Lines of a name, a port with its protocol, and other names."""
        for line in text.split(b"\n"):
            name, port, *others = [*line.split(b"#")[0].split(), b"", b""][:2] + line.split(b"#")[0].split()[2:]
            found = PORT.fullmatch(port)
            for service in (name, *others):
                if found:
                    put(self.ports, service, found[1])

    def values(self, last, text):
        """All values of a word behind a word of the grammar, or nothing."""
        if text in names.GRAMMAR:
            return []
        if last == b"port":
            ports = self.ports.get(text, [])
            return [] if ports == [names.STRICT_SERVICES.get(text)] else ports
        if last == b"on":
            return self.members.get(text, [])
        if last in names.BEFORE_ADDRESSES and text.split(b":")[0] != self.interface:
            return self.addresses.get(text, [])
        return []

    def network_of(self, name):
        """The network and the address of an interface in a rule, or nothing where they aren't known."""
        if name == self.interface:
            return name + b":network", name
        values = [self.addresses.get(name + form, []) for form in (b":network", b"")]
        return tuple(value[0] for value in values) if all(values) else None


def put(table, name, value):
    """Adds a value, once."""
    values = table.setdefault(name, [])
    if value not in values:
        values.append(value)


def entries_of(text):
    """The entries in the file of a table."""
    return [entry for line in text.split(b"\n") for entry in re.split(rb"[#;]", line)[0].split()]
