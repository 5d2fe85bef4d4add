"""Addresses and tables in a model of the expansion of rulesets: what forms of the run's interfaces mean, which tables
stand where they are named, and which entries clash.

A form is that of the first interface of which the word is one, wherever packets come. `self` stands for the addresses
of all interfaces: for an address where the run has one interface, for a table where it has several. In a table it is as
many entries, and where one address has to stand it is a pool.
"""

from typing import NamedTuple

from expansions.values import CLASH, TOO_MANY, UNDEFINED_TABLE, Elements
from rulesets.parts import MOST_BITS, read_entry, read_free_word
from rulesets.tree import Form, Network, TableName, Use
from rulesets.words import Fault, left_out

# all tables of a text together
MOST_ENTRIES = 65536
# the word for the addresses of all interfaces, and the name of their table, which no text defines
OWN = "self"


class FlatHost(NamedTuple):
    """An address of a flat rule: ANY, a Network, a Range or the name of a table."""
    what: object
    negated: bool


class Entry(NamedTuple):
    """An entry of a table; before it is put there its network may be OWN."""
    network: Network
    negated: bool
    line: int


def masked(network):
    """A network without the bits below its prefix."""
    below = MOST_BITS - network.bits
    return Network(network.address >> below << below, network.bits)


class Interface(NamedTuple):
    """An interface of the run. Its address is a.b.c.d."""
    name: str
    address: str
    bits: int

    def network(self):
        return Network(int.from_bytes(bytes(int(octet) for octet in self.address.split("."))), self.bits)

    def own(self):
        """Its address alone."""
        return self.network()._replace(bits=MOST_BITS)

    def meaning(self, word):
        """The network that a word stands for as a form of this interface, None where it is none."""
        if word in (self.name, f"{self.name}:0"):
            return self.own()
        return masked(self.network()) if word == f"{self.name}:network" else None


def interface_of(name, word):
    """An interface as a command line has it: its name, and its address with the bits behind it."""
    address, _, bits = word.partition("/")
    return Interface(name, address, int(bits))


class Run(NamedTuple):
    """The interfaces that the run names, by their places."""
    interfaces: tuple

    def name_at(self, place):
        """The name of the interface of a place. Behind the last one it is empty, and no interface is called so."""
        return self.interfaces[place].name if place < len(self.interfaces) else ""

    def addresses(self):
        """What `self` stands for: the addresses of all interfaces, each alone."""
        return [each.own() for each in self.interfaces]

    def own(self):
        """What `self` means in a rule."""
        addresses = self.addresses()
        return addresses[0] if len(addresses) == 1 else OWN

    def meaning(self, form):
        """What a form without a use stands for: a network, or the table of all addresses. Any other name is that of a
        host."""
        if form.name == OWN:
            return self.own()
        found = [network for network in (each.meaning(form.name) for each in self.interfaces) if network]
        if not found:
            raise Fault(form.line, left_out("host name"))
        return found[0]


class Hosts:
    """Gives addresses their meaning, with the macros and tables that stand before them."""

    def __init__(self, run, macros):
        self.run = run
        self.macros = macros
        # the entries of each table: that of the interfaces' own addresses, and those of the text in its order
        self.tables = {OWN: self.own_entries(Entry(OWN, False, 0))}
        self.entry_count = 0

    def form(self, form):
        """What a form means; in round brackets its name can be a use."""
        if not isinstance(form.name, Use):
            return self.run.meaning(form)

        def named(word):
            return self.run.meaning(Form(word.text, word.line))

        return self.macros.judge(form.name, lambda cursor: [read_free_word(cursor)], named)[0]

    def what(self, what):
        if isinstance(what, Network):
            return masked(what)
        if isinstance(what, Form):
            return self.form(what)
        if isinstance(what, TableName):
            if what.name not in self.tables:
                raise Fault(what.line, UNDEFINED_TABLE)
            return what.name
        return what

    def flat(self, host):
        """An address of a rule."""
        return FlatHost(self.what(host.what), host.negated)

    def single(self, written, read, line):
        """One address where pf would take a pool: a target, or the source of a binat rule, in a rule on this line.
        Written out, all but the meaning of forms was judged before; so a network is told from an address here."""
        def flat(host):
            return self.single_flat(host, line)

        if isinstance(written, Use):
            return self.macros.judge(written, lambda cursor: [read(cursor)], flat)[0]
        return flat(written)

    def single_flat(self, host, line):
        # a table or a range was refused when it was read, and its value isn't asked for
        if not isinstance(host.what, Form):
            return FlatHost(host.what, False)
        network = self.form(host.what)
        if network == OWN:
            # that of several interfaces stands where the rule does
            raise Fault(line, left_out("pool"))
        if network.bits < MOST_BITS:
            raise Fault(host.what.line, left_out("pool"))
        return FlatHost(network, False)

    def entry(self, host):
        return Entry(self.what(host.what), host.negated, host.line)

    def own_entries(self, entry):
        """The entries that one stands for: the addresses of all interfaces for OWN."""
        if entry.network != OWN:
            return [entry]
        return [entry._replace(network=address) for address in self.run.addresses()]

    def define(self, table):
        """Takes a table and answers its faults in order."""
        signs, faults, entries = {}, [], []
        if table.name in self.tables:
            faults.append(Fault(table.name_line, CLASH))
        count = 0
        for written in table.entries:
            one = Elements(self.macros, [written], read_entry, self.entry)
            found = [each for entry in one.items for each in self.own_entries(entry)]
            count += len(found) + len(one.faults)
            faults += one.faults
            for entry in found:
                if signs.setdefault(entry.network, entry.negated) != entry.negated:
                    # the words of a value stand where it is used
                    faults.append(Fault(written.line, CLASH))
            entries += found
        if self.entry_count + count > MOST_ENTRIES:
            return [Fault(table.line, TOO_MANY)]
        self.entry_count += count
        self.tables[table.name] = entries
        return faults
