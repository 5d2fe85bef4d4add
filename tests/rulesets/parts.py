"""Parts that statements of a ruleset share: numbers, names, lists, interfaces, protocols, addresses, ports.

Each function reads one production at a cursor and answers what it means; it raises the fault that it meets first,
unless the cursor gathers faults. What needs the value of a macro, the definition of a table or the interface of the
run is not judged here.
"""

import re

from rulesets.tree import ANY, Criteria, Form, Host, Interface, Network, Part, Port, Range, TableName, Use
from rulesets.words import (BAD_ADDRESS, BAD_NUMBER, GRAMMAR_WORDS, LEFT_OUT_WORDS, NAME, PLAIN, PROTOCOLS, QUOTED,
                            SERVICES, SIGN, USE, Fault, is_name, left_out)

# the most bytes of an interface's name
LONGEST_INTERFACE = 15
MOST_PROTOCOL, MOST_BITS, MOST_PORT = 255, 32, 65535
# no number of the language is as great as this one
BEYOND = 1 << 40
DIGITS = re.compile("[0-9]+")
NUMERIC = re.compile("[0-9./]+")
ADDRESS = re.compile(r"([0-9]+)\.([0-9]+)\.([0-9]+)\.([0-9]+)(?:/([0-9]+))?")
ONE_SIDED = ("=", "!=", "<", "<=", ">", ">=")
TWO_SIDED = ("><", "<>")


def value_of(digits, base=10):
    """The number that digits spell, or a greater one than all bounds."""
    digits = digits.lstrip("0") or "0"
    return int(digits, base) if len(digits) <= 10 else BEYOND


def read_number(cursor, least, most):
    """A decimal number. A word that isn't one is out of place; only digits can be out of range."""
    word = cursor.peek()
    if word.sort != PLAIN or not DIGITS.fullmatch(word.text):
        cursor.refuse()
        return least
    if not least <= value_of(word.text) <= most:
        cursor.blame(word.line, BAD_NUMBER)
    return value_of(cursor.take().text)


def read_number_or_name(cursor, names, most):
    """A number from 0, or one of the names that stand for one."""
    if cursor.sees(PLAIN, *names):
        return names[cursor.take().text]
    return read_number(cursor, 0, most)


def sees_free_word(cursor):
    """Whether a plain word comes that is neither one of the grammar's nor one that is left out by name."""
    word = cursor.peek()
    return word.sort == PLAIN and word.text not in GRAMMAR_WORDS and word.text not in LEFT_OUT_WORDS


def read_free_word(cursor):
    if not sees_free_word(cursor):
        return cursor.refuse()
    return cursor.take()


def sees_title(cursor):
    return cursor.sees(QUOTED) or sees_free_word(cursor)


def read_title(cursor):
    """How an anchor or a label is called: a quoted text, maybe empty, or a free word. Its quotes don't belong to it."""
    if not sees_title(cursor):
        raise cursor.refused()
    return cursor.take().text


def read_table_name(cursor):
    """The name of a table between its signs."""
    cursor.demand(SIGN, "<")
    word = cursor.peek()
    if word.sort != PLAIN or not is_name(word.text):
        cursor.refuse()
    else:
        cursor.take()
    cursor.demand(SIGN, ">")
    return TableName(word.text, word.line)


def sees_use(cursor):
    return cursor.sees(USE)


def read_use(cursor, negated=False):
    word = cursor.take()
    name = NAME.match(word.text)[0]
    return Use(name, word.text[len(name):], word.line, negated)


# Lists

def read_separated(cursor, element, closing):
    """One or more elements, at most one comma between two, up to the sign that closes them."""
    elements = [element(cursor)]
    while not cursor.sees(SIGN, closing):
        cursor.takes(SIGN, ",")
        elements.append(element(cursor))
    cursor.take()
    return elements


def read_braced(cursor, element, may_be_empty=False):
    """Elements in braces, over as many lines as they like."""
    cursor.demand(SIGN, "{")
    cursor.in_list = True
    elements = []
    if not (may_be_empty and cursor.takes(SIGN, "}")):
        elements = read_separated(cursor, element, "}")
    cursor.in_list = False
    return elements


def read_list(cursor, element):
    """One element, or a braced list of them. A list within a list can't be written out."""
    if cursor.sees(SIGN, "{"):
        return read_braced(cursor, element)
    return [element(cursor)]


# What a list can hold

def read_interface(cursor, negated=False):
    """An interface's name, whatever its bytes, or a use of a macro."""
    if sees_use(cursor):
        return read_use(cursor, negated)
    if not sees_free_word(cursor):
        return Interface(cursor.refuse().text, negated)
    if len(cursor.peek().text) > LONGEST_INTERFACE:
        raise cursor.refused()
    return Interface(cursor.take().text, negated)


def read_interface_or_not(cursor):
    return read_interface(cursor, cursor.takes(SIGN, "!"))


def read_protocol(cursor):
    if sees_use(cursor):
        return read_use(cursor)
    return read_number_or_name(cursor, PROTOCOLS, MOST_PROTOCOL)


def read_numeric(cursor):
    """Address and bits (None without any) of a word of digits, dots and slashes. Bits at fault count as all."""
    word = cursor.take()
    bits = MOST_BITS if "/" in word.text else None
    if word.text.count(".") < 3:
        cursor.blame(word.line, left_out("short address"))
        return 0, bits
    found = ADDRESS.fullmatch(word.text)
    if not found or any(value_of(octet) > 255 for octet in found.groups()[:4]):
        cursor.blame(word.line, BAD_ADDRESS)
        return 0, bits
    if found[5] and value_of(found[5]) > MOST_BITS:
        cursor.blame(word.line, BAD_NUMBER)
    elif found[5]:
        bits = value_of(found[5])
    return int.from_bytes(bytes(value_of(octet) for octet in found.groups()[:4]), "big"), bits


def network(address, bits):
    return Network(address, MOST_BITS if bits is None else bits)


def read_bracketed_interface(cursor):
    """A name in round brackets: every free word is taken for one."""
    cursor.demand(SIGN, "(")
    line = cursor.peek().line
    name = read_use(cursor) if sees_use(cursor) else read_free_word(cursor).text
    cursor.demand(SIGN, ")")
    return Form(name, line)


def sees_numeric(cursor):
    return cursor.sees(PLAIN) and NUMERIC.fullmatch(cursor.peek().text) is not None


def read_form(cursor):
    """A form of the run's interface, or a host's name, which only the run can tell apart."""
    if cursor.sees(SIGN, "("):
        return read_bracketed_interface(cursor)
    if cursor.sees(PLAIN, "self"):
        word = cursor.take()
    else:
        word = read_free_word(cursor)
    return Form(word.text, word.line)


def read_entry(cursor):
    """An entry of a table: an address, a network or a form of an interface, maybe with a not before it."""
    line = cursor.peek().line
    negated = cursor.takes(SIGN, "!")
    if sees_use(cursor):
        return read_use(cursor, negated)
    if sees_numeric(cursor):
        return Host(network(*read_numeric(cursor)), negated, line)
    return Host(read_form(cursor), negated, line)


def read_address(cursor):
    """An address of a rule: what an entry can be, and also `any`, a table or a range."""
    line = cursor.peek().line
    negated = cursor.takes(SIGN, "!")
    if sees_use(cursor):
        return read_use(cursor, negated)
    return Host(read_host(cursor), negated, line)


def read_host(cursor):
    if cursor.takes(PLAIN, "any"):
        return ANY
    if cursor.sees(SIGN, "<"):
        return read_table_name(cursor)
    if not sees_numeric(cursor):
        return read_form(cursor)
    first, bits = read_numeric(cursor)
    if bits is None and cursor.takes(SIGN, "-"):
        return Range(first, read_range_end(cursor, first))
    return network(first, bits)


def read_range_end(cursor, first):
    """The last address of a range: a plain address not below the first."""
    line = cursor.peek().line
    if not sees_numeric(cursor):
        read_free_word(cursor)
        cursor.blame(line, left_out("host name"))
        return first
    last, bits = read_numeric(cursor)
    if bits is not None or last < first:
        cursor.blame(line, BAD_ADDRESS)
    return last


def port_value(text):
    """The port that a number or a service means, None for another word."""
    return value_of(text) if DIGITS.fullmatch(text) else SERVICES.get(text)


def read_one_port(cursor):
    """A number or a service."""
    word = read_free_word(cursor)
    value = port_value(word.text)
    if value is None:
        cursor.blame(word.line, left_out("service"))
    elif value > MOST_PORT:
        cursor.blame(word.line, BAD_NUMBER)
    return value


def read_port_range(cursor):
    """Two ports with a colon between them, the first not above the second."""
    word = cursor.take()
    low, _, high = word.text.partition(":")
    values = port_value(low), port_value(high)
    if None in values:
        cursor.blame(word.line, left_out("service"))
    elif not values[0] <= values[1] <= MOST_PORT:
        cursor.blame(word.line, BAD_NUMBER)
    return values


def sees_colon(cursor):
    return cursor.sees(PLAIN) and ":" in cursor.peek().text


def read_port(cursor):
    """A port of a rule: one, a range, or signs with one or two of them."""
    if sees_use(cursor):
        return read_use(cursor)
    if cursor.sees(SIGN, *ONE_SIDED):
        sign = cursor.take().text
        port = read_one_port(cursor)
        return Port(sign, port, port)
    if sees_colon(cursor):
        return Port(":", *read_port_range(cursor))
    port = read_one_port(cursor)
    if cursor.sees(SIGN, *TWO_SIDED):
        sign = cursor.take().text
        return Port(sign, port, read_one_port(cursor))
    return Port("=", port, port)


# Parts of rules

def read_interfaces(cursor):
    return read_list(cursor, read_interface_or_not) if cursor.takes(PLAIN, "on") else None


def read_protocols(cursor):
    return read_list(cursor, read_protocol) if cursor.takes(PLAIN, "proto") else None


def read_log(cursor):
    """`log`, whose options in round brackets are left out."""
    if cursor.takes(PLAIN, "log") and cursor.sees(SIGN, "("):
        raise Fault(cursor.peek().line, left_out("log"))


def read_hosts(cursor):
    """All hosts, or a source, or a destination, or both, or nothing at all."""
    if cursor.takes(PLAIN, "all"):
        return Part(), Part()
    return tuple(read_part(cursor) if cursor.takes(PLAIN, side) else Part() for side in ("from", "to"))


def read_part(cursor):
    """Addresses, ports, or both."""
    part = Part()
    if not cursor.sees(PLAIN, "port"):
        part.hosts = read_list(cursor, read_address)
    part.ports = read_ports(cursor)
    return part


def read_ports(cursor):
    return read_list(cursor, read_port) if cursor.takes(PLAIN, "port") else None


def read_criteria(cursor):
    """What rules of all kinds can ask of a packet, from the interface on."""
    interfaces = read_interfaces(cursor)
    cursor.takes(PLAIN, "inet")
    protocols = read_protocols(cursor)
    source, destination = read_hosts(cursor)
    return Criteria(interfaces, protocols, None, source, destination)
