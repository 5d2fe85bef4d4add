"""Rules and anchors of translation in a model of the reader of rulesets."""

from rulesets.parts import (MOST_BITS, MOST_PORT, network, port_value, read_address, read_criteria, read_form,
                            read_interfaces, read_list, read_log, read_numeric, read_one_port, read_part,
                            read_port_range, read_ports, read_protocols, read_range_end, read_table_name, read_title,
                            read_use, sees_colon, sees_numeric, sees_use)
from rulesets.tree import ANY, Criteria, Host, Part, Range, Target, Translation
from rulesets.words import BAD_ADDRESS, BAD_NUMBER, PLAIN, SIGN, Fault, left_out

KINDS = ("nat", "rdr", "binat")
ANCHORS = ("nat-anchor", "rdr-anchor", "binat-anchor")
FIRST_WORDS = ("no", *KINDS, *ANCHORS)


def read_translation(cursor):
    """One statement of translation up to its end. An anchor of translation holds nothing, and means nothing."""
    line = cursor.peek().line
    if cursor.takes(PLAIN, *ANCHORS):
        read_title(cursor)
        return None
    is_no_rule = cursor.takes(PLAIN, "no")
    kind = cursor.demand(PLAIN, *KINDS).text
    passes = cursor.takes(PLAIN, "pass")
    if passes:
        read_log(cursor)
    if kind == "binat" and not is_no_rule:
        criteria = read_binat_criteria(cursor)
    else:
        criteria = read_criteria(cursor)
    rule = Translation(line, kind, is_no_rule, passes, criteria)
    if not is_no_rule:
        cursor.demand(SIGN, "->")
        rule.target = read_target(cursor, kind)
    return rule


def read_binat_criteria(cursor):
    """The criteria of a binat rule, whose source has to be one single address."""
    interfaces = read_interfaces(cursor)
    cursor.takes(PLAIN, "inet")
    protocols = read_protocols(cursor)
    cursor.demand(PLAIN, "from")
    source = Part([read_single_source(cursor)])
    source.ports = read_ports(cursor)
    destination = read_part(cursor) if cursor.takes(PLAIN, "to") else Part()
    return Criteria(interfaces, protocols, None, source, destination)


def read_target(cursor, kind):
    """What stands after the arrow: one address and, but for binat, maybe ports."""
    target = Target(read_single_target(cursor))
    if kind == "nat":
        if cursor.takes(PLAIN, "port"):
            target.ports = read_nat_ports(cursor)
        target.keeps_port = cursor.takes(PLAIN, "static-port")
    elif kind == "rdr" and cursor.takes(PLAIN, "port"):
        target.ports_line = cursor.peek().line
        target.ports = read_rdr_ports(cursor)
    return target


def read_single_source(cursor):
    return read_single_address(cursor, BAD_ADDRESS)


def read_single_target(cursor):
    return read_single_address(cursor, left_out("pool"))


def read_single_address(cursor, table_kind):
    """One address where pf would take a pool of several. A table is refused as the caller says."""
    line = cursor.peek().line
    if cursor.sees(SIGN, "{"):
        cursor.blame(line, left_out("pool"))
        return read_list(cursor, read_address)[0]
    if cursor.sees(SIGN, "!"):
        cursor.blame(line, BAD_ADDRESS)
        cursor.take()
    if cursor.sees(PLAIN, "any"):
        cursor.blame(line, BAD_ADDRESS)
        cursor.take()
        return Host(ANY, False, line)
    if cursor.sees(SIGN, "<"):
        cursor.blame(line, table_kind)
        return Host(read_table_name(cursor), False, line)
    if sees_use(cursor):
        return read_use(cursor)
    if sees_numeric(cursor):
        return Host(read_single_numeric(cursor), False, line)
    return Host(read_form(cursor), False, line)


def read_single_numeric(cursor):
    """An address, maybe with all of its bits."""
    line = cursor.peek().line
    address, bits = read_numeric(cursor)
    if bits is not None and bits < MOST_BITS:
        cursor.blame(line, left_out("pool"))
    # a range is told by the dash after a plain address
    if bits is None and cursor.sees(SIGN, "-"):
        cursor.blame(line, BAD_ADDRESS)
        cursor.take()
        return Range(address, read_range_end(cursor, address))
    return network(address, bits)


def refuse_port_list(cursor):
    if cursor.sees(SIGN, "{"):
        raise Fault(cursor.peek().line, left_out("pool"))


def read_nat_ports(cursor):
    """One port or a range of them."""
    refuse_port_list(cursor)
    if sees_colon(cursor):
        return read_port_range(cursor)
    return read_one_port(cursor), None


def read_rdr_ports(cursor):
    """One port, or the first of as many as are redirected; a range with its last port is a pool."""
    refuse_port_list(cursor)
    if not sees_colon(cursor):
        return read_one_port(cursor), None
    word = cursor.peek()
    low, _, high = word.text.partition(":")
    values = [port_value(low)] + ([] if high == "*" else [port_value(high)])
    if None in values:
        raise Fault(word.line, left_out("service"))
    if max(values) > MOST_PORT:
        raise Fault(word.line, BAD_NUMBER)
    if high != "*":
        raise Fault(word.line, left_out("pool"))
    cursor.take()
    return values[0], "*"
