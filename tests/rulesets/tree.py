"""The statements of a ruleset text as a tree, as they are written: macros unused, lists in lists of elements.

A line stands where a fault can still be found. Where an element of a list can be the use of a macro, it is a Use.
"""

from dataclasses import dataclass, field
from typing import NamedTuple

ANY = "any"


class Use(NamedTuple):
    """A use of a macro, maybe with a suffix, and maybe with a not before it."""
    name: str
    suffix: str
    line: int
    negated: bool = False


class Interface(NamedTuple):
    name: str
    negated: bool = False


class Network(NamedTuple):
    """An address and its bits as they are written, 32 where none are."""
    address: int
    bits: int


class Range(NamedTuple):
    """Two addresses and all between them."""
    first: int
    last: int


class TableName(NamedTuple):
    name: str
    line: int


class Form(NamedTuple):
    """A form of the run's interface, or the name of a host. In round brackets the name can be a Use."""
    name: str | Use
    line: int


class Host(NamedTuple):
    """An address of a rule or an entry of a table: ANY, a Network, a Range, a TableName or a Form."""
    what: object
    negated: bool
    line: int


class Port(NamedTuple):
    """A condition on a port: a sign, and one or two ports."""
    sign: str
    low: int
    high: int


class IcmpType(NamedTuple):
    number: int
    code: int | None


@dataclass
class Part:
    """One side of a rule. None stands for what isn't written."""
    hosts: list | None = None
    ports: list | None = None


@dataclass
class Criteria:
    interfaces: list | None = None
    protocols: list | None = None
    icmp_types: list | None = None
    source: Part = field(default_factory=Part)
    destination: Part = field(default_factory=Part)


@dataclass
class Macro:
    name: str
    pieces: list


@dataclass
class Table:
    line: int
    name: str
    name_line: int
    entries: list


@dataclass
class Option:
    """An option with its value; the pairs of timeouts and limits come one by one."""
    name: str
    value: object


@dataclass
class StateOptions:
    """What stands in round brackets after `keep state`: None, or False, if it isn't written."""
    no_sync: bool = False
    # how many states of the rule there may be
    most: int | None = None
    binding: str | None = None


@dataclass
class FilterRule:
    line: int
    action: str
    direction: str | None
    quick: bool
    criteria: Criteria
    # ANY, or two numbers of eight bits: what has to be set, and what is looked at
    flags: object = None
    # None where nothing is written
    keeps_state: bool | None = None
    state_options: StateOptions = field(default_factory=StateOptions)
    allow_opts: bool = False
    # as it is written, without the quotes
    label: str | None = None


@dataclass
class Anchor:
    line: int
    direction: str | None
    quick: bool
    criteria: Criteria
    body: list


@dataclass
class Target:
    """What stands after the arrow: ports are a pair, whose second is None for one port, and `*` for what follows
    the distance."""
    host: object
    ports: tuple | None = None
    ports_line: int = 0
    keeps_port: bool = False


@dataclass
class Translation:
    line: int
    kind: str
    is_no_rule: bool
    passes: bool
    criteria: Criteria
    target: Target | None = None
