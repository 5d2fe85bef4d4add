"""Options in a model of the expansion of rulesets. Of an option that is given twice the last counts; interfaces that
are skipped add up."""

from dataclasses import dataclass, field

from expansions.values import Elements, itself
from rulesets.model import FREE_OPTIONS
from rulesets.parts import read_interface
from rulesets.tree import Use

# the timeouts that have an effect, in their order, with their seconds where nothing is set
TIMEOUT_SECONDS = {
    "tcp.first": 120, "tcp.opening": 30, "tcp.established": 86400, "tcp.closing": 900, "tcp.finwait": 45,
    "tcp.closed": 90, "udp.first": 60, "udp.single": 30, "udp.multiple": 60, "icmp.first": 20, "icmp.error": 10,
    "other.first": 60, "other.single": 30, "other.multiple": 60,
}
# the options with one value, with that which stands where nothing is set
SINGLE_VALUES = {"states": 100000, "block-policy": "drop", "state-policy": "floating", "hostid": 1}


@dataclass
class Options:
    timeouts: dict = field(default_factory=lambda: dict(TIMEOUT_SECONDS))
    values: dict = field(default_factory=lambda: dict(SINGLE_VALUES))
    # names of interfaces as they come, some maybe twice
    skipped: list = field(default_factory=list)

    def take(self, option, macros):
        """Takes an option and answers its faults in order."""
        if option.name == "skip":
            elements = Elements(macros, option.value, read_interface, itself)
            self.skipped += [interface.name for interface in elements.items]
            return elements.faults
        if option.name in self.timeouts:
            self.timeouts[option.name] = option.value
        elif option.name in self.values:
            self.values[option.name] = option.value
        elif option.name in FREE_OPTIONS and isinstance(option.value, Use):
            macros.one_plain_word(option.value)
        return []
