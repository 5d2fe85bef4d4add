"""The words of a rule as the command `rules` prints it: a second implementation, written from docs/FORMATS.md, section
"Rules one by one". They are those of pf.conf(5).
"""

from expansions.hosts import OWN
from expansions.model import dotted
from rulesets.parts import MOST_BITS
from rulesets.tree import ANY, Network, Range
from rulesets.words import FLAG_LETTERS, ICMP_TYPES, PROTOCOLS

ACTIONS = {"pass": "pass", "drop": "block drop", "return": "block return"}
PROTOCOL_NAMES = {number: name for name, number in PROTOCOLS.items()}
TYPE_NAMES = {number: name for name, number in ICMP_TYPES.items()}
# the signs between two ports that stand without blanks
TIGHT = ":"
TWO_SIDED = (TIGHT, "><", "<>")
# where the label of a rule goes on in the next line
CONTINUED = "\\\n"


# What is asked

def network_words(network):
    return dotted(network.address) + (f"/{network.bits}" if network.bits < MOST_BITS else "")


def host_words(host):
    what = host.what
    if isinstance(what, Network):
        words = network_words(what)
    elif isinstance(what, Range):
        words = f"{dotted(what.first)} - {dotted(what.last)}"
    else:
        words = what if what in (ANY, OWN) else f"<{what}>"
    return "! " * host.negated + words


def port_words(port):
    if port.sign == TIGHT:
        return f"port {port.low}:{port.high}"
    return f"port {port.low} {port.sign} {port.high}" if port.sign in TWO_SIDED else f"port {port.sign} {port.low}"


def end_words(side, host, port):
    return [side, host_words(host), *([] if port is None else [port_words(port)])]


def hosts_words(match):
    """Both ends, or the one word that stands for no question about them."""
    words = [*end_words("from", match.source, match.source_port),
             *end_words("to", match.destination, match.destination_port)]
    return ["all"] if words == ["from", ANY, "to", ANY] else words


def has_address(host):
    return isinstance(host.what, (Network, Range))


def criteria_words(match, target=None):
    """What a rule or an anchor asks, from the interface to the hosts. An address may also be that of a target."""
    if match.interface is not None:
        yield f"on {'! ' * match.interface.negated}{match.interface.name}"
    if has_address(match.source) or has_address(match.destination) or target is not None:
        yield "inet"
    if match.protocol is not None:
        yield f"proto {PROTOCOL_NAMES.get(match.protocol, match.protocol)}"
    yield from hosts_words(match)


def way_words(rule):
    """The direction of a filter rule or an anchor, and whether it is quick."""
    return [*([rule.direction] if rule.direction else []), *(["quick"] if rule.quick else [])]


def letters(bits):
    return "".join(letter for letter, bit in FLAG_LETTERS.items() if bits & bit)


def flag_words(rule):
    """Those that are written. `any` means something in a rule alone that would ask for flags by itself."""
    if rule.flags is not None and not rule.has_default_flags:
        yield "flags " + "/".join(map(letters, rule.flags))
    elif rule.flags is None and rule.binding is not None:
        yield "flags any"


def icmp_words(icmp):
    if icmp is not None:
        yield f"icmp-type {TYPE_NAMES.get(icmp.number, icmp.number)}"
        yield from [] if icmp.code is None else [f"code {icmp.code}"]


def state_words(rule):
    if rule.binding is None:
        yield from ["no state"] if rule.action == "pass" else []
        return
    options = [*([] if rule.most is None else [f"max {rule.most}"]), *(["no-sync"] if rule.no_sync else []),
               *(["if-bound"] if rule.binding == "if-bound" else [])]
    yield "keep state" + (f" ({', '.join(options)})" if options else "")


def label_words(rule):
    """The end of a line in a label is shown as a blank."""
    return [] if rule.label is None else [f'label "{rule.label.replace(CONTINUED, " ")}"']


def filter_words(rule):
    return " ".join([ACTIONS[rule.action], *way_words(rule), *criteria_words(rule.match), *flag_words(rule),
                     *icmp_words(rule.match.icmp), *state_words(rule), *(["allow-opts"] if rule.allow_opts else []),
                     *label_words(rule)])


def target_words(kind, rule):
    """Of nat one port is as good as a range from it to itself."""
    if rule.target is None:
        return
    yield f"-> {dotted(rule.target.address)}"
    if rule.ports:
        low, high = rule.ports
        is_one = high is None or kind == "nat" and low == high
        yield f"port {low}" if is_one else f"port {low}:{high}"
    yield from ["static-port"] if rule.keeps_port else []


def translation_words(kind, rule):
    return " ".join([*(["no"] if rule.is_no_rule else []), kind, *(["pass"] if rule.passes else []),
                     *criteria_words(rule.match, rule.target), *target_words(kind, rule)])


def anchor_words(anchor):
    return " ".join(["anchor", *way_words(anchor), *criteria_words(anchor.match)])
