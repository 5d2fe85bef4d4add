"""What comes up in the rules that are printed, by kinds that are counted, and how the command ends."""

import json
from collections import Counter

from expansions.hosts import OWN
from rulesets.parts import MOST_BITS
from rulesets.tree import ANY, Network, Range
from telling.model import ANCHOR, JSON, translations_of
from telling.words import ACTIONS, PROTOCOL_NAMES, TYPE_NAMES

SIGNS = ("=", "!=", "<", "<=", ">", ">=", ":", "><", "<>")
HOSTS = ("any", "an address", "a network", "a range", "a table", "self", "a negated host")
CRITERIA = ("on", "on !", "a protocol's name", "a protocol's number", "all", *HOSTS,
            *(f"port {sign}" for sign in SIGNS))
OPTIONS = ("in", "out", "quick", "flags", "flags any", "an ICMP name", "an ICMP number", "a code", "keep state",
           "no state", "max", "no-sync", "if-bound", "several state options", "allow-opts", "a label", "an empty label")
TRANSLATION = ("nat", "rdr", "binat", "no", "nat pass and the like", "nat port", "nat ports", "static-port", "rdr port",
               "rdr port *", "kinds by turns")
ANCHORS = ("an anchor", "an anchor in another", "copies of an anchor", "a quick anchor", "an anchor with a direction")
PLACES = ("several rules of a line", "several interfaces")
OF_RULES = (*ACTIONS.values(), *CRITERIA, *OPTIONS, *TRANSLATION, *ANCHORS, *PLACES)
OF_JSON = ("JSON of nat", "JSON of rdr", "JSON of binat", "JSON of filter", "JSON of anchor", "JSON with counters",
           "JSON of a shadowed rule", "JSON of anchors that begin at one rule", "JSON with a quotation mark")
ENDINGS = ("told", "told without a rule", "told with counters", "ruleset refused", "counters refused at the first line",
           "counters refused at a later line")


def of_host(host):
    what = host.what
    if isinstance(what, Network):
        yield "an address" if what.bits == MOST_BITS else "a network"
    elif isinstance(what, Range):
        yield "a range"
    else:
        yield what if what in (ANY, OWN) else "a table"
    yield from ["a negated host"] if host.negated else []


def of_match(match):
    """What a rule or an anchor asks."""
    if match.interface is not None:
        yield "on !" if match.interface.negated else "on"
    if match.protocol is not None:
        yield "a protocol's name" if match.protocol in PROTOCOL_NAMES else "a protocol's number"
    hosts, ports = (match.source, match.destination), (match.source_port, match.destination_port)
    if ports == (None, None) and all(host.what == ANY and not host.negated for host in hosts):
        yield "all"
    else:
        yield from (kind for host in hosts for kind in of_host(host))
        yield from (f"port {port.sign}" for port in ports if port)
    if match.icmp is not None:
        yield "an ICMP name" if match.icmp.number in TYPE_NAMES else "an ICMP number"
        yield from ["a code"] if match.icmp.code is not None else []


def of_states(rule):
    if rule.binding is None:
        yield from ["no state"] if rule.action == "pass" else []
        return
    options = {"max": rule.most is not None, "no-sync": rule.no_sync, "if-bound": rule.binding == "if-bound"}
    yield "keep state"
    yield from (name for name, is_there in options.items() if is_there)
    yield from ["several state options"] if sum(options.values()) > 1 else []
    yield from ["flags any"] if rule.flags is None else []


def of_rule(rule):
    """A filter rule."""
    yield ACTIONS[rule.action]
    yield from [rule.direction] if rule.direction else []
    yield from of_match(rule.match)
    yield from of_states(rule)
    holds = {"quick": rule.quick, "flags": rule.flags and not rule.has_default_flags, "allow-opts": rule.allow_opts,
             "a label": rule.label, "an empty label": rule.label == ""}
    yield from (name for name, is_there in holds.items() if is_there)


def of_translation(kind, rule):
    yield kind
    yield from of_match(rule.match)
    yield from ["no"] if rule.is_no_rule else []
    yield from ["nat pass and the like"] if rule.passes else []
    yield from ["static-port"] if rule.keeps_port else []
    if rule.ports:
        low, high = rule.ports
        is_one = high in (None, low)
        yield f"{kind} port" if is_one else "rdr port *" if kind == "rdr" else "nat ports"


def of_anchors(anchors):
    for anchor in anchors:
        yield "an anchor"
        yield from of_match(anchor.match)
        yield from ["an anchor in another"] if anchor.parent is not None else []
        yield from ["a quick anchor"] if anchor.quick else []
        yield from ["an anchor with a direction"] if anchor.direction else []


def of_places(rules, translations):
    """What rules beside one another show."""
    copies, anchors = Counter(rule.line for rule in rules.filter), {}
    for rule in rules.filter:
        anchors.setdefault(rule.line, set()).add(rule.anchors)
    yield from ["several rules of a line"] if any(count > 1 for count in copies.values()) else []
    yield from ["copies of an anchor"] if any(len(each) > 1 for each in anchors.values()) else []
    kinds = [kind for kind, _ in translations]
    yield from ["kinds by turns"] if any(kind in kinds[place + 2:] and kinds[place + 1] != kind
                                         for place, kind in enumerate(kinds[:-1])) else []


def kinds_of(ruleset, interfaces):
    """What comes up in a ruleset, each once."""
    rules, translations = ruleset.rules, translations_of(ruleset)
    found = {kind for rule in rules.filter for kind in of_rule(rule)}
    found |= {kind for each in translations for kind in of_translation(*each)}
    found |= {*of_anchors(rules.anchors), *of_places(rules, translations)}
    return found | ({"several interfaces"} if len(interfaces) > 1 else set())


def of_json(asked, expected):
    """What comes up in the objects that are printed of a ruleset."""
    if asked.form != JSON:
        return
    objects = list(map(json.loads, expected.out.splitlines()))
    yield from (f"JSON of {each['kind']}" for each in objects)
    begun = [each["first"] for each in objects if each["kind"] == ANCHOR]
    held = {"JSON with counters": any(each.get("packets") is not None for each in objects),
            "JSON of a shadowed rule": any(each.get("shadowed_by") is not None for each in objects),
            "JSON of anchors that begin at one rule": len(begun) > len(set(begun)),
            "JSON with a quotation mark": any('"' in each.get("rule", "") for each in objects)}
    yield from (name for name, is_so in held.items() if is_so)


def ending_of(asked, expected):
    """How the command ends, one of ENDINGS."""
    if expected.status == 0:
        with_counters = "told" if asked.counters is None else "told with counters"
        return with_counters if expected.out else "told without a rule"
    if expected.err.startswith(b"pfreplay: counters"):
        is_first = b" line 1:" in expected.err
        return "counters refused at the first line" if is_first else "counters refused at a later line"
    return "ruleset refused"
