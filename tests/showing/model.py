"""What the command `show` leaves: a second implementation, written from docs/FORMATS.md, section "Packets one by one".

The n-th packet is joined with the n-th line of verdicts, and what is asked for is printed of it. The first line that
isn't right ends that: what is printed before stands. A capture that is refused, or has a record that is too long, does
so too. Where the formats leave open what is said, or in which order it is looked at, each answer is right. `answers`
has all of them, the one by the letter of the formats first.
"""

from functools import lru_cache, partial
from typing import NamedTuple

from adapt.surroundings import Surroundings
from captures.model import Refused
from changes import adapted
from expansions.hosts import interface_of
from rulesets.tree import Network
from rulesets.words import PROTOCOLS, SERVICES
from runs.case import Case
from runs.model import Outcome, refused
from showing import pflog
from showing.packets import headers_of, joined, word_for
from showing.printed import WITHOUT_ENDS, json_line, text_line
from showing.rules import rules_of
from showing.verdicts import FINE, NO_LINE, NOT_OF_CAPTURE, answers_to, verdict_in
from steps.filter import network_holds

TEXT, JSON, PFLOG, COUNT = "text", "json", "pflog", "count"
FORMS = (TEXT, JSON, PFLOG, COUNT)
# with a filter rule that says `log`
LOGGED_REASONS = ("rule", "ip-option", "state-insert", "state-limit")
LOGGED_ALWAYS = "short"
# the name of the ruleset's file, if no other is named
NAME = "rules"


class Asked(NamedTuple):
    """Which packets are asked for: those for which all holds that isn't None. Port and protocol are the words of the
    command line, names or numbers."""
    only: tuple | None = None
    rule: int | None = None
    line: int | None = None
    host: Network | None = None
    logged: bool = False
    port: str | None = None
    proto: str | None = None


class Question(NamedTuple):
    """What the command is given: the captures, interfaces and ruleset of a run, the lines of verdicts, which packets
    are asked for, how they are printed, and with what the ruleset is adapted, if it is."""
    case: Case
    verdicts: bytes
    asked: Asked = Asked()
    form: str = TEXT
    surroundings: Surroundings | None = None

    def read(self):
        """What is read of the ruleset's file."""
        return adapted.read(self.case.rules, self.surroundings)

    def names(self):
        """Those of the interfaces, by their places."""
        return [name for name, _ in self.case.interfaces()]

    def rules(self):
        return rules_of(self.read(), tuple(interface_of(*each) for each in self.case.interfaces()))

    def joined(self):
        """The packets of all captures; a header that isn't accepted is refused."""
        return joined(self.case.captures(), headers_of(self.case.captures(), self.names()))

    def remarks(self, name=NAME):
        """How the lines begin that say what was rewritten."""
        return [f"{name}:{line}".encode("latin-1") for line in self.read().said]


# Which packets are asked for

def holds_host(network, packet):
    seen = packet.seen()
    return seen not in WITHOUT_ENDS and any(network_holds(network, end) for end in (seen.source, seen.destination))


def number_of(word, names):
    """The number that a word of the command line stands for."""
    return names[word] if word in names else int(word)


def has_port(word, packet):
    """Whether either end has a port: those of TCP and UDP have, but not in parts of packets."""
    seen = packet.seen()
    return seen not in WITHOUT_ENDS and number_of(word, SERVICES) in (seen.ports or ())


def has_protocol(word, packet):
    seen = packet.seen()
    return seen not in WITHOUT_ENDS and number_of(word, PROTOCOLS) == seen.protocol


def lines_named(said, rules):
    """The lines on which the rules of a line of verdicts stand."""
    named = (made[number] for number, made in ((said.rule, rules.filter), (said.translation, rules.translation))
             if number is not None)
    return [rule.line for rule in named]


def is_logged(said, rules):
    if said.reason == LOGGED_ALWAYS:
        return True
    return said.rule is not None and rules.filter[said.rule].is_logged and said.reason in LOGGED_REASONS


def is_asked_for(asked, packet, said, rules):
    return ((asked.only is None or said.verdict in asked.only)
            and (asked.rule is None or said.rule == asked.rule)
            and (asked.line is None or asked.line in lines_named(said, rules))
            and (asked.host is None or holds_host(asked.host, packet))
            and (asked.port is None or has_port(asked.port, packet))
            and (asked.proto is None or has_protocol(asked.proto, packet))
            and (not asked.logged or is_logged(said, rules)))


# What is printed

class Printer(NamedTuple):
    """What is printed before all packets, and of each one; a way of pflog if there are several."""
    question: Question
    has_nanoseconds: bool
    ways: pflog.Ways = pflog.WAYS[0]

    def begin(self):
        return pflog.header_of(self.has_nanoseconds) if self.question.form == PFLOG else b""

    def of_packet(self, packet, said, rules):
        name, form = self.question.names()[packet.place], self.question.form
        if form == PFLOG:
            return pflog.record_of(packet, said, name, self.has_nanoseconds, self.ways)
        return {TEXT: text_line, JSON: json_line}[form](packet, said, rules, name)

    def count_line(self, found, packets, is_cut):
        if self.question.form != COUNT:
            return b""
        return f"{found} of {packets} packets{', cut' if is_cut else ''}\n".encode()


def printers_of(question, headers):
    """The ways to print that may differ."""
    has_nanoseconds = any(header.fraction == "nanoseconds" for header in headers)
    ways = pflog.WAYS if question.form == PFLOG else pflog.WAYS[:1]
    return [Printer(question, has_nanoseconds, each) for each in ways]


# Joining

def stopped(out, number, fault):
    return refused(f"packet {number}: {fault}")._replace(out=out)


def faults_behind(rest):
    """What may be said of what stands behind the last line of a packet."""
    line, newline, _ = rest.partition(b"\n")
    return [NOT_OF_CAPTURE] if newline and verdict_in(line) else [NOT_OF_CAPTURE, NO_LINE]


def joins(question, packets, rules, printer):
    """All that may be left: each pair of a fault's outcome and True, and at last what is printed, how many packets were
    asked for, and what stands behind the lines of all packets. That is missing if a line can't be right."""
    out, found, rest, ends = printer.begin(), 0, question.verdicts, []
    for packet in packets:
        line, newline, behind = rest.partition(b"\n")
        said = verdict_in(line) if newline else None
        allowed = answers_to(said, packet, rules, question.names())
        ends += [stopped(out, packet.number, fault) for fault in sorted(allowed - {FINE})]
        if FINE not in allowed:
            return ends, None
        rest = behind
        if is_asked_for(question.asked, packet, said, rules):
            found += 1
            out += printer.of_packet(packet, said, rules) if question.form != COUNT else b""
    return ends, (out, found, rest)


def printed_after(question, count):
    """What is printed of the first packets of a question for each way to print, as far as their lines are right."""
    packets, rules = question.joined().packets[:count], question.rules()
    printers = printers_of(question, headers_of(question.case.captures(), question.names()))
    found = [joins(question, packets, rules, printer)[1] for printer in printers]
    return printed_after(question, count - 1) if None in found else {out for out, *_ in found}


def outcomes(question, seen, rules, printer):
    """All outcomes that are right for one way to print."""
    ends, whole = joins(question, seen.packets, rules, printer)
    if whole is None:
        return ends
    out, found, rest = whole
    count = len(seen.packets)
    behind = [stopped(out, count + 1, fault) for fault in (faults_behind(rest) if rest else [])]
    if seen.refused is not None:
        said = f"{word_for(question.names(), seen.refused)}: {seen.tail}, committed {count}"
        return [refused(said)._replace(out=out), *behind, *ends]
    if rest:
        return [*behind, *ends]
    return [Outcome(out + printer.count_line(found, count, seen.is_cut()), b"", 0), *ends]


@lru_cache(maxsize=16)
def answers(question):
    """All outcomes that are right, the one by the letter first."""
    try:
        rules = question.rules()
    except Refused as fault:
        return [refused(f"rules {fault}")]
    try:
        headers = headers_of(question.case.captures(), question.names())
    except Refused as fault:
        return [refused(fault)]
    of_printer = partial(outcomes, question, question.joined(), rules)
    found = [each for printer in printers_of(question, headers) for each in of_printer(printer)]
    return list(dict.fromkeys(found))


def answer(question):
    """The outcome by the letter of the formats."""
    return answers(question)[0]
