"""The warnings that the command `diff` says without `--quiet`, by what the run with the new ruleset left: a second
implementation, written from docs/FORMATS.md, section "Warnings"."""

from captures import merging
from captures.model import read_header
from changes.said import said_by
from expansions.hosts import interface_of
from runs import warnings
from steps.replay import ruleset_of


def packets_of(captures, outcome):
    """The packets of captures, with what a run left of them."""
    headers = list(map(read_header, captures))
    records = merging.merged(list(map(merging.source_of, captures))).records
    for (place, record), said in zip(records, said_by(outcome), strict=True):
        yield warnings.Packet(place, headers[place], record, said.way, said.verdict, said.reason, said.state)


def warned(case, text, outcome):
    """What is said on standard error of a case with this ruleset, whose run left the outcome."""
    interfaces = tuple(interface_of(*each) for each in case.interfaces())
    packets = list(packets_of(case.captures(), outcome))
    return warnings.said(warnings.told(warnings.DIFF, ruleset_of(text, interfaces), packets, case.tap))
