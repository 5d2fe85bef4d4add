"""The messages of random runs, as the model and the command `standby` take them.

The model has to hold the states that the run has left, but those of rules with `no-sync`. That compares it with the
command `run` alone. The command `standby` has to answer what the model does.
"""

from collections import Counter

from messages.reading import read_in_file, stream_of
from runs import model
from runs.model import FILE, PEER
from standby.asking import from_file, heard_from
from standby.cases import case_at
from standby.left import fields_of, held_lines, is_told
from standby.model import answer, ending_of
from workers.choices import Choice, run_of

# the run by one thread, in batches of the size that is taken if none is told
ALONE = Choice(0, 256)
PROTOCOLS = {"1": "of ICMP", "6": "of TCP", "17": "of UDP"}
STATES = ("of ICMP", "of TCP", "of UDP", "of other protocols", "translated", "without a rule", "with a shift",
          "of no-sync rules")
RECORDS = ("INS", "UPD_C", "DEL_C")
ENDS = ("whole captures", "cut captures", "runs that stop early")
COUNTED = (*ENDS, *STATES, *RECORDS)


def of_state(fields, ruleset):
    """What comes up with a state that is left."""
    _, protocol, _, wire, stack, rule, _, maker, other, *_ = fields
    yield PROTOCOLS.get(protocol, "of other protocols")
    yield from ["translated"] if wire != stack else []
    yield from ["without a rule"] if rule == "r=-" else []
    yield from ["with a shift"] if not all(peer.endswith("-") for peer in (maker, other)) else []
    yield from [] if is_told(fields, ruleset) else ["of no-sync rules"]


def counts_of(outcome, ruleset):
    """How often each thing comes up in a run."""
    counts = Counter()
    for fields in fields_of(outcome.files.states):
        counts.update(of_state(fields, ruleset))
    for message in stream_of(outcome.files.messages, read_in_file).messages:
        counts.update({kind: len(records) for kind, records in message.records().items()})
    counts[{0: ENDS[0], 2: ENDS[1]}.get(outcome.status, ENDS[2])] += 1
    return counts


def expect_held(comparison, case, outcome):
    """What the model holds behind a run's messages. A run that stops early has messages, and no states."""
    if outcome is None or None in outcome.files:
        comparison.expect(f"{case.name}: the run", "states and messages", outcome)
        return Counter()
    ruleset, ending = model.job_of_case(case).ruleset, ending_of(outcome.files.messages, FILE)
    held = ending.standby.lines()
    wanted = held_lines(outcome.files.states, ruleset) if outcome.status in (0, 2) else held
    comparison.expect(f"{case.name}: what is held", (None, *wanted), (ending.refusal, *held))
    return counts_of(outcome, ruleset)


def by_model(comparison, number):
    """A run by its model."""
    case = case_at(number)
    return expect_held(comparison, case, model.run(case))


def by_program(comparison, number):
    """A run by the program."""
    case = case_at(number)
    return expect_held(comparison, case, run_of(comparison, case, ALONE))


def with_standby(comparison, number):
    """The command `standby` on the messages of a run, beside the model."""
    case = case_at(number)
    outcome = run_of(comparison, case, ALONE)
    messages = (outcome and outcome.files.messages) or b""
    comparison.prepare()
    comparison.expect(f"{case.name}: standby", answer(messages, FILE), from_file(comparison, messages))
    return Counter()


def beside_standby(comparison, number):
    """A run that sends its messages to the command in another process."""
    expect_heard(comparison, case_at(number))
    return Counter()


def expect_heard(comparison, case):
    """A run of a case and the command that hears it: both end as the model says."""
    wanted = model.run(case, PEER)
    messages, alone = wanted.files.messages, wanted._replace(files=wanted.files._replace(messages=None))
    ran, heard = heard_from(comparison, case)
    comparison.prepare()
    comparison.expect(f"{case.name}: the run beside standby", alone, ran)
    comparison.expect(f"{case.name}: standby beside the run", answer(messages, PEER), heard)
