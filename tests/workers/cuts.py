"""Runs with workers on captures that are cut, or have a record that is too long. All packets before that are written.
"""

from captures.packets import record
from faults.replay import HEADER, RECORD_HEADER
from runs import model
from workers import kinds
from workers.choices import Choice, run_of
from workers.lawful import BATCHES, WORKERS

# bytes of a capture that has no whole header
HEADERS = (0, 1, HEADER - 1)
# whole records before the end: none, some whole batches, and a part of one besides
COUNTS = (0, 7, 256, 600)
LAST, TOO_LONG = record(0, 0, bytes(40)), 262145
CUTS = {"in a record's header": LAST[:RECORD_HEADER - 1], "before a record's bytes": LAST[:RECORD_HEADER],
        "before a record's last byte": LAST[:-1]}


def cut_headers(comparison):
    """Captures that end in their header."""
    case = kinds.mixed_kind(kinds.FEW).case
    for length in HEADERS:
        compare(comparison, f"a capture of {length} bytes", case._replace(capture=case.capture[:length]),
                model.refused("capture: header cut", model.EMPTY))


def cut_records(comparison, count):
    """Captures that end in each way after `count` records. If they are cut, the outputs are those of these records. If
    a record is too long, they are what is written of these before the end."""
    case = kinds.mixed_kind(kinds.FEW, count).case
    whole = model.run(case)
    for place, last in CUTS.items():
        compare(comparison, f"a capture that is cut behind {count} records {place}",
                case._replace(capture=case.capture + last),
                whole._replace(out=f"committed {count}, cut\n".encode(), status=2))
    compare(comparison, f"a record that is too long behind {count} records",
            case._replace(capture=case.capture + record(0, 0, b"", captured=TOO_LONG)),
            model.refused(f"capture: record too long {TOO_LONG}, committed {count}", model.online(case, count)))


def compare(comparison, name, case, expected):
    """Runs a case with each choice."""
    for batch in BATCHES:
        for choice in (Choice(workers, batch) for workers in WORKERS):
            comparison.expect(f"{name}, {choice}", expected, run_of(comparison, case, choice))
