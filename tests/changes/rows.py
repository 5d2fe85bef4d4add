"""All rows of the command `diff`: questions whose answers are written out by hand.

The packets are of raw IP. H is inside and P outside, and E is the interface's address.
"""

from changes.row import with_tried
from changes.tried import TRIED
from changes import (rows_causes, rows_json, rows_reasons, rows_refused, rows_rules, rows_runs, rows_same,
                     rows_translation, rows_unjudged, rows_untried, rows_verdicts, rows_warned)

MODULES = (rows_same, rows_verdicts, rows_causes, rows_rules, rows_reasons, rows_translation, rows_runs, rows_unjudged,
           rows_untried, rows_json, rows_refused, rows_warned)


def rows():
    for module in MODULES:
        for row in module.rows():
            yield with_tried(row, TRIED[row.name]) if row.name in TRIED else row
