"""All rows of the command `report`: questions whose pages are written out by hand, in part.

H is inside and P outside. Most packets are of raw IP.
"""

from reporting import (rows_asked, rows_blocked, rows_refused, rows_rules, rows_spans, rows_states, rows_summary,
                       rows_texts, rows_warnings)

MODULES = (rows_warnings, rows_summary, rows_spans, rows_rules, rows_asked, rows_blocked, rows_states, rows_texts,
           rows_refused)


def rows():
    for module in MODULES:
        yield from module.rows()
