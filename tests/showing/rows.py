"""All rows of the command `show`: questions whose answers are written out by hand.

H is inside and P outside. Most packets are of raw IP.
"""

from showing import rows_asked, rows_json, rows_pflog, rows_refused, rows_runs, rows_text, rows_words

MODULES = (rows_text, rows_json, rows_pflog, rows_asked, rows_words, rows_runs, rows_refused)


def rows():
    for module in MODULES:
        yield from module.rows()
