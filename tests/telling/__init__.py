"""The program's command `rules`: each flat rule of a ruleset, in the words of pf.conf(5)."""
