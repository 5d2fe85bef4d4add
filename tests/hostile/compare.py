"""Gives the program inputs of an enemy, kills it at random moments, and calls a standby with garbage.

`run.py` gives it as many inputs as are asked for, and says which ones take longer than two seconds. Here they may take
a minute, since other comparisons run beside this one.
"""

import sys

import building
from hostile import enemies, killed
from hostile.run import compare as compare_inputs

SEED = 20261130
INPUTS, KILLED = 4000, 50
SECONDS = 60


def compare(program):
    found = compare_inputs(program, INPUTS, SEED, SECONDS)
    found.show()
    return len(found.wrong) + enemies.compare(program) + killed.compare(program, KILLED, SEED)


def main():
    sys.exit(bool(compare(building.pfreplay())))
