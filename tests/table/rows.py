"""Lists of calls to a table with answers written by hand: of states that share keys on several interfaces.

A line is a call, and behind ` = ` its answers with `, ` between them. A capital letter stands for a key. The words of a
state are its number, its keys on the wire and on the stack, its deadline, its bytes, its rule and its binding; those of a
look-up are the side, the key, the scope and the clock. A binding and a scope are the place of an interface, or `-` for all.
"""

from typing import NamedTuple

KEYS = {"A": "17 3325256711 53 167772161 1000", "B": "17 3325256711 53 167772161 1001",
        "C": "6 3405803778 443 167772162 1000", "D": "17 3325256711 53 167772162 1000"}


class Row(NamedTuple):
    name: str
    lines: list
    # for each call the lines that answer it
    answers: list


def spelled(text):
    """A call or an answer with its keys in numbers."""
    return " ".join(KEYS.get(word, word) for word in text.split())


def row(name, limit, text):
    pairs = [line.split(" = ") for line in text.strip().splitlines()]
    return Row(name, [str(limit), *(spelled(call) for call, _ in pairs)],
               [list(map(spelled, answers.split(", "))) for _, answers in pairs])


def look_ups():
    yield row("two states of one key on two interfaces", 9, """
        make 1 A A 60 10 - 0 = done
        make 2 A A 70 20 - 1 = done
        at wire A 0 5 = 1 A A 60 10 - 0
        at wire A 1 5 = 2 A A 70 20 - 1
        at wire A 2 5 = none
        at wire A - 5 = 1 A A 60 10 - 0
        at stack A 0 5 = 1 A A 60 10 - 0
        at stack A 1 5 = 2 A A 70 20 - 1
        at stack A 2 5 = none
        at stack A - 5 = 1 A A 60 10 - 0
        at wire B - 5 = none
        list = 2, 1 A A 60 10 - 0, 2 A A 70 20 - 1, none
        """)
    yield row("a floating state is found for each interface", 9, """
        make 1 A B 60 10 - - = done
        at wire A 0 5 = 1 A B 60 10 - -
        at wire A 2 5 = 1 A B 60 10 - -
        at wire A - 5 = 1 A B 60 10 - -
        at stack B 255 5 = 1 A B 60 10 - -
        at stack A - 5 = none
        """)
    yield row("the least number, whichever was made first and whatever its place", 9, """
        make 256 A A 60 10 - 0 = done
        at wire A - 5 = 256 A A 60 10 - 0
        make 40 A A 70 20 - 2 = done
        at wire A - 5 = 40 A A 70 20 - 2
        make 5 A A 80 30 - 1 = done
        at wire A - 5 = 5 A A 80 30 - 1
        make 18446744073709551615 A A 90 40 - 3 = done
        make 4294967297 A A 90 50 - 4 = done
        at stack A - 5 = 5 A A 80 30 - 1
        at stack A 3 5 = 18446744073709551615 A A 90 40 - 3
        at stack A 0 5 = 256 A A 60 10 - 0
        make 0 A A 99 60 - 5 = done
        at stack A - 5 = 0 A A 99 60 - 5
        """)


def places_and_sides():
    yield row("the first place and the last", 9, """
        make 1 A A 60 10 - 255 = done
        make 2 A A 60 20 - 0 = done
        at wire A 255 5 = 1 A A 60 10 - 255
        at wire A 0 5 = 2 A A 60 20 - 0
        at wire A 254 5 = none
        at wire A - 5 = 1 A A 60 10 - 255
        make 3 A A 60 30 - 255 = key taken
        make 3 A A 60 30 - 254 = done
        make 4 A A 60 40 - 128 = done
        make 5 A A 60 50 - 127 = done
        at wire A 128 5 = 4 A A 60 40 - 128
        at wire A 127 5 = 5 A A 60 50 - 127
        """)
    yield row("each side by itself", 9, """
        make 1 A B 60 10 - 0 = done
        make 2 A C 60 20 - 1 = done
        make 3 D B 60 30 - 2 = done
        make 4 B A 60 40 - 0 = done
        at wire A - 5 = 1 A B 60 10 - 0
        at wire A 1 5 = 2 A C 60 20 - 1
        at wire A 2 5 = none
        at stack B - 5 = 1 A B 60 10 - 0
        at stack B 2 5 = 3 D B 60 30 - 2
        at stack B 1 5 = none
        at stack C 1 5 = 2 A C 60 20 - 1
        at wire D 2 5 = 3 D B 60 30 - 2
        remove 1 = done
        at wire A - 5 = 2 A C 60 20 - 1
        at stack B - 5 = 3 D B 60 30 - 2
        at wire B - 5 = 4 B A 60 40 - 0
        """)


def deadlines():
    yield row("the deadline of the least one comes", 9, """
        make 1 A A 10 10 - 0 = done
        make 2 A A 30 20 - 1 = done
        at wire A - 9 = 1 A A 10 10 - 0
        at wire A - 10 = 2 A A 30 20 - 1
        at stack A - 10 = 2 A A 30 20 - 1
        at wire A 0 9 = 1 A A 10 10 - 0
        at wire A 0 10 = none
        at wire A 1 10 = 2 A A 30 20 - 1
        at wire A - 29 = 2 A A 30 20 - 1
        at wire A - 30 = none
        settle 30 = done
        at wire A - 9 = 1 A A 10 10 - 0
        make 3 A A 60 30 - 0 = key taken
        make 3 A A 60 30 - - = key taken
        list = 2, 1 A A 10 10 - 0, 2 A A 30 20 - 1, none
        """)
    yield row("the deadline of the greater one comes", 9, """
        make 1 A A 30 10 - 0 = done
        make 2 A A 10 20 - 1 = done
        at wire A - 9 = 1 A A 30 10 - 0
        at wire A - 10 = 1 A A 30 10 - 0
        at wire A 1 10 = none
        at wire A - 30 = none
        """)


def deadlines_of_three():
    yield row("of three the one between has time left", 9, """
        make 1 A A 10 10 - 2 = done
        make 2 A A 30 20 - 0 = done
        make 3 A A 20 30 - 1 = done
        at wire A - 9 = 1 A A 10 10 - 2
        at wire A - 10 = 2 A A 30 20 - 0
        at wire A - 20 = 2 A A 30 20 - 0
        touch 2 A A 15 21 - 0 = done
        at wire A - 14 = 2 A A 15 21 - 0
        at wire A - 15 = 3 A A 20 30 - 1
        at wire A - 20 = none
        touch 1 A A 40 11 - 2 = done
        at stack A - 20 = 1 A A 40 11 - 2
        touch 1 A A 12 12 - 2 = done
        at stack A - 12 = 2 A A 15 21 - 0
        """)


def purges():
    yield row("a purge takes the least one", 9, """
        make 1 A A 10 10 - 0 = done
        make 2 A A 30 20 - 1 = done
        make 3 A A 20 30 - 2 = done
        due 20 = 1 A A 10 10 - 0
        purge 10 = done
        at wire A - 5 = 2 A A 30 20 - 1
        at stack A - 5 = 2 A A 30 20 - 1
        at wire A 0 5 = none
        at wire A 2 5 = 3 A A 20 30 - 2
        due 20 = 3 A A 20 30 - 2
        purge 20 = done
        at wire A - 5 = 2 A A 30 20 - 1
        at wire A 2 5 = none
        make 4 A A 60 40 - 0 = done
        at wire A - 5 = 2 A A 30 20 - 1
        at wire A 0 5 = 4 A A 60 40 - 0
        purge 30 = done
        at wire A - 5 = 4 A A 60 40 - 0
        list = 1, 4 A A 60 40 - 0, none
        """)
    yield row("a purge takes all of a key", 9, """
        make 1 A A 10 10 - 0 = done
        make 2 A A 10 20 - 1 = done
        make 3 B B 60 30 - 1 = done
        purge 10 = done
        at wire A - 5 = none
        make 4 A A 60 40 - - = done
        at wire A 1 5 = 4 A A 60 40 - -
        """)


def refusals():
    yield row("a floating state beside a bound one", 9, """
        make 1 A B 60 10 - 1 = done
        make 2 A C 60 20 - - = key taken
        make 2 C B 60 20 - - = key taken
        make 2 B A 60 20 - - = done
        make 3 A C 60 30 - 1 = key taken
        make 3 C B 60 30 - 1 = key taken
        make 3 A C 60 30 - 0 = done
        make 4 D B 60 40 - 0 = done
        list = 4, 1 A B 60 10 - 1, 2 B A 60 20 - -, 3 A C 60 30 - 0, 4 D B 60 40 - 0, none
        """)
    yield row("a bound state beside a floating one", 9, """
        make 1 A B 60 10 - - = done
        make 2 A C 60 20 - 0 = key taken
        make 2 C B 60 20 - 0 = key taken
        make 2 A C 60 20 - 255 = key taken
        make 2 A C 60 20 - - = key taken
        make 2 C C 60 20 - 0 = done
        remove 1 = done
        make 3 A C 60 30 - 1 = done
        make 4 A B 60 40 - - = key taken
        make 4 A B 60 40 - 0 = done
        at wire A - 5 = 3 A C 60 30 - 1
        at wire A 0 5 = 4 A B 60 40 - 0
        """)
    yield row("one side is free and the other is taken", 9, """
        make 1 A A 60 10 - 0 = done
        make 2 B B 60 20 - 1 = done
        make 3 A B 60 30 - 0 = key taken
        make 3 A B 60 30 - 1 = key taken
        make 3 A B 60 30 - 2 = done
        make 4 B A 60 40 - - = key taken
        """)


def keys_and_room():
    yield row("a key is free once the last one is gone that has it", 9, """
        make 1 A A 60 10 - 0 = done
        make 2 A A 60 20 - 1 = done
        make 3 A A 60 30 - - = key taken
        remove 1 = done
        make 3 A A 60 30 - - = key taken
        remove 2 = done
        make 3 A A 60 30 - - = done
        """)
    yield row("the limit goes for all interfaces, and a key that is taken is the first reason", 2, """
        room 5 = yes
        make 1 A A 60 10 - 0 = done
        make 2 A A 50 20 - 1 = done
        room 5 = no
        make 3 A A 60 30 - 2 = full
        make 3 A A 60 30 - 1 = key taken
        make 3 A A 60 30 - - = key taken
        room 50 = yes
        make 3 A A 60 30 - 2 = full
        purge 50 = done
        make 3 A A 60 30 - 2 = done
        len = 2
        """)
    yield row("a rule's states are counted on all interfaces", 9, """
        make 1 A A 60 10 4 0 = done
        make 2 A A 50 20 4 1 = done
        make 3 B B 60 30 4 - = done
        make 4 A A 60 40 5 2 = done
        rule_room 4 3 5 = no
        rule_room 4 4 5 = yes
        rule_room 4 3 50 = yes
        rule_room 5 1 5 = no
        touch 2 A A 60 21 5 3 = done
        rule_room 4 3 5 = yes
        rule_room 4 2 5 = no
        rule_room 5 2 5 = no
        """)


def numbers():
    yield row("a number that is used again", 9, """
        make 1 A A 60 10 - 0 = done
        make 1 A A 60 11 - 0 = key taken
        make 1 A A 60 11 - - = key taken
        make 1 A A 60 11 - 1 = done
        at wire A 0 5 = none
        at wire A 1 5 = 1 A A 60 11 - 1
        at stack A - 5 = 1 A A 60 11 - 1
        list = 1, 1 A A 60 11 - 1, none
        """)


def removals():
    yield row("the least one is removed", 9, """
        make 1 A A 60 10 - 0 = done
        make 2 A A 60 20 - 1 = done
        make 3 A A 60 30 - 2 = done
        remove 1 = done
        at wire A - 5 = 2 A A 60 20 - 1
        at stack A - 5 = 2 A A 60 20 - 1
        at wire A 0 5 = none
        at wire A 1 5 = 2 A A 60 20 - 1
        remove 2 = done
        at wire A - 5 = 3 A A 60 30 - 2
        at wire A 1 5 = none
        make 4 A A 60 40 - 0 = done
        at wire A - 5 = 3 A A 60 30 - 2
        make 1 A A 60 11 - 1 = done
        at wire A - 5 = 1 A A 60 11 - 1
        list = 3, 1 A A 60 11 - 1, 3 A A 60 30 - 2, 4 A A 60 40 - 0, none
        """)
    yield row("a greater one is removed", 9, """
        make 1 A A 60 10 - 0 = done
        make 2 A A 60 20 - 1 = done
        make 3 A A 60 30 - 2 = done
        remove 2 = done
        at wire A - 5 = 1 A A 60 10 - 0
        at wire A 1 5 = none
        at stack A 2 5 = 3 A A 60 30 - 2
        remove 3 = done
        at wire A - 5 = 1 A A 60 10 - 0
        at wire A 2 5 = none
        after 1 = none
        """)


def moves():
    yield row("a state moves to another interface", 9, """
        make 1 A A 60 10 - 0 = done
        touch 1 A A 70 11 - 1 = done
        at wire A 0 5 = none
        at wire A 1 5 = 1 A A 70 11 - 1
        at stack A 0 5 = none
        at stack A 1 5 = 1 A A 70 11 - 1
        at stack A - 5 = 1 A A 70 11 - 1
        make 2 A A 60 20 - 1 = key taken
        make 2 A A 60 20 - 0 = done
        list = 2, 1 A A 70 11 - 1, 2 A A 60 20 - 0, none
        """)
    yield row("a state can't move to an interface where another one has its key", 9, """
        make 1 A A 60 10 - 0 = done
        make 2 A A 60 20 - 1 = done
        touch 1 A A 70 11 - 1 = key taken
        touch 2 A A 70 21 - 0 = key taken
        touch 1 A A 70 11 - - = key taken
        at wire A 0 5 = 1 A A 60 10 - 0
        at wire A 1 5 = 2 A A 60 20 - 1
        touch 1 A A 70 11 - 0 = done
        touch 2 A A 70 21 - 2 = done
        touch 1 A A 70 12 - 1 = done
        at wire A 0 5 = none
        at wire A 1 5 = 1 A A 70 12 - 1
        at wire A 2 5 = 2 A A 70 21 - 2
        """)
    yield row("one side of a state can't move", 9, """
        make 1 A A 60 10 - 0 = done
        make 2 A B 60 20 - 1 = done
        make 3 B A 60 30 - 2 = done
        touch 1 A A 60 11 - 1 = key taken
        touch 1 A A 60 11 - 2 = key taken
        touch 1 C A 60 11 - 1 = done
        at wire A - 5 = 2 A B 60 20 - 1
        at stack A - 5 = 1 C A 60 11 - 1
        at stack A 2 5 = 3 B A 60 30 - 2
        """)


def new_bindings_and_keys():
    yield row("a bound state becomes a floating one, and a floating one a bound one", 9, """
        make 1 A A 60 10 - 0 = done
        make 2 A A 60 20 - 1 = done
        remove 2 = done
        touch 1 A A 60 11 - - = done
        at wire A 7 5 = 1 A A 60 11 - -
        make 3 A A 60 30 - 1 = key taken
        touch 1 A A 60 12 - 2 = done
        at wire A 7 5 = none
        make 3 A A 60 30 - 1 = done
        at wire A - 5 = 1 A A 60 12 - 2
        touch 3 A A 60 31 - - = key taken
        """)
    yield row("new keys that are free on one interface alone", 9, """
        make 1 A A 60 10 - 0 = done
        make 2 B B 60 20 - 1 = done
        touch 1 B B 60 11 - 1 = key taken
        touch 1 B B 60 11 - - = key taken
        touch 1 B A 60 11 - 1 = key taken
        touch 1 A B 60 11 - 1 = key taken
        touch 1 B B 60 11 - 0 = done
        at wire B - 5 = 1 B B 60 11 - 0
        at wire A - 5 = none
        at stack B 1 5 = 2 B B 60 20 - 1
        touch 2 A A 60 21 - 0 = done
        at wire B 1 5 = none
        at wire A 0 5 = 2 A A 60 21 - 0
        """)
    yield row("a state whose deadline has come keeps others from its interface", 9, """
        make 1 A A 10 10 - 0 = done
        make 2 A A 60 20 - 1 = done
        settle 10 = done
        touch 2 A A 60 21 - 0 = key taken
        purge 10 = done
        touch 2 A A 60 21 - 0 = done
        at wire A 1 15 = none
        at wire A 0 15 = 2 A A 60 21 - 0
        """)


def touches():
    yield row("the touch of a number that no state has", 9, """
        make 1 A A 60 10 - 0 = done
        touch 9 A A 60 90 - 0 = key taken
        touch 9 A A 60 90 - - = key taken
        touch 9 A A 60 90 - 1 = done
        at wire A 1 5 = none
        list = 1, 1 A A 60 10 - 0, none
        """)
    yield row("a touched state stays the least one, or becomes it", 9, """
        make 1 A A 60 10 - 0 = done
        make 2 A A 60 20 - 1 = done
        make 3 B B 60 30 - 2 = done
        touch 1 A A 60 11 - 3 = done
        at wire A - 5 = 1 A A 60 11 - 3
        touch 1 B A 60 12 - 3 = done
        at wire A - 5 = 2 A A 60 20 - 1
        at stack A - 5 = 1 B A 60 12 - 3
        at wire B - 5 = 1 B A 60 12 - 3
        at wire B 2 5 = 3 B B 60 30 - 2
        touch 3 A A 60 31 - 2 = done
        at wire A - 5 = 2 A A 60 20 - 1
        at wire A 2 5 = 3 A A 60 31 - 2
        """)


def rows():
    """Lists of calls with answers written by hand."""
    for some in (look_ups, places_and_sides, deadlines, deadlines_of_three, purges, refusals, keys_and_room,
                 numbers, removals, moves, new_bindings_and_keys, touches):
        yield from some()
