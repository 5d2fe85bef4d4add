"""Scripts that are written out with their answers, and answers to one script that are made up.

What is published stands in words, in which a change has a name.
"""

from published.model import Script, steps_of
from table.kinds import own_key
from table.model import ALL, State


def change(word, number, deadline, octets, key, rule=None, binding=ALL):
    """A change that makes or touches the state of a number; its keys are those that belong to a number."""
    return f"{word} {State(number, own_key(key), own_key(key), deadline, octets, rule, binding).text()}"


CHANGES = {
    "make-1": change("make", 1, 60, 10, 1),
    "make-2": change("make", 2, 90, 20, 2),
    "make-3": change("make", 3, 90, 30, 3),
    "make-3-as-1": change("make", 3, 90, 30, 1),
    "touch-1": change("touch", 1, 70, 11, 1),
    "touch-2-as-1": change("touch", 2, 99, 21, 1),
    "make-4-of-0": change("make", 4, 60, 40, 4, 0),
    "make-5-of-0": change("make", 5, 90, 50, 5, 0),
    "make-6-of-3": change("make", 6, 90, 60, 6, 3),
    "touch-5-of-3": change("touch", 5, 90, 51, 5, 3),
    # these have one key, and are bound to the interface that is named last
    "make-7-at-0": change("make", 7, 60, 70, 7, binding=0),
    "make-8-at-1": change("make", 8, 90, 80, 7, binding=1),
    "make-8-at-0": change("make", 8, 90, 80, 7, binding=0),
    "make-8-at-all": change("make", 8, 90, 80, 7),
    "make-9-at-0": change("make", 9, 90, 90, 7, binding=0),
    "touch-7-at-1": change("touch", 7, 60, 71, 7, binding=1),
    "touch-7-at-2": change("touch", 7, 60, 71, 7, binding=2),
    "touch-7-at-all": change("touch", 7, 60, 71, 7),
    "touch-8-at-2": change("touch", 8, 90, 81, 7, binding=2),
}
ONE, TWO, THREE = "1 1/60/10", "2 1/60/10 2/90/20", "3 1/60/10 2/90/20 3/90/30"
ONLY_2, ONLY_3, LAST_TWO = "1 2/90/20", "1 3/90/30", "2 2/90/20 3/90/30"


def script(name, limit, viewers, deeds, places=None):
    """A script whose viewers and deeds stand in words. There are as many places as viewers if nothing else is said."""
    return Script(name, limit, places or len(viewers), tuple(steps_of(words.split()) for words in viewers),
                  tuple(CHANGES.get(deed, deed) for deed in steps_of(deeds.split())))


def published(count):
    """The lines of `count` publications that are done."""
    return ["published"] * count


def looks(*tables):
    """The lines of a viewer that sees a table when it enters and when it leaves, and then the next one."""
    return ["viewer", *(line for table in tables for line in (table, table))]


# What is published

def one_after_the_other():
    yield (script("a look behind each publication", 5, ["wait 1 enter leave wait 2 enter leave learn 3 enter leave"],
                  "start make-1 publish tell await 1 3 make-2 touch-1 publish tell await 1 6 purge 70 publish tell "
                  "await 1 9"),
           [*published(3), *looks(ONE, "2 1/70/11 2/90/20", ONLY_2), f"closed {ONLY_2}"])
    # what is shown behind a publication is the copy of two before, which has to catch up
    yield (script("each change comes to both copies", 5,
                  ["wait 1 enter leave wait 2 enter leave wait 3 enter leave wait 4 enter leave wait 5 enter leave"],
                  "start make-1 publish tell await 1 3 make-2 publish tell await 1 6 purge 60 publish tell await 1 9 "
                  "make-3 publish tell await 1 12 remove 2 publish tell await 1 15"),
           [*published(5), *looks(ONE, TWO, ONLY_2, LAST_TWO, ONLY_3), f"closed {ONLY_3}"])
    yield (script("rules are counted in both copies", 5,
                  ["wait 1 enter leave wait 2 enter leave wait 3 enter leave wait 4 enter leave wait 5 enter leave"],
                  "start make-4-of-0 make-5-of-0 publish tell await 1 3 make-6-of-3 publish tell await 1 6 purge 60 "
                  "publish tell await 1 9 touch-5-of-3 publish tell await 1 12 remove 6 publish tell await 1 15"),
           [*published(5), *looks("2 4/60/40 5/90/50 r0=2", "3 4/60/40 5/90/50 6/90/60 r0=2 r3=1",
                                  "2 5/90/50 6/90/60 r0=1 r3=1", "2 5/90/51 6/90/60 r3=2", "1 5/90/51 r3=1"),
            "closed 1 5/90/51 r3=1"])
    yield (script("states of one key on some interfaces", 5,
                  ["wait 1 enter leave wait 2 enter leave wait 3 enter leave wait 4 enter leave wait 5 enter leave"],
                  "start make-7-at-0 publish tell await 1 3 make-8-at-1 publish tell await 1 6 touch-7-at-2 publish "
                  "tell await 1 9 make-9-at-0 publish tell await 1 12 purge 60 touch-8-at-2 publish tell await 1 15"),
           [*published(5), *looks("1 7/60/70", "2 7/60/70 8/90/80", "2 7/60/71 8/90/80", "3 7/60/71 8/90/80 9/90/90",
                                  "2 8/90/81 9/90/90"),
            "closed 2 8/90/81 9/90/90"])
    yield (script("publications of nothing", 5, ["wait 1 enter leave wait 2 enter leave wait 3 enter leave"],
                  "start publish tell await 1 3 make-1 publish publish tell await 1 6 remove 1 publish publish publish "
                  "tell await 1 9"),
           [*published(6), *looks("0", ONE, "0"), "closed 0"])


def refused():
    # the purge that stands before the change that isn't taken isn't seen either, nor a later one
    yield (script("room for one state", 1, ["wait 1 enter leave wait 2 learn 1 learn 2 enter leave"],
                  "start make-1 publish tell await 1 3 purge 59 make-2 publish purge 60 publish tell await 1 8"),
           ["published", "refused", "refused", *looks(ONE, ONE), f"closed {ONE}"])
    yield (script("a key that is taken", 5, ["wait 1 enter leave"],
                  "start make-1 publish make-2 make-3-as-1 publish tell await 1 3"),
           ["published", "refused", *looks(ONE), f"closed {ONE}"])
    yield (script("a key that is taken by a touch", 5, ["wait 1 enter leave"],
                  "start make-1 make-2 publish touch-2-as-1 publish publish tell await 1 3"),
           ["published", "refused", "refused", *looks(TWO), f"closed {TWO}"])
    for name, first, last in (("a key that is taken on an interface", "make-7-at-0", "make-8-at-0"),
                              ("a floating state beside a bound one", "make-7-at-0", "make-8-at-all"),
                              ("a bound state beside a floating one", "make-8-at-all", "make-9-at-0")):
        table = {"make-7-at-0": "1 7/60/70", "make-8-at-all": "1 8/90/80"}[first]
        yield (script(name, 5, ["wait 1 enter leave"], f"start {first} publish {last} publish tell await 1 3"),
               ["published", "refused", *looks(table), f"closed {table}"])
    for name, last in (("a state that moves to where its key is taken", "touch-7-at-1"),
                       ("a state that is bound to all beside another one", "touch-7-at-all")):
        yield (script(name, 5, ["wait 1 enter leave"],
                      f"start make-7-at-0 make-8-at-1 publish {last} publish tell await 1 3"),
               ["published", "refused", *looks("2 7/60/70 8/90/80"), "closed 2 7/60/70 8/90/80"])
    # the first publication moves it away in both copies
    yield (script("a key that is free where it was, and taken where it is", 5, ["wait 1 enter leave wait 2 enter leave"],
                  "start make-7-at-0 touch-7-at-2 publish tell await 1 3 make-9-at-0 publish tell await 1 6 "
                  "make-8-at-1 touch-8-at-2 publish"),
           ["published", "published", "refused", *looks("1 7/60/71", "2 7/60/71 9/90/90"), "closed 2 7/60/71 9/90/90"])
    yield (script("to hide the table mends nothing", 1, ["wait 1 enter leave"],
                  "start make-1 make-2 publish hide publish tell await 1 3"),
           ["refused", "refused", *looks("0"), "closed 0"])


def hidden():
    # there would be room for one state alone
    yield (script("a hidden table", 1, ["wait 1 enter leave wait 2 enter leave learn 3 enter leave"],
                  "start make-1 publish tell await 1 3 hide make-2 make-3 publish tell await 1 6 purge 99 publish tell "
                  "await 1 9"),
           [*published(3), *looks(ONE, "-", "-"), "closed -"])
    yield (script("no publication behind the hiding", 1, ["wait 1 enter leave"],
                  "start make-1 publish hide tell await 1 3"),
           [*published(1), *looks(ONE), f"closed {ONE}"])
    yield (script("a look that lasts until behind the hiding", 2, ["wait 1 enter wait 2 leave enter leave"],
                  "start make-1 publish tell await 1 2 hide make-2 publish tell await 1 6"),
           [*published(2), *looks(ONE, "-"), "closed -"])


# What viewers do

def lasting():
    yield (script("a look that lasts", 2, ["enter wait 1 leave enter leave"],
                  "start await 1 1 make-1 publish tell await 1 5"),
           [*published(1), *looks("0", ONE), f"closed {ONE}"])
    # the second publication waits for the viewer
    yield (script("a look before two publications", 2, ["enter wait 1 leave wait 2 enter leave"],
                  "start await 1 1 make-1 publish tell make-2 publish tell await 1 6"),
           [*published(2), *looks("0", TWO), f"closed {TWO}"])
    yield (script("two viewers look at two tables", 2, ["wait 1 enter wait 2 leave", "wait 2 enter leave"],
                  "start start make-1 publish tell await 1 2 make-2 publish tell await 2 3 await 1 4"),
           [*published(2), *looks(ONE), *looks(TWO), f"closed {TWO}"])
    yield (script("the close waits for a look", 2, ["wait 1 enter leave wait 2 enter leave"],
                  "start make-1 publish tell await 1 2 close tell"),
           [*published(1), *looks(ONE, "-"), f"closed {ONE}"])


def learning():
    yield (script("tokens that are learned late, twice and out of order", 5,
                  ["wait 3 learn 2 learn 1 enter leave learn 3 learn 3 learn 1 enter leave wait 4 learn 2 enter leave"],
                  "start make-1 publish tell make-2 publish tell make-3 publish tell await 1 10 remove 1 publish tell "
                  "await 1 14"),
           [*published(4), *looks(THREE, THREE, LAST_TWO), f"closed {LAST_TWO}"])
    yield (script("a token of the empty table", 5, ["learn 1 enter leave learn 2 learn 1 enter leave"],
                  "start tell await 1 3 make-1 publish tell await 1 7"),
           [*published(1), *looks("0", ONE), f"closed {ONE}"])
    yield (script("a viewer that starts late", 5, ["enter leave"], "make-1 publish make-2 publish start await 1 2"),
           [*published(2), *looks(TWO), f"closed {TWO}"])


def places():
    yield (script("a place that is used again", 5, ["wait 1 enter leave", "enter leave", "wait 2 enter leave"],
                  "start start make-1 publish tell await 1 4 start tell await 3 3", 1),
           [*published(1), *looks(ONE), "missing", *looks(ONE), f"closed {ONE}"])


def rows():
    """Scripts, each with the lines that it is answered with before the end."""
    for some in (one_after_the_other, refused, hidden, lasting, learning, places):
        yield from some()


# Answers that are made up

# the first two looks are behind the first publication, and the third is behind the second
FREE = script("free", 5, ["enter leave enter leave learn 1 enter leave"],
              "make-1 publish start make-2 make-3 publish tell purge 60 publish await 1 7")
# how many publications are done, and what is there at the close then
CLOSED = ("0", ONE, THREE, LAST_TWO)


def answer(*lines, done=3, closed=None):
    """An answer with the lines of the viewer, if `done` publications are done and the others are refused."""
    return [*published(done), *["refused"] * (3 - done), *lines, f"closed {closed or CLOSED[done]}"]


def right_answers():
    yield "each time the first table that may be seen", answer(*looks(ONE, ONE, THREE))
    yield "each time the last table", answer(*looks(LAST_TWO, LAST_TWO, LAST_TWO))
    yield "each time another table", answer(*looks(ONE, THREE, LAST_TWO))
    yield "the second and the last table", answer(*looks(THREE, THREE, LAST_TWO))


def wrong_answers():
    yield "a table of before the viewer started", answer(*looks("0", ONE, THREE))
    yield "a table of before one that was seen", answer(*looks(THREE, ONE, THREE))
    yield "a table of before one that was seen, at the last look", answer(*looks(LAST_TWO, LAST_TWO, THREE))
    yield "a table of before the token", answer(*looks(ONE, ONE, ONE))
    yield "a part of a publication", answer(*looks(ONE, TWO, THREE))
    yield "a purge alone", answer(*looks(ONE, "0", THREE))
    yield "a table that is closed", answer(*looks(ONE, ONE, "-"))
    yield "a table that changes while a viewer looks", answer("viewer", ONE, ONE, ONE, THREE, THREE, THREE)
    yield "a look too few", answer(*looks(ONE, ONE))
    yield "a look too many", answer(*looks(ONE, ONE, THREE, LAST_TWO))
    yield "a publication that is refused", answer(*looks(ONE, ONE, THREE), done=2)
    yield "another table at the close", answer(*looks(ONE, ONE, LAST_TWO), closed=THREE)
    yield "no table at the close", answer(*looks(ONE, ONE, LAST_TWO), closed="-")
    yield "a viewer that is missing", answer("missing")
    yield "a wait in vain", [*answer(*looks(ONE, ONE, THREE)), "late"]


def made_up():
    """Answers with their names, and whether they are right."""
    yield from ((name, lines, True) for name, lines in right_answers())
    yield from ((name, lines, False) for name, lines in wrong_answers())


def endings():
    """Answers with what the judge says that was refused for want of memory, None where no refusal makes them right."""
    yield "nothing is refused", answer(*looks(ONE, THREE, LAST_TWO)), "whole"
    yield "the first publication is refused", answer(*looks("0", "0", "0"), done=0), "no publication"
    yield "the second publication is refused", answer(*looks(ONE, ONE, ONE), done=1), "no publication"
    yield "the last publication is refused", answer(*looks(ONE, THREE, THREE), done=2), "no publication"
    yield "the viewer is missing, and nothing else", answer("missing"), "no viewer"
    yield "a publication goes on", ["published", "refused", "published", *looks(ONE, ONE, ONE), f"closed {ONE}"], None
    yield "what is refused is seen", answer(*looks(ONE, ONE, THREE), done=1), None
    yield "what is refused is there at the close", answer(*looks(ONE, ONE, THREE), done=2, closed=LAST_TWO), None
    yield "what is published is gone", answer(*looks(ONE, "0", "0"), done=1, closed="0"), None
    yield "there is no table at the close", answer(*looks(ONE, ONE, THREE), done=2, closed="-"), None
    yield "the viewer is missing as well", answer("missing", done=2), None
    yield "a wait is in vain besides", [*answer(*looks(ONE, ONE, ONE), done=1), "late"], None
