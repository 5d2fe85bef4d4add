"""What calls come upon where states share keys on several interfaces.

Look-ups, changes and purges have names for that. They are counted, and a comparison may demand a count of them.
"""

from table.model import ALL, meet, read

SEVERAL = "look-ups for all with several states"
LEAST_DUE = "of these the least one is due, and another isn't"
ALL_DUE = "of these all are due"
GREATER_DUE = "of these a greater one is due, and the least isn't"
BESIDE = "look-ups for one beside states bound elsewhere"
ELSEWHERE = "look-ups for one with all states bound elsewhere"
BOUND_BY_BOUND = "bound refused by bound"
BOUND_BY_FLOATING = "bound refused by floating"
FLOATING_BY_BOUND = "floating refused by bound"
FLOATING_BY_FLOATING = "floating refused by floating"
MADE_BESIDE = "made beside its key bound elsewhere"
TOUCHED_BESIDE = "touched beside its key bound elsewhere"
MOVED_BESIDE = "bound otherwise beside its key bound elsewhere"
NOT_MOVED = "refused to be bound otherwise"
MADE_AGAIN = "made again with its key, bound elsewhere"
LEAST_REMOVED = "least ones removed"
LEAST_PURGED = "least ones purged"
OF_LOOK_UPS = (SEVERAL, LEAST_DUE, ALL_DUE, GREATER_DUE, BESIDE, ELSEWHERE)
OF_CHANGES = (BOUND_BY_BOUND, BOUND_BY_FLOATING, FLOATING_BY_BOUND, FLOATING_BY_FLOATING, MADE_BESIDE, TOUCHED_BESIDE,
              MOVED_BESIDE, NOT_MOVED, MADE_AGAIN, LEAST_REMOVED, LEAST_PURGED)
REFUSED = {(False, False): BOUND_BY_BOUND, (False, True): BOUND_BY_FLOATING, (True, False): FLOATING_BY_BOUND,
           (True, True): FLOATING_BY_FLOATING}


def of_several(states, clock):
    """What a look-up for all comes upon that has several states, by rising number."""
    yield SEVERAL
    lives = [state.lives(clock) for state in states]
    if not any(lives):
        yield ALL_DUE
    elif not lives[0]:
        yield LEAST_DUE
    elif not all(lives):
        yield GREATER_DUE


def of_look_up(table, side, key, scope, clock):
    states = table.with_key(side, key)
    found = [state for state in states if meet(state.binding, scope)]
    if scope is ALL and len(found) > 1:
        yield from of_several(found, clock)
    elif len(found) < len(states):
        yield BESIDE if found else ELSEWHERE


def with_keys_of(table, state):
    """The states that have one of a state's keys, wherever they are bound."""
    return [other for side, key in state.keys() for other in table.with_key(side, key)]


def of_making(table, state):
    others = with_keys_of(table, state)
    taken = [other for other in others if meet(other.binding, state.binding)]
    if taken:
        yield REFUSED[state.binding is ALL, taken[0].binding is ALL]
    elif others and len(table.states) < table.limit:
        yield MADE_BESIDE
        if any(other.number == state.number for other in others):
            yield MADE_AGAIN


def of_touch(table, state):
    others = [other for other in with_keys_of(table, state) if other.number != state.number]
    taken = [other for other in others if meet(other.binding, state.binding)]
    old = table.states.get(state.number)
    is_moved = old and old.binding != state.binding
    if taken:
        yield REFUSED[state.binding is ALL, taken[0].binding is ALL]
        # its binding alone is the reason
        if is_moved and (old.wire, old.stack) == (state.wire, state.stack):
            yield NOT_MOVED
    elif others and old:
        yield TOUCHED_BESIDE
        if is_moved:
            yield MOVED_BESIDE


def is_least(table, state):
    """Whether it is the one of least number among several that have its key on a side."""
    return any(len(others) > 1 and others[0] == state
               for others in (table.with_key(side, key) for side, key in state.keys()))


def of_removal(table, number):
    state = table.states.get(number)
    if state and is_least(table, state):
        yield LEAST_REMOVED


def of_purge(table, clock):
    for state in table.states.values():
        if not state.lives(clock) and is_least(table, state):
            yield LEAST_PURGED


WAYS = {"at": of_look_up, "make": of_making, "touch": of_touch, "remove": of_removal, "purge": of_purge}


def reached(table, call):
    """The names of what a call comes upon, which isn't answered yet."""
    word, *parts = read(call)
    return WAYS[word](table, *parts) if word in WAYS else ()


def told(counts, names):
    """Some counts in words."""
    return ", ".join(f"{counts[name]} {name}" for name in names)


def seldom(counts, demanded):
    """What comes up less often than demanded, in words."""
    return [f"{name}: {counts[name]}, and not {least}" for name, least in demanded.items() if counts[name] < least]
