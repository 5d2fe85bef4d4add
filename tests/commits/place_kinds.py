"""What comes up of results on several interfaces and of what is written there, by kinds that are counted.

Of results these are told:

- One is of another interface than its packet, and its record holds; there the packet may come to something else, by
  rules that name interfaces or addresses.
- One is taken although states have changed that have a key which it asks for, and are bound elsewhere.
- One is dropped because of such states alone.
- One is taken or dropped as it is, since of several states with a key the least is found, and not the greatest.
"""

from steps.states import ALL, meeting

OF_ANOTHER, OTHERWISE, TAKEN_BESIDE, DROPPED_FOR, BY_LEAST = (
    "of another interface", "otherwise on another interface", "taken beside changes elsewhere",
    "dropped for changes elsewhere", "by the least of several")
SEVERAL, BEHIND, OF_ONE, FOR_ALL = (
    "batches with packets of several interfaces", "lines of packets behind the last interface",
    "lines of states of one interface", "lines of states for all")
# what is counted, by titles
COUNTED = {"results": (OF_ANOTHER, OTHERWISE, TAKEN_BESIDE, DROPPED_FOR, BY_LEAST),
           "what is written": (SEVERAL, BEHIND, OF_ONE, FOR_ALL)}


def least(states):
    return states[:1]


def greatest(states):
    return states[-1:]


def stays(found, question, table, scope, chosen=least):
    """Whether a look-up of a result would find the same state in a table, if it had a scope."""
    now = table.all_at(*question[1:3])
    return chosen(meeting(found.around[question], scope)) == chosen(meeting(now, scope))


def is_for_others(found, question, table):
    """Whether a question is answered otherwise because of states that are bound elsewhere alone."""
    return question in found.around and question[-1] is ALL and stays(found, question, table, found.place)


def by_least(found, failing, table):
    """Whether a result would be taken and not dropped, or the other way, if the greatest of several states were
    found."""
    others = [question for question in failing if question not in found.around]
    changed = [question for question in found.around if not stays(found, question, table, question[-1], greatest)]
    return not others and bool(failing) != bool(changed)


def judged(outcome):
    """What becomes of a packet, and by which rules."""
    return outcome.verdict, outcome.reason, outcome.rule, outcome.translation


def kinds_of(found, wanted, failing, table, outcome):
    """The kinds of a result that is tried, by what it should be of, which of its questions the table at the packet's
    clock answers otherwise, that table, and what the packet comes to."""
    if found.is_of() != wanted:
        if failing or found._replace(place=wanted[3]).is_of() != wanted:
            return []
        return [OF_ANOTHER] if judged(found.outcome) == judged(outcome) else [OF_ANOTHER, OTHERWISE]
    is_changed = any(table.all_at(*question[1:3]) != states for question, states in found.around.items())
    kinds = [BY_LEAST] if by_least(found, failing, table) else []
    if failing and all(is_for_others(found, question, table) for question in failing):
        kinds.append(DROPPED_FOR)
    return [*kinds, TAKEN_BESIDE] if is_changed and not failing else kinds


def kinds_of_batch(interfaces, steps):
    """The kinds of what a batch writes, by the steps of its packets."""
    places = {step.record.place for step in steps if step.text()}
    behind = [BEHIND for step in steps if step.record.place >= len(interfaces)]
    return [SEVERAL, *behind] if len(places) > 1 else behind


def kinds_of_left(entries):
    """The kinds of what is written of the states that are left."""
    return [FOR_ALL if entry.binding is ALL else OF_ONE for entry in entries]
