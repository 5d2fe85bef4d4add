"""Compares what viewers see of a table that is published while they look at it with the model, and refuses the program
each allocation.

Scripts say what is published and what viewers do, and who waits for whom. Some are written out with their answers, and
the others are random. A script of which not all is fixed by waiting has several answers. Then the answer that is seen
has to be one of these. The model is handed answers that are made up as well, right ones and wrong ones.
"""

import sys
from collections import Counter
from itertools import islice

import building
from answering import differing, least_of, place_of_difference, show_lines
from faults.command import end_lawfully
from faults.published import ending_of
from faults.trial import Unlawful
from published import cases, written
from published.model import Expected
from schedules.compare import answers, script_bytes
from table import reach

# how many scripts there are of each kind
COUNTS = {"random": 3000, "busy": 300, "large": 8, "crowded": 1}
# if a table has as many states, it looks up the states of many changes at once
CROWD = 16384
CROWDED = "scripts with a crowd at their end"
# how often at least the scripts of a kind come upon what has a name
DEMANDED = {"random": {reach.BOUND_BY_BOUND: 80, reach.BOUND_BY_FLOATING: 10, reach.FLOATING_BY_BOUND: 20,
                       reach.FLOATING_BY_FLOATING: 50, reach.MADE_BESIDE: 500, reach.TOUCHED_BESIDE: 400,
                       reach.MOVED_BESIDE: 40, reach.NOT_MOVED: 10, reach.LEAST_REMOVED: 60, reach.LEAST_PURGED: 80},
            "crowded": {CROWDED: COUNTS["crowded"], reach.MADE_BESIDE: 5000, reach.TOUCHED_BESIDE: 100,
                        reach.MOVED_BESIDE: 15}}
# with how many random scripts each allocation is refused, besides those that are written out
REFUSED = 10
# one in so many of the random scripts is run, but one of each kind at least, and of the allocations one is refused; all of
# them with `--all`
PART = 5


def show(script, expected, seen):
    """Shows the first line that differs, and the script up to there."""
    place = place_of_difference(expected, seen)
    print(f"{script.name}, line {place + 1}", *script.lines(), sep="\n  ")
    show_lines(place, expected, seen)


def compare_reach(title, counts, part):
    """How much the scripts of a kind come upon less often than demanded of all of them, of which one in `part` is run."""
    demanded = {name: least_of(part, count) for name, count in DEMANDED.get(title, {}).items()}
    seldom = reach.seldom(counts, demanded)
    for words in (*filter(None, [reach.told(counts, demanded)]), *(f"too seldom: {words}" for words in seldom)):
        print(f"  {words}")
    return len(seldom)


def compare(command, title, scripts, part=1):
    """How many scripts are answered otherwise than they may be, and how much they come upon too seldom. They are one in
    `part` of all scripts of their kind."""
    found, counts = [], Counter()
    for script, seen in zip(scripts, answers(command, scripts)):
        expected = Expected(script)
        found.append((script, expected.lines_beside(seen), seen))
        counts.update(publications=len(expected.course.outcomes), looks=len(expected.choices),
                      fixed=sum(choice.tables == 1 for choice in expected.choices),
                      later=sum(choice.before > 0 for choice in expected.choices))
        counts.update(expected.course.reached)
        counts[CROWDED] += len(expected.course.table.states) >= CROWD
    wrong = differing(found, show)
    print(f"{title}: {len(found)} scripts with {counts['publications']} publications and {counts['looks']} looks; "
          f"{counts['fixed']} leave no choice, and {counts['later']} are at a later table than need be; {wrong} differ")
    return wrong + compare_reach(title, counts, part)


def wrong_written():
    """How many scripts that are written out differ from the model."""
    wrong = 0
    for script, lines in written.rows():
        expected = Expected(script)
        if not expected.is_exact() or expected.lines_beside(()) != lines:
            print(f"{script.name}: the model has", *expected.lines_beside(()), sep="\n  ")
            wrong += 1
    return wrong


def judged(lines):
    """The ending that an answer to the free script tells, None where there is none."""
    try:
        return ending_of(written.FREE, lines)
    except Unlawful:
        return None


def wrong_made_up():
    """How many answers that are made up are judged wrongly, without a refusal and with one."""
    expected = Expected(written.FREE)
    wrong = [name for name, lines, is_right in written.made_up() if (expected.lines_beside(lines) == lines) != is_right]
    wrong += [name for name, lines, ending in written.endings() if judged(lines) != ending]
    for name in wrong:
        print(f"judged wrongly: {name}")
    return len(wrong)


def compare_model():
    """How much that is written out differs from the model."""
    wrong = wrong_written() + wrong_made_up()
    scripts, made_up = list(written.rows()), [*written.made_up(), *written.endings()]
    print(f"{len(scripts)} scripts that are written out and {len(made_up)} answers that are made up: {wrong} differ from "
          "the model")
    return wrong


def model_alone():
    sys.exit(bool(compare_model()))


def written_scripts():
    return [script for script, _ in written.rows()]


def refused_scripts():
    """Those with which each allocation is refused: they have one answer, so that this tells what was refused."""
    exact = (script for script in cases.scripts("random", 20 * REFUSED) if Expected(script).is_exact())
    return written_scripts() + list(islice(exact, REFUSED))


def main(part=PART):
    command = building.run_answers("published")
    wrong = compare_model() + compare(command, "written out", written_scripts())
    for kind, count in COUNTS.items():
        parts = min(part, count)
        wrong += compare(command, kind, cases.scripts(kind, count // parts), parts)
    refused = list(map(script_bytes, refused_scripts()))
    # threads are refused with the allocations
    sys.exit(not end_lawfully("published", command, refused, part) or bool(wrong))
