"""A model of what viewers may see of a table that is published while they look at it.

The one who publishes shows one table after the other. Each is what all changes up to a publication make of the empty
table. A viewer that looks is shown the table that is published just then. Where it surely looks behind one publication
and before the next, since one has waited for the other, that is one table. Else it may be one of some, but none of
before what the viewer was shown, what it has learned or what it has waited for.
"""

from collections import Counter
from typing import NamedTuple

from table.model import Table, answer
from table.reach import reached

CHANGES = ("make", "touch", "remove", "purge")
PUBLISHED, REFUSED = "published", "refused"
VIEWER, MISSING = "viewer", "missing"
# what is seen where no table is shown
NO_TABLE = "-"
# the rules whose states are counted, and how many of one at most
RULES, MOST = range(4), 9
# the steps of a viewer that wait for a token, and those at which it looks
WAITS, LOOKS = ("wait", "learn"), ("enter", "leave")


class Script(NamedTuple):
    """How many states and how many viewers there may be, what each viewer does, and what the one does who publishes, in
    words."""
    name: str
    limit: int
    places: int
    viewers: tuple
    deeds: tuple

    def lines(self):
        """As the program reads it."""
        yield f"limit {self.limit}"
        yield f"places {self.places}"
        yield from (" ".join((VIEWER, *steps)) for steps in self.viewers)
        yield from self.deeds
        yield "end"


def steps_of(words):
    """The steps of a viewer that stand in words."""
    steps = []
    for word in words:
        if word.isdecimal():
            steps[-1] += f" {word}"
        else:
            steps.append(word)
    return tuple(steps)


def script_of(lines):
    """The script of some lines without the last one."""
    limit, places, *others = lines
    viewers = [line for line in others if line.split()[0] == VIEWER]
    return Script("", int(limit.split()[1]), int(places.split()[1]),
                  tuple(steps_of(line.split()[1:]) for line in viewers), tuple(others[len(viewers):]))


def text_of(table):
    """The states of a table by rising number, each with its deadline and the bytes that it has counted; then how many
    states rules have, as far as it is told."""
    states = sorted(table.states.values())
    counts = {rule: min(table.count_of_rule(rule, 0), MOST) for rule in RULES}
    return " ".join((str(len(states)), *(f"{state.number}/{state.deadline}/{state.bytes}" for state in states),
                     *(f"r{rule}={count}" for rule, count in counts.items() if count)))


def words_of(step):
    """The word of a step, and the number of its token, 0 where it has none."""
    word, *number = step.split()
    return word, int(*number)


class Refusal(NamedTuple):
    """What is refused for want of memory: the publication of a number from 0 on, or the viewer of one."""
    publication: int | None = None
    viewer: int | None = None


NOTHING = Refusal()


# The one who publishes

class Start(NamedTuple):
    """How many tables were shown and how many tokens were told before a viewer was started."""
    shown: int
    told: int


class Await(NamedTuple):
    """How many steps a viewer has surely done, before how many tables were shown and how many viewers were started."""
    steps: int
    shown: int
    started: int


class Course:
    """What the one does who publishes: how each publication ends, which tables are shown one after the other, and what
    viewers wait for, and he for them."""

    def __init__(self, script, refusal=NOTHING):
        self.refusal = refusal
        self.table = Table(script.limit)
        # how often changes come upon what has a name
        self.reached = Counter()
        self.changes = []
        self.is_refused = self.is_hidden = False
        self.outcomes, self.tables = [], [text_of(self.table)]
        self.closed = None
        # of each token how many tables were shown before
        self.told = []
        self.started = []
        self.awaited = [[] for _ in script.viewers]
        for deed in script.deeds:
            self.obey(deed)
        self.close()

    def obey(self, deed):
        word, *numbers = deed.split()
        match word:
            case "publish":
                self.publish()
            case "hide":
                self.is_hidden = True
            case "tell":
                self.told.append(len(self.tables))
            case "start":
                self.started.append(Start(len(self.tables), len(self.told)))
            case "await":
                viewer, steps = map(int, numbers)
                self.awaited[viewer - 1].append(Await(steps, len(self.tables), len(self.started)))
            case "close":
                self.close()
            case _:
                self.changes.append(deed)

    def publish(self):
        """Shows what the changes make of the table, and nothing any more where one of them isn't taken."""
        self.is_refused = self.is_refused or len(self.outcomes) == self.refusal.publication or not self.takes_all()
        self.outcomes.append(REFUSED if self.is_refused else PUBLISHED)
        if not self.is_refused:
            self.tables.append(NO_TABLE if self.is_hidden else text_of(self.table))
        self.changes = []

    def takes_all(self):
        """Whether the table takes all changes. Once it is hidden it isn't asked."""
        return self.is_hidden or all(map(self.takes, self.changes))

    def takes(self, change):
        self.reached.update(reached(self.table, change))
        return answer(self.table, change) == ["done"]

    def close(self):
        if self.closed is None:
            self.closed = self.tables[-1]
            self.tables.append(NO_TABLE)


# The viewers

class Choice(NamedTuple):
    """How many tables may be shown at a look, and how many before the one that is shown."""
    tables: int
    before: int


class Viewing:
    """What a viewer may be shown: of the tables one after the other, and none before one that it was shown."""

    def __init__(self, course, number, steps):
        self.tables = course.tables
        self.told = course.told
        self.awaited = course.awaited[number]
        self.steps = steps
        # the place of the first table that it may be shown from now on
        self.least = course.started[number].shown - 1
        # what it is shown at the moment
        self.shown = NO_TABLE
        self.choices = []

    def places_at(self, step):
        """The places of the tables that it may be shown at a step: they are shown before one has waited for the step.
        """
        most = min((one.shown for one in self.awaited if one.steps > step), default=len(self.tables))
        return range(self.least, most)

    def wait_for(self, token):
        """Behind this it is shown no table of before the token."""
        if token:
            self.least = max(self.least, self.told[token - 1] - 1)

    def enter(self, step, seen):
        """It is shown the table that is seen, if that may be."""
        places = self.places_at(step)
        found = next((place for place in places if self.tables[place] == seen), self.least)
        self.choices.append(Choice(len({self.tables[place] for place in places}), found - places.start))
        self.least, self.shown = found, self.tables[found]

    def lines(self, seen):
        """The lines of its looks, beside those that are seen."""
        for place, step in enumerate(self.steps):
            word, token = words_of(step)
            if word in WAITS:
                self.wait_for(token)
            if word == "learn":
                self.shown = NO_TABLE
            if word in LOOKS:
                line = next(seen, None)
                if word == "enter":
                    self.enter(place, line)
                yield self.shown
            if word == "leave":
                self.shown = NO_TABLE


def is_gone(course, viewer, steps, number):
    """Whether a viewer has surely gone when the one of a number is started."""
    return any(one.steps > len(steps) and one.started <= number for one in course.awaited[viewer])


def is_there(course, steps, number):
    """Whether a viewer is surely still there when the one of a number is started, since it waits for a token."""
    return any(word in WAITS and token > course.started[number].told for word, token in map(words_of, steps))


def presences(script, course):
    """Of each viewer that is started whether it has a place: True or False, and None where it may be either."""
    found = []
    for number, _ in enumerate(course.started):
        others = [viewer for viewer, is_present in enumerate(found)
                  if is_present is not False and not is_gone(course, viewer, script.viewers[viewer], number)]
        surely = [viewer for viewer in others if found[viewer] and is_there(course, script.viewers[viewer], number)]
        if number == course.refusal.viewer or len(surely) >= script.places:
            found.append(False)
        else:
            found.append(True if len(others) < script.places else None)
    return found


# Answers

class Expected:
    """What a script may be answered with, where something is refused or nothing is."""

    def __init__(self, script, refusal=NOTHING):
        self.script = script
        self.course = Course(script, refusal)
        self.presences = presences(script, self.course)
        self.choices = []

    def lines_of_viewer(self, number, seen):
        is_present, line = self.presences[number], next(seen, None)
        if is_present is False or is_present is None and line == MISSING:
            return [MISSING]
        viewing = Viewing(self.course, number, self.script.viewers[number])
        lines = [VIEWER, *viewing.lines(seen)]
        self.choices += viewing.choices
        return lines

    def lines_beside(self, seen):
        """The answer that is expected beside one that is seen: that one, if it may be."""
        self.choices = []
        lines, seen = list(self.course.outcomes), iter(seen[len(self.course.outcomes):])
        for number, _ in enumerate(self.course.started):
            lines += self.lines_of_viewer(number, seen)
        return [*lines, f"closed {self.course.closed}"]

    def is_exact(self):
        """Whether there is one answer."""
        self.lines_beside(())
        return None not in self.presences and all(choice.tables == 1 for choice in self.choices)


def refusals(script):
    """What can be refused for want of memory."""
    for number in range(script.deeds.count("publish")):
        yield Refusal(publication=number)
    for number in range(script.deeds.count("start")):
        yield Refusal(viewer=number)
