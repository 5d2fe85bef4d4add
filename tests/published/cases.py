"""Random scripts. Each is drawn as one order of all that is done, by the one who publishes and by viewers.

Whoever waits waits for what is done before in that order. So nobody waits in vain, whatever the order in which threads
do what isn't waited for.
"""

import random

from published.model import CHANGES, Script
from table.kinds import NO_LIMIT, KindWriter, own_key
from table.cases import BINDINGS, RandomWriter
from table.model import State

SEED = 20261130
LIMITS = (1, 2, 3, 5, 12, NO_LIMIT)
MOST_VIEWERS = 8
# how many changes are tried until one is refused
TRIED = 60
# how many states a crowd has; some of them go
CROWD = 17000


# Changes

class RunWriter(KindWriter):
    """Writes changes as packets make them: each purges first, and then a state comes, moves on or goes."""

    def __init__(self, seed, limit, bindings, spread=12):
        super().__init__(seed, limit, False, bindings)
        self.spread = spread

    def make(self):
        """A state comes; now and then it has the key of another one, which may be bound elsewhere."""
        if self.table.states and not self.source.randrange(4):
            key, self.last_number = self.any_state().wire, self.last_number + 1
            self.add_state("make", self.last_number, key, key, self.clock + self.spread)
        else:
            self.make_new(self.clock + self.source.randrange(1, self.spread))

    def step(self):
        self.clock += self.source.choice((0, 0, 1, 1, 4))
        word = self.source.choice(("purge", "make", "make", "touch", "touch", "bind", "remove"))
        if word == "purge":
            self.add("purge", self.clock)
        elif word == "make" or not self.table.states:
            self.make()
        elif word == "touch":
            self.move(self.any_state(), ("later", "later", "earlier"), self.spread)
        elif word == "bind":
            self.touch_with(self.any_state(), binding=self.source.choice(self.bindings))
        else:
            self.add("remove", self.any_state().number)


class CrowdWriter(RunWriter):
    """Writes changes behind those that make a crowd."""

    def __init__(self, seed, states):
        super().__init__(seed, NO_LIMIT, BINDINGS[-1])
        for state in states:
            self.add("make", state.text())
        self.last_number = len(self.table.states)


def changes_behind(writer, place):
    """The changes that a writer writes after the call at `place`, each with whether the table takes it."""
    for call, (answer, *_) in zip(writer.lines[place + 1:], writer.answers[place:]):
        if call.split()[0] in CHANGES:
            yield call, answer == "done"


def taken_changes(writer, count):
    """The changes among `count` steps of a writer that its table takes."""
    place = len(writer.answers)
    for _ in range(count):
        writer.step()
    return [call for call, is_taken in changes_behind(writer, place) if is_taken]


def changes_to_a_refusal(writer):
    """Changes of which the last one isn't taken, if one soon comes."""
    place = len(writer.answers)
    found = []
    for _ in range(TRIED):
        writer.step()
        for call, is_taken in changes_behind(writer, place):
            found.append(call)
            if not is_taken:
                return found
        place = len(writer.answers)
    return found


# Viewers

class Watch:
    """A viewer that is drawn: its steps so far, and what it waits for."""

    def __init__(self, begun):
        self.steps = []
        # how many publications were surely over when it did its last step, and when it began to look
        self.begun, self.looks_from = begun, None
        # the number of the token that is yet to come for which it waits, 0 where there is none
        self.awaits = 0
        self.is_over = self.is_gone = False

    def is_free(self):
        return not self.awaits and not self.is_over


class Drawing:
    """A script that is drawn, along what is done in it."""

    def __init__(self, draw, writer, viewers, places):
        self.draw = draw
        self.writer = writer
        self.most_viewers, self.places = viewers, places
        # the viewers that were started, and those that found a place
        self.viewers, self.watches = [], []
        self.deeds = []
        # how many publications there were, and behind how many each token is told; to close counts as two
        self.tried, self.told = 0, []
        self.is_closed = False

    def script(self, name):
        return Script(name, self.writer.table.limit, self.places, tuple(tuple(steps) for steps in self.viewers),
                      tuple(self.deeds))

    # who publishes

    def publish(self, changes):
        self.deeds += [*changes, "publish"]
        self.tried += 1

    def tell(self):
        """One more token, for which some viewers may wait."""
        self.deeds.append("tell")
        self.told.append(self.tried)
        for watch in self.watches:
            if watch.awaits == len(self.told):
                watch.awaits, watch.begun = 0, self.tried

    def close(self):
        self.deeds.append("close")
        self.tried += 2
        self.is_closed = True

    def start(self):
        """Starts a viewer, where it is sure whether it finds a place."""
        there = [watch for watch in self.watches if not watch.is_gone]
        if len(self.viewers) == self.most_viewers or self.is_closed:
            return
        if len(there) < self.places:
            self.watches.append(Watch(self.tried))
            self.viewers.append(self.watches[-1].steps)
            self.deeds.append("start")
        elif all(self.stays(watch) for watch in there):
            self.viewers.append(["enter", "leave"])
            self.deeds.append("start")

    def stays(self, watch):
        """Whether a viewer surely keeps its place until the next token; one that is free waits for that."""
        if watch.is_free() and watch.looks_from is None:
            self.wait_for_next(watch)
        return bool(watch.awaits)

    def number_of(self, watch):
        """The viewer's number: its steps are no other's."""
        return next(number for number, steps in enumerate(self.viewers, 1) if steps is watch.steps)

    def await_viewer(self, watch, steps):
        self.deeds.append(f"await {self.number_of(watch)} {steps}")

    def await_some(self, watch):
        """Waits for a step of a viewer, or until it is gone."""
        done = len(watch.steps) - bool(watch.awaits)
        if watch.is_over and self.draw.randrange(2):
            self.await_viewer(watch, len(watch.steps) + 1)
            watch.is_gone = True
        elif done:
            self.await_viewer(watch, self.draw.randint(1, done))

    # viewers

    def tokens_for(self, watch):
        """The tokens for which a viewer may wait. While it looks the second publication from then on waits for it. So
        it can't wait for that one then, nor for what comes behind."""
        most = self.tried if watch.looks_from is None else watch.looks_from + 1
        return [number for number, begun in enumerate(self.told, 1) if begun <= most]

    def wait_for(self, watch, word, token):
        watch.steps.append(f"{word} {token}")
        if token:
            watch.begun = max(watch.begun, self.told[token - 1])

    def wait_for_next(self, watch):
        watch.awaits = len(self.told) + 1
        watch.steps.append(f"{self.draw.choice(('wait', 'learn'))} {watch.awaits}")

    def wait_for_some(self, watch):
        """Waits for a token that was told, or learns it, or waits for one that is yet to come."""
        tokens, is_looking = self.tokens_for(watch), watch.looks_from is not None
        if not is_looking and not self.draw.randrange(4):
            self.wait_for_next(watch)
        elif tokens:
            word = "wait" if is_looking else self.draw.choice(("wait", "learn", "learn"))
            self.wait_for(watch, word, self.draw.choice((tokens[-1], self.draw.choice(tokens))))

    def enter(self, watch):
        watch.steps.append("enter")
        watch.looks_from = watch.begun

    def leave(self, watch):
        watch.steps.append("leave")
        watch.looks_from = None

    def look_in_time(self, watch):
        """Looks once the last publication is over, and before the next one."""
        if self.told[-1:] != [self.tried]:
            self.tell()
        self.wait_for(watch, self.draw.choice(("wait", "learn")), len(self.told))
        self.enter(watch)
        self.await_viewer(watch, len(watch.steps))

    def finish(self, watch):
        if watch.looks_from is not None:
            self.leave(watch)
        watch.is_over = True

    def finish_all(self):
        for watch in self.watches:
            if watch.awaits:
                self.tell()
            self.finish(watch)


# Scripts

class Manner:
    """How a script is drawn: how many of the looks are at a known table, and what happens once."""

    def __init__(self, draw):
        self.in_time = draw.choice((0, 0.4, 1))
        self.hides, self.is_refused, self.closes = (draw.random() < share for share in (0.15, 0.2, 0.3))


def some_writer(draw, limit):
    """Writes changes as a run makes them, or any that the table of states may be asked for."""
    seed, bindings = draw.getrandbits(32), draw.choice(BINDINGS + BINDINGS[-1:])
    return RunWriter(seed, limit, bindings) if draw.randrange(3) else RandomWriter(seed, limit, False, bindings)


def step_of_viewer(drawing, manner):
    free = [watch for watch in drawing.watches if watch.is_free()]
    if not free:
        return
    watch, draw = drawing.draw.choice(free), drawing.draw
    if watch.looks_from is not None:
        if draw.randrange(2):
            drawing.leave(watch)
        else:
            drawing.wait_for_some(watch)
    elif not draw.randrange(12):
        drawing.finish(watch)
    elif draw.random() < manner.in_time:
        drawing.look_in_time(watch)
    elif draw.randrange(2):
        drawing.enter(watch)
    else:
        drawing.wait_for_some(watch)


def publish_some(drawing, manner):
    """Publishes some changes, now and then none, and now and then one that isn't taken, if there is to be one."""
    draw = drawing.draw
    if manner.hides and not draw.randrange(4):
        drawing.deeds.append("hide")
        manner.hides = False
    if manner.is_refused and not draw.randrange(4):
        drawing.publish(changes_to_a_refusal(drawing.writer))
        manner.is_refused = False
    else:
        drawing.publish(taken_changes(drawing.writer, draw.choice((0, 1, 1, 2, 3, 5))))


def act(drawing, manner):
    """One thing that is done, by the one who publishes or by a viewer."""
    draw = drawing.draw
    act, = draw.choices(("viewer", "publish", "tell", "start", "await"), (16, 5, 3, 3, 2))
    if act == "viewer":
        step_of_viewer(drawing, manner)
    elif act == "publish" and not drawing.is_closed:
        publish_some(drawing, manner)
    elif act == "tell":
        drawing.tell()
    elif act == "start":
        drawing.start()
    elif drawing.watches:
        drawing.await_some(draw.choice(drawing.watches))


def some_script(draw, name):
    viewers = draw.randint(1, MOST_VIEWERS)
    places = draw.choice((viewers, viewers, draw.randint(1, viewers)))
    drawing, manner = Drawing(draw, some_writer(draw, draw.choice(LIMITS)), viewers, places), Manner(draw)
    drawing.start()
    for _ in range(draw.randint(8, 80)):
        act(drawing, manner)
    if manner.closes:
        drawing.close()
        for _ in range(draw.randint(4, 15)):
            act(drawing, manner)
    drawing.finish_all()
    return drawing.script(name)


def look_some_times(drawing, watch, token):
    """Waits for a token of before, if it is one, and looks some times."""
    if token > 0:
        drawing.wait_for(watch, drawing.draw.choice(("wait", "learn")), token)
    for _ in range(drawing.draw.randint(1, 4)):
        drawing.enter(watch)
        drawing.leave(watch)


def busy_script(draw, name):
    """One publication after the other while viewers look over and over. Nobody gets ahead by more than a few
    publications."""
    viewers, lead = draw.randint(2, MOST_VIEWERS), draw.randint(1, 3)
    drawing = Drawing(draw, some_writer(draw, draw.choice(LIMITS)), viewers, viewers)
    for _ in range(viewers):
        drawing.start()
    done = [0] * lead * viewers
    for token in range(1, draw.randint(10, 40)):
        drawing.publish(taken_changes(drawing.writer, draw.choice((0, 1, 1, 2))))
        drawing.tell()
        for watch in drawing.watches:
            look_some_times(drawing, watch, token - lead)
            drawing.await_viewer(watch, done.pop(0))
            done.append(len(watch.steps))
    return drawing.script(name)


def large_script(draw, name):
    """Many changes in each publication. Two viewers look behind each; they keep looking until the next one is over."""
    drawing = Drawing(draw, RandomWriter(draw.getrandbits(32), NO_LIMIT, True, draw.choice(BINDINGS)), 2, 2)
    drawing.start()
    drawing.start()
    for _ in range(4):
        publish_and_look(drawing, taken_changes(drawing.writer, 250))
    drawing.finish_all()
    return drawing.script(name)


def publish_and_look(drawing, changes):
    """Publishes changes. Each viewer looks behind that, and keeps looking."""
    drawing.publish(changes)
    for watch in drawing.watches:
        if watch.looks_from is not None:
            drawing.leave(watch)
        drawing.look_in_time(watch)


def crowd(draw):
    """The states of a crowd. Every third one has the key of the one before, and both are bound then, elsewhere."""
    for number in range(CROWD):
        place = number % 3
        binding = draw.choice(BINDINGS[-1]) if place == 0 else place
        key = own_key(number - 1 if place == 2 else number)
        # few of them are purged
        yield State(number, key, key, draw.randrange(20 * CROWD), number, None, binding)


def crowded_script(draw, name):
    """A table that has a crowd of states before most changes, of which the last one isn't taken."""
    drawing = Drawing(draw, CrowdWriter(draw.getrandbits(32), crowd(draw)), 1, 1)
    drawing.start()
    publish_and_look(drawing, drawing.writer.lines[1:])
    for _ in range(3):
        publish_and_look(drawing, taken_changes(drawing.writer, 300))
    publish_and_look(drawing, changes_to_a_refusal(drawing.writer))
    drawing.finish_all()
    return drawing.script(name)


KINDS = {"random": some_script, "busy": busy_script, "large": large_script, "crowded": crowded_script}


def scripts(kind, count):
    """`count` scripts of a kind."""
    draw = random.Random(f"{SEED} {kind}")
    return [KINDS[kind](draw, f"{kind} {number}") for number in range(1, count + 1)]
