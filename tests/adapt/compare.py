"""Compares what the command `adapt` of pfreplay prints with the model, and with texts written by hand.

    python3 -m adapt.compare [--program FILE] [--many N] [--model]

in the folder `tests`. `--many` tells how many random texts there are, each of some statements, and how many hostile
ones. With `--model` no program is asked: the model answers in its place. Each kind of line and each rewriting has to be
seen in the texts written by hand, and in the random ones if there are 150 or more.
"""

import argparse
import random
import sys
import tempfile
from collections import Counter
from pathlib import Path

sys.dont_write_bytecode = True

import building
from adapt import cases, interfaces, names, remarks, verdicts
from adapt.asking import Asker, Itself, begins_so, difference, is_idle, is_refusal, misplaced, unlike_itself
from adapt.drawn import BATCH, Drawer
from adapt.drawn_surroundings import drawn_surroundings, hostile_surroundings
from adapt.rows_broken import BROKEN
from adapt.model import Adapted, adapt, fault_of, remarks_of
from adapt.surroundings import NOTHING, Given

# where no number is told
MANY = 150
# of the texts of other comparisons, one in so many
SHARE = 10
MOST_SHOWN = 20
# what has to be seen of each set of cases
PROMISED = ("note", "warning", "error", "no error", *names.REWRITINGS, *remarks.KINDS, interfaces.KIND)
SHOWN_BYTES = 300


class Part:
    """A part of the comparison: how many cases it has, and which differ."""

    def __init__(self, title):
        self.title = title
        self.count = 0
        self.wrong = []

    def expect(self, name, text, fault):
        """Takes what is wrong with a case, which may be nothing."""
        self.count += 1
        if fault:
            self.wrong.append((name, text, fault))

    def told(self):
        """Prints how it went: whether anything differs."""
        for name, text, fault in self.wrong[:MOST_SHOWN]:
            more = "" if len(text) <= SHOWN_BYTES else f" and {len(text) - SHOWN_BYTES} bytes more"
            print(f"{name}: {text[:SHOWN_BYTES]!r}{more}\n  {fault}")
        print(f"{self.title}: {self.count} cases, {len(self.wrong)} differ", flush=True)
        return bool(self.wrong)


class Seen:
    """How many cases had a line of each kind, and each rewriting."""

    def __init__(self):
        self.counts = Counter()

    def take(self, adapted):
        kinds = {finding.kind for finding in adapted.told()} | {"error" if adapted.errors else "no error"}
        self.counts.update([*kinds, *adapted.done])

    def told(self, title):
        """Prints the counts: whether something that was promised is missing."""
        print(f"{title}: " + ", ".join(f"{name} {self.counts[name]}" for name in PROMISED))
        missing = [name for name in PROMISED if not self.counts[name]]
        if missing:
            print(f"{title}: never seen: {', '.join(missing)}")
        return bool(missing)


def written():
    return [*cases.texts(), *cases.rows(), *cases.limits()]


def model_of_written():
    """The texts written by hand, by the model. Those with what pfctl refuses are seen too."""
    part, kinds = Part("texts written by hand, by the model"), Seen()
    for case in written():
        seen = adapt(case.text, case.surroundings)
        is_same = (seen.text, seen.said()) == (case.adapted.text, case.adapted.said())
        part.expect(case.name, case.text, None if is_same else f"{seen.said()} {seen.text[:SHOWN_BYTES]!r}")
        kinds.take(seen)
    for text, _ in cases.refused():
        kinds.take(adapt(text))
    return part.told() | kinds.told("seen in texts written by hand")


def program_of_written(asker):
    part = Part("texts written by hand")
    every = written()

    def seen(case):
        answer = asker.adapted(case.text, case.surroundings)
        return difference(case.adapted, answer) or misplaced(case.text, answer)

    for case, fault in zip(every, asker.each(seen, every)):
        part.expect(case.name, case.text, fault)
    return part.told()


def remarks_of_written(asker):
    """What pfctl refuses of short texts, by the model and by the program, which may say more."""
    part = Part("texts with what pfctl refuses")
    every = list(cases.refused())
    for (text, said), answer in zip(every, asker.each(lambda case: asker.adapted(case[0]), every)):
        found = [f"{finding.line}:{finding.column}: {finding.word}: {kind}" for finding, kind in remarks.remarks_of(text)]
        part.expect("by the model", text, None if found == said else f"said {found} and not {said}")
        lines = [line for line in answer.said if is_refusal(line)]
        expected = [line.rpartition(": ")[0].replace(": ", ": warning: ", 1).encode() for line in said]
        is_same = len(lines) == len(expected) and all(map(bytes.startswith, lines, expected))
        part.expect("by the program", text, None if is_same else f"said {lines} and not {expected}")
    return part.told()


def other_interfaces(asker):
    """Rules of other interfaces in short texts, by the model and by the program."""
    part = Part("texts with rules of other interfaces")
    every = list(cases.elsewhere())
    for (text, surroundings, said), answer in zip(every, asker.each(lambda case: asker.adapted(*case[:2]), every)):
        adapted = adapt(text, surroundings)
        remarked = interfaces.remarks_of(text, Given(surroundings), adapted.text != text)
        found = [f"{finding.line}:{finding.column}: {finding.word}" for finding, _ in remarked]
        part.expect("by the model", text, None if found == said else f"said {found} and not {said}")
        lines = [line for line in answer.said if is_idle(line)]
        expected = [line.replace(": ", ": warning: ").encode() + b": " for line in said]
        is_same = len(lines) == len(expected) and all(map(bytes.startswith, lines, expected))
        part.expect("by the program", text, None if is_same else f"said {lines} and not {expected}")
    return part.told()


def included(asker):
    """Short texts with the files that they include, by the program alone."""
    part = Part("texts that include files")
    every = list(cases.included())

    def seen(case):
        text, surroundings, new, said = case
        answer = asker.adapted_with_files(text, surroundings)
        expected = [line.encode("latin-1") for line in said]
        is_same = len(answer.said) == len(expected) and all(map(begins_so, answer.said, expected))
        return None if is_same and answer.text == new else f"said {answer.said} and not {said}, printed {answer.text!r}"

    for case, fault in zip(every, asker.each(seen, every)):
        part.expect("by the program", case[0], fault)
    return part.told()


def again(asker):
    """What is printed of the texts written by hand is given again."""
    part = Part("what was printed, given again")
    every = written()

    def seen(case):
        answer = asker.adapted(case.text, case.surroundings)
        return unlike_itself(answer, asker.adapted(answer.text, case.surroundings))

    for case, fault in zip(every, asker.each(seen, every)):
        part.expect(case.name, case.text, fault)
    return part.told()


def accepted(asker):
    """Texts that are accepted are printed as they are, and remarks alone are said, whatever the surroundings are."""
    part = Part("texts that are accepted")
    every = [(name, text) for name, text in list(cases.others())[::SHARE] if fault_of(text) is None]

    def seen(case):
        name, text = case
        surroundings = drawn_surroundings(random.Random(name))
        said = [finding for finding, _ in remarks_of(text, surroundings, False)]
        return difference(Adapted(text, said, []), asker.adapted(text, surroundings))

    for (name, text), fault in zip(every, asker.each(seen, every)):
        part.expect(name, text, fault)
    return part.told()


def drawn_case(seed):
    """A random text, and surroundings, which may be nothing."""
    drawer = Drawer(random.Random(seed))
    # many of the first kinds are accepted, and hardly one of the last
    text = (drawer.text, drawer.fitting, drawer.written)[seed % 3]()
    return text, drawn_surroundings(random.Random(f"surroundings {seed}")) if seed % 5 else NOTHING


def drawn(asker, many):
    """Random texts, by the model and by the program."""
    part, kinds = Part(f"random texts of {BATCH} statements"), Seen()

    def seen(seed):
        text, surroundings = drawn_case(seed)
        adapted = adapt(text, surroundings)
        return text, adapted, difference(adapted, asker.adapted(text, surroundings))

    for seed, (text, adapted, fault) in enumerate(asker.each(seen, range(many))):
        part.expect(f"seed {seed}", text, fault)
        kinds.take(adapted)
    return part.told() | (kinds.told("seen in random texts") and many >= MANY)


def drawn_again(asker, many):
    """What is printed of random texts is given again."""
    part = Part("what was printed of random texts, given again")

    def seen(seed):
        text, surroundings = drawn_case(seed)
        answer = asker.adapted(text, surroundings)
        return text, unlike_itself(answer, asker.adapted(answer.text, surroundings))

    for seed, (text, fault) in enumerate(asker.each(seen, range(many))):
        part.expect(f"seed {seed}", text, fault)
    return part.told()


def hostile(asker, many):
    """Any texts: each place is in the text, and what was printed is printed again as it is."""
    part = Part("hostile texts")

    def seen(seed):
        # the broken ones that are written by hand come first
        number = seed - len(BROKEN)
        text = BROKEN[seed] if number < 0 else Drawer(random.Random(f"hostile {number}")).hostile()
        surroundings = hostile_surroundings(random.Random(number))
        answer = asker.adapted(text, surroundings)
        return text, misplaced(text, answer) or unlike_itself(answer, asker.adapted(answer.text, surroundings))

    for seed, (text, fault) in enumerate(asker.each(seen, range(len(BROKEN) + many))):
        part.expect(f"hostile {seed}", text, fault)
    return part.told()


def runs(asker):
    """What becomes of the packets of the examples, by a text that was adapted and by a strict one."""
    part = Part("runs by what was printed, and by strict texts")
    for row, fault in zip(verdicts.ROWS, asker.each(lambda row: verdicts.fault_of(asker, row), verdicts.ROWS)):
        part.expect(row.name, row.strict.encode(), fault)
    return part.told()


def runs_by_model():
    part = Part("runs by what the model printed, and by strict texts, by the model of runs")
    for row in verdicts.ROWS:
        part.expect(row.name, row.strict.encode(), verdicts.fault_by_model(row))
    return part.told()


def model_alone(many=MANY):
    """The model, and what it answers to its own answers."""
    asker = Itself()
    sys.exit(any([model_of_written(), remarks_of_written(asker), other_interfaces(asker), again(asker), accepted(asker),
                  drawn(asker, many), drawn_again(asker, many), hostile(asker, many), runs_by_model()]))


def compare(program, many):
    with tempfile.TemporaryDirectory() as folder:
        asker = Asker(Path(program).resolve(), Path(folder))
        results = [model_of_written(), program_of_written(asker), remarks_of_written(asker),
                   other_interfaces(asker), included(asker), again(asker), accepted(asker), drawn(asker, many), drawn_again(asker, many // 5), hostile(asker, many // 5), runs(asker)]
    sys.exit(any(results))


def main():
    parser = argparse.ArgumentParser(description="Compares the command adapt with the model.")
    parser.add_argument("--program", type=Path, metavar="FILE", help="the built program")
    parser.add_argument("--many", type=int, default=MANY, metavar="N", help="how many random texts")
    parser.add_argument("--model", action="store_true", help="compare the model with the texts, and with itself")
    asked = parser.parse_args()
    if asked.model:
        model_alone(asked.many)
    compare(asked.program or building.pfreplay(), asked.many)


if __name__ == "__main__":
    main()
