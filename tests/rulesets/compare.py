"""Hands rulesets to the program that reads them, and compares its answers; then refuses it each allocation in turn.

The program takes texts on standard input, each with its length before it in four bytes, the greatest first. It answers
each with a line: `N statements`, or `line L: KIND` for the first fault.

The answers to the texts of the folder are written beside them, and the model has to give them too. What is made of
these is answered by the model.
"""

import os
import subprocess
import sys
from concurrent.futures import ThreadPoolExecutor
from itertools import chain

import building
from faults.command import ends_lawfully
from rulesets import model
from rulesets.cases import TEXTS, Ruleset, beginnings, changed, each_byte, each_word, large, short, spelled, written

TIME_LIMIT = 600
# one in so many of the texts that are made is compared, and all of them with `--all`, as are the other large texts
PART = 9
QUICK = ("one large word", "a large value", "a large host name", "a large number")
# texts that the program gets at once
CHUNK = 1000
MOST_SHOWN = 10
SHOWN_BYTES = 400
# texts for which each allocation is refused: what they hold covers the statements, and two are faulty
SHORT_OF_MEMORY = ("example_router", "example_web_server", "left_out_scrub", "set_fingerprints")


def record(text):
    """A text as the program reads it."""
    return len(text).to_bytes(4) + text


def answers_of(command, rulesets):
    """What the program says to the texts; it may have stopped before the last."""
    given = b"".join(record(ruleset.text) for ruleset in rulesets)
    try:
        seen = subprocess.run(command, input=given, stdout=subprocess.PIPE, timeout=TIME_LIMIT, check=False)
    except subprocess.TimeoutExpired:
        sys.exit(f"{' '.join(command)} took longer than {TIME_LIMIT} seconds")
    answers = seen.stdout.decode("latin-1").splitlines()
    if seen.returncode or len(answers) != len(rulesets):
        print(f"status {seen.returncode} after {len(answers)} answers to {len(rulesets)} texts")
    return answers + ["no answer"] * (len(rulesets) - len(answers))


def model_answer(text):
    return model.worded(model.read(text))


def with_answers():
    """The texts whose answers are written, but for large ones."""
    return [*written(), *short(), *spelled()]


def made_of(files, part):
    """One in `part` of the texts that are answered by the model."""
    without = [*each_byte(), *each_word(), *beginnings(files), *changed(files)]
    return [Ruleset(name, text, model_answer(text)) for name, text, _ in without[::part]]


def chunks_of(rulesets, part):
    """These texts as the program gets them, and large ones one by one."""
    yield from ([text] for text in large() if part == 1 or text.name in QUICK)
    yield from (rulesets[start:start + CHUNK] for start in range(0, len(rulesets), CHUNK))


def model_faults(rulesets):
    """Where the model says something else than what is written."""
    return [(f"model: {name}", text, answer, seen) for name, text, answer in rulesets
            if (seen := model_answer(text)) != answer]


def show(wrong):
    for name, text, answer, seen in wrong[:MOST_SHOWN]:
        more = "" if len(text) <= SHOWN_BYTES else f" and {len(text) - SHOWN_BYTES} bytes more"
        print(f"{name}: {text[:SHOWN_BYTES]!r}{more}")
        print(f"  expected {answer[:SHOWN_BYTES]}\n  got      {seen[:SHOWN_BYTES]}")


def compare_model():
    """How many written answers the model doesn't give."""
    rulesets = [*with_answers(), *large()]
    wrong = model_faults(rulesets)
    show(wrong)
    print(f"{len(rulesets)} written answers: {len(wrong)} differ from the model")
    return len(wrong)


def compare(command, part):
    """How many texts the program answers otherwise, with one in `part` of those that are made."""
    chunks = list(chunks_of(with_answers() + made_of(written(), part), part))
    with ThreadPoolExecutor(os.cpu_count()) as pool:
        answers = chain.from_iterable(pool.map(lambda some: answers_of(command, some), chunks))
        rulesets = list(chain.from_iterable(chunks))
        wrong = [(*ruleset, seen) for ruleset, seen in zip(rulesets, answers) if seen != ruleset.answer]
    show(wrong)
    print(f"{len(rulesets)} texts: {len(wrong)} differ from the program")
    return len(wrong)


def refuse_memory(command):
    texts = [(TEXTS / f"{name}.conf").read_bytes() for name in SHORT_OF_MEMORY]
    return ends_lawfully("rulesets", command, b"".join(map(record, texts)))


def model_alone():
    sys.exit(bool(compare_model()))


def main(part=PART):
    command = building.answers("rulesets")
    wrong = compare_model() + compare(command, part)
    sys.exit(not refuse_memory(command) or bool(wrong))
