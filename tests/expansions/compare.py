"""Hands rulesets to the program that expands them, and compares its answers; then refuses it each allocation in turn.

The program takes records on standard input, each of these parts:

- a byte, 1 where only the numbers of rules are asked for, and else 0;
- a byte that counts the interfaces, and of each by its place the name with its length before it in one byte, its
  address in four, and the bits of its network in one;
- the text with its length before it in four bytes, the greatest first.

It answers each with the lines of the dump that model.py tells of, the line `F filter, T translation`, or `line L: KIND`
for the first fault. Behind each answer stands a line `end`.

Answers are written to the texts of the folder and to the rows, and the model has to give them too. They are written to
hostile texts as well, about which `pfreplay check` is asked too. What is made of the texts, macros of every word in
every place and random rulesets are answered by the model.
"""

import random
import sys
from collections import Counter, defaultdict
from concurrent.futures import ProcessPoolExecutor
from itertools import repeat

import building
import rulesets.cases
from answering import answers_of, least_of
from expansions import checking, expected, interface_kinds, model
from expansions.cases import EM0, RUNS, SEED, Text, each_value
from expansions.hostile import hostile
from expansions.hosts import interface_of
from expansions.random_texts import random_texts
from faults.command import end_lawfully
from rulesets.model import worded

MOST_SHOWN = 10
SHOWN_BYTES, SHOWN_LINES = 500, 4
RANDOM_TEXTS = 18000
# one in so many of the texts that are made is compared, and of the allocations one is refused; all of them with `--all`
PART = 9
# hostile texts that a program that isn't proved answers within seconds; it is asked about the others with `--all`
QUICK = ("as long a word as may have a suffix", "a longer word with a suffix", "forty doublings of what is no word",
         "15 anchors of a hundred round a fault", "16 anchors of a hundred round none",
         "16 anchors of a hundred round none and a rule", "16 anchors of a hundred round a rule",
         "16 anchors of a hundred round a fault")
# rules of which the dump is asked for, and not only their number
MOST_DUMPED = 4096
# texts that the program gets at once
CHUNK = 500
# longer texts of the folder aren't changed at random
LONG_TEXT = 1200
# what some random texts have to hold; of all of them those for several interfaces also what interface_kinds.py names, each
# so often
LEAST = 10
PROMISED = ("a label", "an empty label", "a label in an anchor", "a label in copies of an anchor",
            "a label behind one in copies of an anchor")
# texts for which each allocation is refused, with their interfaces: what they hold covers the expansion, and the last
# has a fault
SHORT_OF_MEMORY = (
    ("example_router", "igb1", "10.1.0.1/16"),
    ("tables_entries_of_macros_laid_flat", "em0", "192.0.2.1/24"),
    ("options_skip_adds_up", "em0", "192.0.2.1/24"),
    ("anchors_nested_lists", "em0", "192.0.2.1/24"),
    ("anchors_labels", "em0", "192.0.2.1/24"),
    ("example_gateway", "em0", "192.0.2.1/24"),
    ("interfaces_several", "em0", "192.0.2.1/24", "em1", "203.0.113.2/24", "em2", "198.18.0.1/15"),
    ("tables_clash_with_a_value", "em0", "192.0.2.1/24"),
)


def interface_bytes(interface):
    name, address, bits = interface
    return bytes([len(name)]) + name.encode() + bytes(map(int, address.split("."))) + bytes([bits])


def record(text, counts_alone=False):
    """What the program is handed for a text."""
    return (bytes([counts_alone, len(text.interfaces)]) + b"".join(map(interface_bytes, text.interfaces))
            + len(text.text).to_bytes(4, "big") + text.text)


def is_of_counts(answer):
    return answer[0].endswith(" translation")


def model_answer(text, counts_alone=False):
    """What the model says to a text; of many rules, or where no more is asked, only how many they are."""
    ruleset = model.expand(text.text, text.interfaces)
    if not isinstance(ruleset, model.Ruleset):
        return [worded(ruleset)]
    rules, translations = ruleset.counts()
    if counts_alone or rules + translations > MOST_DUMPED:
        return [f"{rules} filter, {translations} translation"]
    return list(model.dump(ruleset))


def answer_of(text):
    """What is to be said to a text."""
    if text.answer is None:
        return model_answer(text)
    return [text.answer] if isinstance(text.answer, str) else text.answer


def labels_of(answer):
    """The labels in a dump, each with the line of its rule and the places of the anchors round it."""
    for words in map(str.split, answer):
        if words[0] == "filter" and "label" in words:
            place = words.index("label")
            yield int(words[place - 1]), words[place + 1], tuple(words[place + 3:])


def label_kinds(answer):
    """What a dump has of PROMISED. The copies of a rule have its line, and stand in different anchors."""
    rounds, has_empty_label = defaultdict(set), False
    for line, label, anchors in labels_of(answer):
        rounds[line].add(anchors)
        has_empty_label = has_empty_label or label == "-"
    copied = [line for line, round_it in rounds.items() if len(round_it) > 1]
    holds = (bool(rounds), has_empty_label, any(any(round_it) for round_it in rounds.values()), bool(copied),
             any(line > min(copied, default=line) for line in rounds))
    return [kind for kind, is_there in zip(PROMISED, holds) if is_there]


def compared(command, texts):
    """The texts to which the program says something else, with the lines expected and those that came; and how many of
    all texts are of each kind that is counted."""
    right = [answer_of(text) for text in texts]
    records = [record(text, is_of_counts(answer)) for text, answer in zip(texts, right)]
    wrong = [(text, answer, seen) for text, answer, seen in zip(texts, right, answers_of(command, records))
             if seen != answer]
    return wrong, Counter(kind for text, answer in zip(texts, right)
                          for kind in (*label_kinds(answer), *interface_kinds.kinds_of(text, answer)))


def differences(command, texts):
    """The texts to which the program says something else, as above."""
    return compared(command, texts)[0]


def texts_of(cases):
    """Texts with the answers that are written for them."""
    return [Text(case.name, text, case.interfaces, answer) for case, text, answer in cases]


def with_answers():
    """The texts of the folder and the rows."""
    return texts_of(expected.written()), texts_of(expected.short())


def changed(texts):
    """Texts that come from those of the folder by random changes, and those of the reader's folder as they are."""
    read = rulesets.cases.written()
    given = {text.name: text.interfaces for text in texts}
    draw = random.Random(SEED)
    for ruleset in read:
        yield Text(ruleset.name, ruleset.text, (interface_of(*draw.choice(RUNS)),))
    chosen = [rulesets.cases.Ruleset(text.name, text.text) for text in texts if len(text.text) <= LONG_TEXT]
    chosen += filter(rulesets.cases.is_example, read)
    for ruleset in rulesets.cases.changed(chosen):
        name, _, _ = ruleset.name.rpartition(", change ")
        yield Text(ruleset.name, ruleset.text, given.get(name, (EM0,)))


def chunks(texts):
    return [texts[place:place + CHUNK] for place in range(0, len(texts), CHUNK)]


def shown(lines, others):
    """The first lines of an answer that the other hasn't."""
    found = [line for line in lines if line not in others] or lines
    more = [] if len(found) <= SHOWN_LINES else [f"and {len(found) - SHOWN_LINES} lines more"]
    return "\n      ".join(line[:SHOWN_BYTES] for line in found[:SHOWN_LINES] + more)


def named(interfaces):
    return ", ".join(f"{each.name} {each.address}/{each.bits}" for each in interfaces)


def show(wrong):
    for text, answer, seen in wrong[:MOST_SHOWN]:
        more = "" if len(text.text) <= SHOWN_BYTES else f"\n  and {len(text.text) - SHOWN_BYTES} bytes more"
        print(f"{text.name} on {named(text.interfaces)}: {text.text[:SHOWN_BYTES]!r}{more}")
        print(f"  expected {shown(answer, seen)}\n  got      {shown(seen, answer)}")


def model_faults(texts):
    """Where the model says something else than what is written."""
    for text in texts:
        right = answer_of(text)
        seen = model_answer(text, is_of_counts(right))
        if seen != right:
            yield text._replace(name=f"model: {text.name}"), right, seen


def compare_model():
    """How many written answers the model doesn't give."""
    files, rows = with_answers()
    wrong = list(model_faults(files + rows))
    show(wrong)
    print(f"{len(files) + len(rows)} written answers: {len(wrong)} differ from the model")
    return len(wrong)


def compare_hostile():
    """How many hostile texts the proved program answers otherwise."""
    texts = list(hostile())
    right = [answer_of(text) if text.answer else model_answer(text, counts_alone=True) for text in texts]
    seen = checking.said_of_each(building.pfreplay(), texts)
    wrong = [(text, answer, [said]) for text, answer, said in zip(texts, right, seen) if [said] != answer]
    show(wrong)
    print(f"{len(texts)} hostile texts: {len(wrong)} differ from the proved program")
    return len(wrong)


def too_seldom(kinds, least):
    """Prints how many random texts are of each kind, and answers of which ones there are too few."""
    for names in (PROMISED, interface_kinds.COUNTED):
        print("random texts: " + ", ".join(f"{kind} {kinds[kind]}" for kind in names))
    missing = [kind for kind in PROMISED if not kinds[kind]]
    missing += [kind for kind in interface_kinds.COUNTED if kinds[kind] < least]
    if missing:
        print(f"random texts: not seen, or fewer than {least} times: {', '.join(missing)}")
    return missing


def compare(command, part):
    """How many texts have another answer of the program, plus the number of kinds with too few random texts. Of all that
    are made one in `part` is asked."""
    files, rows = with_answers()
    hard = [text for text in hostile() if part == 1 or text.name in QUICK]
    made, drawn = [*changed(files), *each_value()][::part], list(random_texts(RANDOM_TEXTS // part))
    wrong, kinds = differences(command, files + rows), Counter()
    for text in hard:
        wrong += differences(command, [text])
    with ProcessPoolExecutor() as pool:
        of_made = pool.map(differences, repeat(command), chunks(made))
        of_drawn = pool.map(compared, repeat(command), chunks(drawn))
        for some in of_made:
            wrong += some
        for some, seen in of_drawn:
            wrong += some
            kinds += seen
    show(wrong)
    print(f"{len(files) + len(rows) + len(hard) + len(made) + len(drawn)} texts: {len(wrong)} differ from the program")
    return len(wrong) + len(too_seldom(kinds, least_of(part, LEAST)))


def refuse_memory(command, part):
    """Whether the program ends lawfully where one in `part` allocations is refused."""
    texts = [Text(name, (expected.TEXTS / f"{name}.conf").read_bytes(),
                  tuple(map(interface_of, words[::2], words[1::2]))) for name, *words in SHORT_OF_MEMORY]
    return end_lawfully("expansions", command, list(map(record, texts)), part)


def model_alone():
    sys.exit(bool(compare_model()))


def main(part=PART):
    command = building.answers("expansions")
    wrong = compare_model() + compare(command, part) + compare_hostile()
    sys.exit(not refuse_memory(command, part) or bool(wrong))
