"""What a program answers to records, and which answers differ from those that are expected."""

import subprocess

# for the records that the program gets at once, so that one without an end is told
TIME_LIMIT = 600
# how many cases that differ are shown
SHOWN = 5


def least_of(part, least):
    """How often at least something has to come up with one in `part` of the cases, if it has to come up `least` times with
    all. Few cases scatter more, so half of a part's share will do."""
    return least if part == 1 else max(1, least // (2 * part))


def cut(lines):
    """The lines before each line `end`, and then those after the last one."""
    answers = [[]]
    for line in lines:
        if line == "end":
            answers.append([])
        else:
            answers[-1].append(line)
    return answers


def answers_of(command, records):
    """The lines that a program answers to each record; it may have stopped before the last."""
    try:
        seen = subprocess.run(command, input=b"".join(records), stdout=subprocess.PIPE, timeout=TIME_LIMIT, check=False)
    except subprocess.TimeoutExpired:
        return [[f"no answer in {TIME_LIMIT} seconds"]] * len(records)
    *answers, rest = cut(seen.stdout.decode("latin-1").splitlines())
    missing = len(records) - len(answers)
    if missing < 0 or missing == 0 and (rest or seen.returncode):
        raise SystemExit(f"{len(answers)} answers to {len(records)} records, then {rest} and status {seen.returncode}")
    return answers + [[f"no answer, status {seen.returncode}", *rest]] * missing


def differing(compared, show):
    """How many of some cases differ, each with what is expected and what is seen at its end. The first ones are shown."""
    wrong = [each for each in compared if each[-2] != each[-1]]
    for each in wrong[:SHOWN]:
        show(*each)
    return len(wrong)


def place_of_difference(expected, seen):
    """The place of the first line that differs."""
    places = range(max(len(expected), len(seen)))
    return next(place for place in places if expected[place:place + 1] != seen[place:place + 1])


def show_lines(place, expected, seen):
    """Shows both lines at a place."""
    for title, lines in (("expected", expected), ("seen    ", seen)):
        print(f"  {title} {lines[place] if place < len(lines) else 'no line'}")
