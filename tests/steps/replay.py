"""A model of the serial run with states and translation: a ruleset's text, interfaces, inside networks, a seed and
captures to what each packet comes to and to the texts that the run leaves. Its messages stand in messages.run.

It is written from the description of the formats alone. What one packet comes to is in model.py; here is what goes
round it:

- Packets are numbered from 1, and each record is one. Those of several captures, one for each interface, are taken in
  the order of captures.merging. The clock is the greatest seconds value so far. Before a packet the states go whose
  deadline is at most the clock; behind the last packet none goes.
- The verdicts hold a line for each packet, `N CLOCK DIR VERDICT REASON r=R t=T s=S`. What stands behind it, and behind
  the line of a state, in a run on several interfaces is in marks.py.
- The packets are the capture's header and the records of the packets that pass or are skipped. They are as read, but
  for what a translation writes into a packet. Each capture has packets of its own.
- The counters hold a line for each filter rule, `filter N EVALUATIONS PACKETS BYTES`, then one for each rule of
  translation, `translation N EVALUATIONS PACKETS BYTES`, and `total RECORDS PASS BLOCK RETURN SKIP`. A rule is
  evaluated by each packet that visits it, whatever becomes of the packet then. Packets and bytes (IP total lengths)
  count for the rules on the packet's line where the reason is `rule`, `nat-pass`, `state` or `state-error`.
- The states hold a line for each that is left, by number.

Counters and states are written only where the run comes to the end of all captures, cut or not.
"""

from functools import lru_cache
from itertools import repeat
from typing import NamedTuple

from captures import merging
from captures.frames import Packet, datagram_of, view
from captures.model import HEADER, Refused, read_header, records_of
from expansions.model import Ruleset, expand
from expansions.values import TOO_MANY
from rulesets.model import worded
from steps.marks import name_at, state_line, verdict_line
from steps.model import STACK, Job, Outcome, step
from steps.picks import ZERO_SEED
from steps.rewriting import rewritten
from steps.states import StateTable

COUNTED = ("rule", "nat-pass", "state", "state-error")
# verdicts of packets that are written
PASSED = ("pass", "skip")
# bytes of a ruleset's text
MOST_TEXT = 1048576


class Record(NamedTuple):
    """A record of a capture, and the place of the interface on which it was captured."""
    header: bytes
    seconds: int
    frame: bytes
    place: int = 0


class Step(NamedTuple):
    """A packet of a run: its number, the clock, the numbers of the states that went before it, what it comes to, its IP
    total length, None where it has none, its record, and the bytes of its frame as they are written."""
    number: int
    clock: int
    purged: list
    outcome: Outcome
    length: int | None
    record: Record
    frame: bytes

    def verdict_line(self):
        """Without the newline."""
        direction, verdict, reason, rule, translation, state, *_ = self.outcome
        return (f"{self.number} {self.clock} {direction} {verdict} {reason} r={dashed(rule)} t={dashed(translation)} "
                f"s={dashed(state)}")

    def text(self):
        """What it adds to the packets."""
        return self.record.header + self.frame if self.outcome.verdict in PASSED else b""


class Texts(NamedTuple):
    verdicts: str
    packets: bytes
    # None where the run was stopped
    counters: str | None
    states: str | None
    # the packets of the captures behind the first one
    others: tuple = ()


class Replay(NamedTuple):
    """A whole run: its packets, its texts, how it ends: `clean`, `cut` or what a capture is refused by, with the word for
    that one; and the states that are left."""
    steps: list
    texts: Texts
    tail: str
    left: list


def dashed(number):
    return "-" if number is None else number


@lru_cache
def meaning(text, interfaces):
    """The Ruleset of a text for some interfaces, or its first fault in words."""
    if len(text) > MOST_TEXT:
        return f"line 1: {TOO_MANY}"
    answer = expand(text, interfaces)
    return answer if isinstance(answer, Ruleset) else worded(answer)


def ruleset_of(text, interfaces):
    """The Ruleset of a text; a fault refuses it."""
    answer = meaning(text, interfaces)
    if not isinstance(answer, Ruleset):
        raise Refused(answer)
    return answer


def job_of(text, interfaces, inside, seed=ZERO_SEED, tap=STACK, excepted=(), addresses=()):
    """The job of a run; a fault of the ruleset refuses it. The last three are those of a Job."""
    return Job(ruleset_of(text, interfaces), inside, seed, tap, excepted, addresses)


def step_of(job, number, clock, link, record, table):
    """A packet of a run; of the table the states go whose time has come, and nothing else is changed."""
    purged = table.purge(clock)
    seen, datagram, frame = view(link, record.frame), datagram_of(link, record.frame), record.frame
    outcome = step(job, number, clock, record.place, seen, datagram, table)
    if outcome.passage:
        frame = rewritten(link, frame, outcome.direction, outcome.passage, outcome.reason == "state-error")
    length = int.from_bytes(datagram[2:4], "big") if isinstance(seen, Packet) else None
    return Step(number, clock, purged, outcome, length, record, frame)


def steps_of(job, link_at, records, table):
    """The packets of a run one by one; the table is as the packet leaves it when the next is asked for. A function tells
    the type of the packets of an interface by its place."""
    clock = 0
    for number, record in enumerate(records, 1):
        clock = max(clock, record.seconds)
        done = step_of(job, number, clock, link_at(record.place), record, table)
        yield done
        table.apply(done.outcome.change)


class Counts:
    """What is counted of some rules: how many packets visited each, and how many packets and bytes count for it."""

    def __init__(self, count):
        self.rows = [[0, 0, 0] for _ in range(count)]

    def add(self, visited, rule, length):
        """Adds a packet that counts for a rule, unless that is None."""
        for number in visited:
            self.rows[number][0] += 1
        if rule is not None:
            self.rows[rule][1] += 1
            self.rows[rule][2] += length

    def text(self, word):
        return "".join(f"{word} {number} {evaluations} {packets} {octets}\n"
                       for number, (evaluations, packets, octets) in enumerate(self.rows))


def counters(ruleset, steps):
    """The text of the counters."""
    rules, translations = map(Counts, ruleset.counts())
    totals = {"pass": 0, "block": 0, "return": 0, "skip": 0}
    for each in steps:
        outcome, is_counted = each.outcome, each.outcome.reason in COUNTED
        totals[outcome.verdict] += 1
        rules.add(outcome.visited, outcome.rule if is_counted else None, each.length)
        translations.add(outcome.visited_translation, outcome.translation if is_counted else None, each.length)
    return (rules.text("filter") + translations.text("translation")
            + f"total {len(steps)} {' '.join(map(str, totals.values()))}\n")


def done_of(job, link_at, records, tail, interfaces=()):
    """The run of a job over records, but for its packets' texts. Lines name some of these interfaces, if there are
    several."""
    table = StateTable(job.ruleset.options.values["states"])
    steps = list(steps_of(job, link_at, records, table))
    texts = Texts("".join(verdict_line(interfaces, each) + "\n" for each in steps), b"", None, None)
    if tail in merging.ENDED:
        texts = texts._replace(counters=counters(job.ruleset, steps), states="".join(
            state_line(interfaces, entry) + "\n" for entry in table.by_number()))
    return Replay(steps, texts, tail, table.by_number())


def packets_of(capture, steps):
    """The packets that some steps add to a capture's header."""
    return capture[:HEADER] + b"".join(each.text() for each in steps)


def replay_of(job, capture, places=()):
    """The whole run of a job over a capture's bytes. The places are those of the records, and 0 for each if there are
    none. Lines name no interfaces."""
    header = read_header(capture)
    captured, tail = records_of(capture, header.order)
    records = [Record(*each, place) for each, place in zip(captured, places or repeat(0))]
    done = done_of(job, lambda _: header.link, records, tail)
    return done._replace(texts=done.texts._replace(packets=packets_of(capture, done.steps)))


def replay(text, interfaces, inside, capture, seed=ZERO_SEED, places=()):
    """The whole run: the ruleset's text as bytes, the interfaces, the inside networks, the capture as bytes, the seed,
    and the places of the records."""
    return replay_of(job_of(text, interfaces, inside, seed), capture, places)


# Runs over several captures

def word_for(job, place):
    """The word for the capture of a place in what is said of it: a run over several tells the interface."""
    interfaces = job.interfaces()
    return f"capture {name_at(interfaces, place)}" if len(interfaces) > 1 else "capture"


def headers_of(job, captures):
    """The headers of captures, which are read one after the other; the first that isn't accepted is refused."""
    headers = []
    for place, capture in enumerate(captures):
        try:
            headers.append(read_header(capture))
        except Refused as why:
            raise Refused(f"{word_for(job, place)}: {why}") from None
    return headers


def replay_all(job, captures):
    """The whole run of a job over the bytes of captures, one for each interface."""
    headers = headers_of(job, captures)
    merged = merging.merged(list(map(merging.source_of, captures)))
    tail = merged.tail if merged.refused is None else f"{word_for(job, merged.refused)}: {merged.tail}"
    records = [Record(*each.record, each.place) for each in merged.records]
    done = done_of(job, lambda place: headers[place].link, records, tail, job.interfaces())
    first, *others = packets_by_place(captures, done.steps)
    return done._replace(texts=done.texts._replace(packets=first, others=tuple(others)))


def packets_by_place(captures, steps):
    """The packets of each capture."""
    return [packets_of(capture, [each for each in steps if each.record.place == place])
            for place, capture in enumerate(captures)]
