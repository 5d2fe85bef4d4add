"""What a book's answers tell a standby, and what is wrong with it where the messages of a run are written out."""

from typing import NamedTuple

from messages.reading import stream_of
from messages.spelling import in_file

WORDS = ("messages", "message")


def messages_of(line):
    """The messages of a line, none of them where one can't be read; None where the line is another."""
    word, _, digits = line.partition(" ")
    if word not in WORDS:
        return None
    stream = stream_of(bytes.fromhex(digits.replace("-", "")))
    return [] if stream.refusal else stream.messages


def with_sizes(lines):
    """Lines, but that the sizes with an IP header stand for messages."""
    for line in lines:
        found = messages_of(line)
        sizes = [str(message.size()) for message in found or []] or ["-"]
        yield line if found is None else " ".join([line.partition(" ")[0], *sizes])


class Heard(NamedTuple):
    """What stands in the answer to a run: all messages, how many of them are out behind how many packets, the verdict
    lines by the numbers of their packets, and the numbers of the states that are left."""
    messages: list
    online: dict
    verdicts: dict
    states: list

    def sizes(self, count=None):
        return [message.size() for message in self.messages[:count]]


def heard(lines):
    """What stands in the lines of an answer."""
    messages, online, verdicts, states, is_over = [], {}, {}, [], False
    for line in lines:
        first, *_, last = line.split(" ")
        messages += messages_of(line) or []
        is_over = is_over or first == "message"
        if first == "own":
            online[int(last)] = len(messages)
        elif first.isdecimal() and is_over:
            states.append(int(first))
        elif first.isdecimal():
            verdicts[int(first)] = line
    return Heard(messages, online, verdicts, states)


def row_faults(row, lines):
    """What is wrong with the lines that a row of messages is answered with, in batches of any size."""
    seen = heard(lines)
    numbers = [message.numbers() for message in seen.messages]
    filed = dict(enumerate(in_file(message, row.run.interfaces[0].address) for message in seen.messages))
    found = [("sizes", row.sizes, seen.sizes()), ("last", list(row.last), numbers[len(numbers) - len(row.last):])]
    found += [(f"behind {count}", sizes, seen.sizes(seen.online[count]))
              for count, sizes in row.online.items() if count in seen.online]
    found += [(f"packet {number}", line, seen.verdicts.get(number)) for number, line in row.lines.items()]
    for place, offset, digits in row.bytes:
        octets = bytes.fromhex(digits)
        found.append((f"message {place} at {offset}", octets.hex(),
                      filed.get(place, b"")[offset:offset + len(octets)].hex()))
    if row.states is not None:
        found.append(("states", row.states, seen.states))
    return [f"{title}: {wanted} and not {have}" for title, wanted, have in found if wanted != have]
