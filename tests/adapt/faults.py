"""All that the strict reader refuses of a text, each fault at its word.

The reader answers one fault and its line. It is asked again and again: each time of the words that are left without the
statement that was at fault, each word being on a line of its own, so that the line says which word it is.
"""

import re
from typing import NamedTuple

from adapt.surroundings import ADDRESS, INTERFACE
from adapt.words import LINE, LISTED, words_of
from expansions.hosts import interface_of
from expansions.model import expand

MOST_ERRORS = 100
LONGEST = 1048576
# what stands behind each word: a line's end that is a blank, or a blank if the text is too long with these
SEPARATORS = (b"\\\n", b" ")
# what the use of a macro is that isn't defined, or has a name that no macro may have
UNDEFINED = ("undefined macro", "unknown word")
# what stands behind the name of a macro that is used
USED = re.compile(rb"[:/].*", re.DOTALL)


class Fault(NamedTuple):
    """A fault at the word that begins there."""
    start: int
    word: bytes
    kind: str


def fault_of(text):
    """The line and the kind of the first fault of a text in the strict language, or nothing."""
    outcome = expand(text, [interface_of(INTERFACE, ADDRESS)])
    return outcome[1:] if isinstance(outcome, tuple) else None


def first_of(words):
    """The place of the first word at fault among these, and the kind; or nothing."""
    for separator in SEPARATORS:
        text = b"".join(word.text + separator for word in words)
        if len(text) <= LONGEST:
            break
    fault = fault_of(text)
    if fault is None:
        return None
    line = 1
    for at, word in enumerate(words):
        if fault[0] <= line:
            return at, fault[1]
        line += word.text.count(b"\n") + separator.count(b"\n")
    return None


def ends_statement(words, at, depth, first):
    """Whether a statement ends there: at the end of a line, and where the body of an anchor begins or ends."""
    opens_body = words[at].is_sign(LISTED) and words[first].text == b"anchor"
    return not depth and (words[at].kind == LINE or words[at].is_sign(b"}") or opens_body)


def statement_at(words, fault, is_open):
    """Where the statement of the word at fault begins and ends. A brace that nothing closes is none of a list, and behind
    one that closes nothing another statement begins."""
    first, depth = 0, 0
    for at in range(fault):
        if ends_statement(words, at, depth, first):
            first, depth = at + 1, 0
        else:
            depth = depth_behind(depth, words[at])
    if ends_statement(words, fault, depth, first):
        return first, fault + 1
    depth = depth if is_open else depth_behind(depth, words[fault])
    end = fault + 1
    while end < len(words) and not ends_statement(words, end, depth, first):
        depth = depth_behind(depth, words[end])
        end += 1
    return first, end


def depth_behind(depth, word):
    """How many braces are open behind a word."""
    return max(depth + word.is_sign(LISTED) - word.is_sign(b"}"), 0)


def kept_of(statement, behind):
    """How many words of a statement at fault stay: of a table its name, of an anchor the word before its body."""
    kept = 0
    if statement[0].text == b"table":
        kept = next((at + 1 for at, word in enumerate(statement) if word.is_sign(b">")), 0)
    elif statement[0].text == b"anchor" and behind and behind[0].is_sign(LISTED):
        kept = 1
    return kept if kept < len(statement) else 0


def faults_of(text):
    """The faults of a text in its order: one for each statement. The uses of a macro whose definition is at fault are none of them."""
    whole = fault_of(text)
    if whole is None:
        return []
    words, faults, undefined, cut = words_of(text), [], set(), set()
    left = words if len(text) <= LONGEST else []
    for _ in range(MOST_ERRORS):
        found = left and first_of(left)
        if not found:
            break
        at, kind = found
        first, end = statement_at(left, at, kind == "unterminated")
        is_known = left[first].start in cut or kind in UNDEFINED and USED.sub(b"", left[at].text) in undefined
        faults += [] if is_known else [Fault(left[at].start, left[at].text, kind)]
        if left[first + 1:end] and left[first + 1].is_sign(b"="):
            undefined.add(b"$" + left[first].text)
        kept = kept_of(left[first:end], left[end:])
        cut.update(word.start for word in left[first:first + kept][:1])
        left = left[:first + kept] + left[end:]
    return sorted(faults, key=lambda fault: fault.start) or [alone(text, words, *whole)]


def alone(text, words, line, kind):
    """A fault of which the line is known and no more: it is at the first word there or behind."""
    word = next((word for word in words if line <= text.count(b"\n", 0, word.start) + 1), None)
    return Fault(word.start, word.text, kind) if word else Fault(0, b"", kind)
