"""A model of the command `adapt`: from the bytes of a text to the text in the words that are read, and what is said.

    python3 -m adapt.model FILE

in the folder `tests` prints both for em0 with 192.0.2.1/24. What is refused still is said by the models of reading and
of the expansion.
"""

import sys
from pathlib import Path
from typing import NamedTuple

sys.dont_write_bytecode = True

from adapt import interfaces, remarks
from adapt.faults import fault_of, faults_of
from adapt.findings import finding_at
from adapt.rewriting import Rewriter
from adapt.surroundings import NOTHING, Given


# the kind of what is said of a text that would have to be rewritten again
UNSETTLED = "error"


class Adapted(NamedTuple):
    """The new text, what is said of the old one, what is refused still, at words of the old text, and what was done."""
    text: bytes
    findings: list
    errors: list
    done: frozenset = frozenset()
    # what pfctl refuses, and rules of other interfaces
    remarks: tuple = ()

    def told(self):
        """All that is said of words."""
        return [*self.findings, *self.remarks]

    def said(self):
        """The lines on standard error, without their reasons."""
        return [said_of(finding) for finding in self.told()] + [said_of_error(error) for error in self.errors]


def said_of(finding):
    return f"{finding.line}:{finding.column}: {finding.kind}: {finding.word}"


def said_of_error(error):
    return f"{error.line}:{error.column}: error: {error.word + ': ' if error.word else ''}{error.kind}"


def rewriter_of(text, surroundings):
    rewriter = Rewriter(text, surroundings)
    rewriter.rewrite()
    return rewriter


def rewritten(text, surroundings):
    """A text in the words that are read, how it became so, and what is said of it. If something of it would be rewritten
    again, the text as it is, nothing, and what is said of that."""
    rewriter = rewriter_of(text, surroundings)
    new = rewriter.edited.written()
    if not rewriter.said:
        return text, None, []
    again = [] if fault_of(new) is None else sorted(rewriter_of(new, surroundings).said)
    if not again:
        return new, rewriter, rewriter.findings()
    at = rewriter.edited.old_of(again[0][0])
    word = next(word for word in rewriter.edited.words if at <= word.start)
    return text, None, [finding_at(text, word.start, UNSETTLED, word.text)]


def remarks_of(text, surroundings, is_rewritten):
    """What pfctl refuses, and then rules of other interfaces, each with its kind."""
    return remarks.remarks_of(text) + interfaces.remarks_of(text, Given(surroundings), is_rewritten)


def adapt(text, surroundings=NOTHING):
    """What the command makes of a text."""
    new, rewriter, findings = (text, None, []) if fault_of(text) is None else rewritten(text, surroundings)
    done, old_of = (rewriter.done, rewriter.old_of) if rewriter else (set(), int)
    errors = [finding_at(text, old_of(fault.start), fault.kind, fault.word) for fault in faults_of(new)]
    said = remarks_of(text, surroundings, bool(rewriter))
    return Adapted(new, findings, errors, frozenset({*done, *(kind for _, kind in said)}),
                   tuple(finding for finding, _ in said))


def main():
    adapted = adapt(Path(sys.argv[1]).read_bytes())
    sys.stdout.buffer.write(adapted.text)
    sys.stdout.flush()
    print("\n".join(adapted.said()), file=sys.stderr)
    sys.exit(bool(adapted.errors))


if __name__ == "__main__":
    main()
