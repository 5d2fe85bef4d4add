"""What pfctl refuses though it is accepted here: ports and types of ICMP without their protocol, states of rules that
block, and long labels."""

from adapt import names
from adapt.findings import finding_at
from adapt.words import LINE, LISTED, MACRO, QUOTED, ROUND, WARNING, are_closed, statements_of, words_of

MOST_LABEL_BYTES = 63
QUOTES = 2

# all that is said so
KINDS = ("port without a protocol", "port of another protocol", "type without a protocol", "type of another protocol",
         "state of a rule that blocks", "long label")


def remarks_of(text):
    """What is said of a text, each with its kind, in the order of the text."""
    words = words_of(text)
    if not are_closed(words):
        return []
    return [(finding_at(text, word.start, WARNING, word.text), kind) for statement in statements_of(words)
            if statement.first() in names.REMARKED for word, kind in Rule(statement).remarks()]


class Rule:
    """Goes through the words of a rule. Those in round brackets count for nothing, and in braces protocols alone."""

    def __init__(self, statement):
        self.first = statement.first()
        self.words = [word for word in statement.words if word.kind != LINE]
        # the words behind `proto`, or nothing where it is missing
        self.protocols = None
        # `proto` or `label`, of which the value comes next
        self.asks = None
        self.braces = self.brackets = 0
        self.is_target = False

    def remarks(self):
        """Words with the kind of what is said of them; each kind once."""
        found = {}
        for at, word in enumerate(self.words):
            kind = self.take(at, word)
            if kind:
                found.setdefault(kind, word)
        return [(word, kind) for kind, word in found.items()]

    def take(self, at, word):
        """What is said of the next word, or nothing."""
        if word.is_sign(LISTED, ROUND, b"}", b")"):
            return self.enclose(word)
        if self.brackets:
            return None
        if self.asks:
            return self.value(word)
        return None if self.braces or word.kind == QUOTED else self.word(at, word)

    def enclose(self, word):
        self.braces = max(self.braces + word.is_sign(LISTED) - word.is_sign(b"}"), 0)
        self.brackets = max(self.brackets + word.is_sign(ROUND) - word.is_sign(b")"), 0)
        if not word.is_sign(LISTED):
            self.asks = None

    def value(self, word):
        """A protocol, or the text of a label."""
        if self.asks == b"label":
            self.asks = None
            is_long = len(word.text) - QUOTES * (word.kind == QUOTED) > MOST_LABEL_BYTES
            return "long label" if is_long and not self.braces and self.first in names.FILTERS else None
        if not word.is_sign(b","):
            self.protocols.append(word)
            self.asks = self.asks if self.braces else None
        return None

    def word(self, at, word):
        if word.is_plain(b"proto"):
            self.protocols = self.protocols or []
        if word.is_plain(b"proto", b"label"):
            self.asks = word.text
        self.is_target = self.is_target or word.is_sign(b"->")
        if word.is_plain(b"keep", b"modulate", b"synproxy"):
            has_state = at + 1 < len(self.words) and self.words[at + 1].is_plain(b"state")
            return "state of a rule that blocks" if has_state and self.first == b"block" else None
        if word.is_plain(b"port"):
            return None if self.is_target else self.other_protocol("port", b"tcp", b"udp", b"6", b"17")
        return self.other_protocol("type", b"icmp", b"1") if word.is_plain(b"icmp-type") else None

    def other_protocol(self, what, *fitting):
        """What is said where `proto` is missing, or has other protocols than these; a macro may be any."""
        if self.protocols is None:
            return f"{what} without a protocol"
        if any(protocol.kind == MACRO for protocol in self.protocols):
            return None
        return None if all(protocol.is_plain(*fitting) for protocol in self.protocols) else f"{what} of another protocol"
