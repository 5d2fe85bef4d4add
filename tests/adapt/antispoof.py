"""The statement `antispoof`, which stands for rules."""

from adapt.words import LINE, NOTE, PLAIN, QUOTED, ROUND, value_end

LOOPBACK = b"lo0"
# options with a number, which doesn't stay
NUMBERED = (b"ridentifier", b"tracker", b"rtable")


def take(rewriter, words):
    """Writes the rules for which the statement stands, if all of its interfaces are known."""
    rules = rules_of(rewriter.given, [word for word in words if word.kind != LINE])
    if rules:
        rewriter.say_plain(words[0], NOTE, "antispoof")
        lines = rewriter.edited.lines_in(*rewriter.place_of(words))
        rewriter.write(words, 0, len(words), b"\n".join(rules) + b"\n" * lines)


def rules_of(given, words):
    """The rules, or nothing where a word isn't in its place or an interface isn't known."""
    at, options = 1, []
    for word in (b"log", b"quick"):
        if at < len(words) and words[at].is_plain(word):
            options.append(word)
            at += 1
            if word == b"log" and at < len(words) and words[at].is_sign(ROUND):
                at = value_end(words, at) or at
    if at == len(words) or not words[at].is_plain(b"for"):
        return None
    interfaces, at = interfaces_at(words, at + 1)
    if at < len(words) and words[at].is_plain(b"inet"):
        at += 1
    label = label_of(words[at:])
    if label is None or not interfaces:
        return None
    rules = []
    for name in [member for name in interfaces for member in given.members.get(name, [name])]:
        if name != LOOPBACK and not given.network_of(name):
            return None
        rules += rules_for(given, name, [b"block", b"drop", b"in", *options], label)
    return rules


def label_of(words):
    """The label among the options, or nothing where a word isn't one of these."""
    label = []
    for name, value in zip(words[::2], words[1::2]):
        if not name.is_plain(b"label", *NUMBERED) or value.kind not in (PLAIN, QUOTED) or label and name.text == b"label":
            return None
        if name.text == b"label":
            label = [b"label", value.text]
    return None if len(words) % 2 else label


def rules_for(given, name, start, label):
    network, address = (b"127.0.0.0/8", None) if name == LOOPBACK else given.network_of(name)
    rules = [[*start, b"on", b"!", name, b"inet", b"from", network, b"to", b"any", *label]]
    if address:
        rules.append([*start, b"inet", b"from", address, b"to", b"any", *label])
    return [b" ".join(rule) for rule in rules]


def interfaces_at(words, at):
    """The names of interfaces, one or some in braces, and the place behind them."""
    if at == len(words) or not words[at].is_sign(b"{"):
        name, at = interface_at(words, at)
        return [name] if name else [], at
    interfaces, at = [], at + 1
    while at < len(words) and not words[at].is_sign(b"}"):
        if interfaces and words[at].is_sign(b","):
            at += 1
        name, at = interface_at(words, at)
        if not name:
            return [], at
        interfaces.append(name)
    return interfaces, at + 1


def interface_at(words, at):
    """A name, maybe in round brackets, and the place behind it; or nothing."""
    if at < len(words) and words[at].kind == PLAIN:
        return words[at].text, at + 1
    if at + 2 < len(words) and words[at].is_sign(b"(") and words[at + 2].is_sign(b")") and words[at + 1].kind == PLAIN:
        return words[at + 1].text, at + 3
    return None, at
