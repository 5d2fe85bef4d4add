"""What is written otherwise in a text: its statements, one by one."""

from adapt import antispoof, names, rules, tables, targets
from adapt.edits import Edited
from adapt.findings import finding_at
from adapt.macros import Macros, is_definition
from adapt.surroundings import Given
from adapt.values import Values
from adapt.words import LINE, LISTED, MACRO, NOTE, WARNING, Statement, are_closed, statements_of, useless_hosts, value_end, whole_use_end


class Rewriter:
    """What is to be written otherwise in a text, and what is said of it."""

    def __init__(self, text, surroundings):
        self.given = Given(surroundings)
        self.edited = Edited(text)
        self.text = text
        self.macros = Macros()
        self.tables = {}
        self.uses = []
        # findings, each behind its place and its place in a macro's value
        self.said = []
        # which of the rewritings of `names` were made
        self.done = set()
        # words of a target with the word of which is said what becomes of them
        self.told_at = {}

    # What is said

    def say(self, word, kind, done, order=0, reason=None):
        """Tells of a word, and which rewriting it was. Of a word in a macro's value it is told at the use."""
        self.done.add(done)
        if word.use:
            word.use.is_told = True
        target = self.told_at.get((word.use, word.start))
        if target:
            order, word = 1, target
        if word.use:
            order += word.start + 1
            word = word.use.word
        self.said.append((word.start, order, len(self.said), kind, word.text, reason or names.reason_of(done)))

    def say_plain(self, word, kind, done):
        """Tells of a word that goes with all of its statement."""
        self.done.add(done)
        if word.use:
            word = word.use.word
        self.said.append((word.start, 0, len(self.said), kind, word.text, names.reason_of(done)))

    def findings(self):
        """What is said, in the order of the text; what was just said of the same word isn't said again."""
        said = [(start, kind, word, reason) for start, _, _, kind, word, reason in sorted(self.said)]
        return [finding_at(self.text, *one[:3]) for one, before in zip(said, [None, *said]) if one != before]

    def old_of(self, place):
        """Where what stands at a place of the new text stood; of a target that was written, where it is told."""
        old = self.edited.old_of(place)
        target = self.told_at.get((None, old))
        return target.start if target else old

    # Edits of words, of which some may be those of a macro's value

    def edited_of(self, word):
        return word.use.edited if word.use else self.edited

    def pieces(self, words, first, behind):
        """The text and the bytes of these words: one piece, or a piece for each macro's value and what is between."""
        one, other = words[first], words[behind - 1]
        if one.use is other.use:
            return [(self.edited_of(one), one.start, other.end)]
        if one.use is None and (behind == len(words) or words[behind].use is not other.use):
            return [(self.edited, one.start, other.use.word.end)]
        cut = next(at for at in range(first, behind) if words[at].use is not one.use)
        return self.pieces(words, first, cut) + self.pieces(words, cut, behind)

    def write(self, words, first, behind, text):
        """Writes this instead of these words."""
        for edited, start, end in self.pieces(words, first, behind):
            edited.replace(start, end, text)
            text = b""

    def leave_out(self, words, first, behind, is_element=False):
        """Leaves these words out with the blanks before them."""
        for edited, start, end in self.pieces(words, first, behind):
            edited.leave_out(start, end, is_element)

    def keep(self, words, first, chosen, behind):
        """Leaves nothing of these words but those that are chosen."""
        outer = self.edited_of(words[first])
        one, other = words[chosen[0]], words[chosen[1] - 1]
        start, end = one.start, other.end
        if self.edited_of(one) is not outer:
            self.edited_of(one).cut(0, start)
            start = one.use.word.start
        if self.edited_of(other) is not outer:
            self.edited_of(other).cut(end, len(other.use.edited.text))
            end = other.use.word.end
        opened, closed = words[first].start, words[behind - 1].end
        for before, behind_it in zip(words[chosen[0]:chosen[1]], words[chosen[0] + 1:chosen[1]]):
            if before.use is behind_it.use:
                self.edited_of(before).cut(before.end, behind_it.start)
        outer.cut(opened, start, outer.front(opened))
        outer.fresh.add(start)
        outer.cut(end, closed, outer.gap(closed))

    def leave_out_elements(self, words, found):
        """Leaves elements out of braces, each with one comma, also on another line. The ends of lines stay."""
        taken = set()
        for start, end in found:
            comma = next_comma(words, reversed(range(start)), taken) or next_comma(words, range(end, len(words)), taken)
            if comma:
                start, end = min(start, comma), max(end, comma + 1)
            taken.update(range(start, end))
            use = words[start].use
            pieces = self.pieces(words, start, end)
            if use and whole_use_end(words, start) == end:
                pieces = [(self.edited, use.word.start, use.word.end)]
            for edited, first, behind in pieces:
                lines = edited.lines_in(first, behind)
                if lines:
                    edited.cut(first, behind, b"\n" * lines + edited.gap(behind))
                else:
                    edited.leave_out(first, behind, True)

    def leave_out_whole(self, words, word, kind, done):
        """Leaves a statement out, but for the ends of its lines."""
        self.say_plain(word, kind, done)
        start, end = self.place_of(words)
        self.edited.cut(start, end, b"\n" * self.edited.lines_in(start, end))

    def place_of(self, words):
        """Where a statement begins in the text, and where it ends."""
        start, end = [(word.use.word if word.use else word) for word in (words[0], words[-1])]
        return start.start, end.end

    # Statements

    def rewrite(self):
        """Finds all that is written otherwise: nothing where a brace has no partner."""
        if not are_closed(self.edited.words):
            return
        statements, every = [], []
        for statement in map(Statement.begun, statements_of(self.edited.words)):
            if is_definition(statement.words):
                self.macros.define(statement.words)
                continue
            words, uses = self.macros.unfolded(statement.words)
            statements.append((statement.first(), words, uses))
            every += tables.names_in(words)
        self.tables = tables.renamed(every, self.edited.words)
        for first, words, uses in statements:
            if self.take(first, words):
                self.uses += uses
        self.write_out()

    def write_out(self):
        """Writes the values of those macros that don't stay."""
        for use in self.uses:
            if use.has_suffix and not use.is_word:
                continue
            is_gone = self.edited.covers(use.word.start, use.word.end)
            if not (use.is_pool or use.is_told or use.edited.edits or not (use.may_stand or is_gone)):
                continue
            if not (use.is_pool or use.is_word):
                self.said.append((use.word.start, 0, len(self.said), NOTE, use.word.text, names.reason_of("macro")))
                self.done.add("macro" if use.may_stand else "macro where none may stand")
            if not is_gone:
                self.edited.replace(use.word.start, use.word.end, use.written())

    def take(self, first, words):
        """Rewrites a statement: whether values of macros may be written out there."""
        if first in names.QUEUES:
            self.leave_out_whole(words, words[0], NOTE, "queue statement")
        elif first in (b"scrub", b"match"):
            self.leave_out_whole(words, words[0], WARNING, "scrub")
        elif first == b"no" and len(words) > 1 and words[1].is_plain(b"scrub"):
            self.leave_out_whole(words, words[1], WARNING, "scrub")
        elif first == b"set":
            return self.take_setting(words)
        elif first == b"antispoof":
            six = next((word for word in words if word.is_plain(*names.SIX)), None)
            if six:
                self.leave_out_whole(words, six, NOTE, "IPv6 rule")
            else:
                antispoof.take(self, words)
        elif first in names.RULES:
            useless = useless_word(words)
            if not useless:
                return self.take_words(words, True)
            self.leave_out_whole(words, *useless)
        elif first in names.ANCHORS:
            return self.take_words(words, False)
        elif first == b"table":
            gone = set()
            tables.take_files(self, words, gone)
            Values(self, words, gone).take()
            return True
        return False

    def take_words(self, words, is_rule):
        gone = set()
        if is_rule:
            targets.take(self, words, gone)
        rules.take(self, words, gone)
        Values(self, words, gone).take()
        return True

    def take_setting(self, words):
        """A setting; in that of skipped interfaces there may be groups."""
        if len(words) > 1 and words[1].is_plain(*names.SETTINGS):
            self.leave_out_whole(words, words[1], NOTE, "setting")
        elif len(words) > 1 and words[1].is_plain(*names.JUDGED_SETTINGS):
            self.leave_out_whole(words, words[1], WARNING, "judged setting")
        elif len(words) > 2 and words[1].is_plain(b"optimization") and words[2].is_plain(*names.OPTIMIZATIONS):
            pairs = zip(names.OPTIMIZED, names.OPTIMIZATIONS[words[2].text])
            self.say(words[1], NOTE, "optimization")
            self.write(words, 1, 3,
                       f"timeout {{ {', '.join(f'{name} {seconds}' for name, seconds in pairs)} }}".encode())
        elif len(words) > 2 and words[1].is_plain(b"timeout"):
            return self.take_pairs(words, names.ADAPTIVE, WARNING, "adaptive timeout")
        elif len(words) > 2 and words[1].is_plain(b"limit"):
            return self.take_pairs(words, names.ANCHOR_LIMITS, NOTE, "anchor limit")
        elif len(words) > 2 and words[1].is_plain(b"skip"):
            Values(self, words, set()).take()
            return True
        return False

    def take_pairs(self, words, useless, kind, done):
        """Leaves timeouts or limits of these names out: the whole statement if it has no others. Whether it stays."""
        first, closed = 2, len(words)
        if words[2].is_sign(LISTED):
            first, closed = 3, next(at for at, word in enumerate(words) if word.is_sign(b"}"))
        found, at, others = [], first, max(len(words) - closed - 1, 0)
        while at < closed:
            end = value_end(words, at + 1) if words[at].is_plain(*useless) else None
            if end and end <= closed:
                found.append((at, end))
                at = end
                continue
            others += not (words[at].kind == LINE or words[at].is_sign(b",") and first == 3)
            at += 1
        if found and not others and (first == 3 or len(found) == 1):
            self.leave_out_whole(words, words[1], kind, f"{done}s")
            return False
        if first == 3:
            for at, _ in found:
                self.say(words[at], kind, f"{done} in braces")
            self.leave_out_elements(words, found)
        return True


def useless_word(words):
    """The first word for which a rule is left out whole, the kind of what is said, and the rewriting; or nothing. Those
    of the rule itself come before those of macros."""
    own = [word if word.use is None else word._replace(kind=MACRO, text=b"$") for word in words]
    return first_useless(own) or first_useless(words)


def first_useless(words):
    for at, word in enumerate(words[1:], 1):
        if word.is_plain(*names.JUDGED):
            return word, WARNING, "judged word"
        if word.is_plain(*names.SIX):
            return word, NOTE, "IPv6 rule"
        kind = useless_hosts(words, at + 1) if word.is_plain(b"from", b"to") else None
        if kind:
            return word, kind, "IPv6 hosts alone" if kind == NOTE else "no-route alone"
    return None


def next_comma(words, places, taken):
    """The place of a comma with nothing before it but ends of lines and what has gone, or nothing."""
    for at in places:
        if at not in taken and words[at].kind != LINE:
            return at if words[at].is_sign(b",") else None
    return None
