"""A model of the reader of rulesets: from the bytes of a text to the number of its statements, or its first fault.

It is written from the description of the language alone, for clearness and not for speed.
"""

import rulesets.translation
from rulesets.parts import (read_braced, read_criteria, read_entry, read_interface, read_list, read_log, read_number,
                            read_number_or_name, read_separated, read_table_name, read_title, read_use, sees_title,
                            sees_use, value_of)
from rulesets.tree import ANY, Anchor, FilterRule, IcmpType, Macro, Option, StateOptions, Table
from rulesets.words import (ADAPTIVE, BAD_NUMBER, FLAG_LETTERS, ICMP_TYPES, LINE_END, OUT_OF_ORDER, PLAIN, QUOTED, SIGN,
                            TEXT_END, TIMEOUTS, TOO_DEEP, UNKNOWN, Fault, is_name, left_out, text_cursor)

DEEPEST = 16
MOST_STATES, MOST_SECONDS, MOST_NUMBER = 1000000, 2147483647, 4294967295
MOST_ICMP = 255
OTHER_LIMITS = ("frags", "src-nodes", "table-entries", "tables")
FREE_OPTIONS = ("require-order", "loginterface", "debug", "ruleset-optimization")
# the order of statements in a text
OPTIONS, TRANSLATION, FILTER = range(3)


# Options

def read_set(cursor):
    """`set` and one option with its value. Any other word after `set` is left out by its name."""
    cursor.demand(PLAIN, "set")
    word = cursor.demand(PLAIN)
    if word.text in FREE_OPTIONS:
        return [read_free_option(cursor, word.text)]
    if word.text in SET_OPTIONS:
        return SET_OPTIONS[word.text](cursor)
    raise Fault(word.line, left_out(f"set {word.text}"))


def read_free_option(cursor, name):
    """One word that has no effect."""
    if sees_use(cursor):
        return Option(name, read_use(cursor))
    if cursor.peek().sort not in (PLAIN, QUOTED):
        raise cursor.refused()
    return Option(name, cursor.take().text)


def read_skip(cursor):
    cursor.demand(PLAIN, "on")
    return [Option("skip", read_list(cursor, read_interface))]


def read_timeouts(cursor):
    """One timeout, or a braced list of them."""
    return read_list(cursor, read_timeout)


def read_timeout(cursor):
    if cursor.sees(PLAIN, *ADAPTIVE):
        raise Fault(cursor.peek().line, left_out("timeout"))
    name = cursor.demand(PLAIN, *TIMEOUTS).text
    return Option(name, read_number(cursor, 0, MOST_SECONDS))


def read_limits(cursor):
    """One limit, or a braced list of them."""
    return read_list(cursor, read_limit)


def read_limit(cursor):
    word = cursor.demand(PLAIN, "states", *OTHER_LIMITS)
    if word.text == "states":
        return Option("states", read_number(cursor, 1, MOST_STATES))
    return Option(word.text, read_number(cursor, 0, MOST_NUMBER))


def read_block_policy(cursor):
    return [Option("block-policy", cursor.demand(PLAIN, "drop", "return").text)]


def read_state_policy(cursor):
    return [Option("state-policy", cursor.demand(PLAIN, "if-bound", "floating").text)]


def read_host_id(cursor):
    """A number, which can be hexadecimal here."""
    word = cursor.peek()
    digits = word.text[2:]
    if word.sort != PLAIN or not word.text.startswith("0x") or not digits or digits.strip("0123456789abcdefABCDEF"):
        return [Option("hostid", read_number(cursor, 1, MOST_NUMBER))]
    if not 1 <= value_of(digits, 16) <= MOST_NUMBER:
        raise Fault(word.line, BAD_NUMBER)
    cursor.take()
    return [Option("hostid", value_of(digits, 16))]


def read_optimization(cursor):
    word = cursor.demand(PLAIN)
    if word.text != "normal":
        raise Fault(word.line, left_out("set optimization"))
    return [Option("optimization", word.text)]


SET_OPTIONS = {"skip": read_skip, "timeout": read_timeouts, "limit": read_limits, "block-policy": read_block_policy,
               "state-policy": read_state_policy, "hostid": read_host_id, "optimization": read_optimization}


# Options of a filter rule

def flag_bits(letters):
    return sum(FLAG_LETTERS[letter] for letter in set(letters))


def read_flags(cursor):
    """`any`, or flags that are set, a slash and the flags that are looked at, all in one word."""
    if cursor.takes(PLAIN, "any"):
        return ANY
    word = cursor.peek()
    flags, slash, mask = word.text.partition("/")
    spelt = slash and flags and mask and set(flags + mask) <= FLAG_LETTERS.keys()
    if word.sort != PLAIN or not spelt:
        raise cursor.refused()
    cursor.take()
    return flag_bits(flags), flag_bits(mask)


def read_icmp_types(cursor):
    return read_list(cursor, read_icmp_type)


def read_icmp_type(cursor):
    """A use of a macro stands for the type with its code."""
    if sees_use(cursor):
        return read_use(cursor)
    number = read_number_or_name(cursor, ICMP_TYPES, MOST_ICMP)
    return IcmpType(number, read_number(cursor, 0, MOST_ICMP) if cursor.takes(PLAIN, "code") else None)


def read_state_options(cursor):
    """What stands in round brackets after `keep state`: no option twice, and one binding at most."""
    options = StateOptions()

    def read_state_option(cursor):
        if cursor.sees(PLAIN, *TIMEOUTS, *ADAPTIVE):
            raise Fault(cursor.peek().line, left_out("timeout"))
        if not options.no_sync and cursor.takes(PLAIN, "no-sync"):
            options.no_sync = True
        elif options.most is None and cursor.takes(PLAIN, "max"):
            options.most = read_number(cursor, 1, MOST_NUMBER)
        elif options.binding is None and cursor.sees(PLAIN, "floating", "if-bound"):
            options.binding = cursor.take().text
        else:
            raise cursor.refused()

    cursor.demand(SIGN, "(")
    read_separated(cursor, read_state_option, ")")
    return options


def read_rule_option(cursor, name, rule):
    """The rest of one option, after its first word."""
    if name == "flags":
        rule.flags = read_flags(cursor)
    elif name == "icmp-type":
        rule.criteria.icmp_types = read_icmp_types(cursor)
    elif name == "allow-opts":
        rule.allow_opts = True
    elif name == "label":
        rule.label = read_title(cursor)
    else:
        cursor.demand(PLAIN, "state")
        rule.keeps_state = name == "keep"
        if rule.keeps_state and cursor.sees(SIGN, "("):
            rule.state_options = read_state_options(cursor)


def read_rule_options(cursor, rule):
    """The options of a filter rule in any order, each at most once; `no state` and `keep state` are one."""
    left = {"flags", "icmp-type", "no", "keep", "allow-opts", "label"}
    while left and cursor.sees(PLAIN, *left):
        name = cursor.take().text
        left -= {"no", "keep"} if name in ("no", "keep") else {name}
        read_rule_option(cursor, name, rule)


def read_direction(cursor):
    return cursor.take().text if cursor.sees(PLAIN, "in", "out") else None


def read_filter_rule(cursor):
    word = cursor.demand(PLAIN, "pass", "block")
    action = word.text
    if action == "block" and cursor.sees(PLAIN, "drop", "return"):
        action = cursor.take().text
    direction = read_direction(cursor)
    read_log(cursor)
    quick = cursor.takes(PLAIN, "quick")
    rule = FilterRule(word.line, action, direction, quick, read_criteria(cursor))
    read_rule_options(cursor, rule)
    cursor.end_statement()
    return rule


class Reader:
    """Reads the statements of a text and counts them. Those in the bodies of anchors count too, and stand there."""

    def __init__(self, text):
        self.cursor = text_cursor(text)
        self.reached = OPTIONS
        self.count = 0
        self.statements = []

    def read_text(self):
        while self.cursor.peek().sort != TEXT_END:
            if not self.cursor.takes(LINE_END):
                self.read_statement()

    def read_statement(self):
        """One statement, told by its first word, at the text's outermost level."""
        self.count += 1
        cursor = self.cursor
        if cursor.sees(PLAIN, "set"):
            self.keep_order(OPTIONS)
            self.statements += read_set(cursor)
            cursor.end_statement()
        elif cursor.sees(PLAIN, "table"):
            self.read_table()
        elif cursor.sees(PLAIN, *rulesets.translation.FIRST_WORDS):
            self.read_translation()
        elif cursor.sees(PLAIN, "pass", "block", "anchor"):
            self.keep_order(FILTER)
            self.statements.append(self.read_filter_or_anchor(1))
        else:
            self.read_macro()

    def keep_order(self, place):
        """Options go before translation, and that before filter rules and anchors."""
        if place < self.reached:
            raise Fault(self.cursor.peek().line, OUT_OF_ORDER)
        self.reached = place

    def read_macro(self):
        """A name, `=` and the pieces of its value. A name without the sign is a word that begins no statement."""
        cursor = self.cursor
        word = cursor.peek()
        if word.sort != PLAIN or not is_name(word.text):
            raise cursor.refused()
        cursor.take()
        if not cursor.takes(SIGN, "="):
            raise Fault(word.line, UNKNOWN)
        pieces = [self.read_piece()]
        while not cursor.at_statement_end():
            pieces.append(self.read_piece())
        cursor.end_statement()
        self.statements.append(Macro(word.text, pieces))

    def read_piece(self):
        """A piece of a macro's value, which is judged where the macro is used."""
        if sees_use(self.cursor):
            return read_use(self.cursor)
        if self.cursor.peek().sort not in (PLAIN, QUOTED):
            raise self.cursor.refused()
        return self.cursor.take()

    def read_table(self):
        cursor = self.cursor
        line = cursor.demand(PLAIN, "table").line
        name = read_table_name(cursor)
        while cursor.takes(PLAIN, "persist", "const", "counters"):
            pass
        entries = read_braced(cursor, read_entry, may_be_empty=True) if cursor.sees(SIGN, "{") else []
        cursor.end_statement()
        self.statements.append(Table(line, *name, entries))

    def read_translation(self):
        """A rule of translation, or an anchor, which makes none."""
        self.keep_order(TRANSLATION)
        rule = rulesets.translation.read_translation(self.cursor)
        self.cursor.end_statement()
        if rule:
            self.statements.append(rule)

    def read_filter_or_anchor(self, depth):
        if self.cursor.sees(PLAIN, "anchor"):
            return self.read_anchor(depth)
        return read_filter_rule(self.cursor)

    def read_anchor(self, depth):
        cursor = self.cursor
        if depth > DEEPEST:
            raise Fault(cursor.peek().line, TOO_DEEP)
        line = cursor.demand(PLAIN, "anchor").line
        if sees_title(cursor):
            cursor.take()
        direction = read_direction(cursor)
        quick = cursor.takes(PLAIN, "quick")
        criteria = read_criteria(cursor)
        body = self.read_body(depth) if cursor.takes(SIGN, "{") else []
        cursor.end_statement()
        return Anchor(line, direction, quick, criteria, body)

    def read_body(self, depth):
        """Filter rules and anchors, one a line; the closing brace is the first word of its line."""
        cursor = self.cursor
        cursor.demand(LINE_END)
        body = []
        while not cursor.takes(SIGN, "}"):
            if cursor.takes(LINE_END):
                continue
            if not cursor.sees(PLAIN, "pass", "block", "anchor"):
                raise cursor.refused()
            self.count += 1
            body.append(self.read_filter_or_anchor(depth + 1))
        return body


def tree_of(text):
    """The statements of the bytes of a text; a Fault is raised where it has one."""
    reader = Reader(text.decode("latin-1"))
    reader.read_text()
    return reader.statements


def read(text):
    """('statements', their number) or ('fault', its line, its kind) of the bytes of a text."""
    reader = Reader(text.decode("latin-1"))
    try:
        reader.read_text()
    except Fault as fault:
        return "fault", fault.line, fault.kind
    return "statements", reader.count


def worded(outcome):
    """An outcome as a line without its newline."""
    if outcome[0] == "statements":
        return f"{outcome[1]} statements"
    return f"line {outcome[1]}: {outcome[2]}"
