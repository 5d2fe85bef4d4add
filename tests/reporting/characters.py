"""What a page shows of the bytes of files, and how it writes that: a second implementation, written from
docs/FORMATS.md, section "A report".

Each byte that belongs to no character of UTF-8 is shown as U+FFFD, and so is each control character other than a tab,
a byte order mark, and a character that stands for none.
"""

import unicodedata

SHOWN_INSTEAD = "\ufffd"
TAB, BYTE_ORDER_MARK = "\t", "\ufeff"
MOST_BYTES = 4
ESCAPED = {"&": "&amp;", "<": "&lt;", ">": "&gt;", '"': "&quot;", "'": "&#39;"}


def stands_for_none(character):
    """Whether it is one of the two last of a plane, or of the 32 in the middle of the first plane."""
    code = ord(character)
    return code & 0xFFFE == 0xFFFE or 0xFDD0 <= code <= 0xFDEF


def is_shown(character):
    is_control = unicodedata.category(character) == "Cc" and character != TAB
    return not is_control and character != BYTE_ORDER_MARK and not stands_for_none(character)


def characters_of(octets):
    """The characters of bytes, None for each byte that belongs to none."""
    while octets:
        for length in range(1, MOST_BYTES + 1):
            try:
                yield octets[:length].decode()
            except UnicodeDecodeError:
                continue
            octets = octets[length:]
            break
        else:
            yield None
            octets = octets[1:]


def shown(octets):
    """What is shown of bytes."""
    try:
        characters = octets.decode()
    except UnicodeDecodeError:
        characters = characters_of(octets)
    return "".join(each if each and is_shown(each) else SHOWN_INSTEAD for each in characters)


def escaped(text):
    """How a page writes what is shown of a file."""
    return "".join(ESCAPED.get(character, character) for character in text)
