"""A page of HTML as a tree of elements, and what is wrong with its marks."""

import html
from html.parser import HTMLParser
from typing import NamedTuple

VOID = {"area", "base", "br", "col", "embed", "hr", "img", "input", "link", "meta", "source", "track", "wbr"}
# elements that end where one of these begins, as their own end need not be written
ENDS = {"td": {"td", "th", "tr", "tbody", "thead", "tfoot"}, "tr": {"tr", "tbody", "thead", "tfoot"},
        "tbody": {"tbody", "tfoot"}, "thead": {"tbody", "tfoot"}, "head": {"body"}, "li": {"li"},
        "p": {"p", "table", "section", "div", "h1", "h2", "h3", "ul", "ol", "pre", "main", "footer"}}
ENDS["th"] = ENDS["td"]
# elements whose end need not be written
OPEN_ENDED = {*ENDS, "body", "html", "tfoot", "root"}


class Element(NamedTuple):
    """An element, or the whole page. A child is an element, or text as it is written."""
    tag: str
    attributes: dict
    children: list

    def elements(self, *tags):
        """All elements of these tags below, in their order."""
        for child in self.children:
            if isinstance(child, Element):
                yield from [child] if child.tag in tags or not tags else []
                yield from child.elements(*tags)

    def own(self, tag):
        """The children of a tag."""
        return [child for child in self.children if isinstance(child, Element) and child.tag == tag]

    def written(self):
        """The text below, as it is written."""
        return "".join(child.written() if isinstance(child, Element) else child for child in self.children)

    def text(self):
        """What is read of that text."""
        return html.unescape(self.written())

    def classes(self):
        return (self.attributes.get("class") or "").split()


class Reader(HTMLParser):
    """Reads a page. What is wrong with it is kept in words."""

    def __init__(self, text):
        super().__init__(convert_charrefs=False)
        self.root = Element("root", {}, [])
        self.open = [self.root]
        self.faults = []
        self.feed(text)
        self.close()
        self.leave(1)

    def leave(self, depth):
        """Ends the open elements from a depth on."""
        self.faults += [f"no end of {each.tag}" for each in self.open[depth:] if each.tag not in OPEN_ENDED]
        del self.open[depth:]

    def handle_starttag(self, tag, attrs):
        while tag in ENDS.get(self.open[-1].tag, ()):
            self.open.pop()
        if len(dict(attrs)) != len(attrs):
            self.faults.append(f"an attribute twice, of {tag}")
        element = Element(tag, dict(attrs), [])
        self.open[-1].children.append(element)
        if tag not in VOID:
            self.open.append(element)

    def handle_endtag(self, tag):
        if tag in VOID:
            return
        depth = next((place for place in range(len(self.open) - 1, 0, -1) if self.open[place].tag == tag), None)
        if depth is None:
            self.faults.append(f"an end of {tag}, which isn't open")
            return
        self.leave(depth + 1)
        self.open.pop()

    def handle_data(self, data):
        self.open[-1].children.append(data)

    def handle_entityref(self, name):
        self.open[-1].children.append(f"&{name};")

    def handle_charref(self, name):
        self.open[-1].children.append(f"&#{name};")

    def unknown_decl(self, data):
        self.faults.append(f"a mark of another language: {data[:40]!r}")

    def handle_pi(self, data):
        self.faults.append(f"an instruction: {data[:40]!r}")


def tree_of(text):
    """The tree of a page, and what is wrong with its marks."""
    reader = Reader(text)
    return reader.root, reader.faults
