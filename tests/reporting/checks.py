"""What may not be in a page, whatever it says: scripts, references to other files, and marks that don't fit; and what
other readers of HTML say of it."""

import re
import shutil
import subprocess

from reporting.characters import is_shown

try:
    import html5lib
except ImportError:
    html5lib = None

BEGINNING = "<!DOCTYPE html>"
# where a page has to say that it is in UTF-8, in bytes
EARLY = 1024
REFERENCE = re.compile(r"&(?:[A-Za-z][A-Za-z0-9]*|#[0-9]+|#x[0-9A-Fa-f]+);")
# elements that run something, or need another file
FORBIDDEN = ("script", "link", "iframe", "frame", "object", "embed", "img", "image", "base", "audio", "video", "source",
             "track", "form", "applet", "template")
# attributes that name another file or place
REFERRING = {"src", "href", "xlink:href", "action", "formaction", "data", "srcset", "poster", "background", "ping",
             "manifest", "srcdoc"}
OUTSIDE = re.compile(r"https?:|url\(|@import|javascript:|expression\(", re.IGNORECASE)
NAMESPACE = re.compile(r"xmlns(:\w+)?")
# seconds
TIME_LIMIT = 60


def faults_of_attribute(tag, name, value):
    if name.startswith("on"):
        yield f"the attribute {name} of {tag}"
    if name in REFERRING and not (value or "").startswith("#"):
        yield f"the attribute {name} of {tag}, {value!r}"
    if tag == "meta" and name == "http-equiv" and (value or "").lower() == "refresh":
        yield "a page that goes elsewhere"
    if not NAMESPACE.fullmatch(name) and name in ("style", "fill", "stroke", "filter", "mask", "clip-path") and (
            OUTSIDE.search(value or "")):
        yield f"the attribute {name} of {tag}, {value!r}"


def faults_of_elements(root):
    for element in root.elements():
        if element.tag in FORBIDDEN:
            yield f"the element {element.tag}"
        if element.tag == "style" and OUTSIDE.search(element.written()):
            yield "a style that needs another file"
        for name, value in element.attributes.items():
            yield from faults_of_attribute(element.tag, name, value)
    names = [each.attributes["id"] for each in root.elements() if "id" in each.attributes]
    yield from (f"the id {name} twice" for name in set(names) if names.count(name) > 1)


def faults_of_whole(text, root):
    """What is wrong with the text of a page, and with its elements, whatever they say."""
    if not text.startswith(BEGINNING):
        yield f"it begins with {text[:20]!r}"
    if "<script" in text.lower():
        yield "a script"
    if not re.search(r"<meta[^>]*charset=[\"']?utf-8", text.encode()[:EARLY].decode(errors="replace"), re.IGNORECASE):
        yield "it doesn't say that it is in UTF-8"
    bad = sorted({character for character in text if character != "\n" and not is_shown(character)})
    yield from (f"the character {character!r}" for character in bad)
    if text.count("&") != len(REFERENCE.findall(text)):
        yield "a sign & that begins no reference"
    yield from faults_of_elements(root)


# Other readers

def missing():
    """What is left out, as a reader isn't there."""
    return [*([] if html5lib else ["html5lib"]), *([] if shutil.which("tidy") else ["tidy"])]


def said_by_html5lib(octets):
    """What html5lib says of a page, "" for nothing."""
    if html5lib is None:
        return ""
    try:
        html5lib.HTMLParser(strict=True).parse(octets)
    except html5lib.html5parser.ParseError as why:
        return str(why) or "an error"
    return ""


def said_by_tidy(octets):
    """What tidy says of a page, "" for nothing. It only knows which elements there are since 5.0."""
    if not shutil.which("tidy"):
        return ""
    done = subprocess.run(["tidy", "-errors", "-quiet", "-utf8"], input=octets, stdout=subprocess.DEVNULL,
                          stderr=subprocess.PIPE, timeout=TIME_LIMIT, check=False)
    said = [line for line in done.stderr.decode(errors="replace").splitlines() if "Error:" in line]
    return "; ".join(said) or ("" if done.returncode < 2 else f"status {done.returncode}")
