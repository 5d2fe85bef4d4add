"""Made-up pages: what reads pages has to read the right ones as they are meant, and to find what is wrong with the
others. No program is needed."""

from reporting.checks import said_by_html5lib, said_by_tidy
from reporting.model import default_names, page_of
from reporting.page import listed
from reporting.reading import read
from reporting.row import timed
from reporting.written import written
from showing.row import BLOCK, BLOCKED, KNOCK

# three packets in a span, and one in the next one
FOUR = timed("", BLOCK, *[(0, KNOCK, BLOCKED)] * 3, (1, KNOCK, "- pass skip-on r=- t=- s=-")).question
# what stands in the page in the place of something else, that is wrong
WRONG = (
    ("<!DOCTYPE html>", "<!doctype html>"), ("<!DOCTYPE html>", "\n<!DOCTYPE html>"), ("<!DOCTYPE html>", ""),
    ('<meta charset="utf-8">', ""), ("<td>", "<td onclick=\"x\">"), ("<td>", "<td><script></script>"),
    ("<body>", '<body><img src="x.png">'), ("<body>", '<body><a href="https://example.org/">x</a>'),
    ("<body>", '<body><link rel="stylesheet" href="x.css">'), ("<style>", "<style>@import 'x.css';"),
    ("<style>", "<style>td { background: url(x.png) }"), ("<td>", "<td style=\"background: url('x.png')\">"),
    ("<body>", '<body><iframe srcdoc="x"></iframe>'), ("<body>", "<body>a & b"), ("<body>", "<body>\x01"),
    ("<body>", "<body>\ufeff"), ("<body>", "<body>\ufffe"), ("</table>", ""), ("</section>", "</section></section>"),
    ('<section id="time">', '<section id="times">'), ("Verdicts over time", "Verdicts"), ("<th>Share</th>", ""),
    ("<th>Line</th>", "<th>line</th>"), ('class="verdicts"', 'class="verdict"'), ("pfreplay report: rules", "rules"),
    ("<title>pfreplay", "<title></title><title>pfreplay"), ('height="200.0"', 'height="100"'),
    ('height="200.0"', 'height="201"'), ('height="200.0"', 'height="x"'), ('width="7"', 'width="9"'),
    ('x="0"', 'x="-1"'), ('x="0"', 'x="9"'), ('y="0.00"', 'y="1"'), ('<rect class="block"', '<rect class="pass"'),
    ('<rect class="block"', '<rect'), ("<g><title>", "<g><rect/><title>"), ("</svg>", "</svg><svg></svg>"),
    ('height="66.67"', 'height="70"'), ("Each bar is 1 second.", "Each bar is 1 seconds."),
    ("<td>75.0 %</td>", "<td>75.0%</td>"), ("<td>75.0 %</td>", "<td> 75.0 %</td>"),
    ("<td>block in</td>", "<td>block in </td>"),
    ('<tr class="block">', '<tr class="used">'), ('<tr class="block">', '<tr class="pass">'),
    ('<tr class="unused">', "<tr>"), ('<tr class="unused">', '<tr class="unused block">'),
    ("<td>capture</td>", "<td>./capture</td>"),
    ("<td>120</td>", "<td>0120</td>"), ("<td>pass out</td>", "<td>pass\nout</td>"),
    ('<section id="rules">', '<section id="rules"><section id="rules">'),
    ("<td>rule</td>", "<td></td>"), ("<th>Reason</th>", "<th>Why</th>"), ("What may not fit", "Warnings"),
    ('<section id="warnings">', '<section id="warning">'), ("goes out</li>", "goes out.</li>"),
    ("<li>em0", "<li>pfreplay: warning: em0"), ("<li>em0: no packet goes out</li>", ""),
    ("goes out</li>", "goes out</li><li>em0: no packet comes in</li>"), ("<ul>", "<p>None.</p><ul>"),
    ("<li>", "<li><ul><li>"), ("<li>em0", "<li>&#101;m0"), ("<ul>", "<ol>"),
    ("<ul><li>em0: no packet goes out</li></ul>", "<p>None.</p>"),
    ("<ul><li>em0: no packet goes out</li></ul>", "<p>em0: no packet goes out</p>"))
# what may be otherwise
RIGHT = (
    ("<body>", "<body><h1>A report</h1><main>"), ("</td>", ""), ("</tr>", ""), ("<td>block in</td>",
                                                                            "<td><code>block in</code></td>"),
    ("<table", '<table role="grid"'), ('<svg', '<svg xmlns="http://www.w3.org/2000/svg" role="img"'),
    ("<rect", '<rect fill="#a00"'), ('<section id="time">', '<section class="wide" id="time">'),
    ("<section", "<div><section"), ("</g>", "</g><text x=\"1\">1</text>"),
    ("tr class=\"block\"", "tr class=\"x block\""), ("</li>", ""), ("<ul>", '<ul class="x">'),
    ('<g><title>', '<g transform="translate(0, 0)"><title>'))
# the picture ends where its last bar does, or before
NARROW = (('viewBox="0 0 16 200"', 'viewBox="0 0 15 200"'), ('viewBox="0 0 16 200"', 'viewBox="1 0 16 200"'),
          ('viewBox="0 0 16 200"', 'viewBox="0 0 14.9 200"'))


def changed(octets, old, new):
    """A page with something else in each place of a text; None if that isn't there."""
    text = octets.decode()
    return text.replace(old, new).encode("utf-8", "surrogatepass") if old in text else None


def is_right(page, octets):
    """Whether a page says just what is meant, and nothing is wrong with it."""
    seen, faults = read(octets)
    return seen is not None and list(listed(seen, faults)) == list(listed(page))


def ends_closed(octets, new):
    return octets.replace(b"</body>", b"</main></body>") if b"<main>" in octets else (
        octets.replace(b"</section>", b"</section></div>") if "<div>" in new else octets)


def compare(comparison):
    page = page_of(FOUR, default_names(FOUR))
    octets = written(page)
    comparison.expect("a page that is right", True, is_right(page, octets))
    comparison.expect("what other readers say of it", ("", ""), (said_by_html5lib(octets), said_by_tidy(octets)))
    for old, new in RIGHT:
        other = changed(octets, old, new)
        comparison.expect(f"a page with {new!r} for {old!r}", True,
                          other is not None and is_right(page, ends_closed(other, new)))
    for old, new in (*WRONG, *NARROW[1:]):
        other = changed(octets, old, new)
        comparison.expect(f"a wrong page with {new!r} for {old!r}", (True, False),
                          (other is not None, other is not None and is_right(page, other)))
    comparison.expect("no UTF-8", False, is_right(page, octets.replace(b"<body>", b"<body>\xff")))
    comparison.expect("a narrower picture", True, is_right(page, changed(octets, *NARROW[0])))
