"""The form of a row: a question to the command `diff`, and what it leaves, written out by hand."""

from typing import NamedTuple

from captures.packets import SYN, capture_header, record, tcp, udp
from changes.model import NOTHING_CHANGES, REFUSED, SOMETHING_CHANGES, UNJUDGED, Question
from changes.printed import TEXT
from matrix.scene import timed
from runs.case import INSIDE, Case
from runs.model import Outcome
from steps.translation_words import ANSWERED, ASKED, E, H, P

# a datagram to the firewall, and the first segment of a connection to a host inside
CAME, KNOCK = udp(P, 9, E, 9), tcp(P, 4000, H, 22, SYN, 1)
# the flows of the packets that most rows have, as these packets have them
FLOW_OUT, FLOW_BACK = "udp 10.0.0.5:1000 > 198.51.100.7:53", "udp 198.51.100.7:53 > 10.0.0.5:1000"
FLOW_CAME, FLOW_KNOCK = "udp 198.51.100.7:9 > 192.0.2.1:9", "tcp 198.51.100.7:4000 > 10.0.0.5:22"
# one goes out, its answer and the two others come in
TRAFFIC = (ASKED, ANSWERED, CAME, KNOCK)
NONE_OF_TRAFFIC = "0 of 4 packets change"


def text_of(*lines):
    return "".join(f"{line}\n" for line in lines).encode()


class Row(NamedTuple):
    """A question with the lines that are printed, or with what is said if it is refused. The names of the rulesets'
    files stand there as `{old}` and `{new}`, and so they do in how the lines begin that say what was rewritten. If no
    packet changes, it is told whether that is for want of packets that are judged. Warnings are there if they aren't
    left out."""
    name: str
    question: Question
    lines: tuple = ()
    said: str = ""
    remarks: tuple = ()
    is_unjudged: bool = False
    warnings: tuple = ()

    def outcome(self, names):
        """What is left if the rulesets' files have these names, but for what was rewritten."""
        if self.said:
            return Outcome(b"", f"pfreplay: {self.named(self.said, names)}\n".encode(), REFUSED)
        return Outcome(text_of(*self.lines), text_of(*(f"pfreplay: warning: {each}" for each in self.warnings)),
                       self.status())

    def status(self):
        if not self.lines[-1].startswith(("0 of ", '{"kind":"all","changed":0,')):
            return SOMETHING_CHANGES
        return UNJUDGED if self.is_unjudged else NOTHING_CHANGES

    def told(self, names):
        """How the lines begin that say what was rewritten."""
        return [self.named(remark, names).encode() for remark in self.remarks]

    @staticmethod
    def named(text, names):
        old, new = names
        return text.format(old=old, new=new)


def capture_of(records, **header):
    """A capture of packets, each maybe behind its second."""
    parts = [record(second, 0, packet, order=header.get("order", "<")) for second, packet in timed(records)]
    return capture_header(**header) + b"".join(parts)


def question_of(old, new, capture, inside=INSIDE, by_verdict=False, surroundings=None, form=TEXT, is_quiet=True,
                **settings):
    case = Case("", old.encode(), inside, capture, **settings)
    return Question(case, new.encode(), by_verdict, surroundings, form, is_quiet)


def row(name, old, new, packets, *lines, **how):
    """A row of packets on one interface."""
    return Row(name, question_of(old, new, capture_of(packets), **how), lines)


def counted(packets):
    return "1 packet" if len(packets) == 1 else f"{len(packets)} packets"


def one_line(name, old, new, packets, flow, pair, number=1, **how):
    """A row in which one packet alone changes."""
    return row(name, old, new, packets, f"{flow}  {pair}  1 packet, first {number}", f"{pair}: 1 packet in 1 flow",
               f"1 of {counted(packets)} change: 1 cause", **how)


def none(name, old, new, packets, **how):
    """A row in which nothing changes."""
    return row(name, old, new, packets, f"0 of {counted(packets)} change", **how)


def unjudged(name, old, new, packets, *said, is_unjudged=True, **how):
    """A row in which nothing changes, and that is told of packets that aren't judged."""
    lines = (*(f"not judged: {each}" for each in said), f"0 of {counted(packets)} change")
    return Row(name, question_of(old, new, capture_of(packets), **how), lines, is_unjudged=is_unjudged)


def with_tried(row, tried):
    """A row with the lines about what no packet tried. They stand before the one about packets that aren't judged."""
    unasked = [line for line in tried if line.startswith("not judged")]
    open_ends = sum(line.count(" of OLD") + line.count(" of NEW") or 1 for line in unasked)
    *before, last = row.lines
    kinds = [before.pop()] if before and before[-1].startswith("not judged: ") else []
    told, *cut = last.split(", cut")
    end = f"{told}, {counted_of(open_ends)} not judged" if open_ends else told
    return row._replace(lines=(*before, *tried, *kinds, f"{end}{', cut' if cut else ''}"),
                        is_unjudged=row.is_unjudged or open_ends > 0)


def counted_of(differences):
    return "1 difference" if differences == 1 else f"{differences} differences"
