"""Settings of random runs: where their packets are captured, and what says which way these go. Most runs have none.

Packets that went out and were captured on the wire have the firewall's own addresses, if they were translated. So the
networks of these are inside then, in most runs.
"""

from typing import NamedTuple

from captures.packets import LINKTYPE_ETHERNET
from expansions.hosts import masked
from rulesets.tree import Network
from steps.model import STACK, WIRE

# how often a run that has settings has each
ON_WIRE, WITH_EXCEPTED, WITH_ADDRESSES = 0.7, 0.5, 0.5
# networks that are inside besides those of a run, and networks that are excepted; the longest prefix decides
EXCEPTIONS = (((), (Network(0x0A000006, 32),)), ((Network(0x0A000005, 32),), (Network(0x0A0000FF, 24),)),
              ((Network(0, 0),), (Network(0xC6336400, 24), Network(0xCB007100, 24), Network(0xC0000240, 26))),
              ((Network(0xC6336400, 24),), (Network(0xC6336407, 32), Network(0x0A000007, 31))),
              ((), (Network(0, 0), Network(0x7F000001, 1))),
              ((Network(0x0A000004, 31), Network(0x0A000006, 32)), (Network(0x0A000004, 30), Network(0xC0000209, 32))))
# the addresses of interfaces by their places, and addresses of others
OWN_ADDRESSES = tuple(bytes([2, 0, 0, 0, 0, place]) for place in range(1, 9))
OTHER_ADDRESSES = (bytes(6), b"\xff" * 6, bytes([3, 0, 0, 0, 0, 1]), bytes([2, 0, 0, 0, 0, 17]),
                   bytes([0, 0, 0, 0, 0, 1]))


class Settings(NamedTuple):
    """The settings of a run: where its packets are captured, whether networks are excepted from the inside, and whether
    interfaces have link-level addresses."""
    tap: str = STACK
    has_excepted: bool = False
    has_addresses: bool = False

    def given(self, draw, run):
        """A run that has no settings, with these."""
        run = run._replace(tap=self.tap)
        if self.tap == WIRE and draw.random() < 0.9:
            run = run._replace(inside=(*run.inside, *own_networks(draw, run.interfaces)))
        if self.has_excepted:
            more, excepted = draw.choice(EXCEPTIONS)
            inside = (*run.inside, *more)
            taken = set(map(masked, inside))
            run = run._replace(inside=inside, excepted=tuple(net for net in excepted if masked(net) not in taken))
        if self.has_addresses:
            run = run._replace(link=LINKTYPE_ETHERNET, addresses=some_addresses(draw, len(run.interfaces)))
        return run


PLAIN = Settings()


def plain(_):
    """The settings of most runs."""
    return PLAIN


def some_settings(draw):
    return Settings(WIRE if draw.random() < ON_WIRE else STACK, draw.random() < WITH_EXCEPTED,
                    draw.random() < WITH_ADDRESSES)


def own_networks(draw, interfaces):
    """The networks of the interfaces, or their addresses alone."""
    is_whole = draw.random() < 0.6
    return tuple(each.network() if is_whole else each.own() for each in interfaces)


def some_addresses(draw, count):
    """Link-level addresses of `count` interfaces, of which one may have none."""
    addresses = list(OWN_ADDRESSES[:count])
    if count > 1 and draw.random() < 0.4:
        addresses[draw.randrange(count)] = None
    return tuple(addresses)
