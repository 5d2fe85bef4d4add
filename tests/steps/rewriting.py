"""What is written into a packet that passes a translation, in a model of the run: an end, and the checksums over it.

Ports, identifiers, checksums and the halves of addresses are words of 16 bits. A checksum is mended by the words under
it that changed (RFC 1624, equation 3). A word that is written with the value that it has hasn't changed, and where none
has the checksum stays.
"""

from captures.frames import ICMP, TCP, UDP, datagram_of
from tracking.connections import header_length

# places in the IPv4 header
HEADER_SUM, SOURCE, DESTINATION = 10, 12, 16
# the places of the checksums in the headers of transports, and that of an echo's identifier
SUMS, IDENTIFIER = {TCP: 16, UDP: 6, ICMP: 2}, 4
# what stands in an ICMP error before the packet that it embeds
ERROR_HEADER = 8


def word_at(octets, place):
    return int.from_bytes(octets[place:place + 2], "big")


def put_word(octets, place, new):
    """Writes a word: the change, the word before and behind, as a list that is empty where it stays."""
    old = word_at(octets, place)
    octets[place:place + 2] = new.to_bytes(2)
    return [] if old == new else [(old, new)]


def put_address(octets, place, address):
    return put_word(octets, place, address >> 16) + put_word(octets, place + 2, address % 2**16)


def mended(checksum, changes):
    """A checksum behind changes of words under it: ~(~HC + ~m + m'), with carries added at the end."""
    total = 0xFFFF - checksum + sum(0xFFFF - old + new for old, new in changes)
    while total > 0xFFFF:
        total = total % 2**16 + (total >> 16)
    return 0xFFFF - total


def mend(octets, place, changes):
    """Mends the checksum at a place: what changed then."""
    return put_word(octets, place, mended(word_at(octets, place), changes)) if changes else []


def mend_udp(octets, place, changes):
    """The same for UDP, where 0 says that there is no checksum, and one of 0 is sent as all ones."""
    checksum = word_at(octets, place)
    return put_word(octets, place, mended(checksum, changes) or 0xFFFF) if checksum and changes else []


def put_end(octets, start, direction, end, is_embedded):
    """Writes the inside end of a packet of this direction, which starts at a place: all that changed. Of an embedded
    packet the checksum of TCP stays, since it may not be quoted."""
    address, port = end
    protocol, transport = octets[start + 9], start + header_length(octets[start:])
    addresses = put_address(octets, start + (SOURCE if direction == "out" else DESTINATION), address)
    changes = addresses + mend(octets, start + HEADER_SUM, addresses)
    if protocol == ICMP:
        ports = put_word(octets, transport + IDENTIFIER, port)
        return changes + ports + mend(octets, transport + SUMS[ICMP], ports)
    if protocol not in (TCP, UDP):
        return changes
    ports = put_word(octets, transport + (0 if direction == "out" else 2), port)
    if protocol == UDP:
        return changes + ports + mend_udp(octets, transport + SUMS[UDP], addresses + ports)
    if not is_embedded:
        mend(octets, transport + SUMS[TCP], addresses + ports)
    return changes + ports


def put_error_end(octets, direction, passage):
    """Writes the inside end of the packet that an ICMP error embeds, and the address of the error's own end where it is
    the same. The embedded packet went the other way."""
    transport = header_length(octets)
    embedded_direction = "in" if direction == "out" else "out"
    changes = put_end(octets, transport + ERROR_HEADER, embedded_direction, passage.beyond(direction), is_embedded=True)
    mend(octets, transport + SUMS[ICMP], changes)
    own = SOURCE if direction == "out" else DESTINATION
    if int.from_bytes(octets[own:own + 4], "big") == passage.before(direction)[0]:
        mend(octets, HEADER_SUM, put_address(octets, own, passage.beyond(direction)[0]))


def rewritten(link, frame, direction, passage, is_error):
    """The bytes of a frame whose packet passes so."""
    octets = bytearray(datagram_of(link, frame))
    if is_error:
        put_error_end(octets, direction, passage)
    else:
        put_end(octets, 0, direction, passage.beyond(direction), is_embedded=False)
    return frame[:len(frame) - len(octets)] + bytes(octets)
