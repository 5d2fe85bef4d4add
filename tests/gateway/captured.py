"""What has to stand in the captures: all conversations, whole, and translated as the rules of the gateway say."""

from captures.frames import TCP
from captures.packets import FIN, checksum
from gateway.network import INNER, INSIDE, OUTER_ADDRESS
from gateway.seeing import IP_HEADER
from gateway.cases import ALL, ANSWERED

# those that `nat` takes
NAT_PORTS = range(50001, 65536)
REDIRECTED = {8080: 80, 8081: 81}


def found_of(seen, conversation):
    """The packets of a conversation by interfaces, of those that have any."""
    found = {interface: [each for each in packets if each.conversation == conversation]
             for interface, packets in seen.items()}
    return {interface: packets for interface, packets in found.items() if packets}


def ways(packets):
    """How many of these come in, and how many go out."""
    outward = sum(each.goes_out() for each in packets)
    return len(packets) - outward, outward


def is_inner_end(conversation, interface, address, port):
    """Whether an address and a port are the end of the house, as a conversation that goes through has it on an
    interface. The port of a ping is 0."""
    is_from_house = conversation.caller == "inside"
    if interface == INNER:
        return (address, port) == (INSIDE, conversation.own_port if is_from_house else REDIRECTED[conversation.port])
    if is_from_house and conversation.kind != "ping":
        return address == OUTER_ADDRESS and port in NAT_PORTS
    return (address, port) == (OUTER_ADDRESS, conversation.port)


def compare_way(comparison, conversation, found):
    """The packets of a conversation, by interfaces, are where it comes to, and as many leave the gateway as it has
    taken."""
    name, (first, *others) = conversation.name(), conversation.interfaces
    comparison.expect(f"{name}: interfaces", set(conversation.interfaces), set(found))
    came, went = ways(found[first])
    comparison.expect(f"{name}: both ways", not conversation.is_blocked(), bool(came and went))
    for other in others:
        comparison.expect(f"{name}: packets on {other}", (went, came), ways(found[other]))
        for interface in (first, other):
            comparison.expect(f"{name}: ends on {interface}", [], [
                each.inner_end() for each in found[interface]
                if not each.is_error and not is_inner_end(conversation, interface, *each.inner_end())])


def compare_end(comparison, conversation, found):
    """A connection that was answered is closed by both ends."""
    for interface, packets in found.items():
        if conversation.comes_to == ANSWERED and packets[0].packet.protocol == TCP:
            closing = {each.goes_out() for each in packets if each.packet.flags & FIN}
            comparison.expect(f"{conversation.name()}: closed on {interface}", {False, True}, closing)


def compare(comparison, seen):
    """Compares the packets of both interfaces with the conversations."""
    for packets in seen.values():
        comparison.expect("checksums", [], [each for each in packets if each.datagram
                                            and checksum(each.datagram[:IP_HEADER])])
    for conversation in ALL:
        found = found_of(seen, conversation)
        compare_way(comparison, conversation, found)
        compare_end(comparison, conversation, found)
