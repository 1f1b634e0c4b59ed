"""The packet link: a bus over a bus, whose accesses travel as packets between two ends."""

from __future__ import annotations

from bus import NO_REGISTER, NOT_ACKNOWLEDGED, Bus, Fault
from packets import (
    LARGEST, Function, Refusal, Refused, Reply, Request, Status, pack_reply, pack_request, unpack_reply,
    unpack_request, write_packet,
)

STATUSES = {NOT_ACKNOWLEDGED: Status.NO_ACK, NO_REGISTER: Status.NO_REGISTER}
"""What a reply says of each fault."""
FAULTS = {status: number for number, status in STATUSES.items()}
"""The number of the fault that a reply says."""


def carried_out(bus: Bus, request: Request) -> Reply:
    """Carries out an access on a bus, and gives the reply to it."""
    function = request.function
    try:
        if request.word is None:
            return Reply(function, Status.CARRIED_OUT, bus.read(request.address))
        bus.write(request.address, request.word)
    except Fault as fault:
        return Reply(function, STATUSES[fault.number])
    return Reply(function, Status.CARRIED_OUT)


def serve(bus: Bus, data: bytes, buffer: bytearray) -> int:
    """The far end: carries out the request in the bytes, writes the reply, and says how many bytes it has.

    Whatever is refused leaves the bus and the buffer as they were.
    """
    request = unpack_request(data)
    if len(buffer) < LARGEST:
        raise Refused(Refusal.BUFFER)
    return write_packet(pack_reply(carried_out(bus, request)), buffer)


def answer_to(request: Request, data: bytes) -> Reply:
    """The near end: the reply in the bytes. One that the access met a fault raises it, at the address of the access."""
    reply = unpack_reply(request.function, data)
    if reply.status != Status.CARRIED_OUT:
        raise Fault(FAULTS[reply.status], request.address)
    return reply


class PacketLink:
    """A link over a bus, with both its ends."""

    def __init__(self, below: Bus) -> None:
        self.below = below

    def exchange(self, request: Request) -> Reply:
        """Carries out an access over the link."""
        buffer = bytearray(LARGEST)
        size = serve(self.below, pack_request(request), buffer)
        return answer_to(request, bytes(buffer[:size]))

    def read(self, address: int) -> int:
        """The word at an address."""
        word = self.exchange(Request(Function.READ, address)).word
        assert word is not None, "a read that is carried out has a word"
        return word

    def write(self, address: int, word: int) -> None:
        """Writes a word to an address."""
        self.exchange(Request(Function.WRITE, address, word))
