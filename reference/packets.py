"""Packets of register accesses: how requests and replies are written, how they are read, and why they are refused."""

from __future__ import annotations

from dataclasses import dataclass
from enum import IntEnum
from typing import NamedTuple, Optional

from crc import checksum, sealed

PROCESS_CODE = 0x6E
OVERHEAD = 10
"""How many bytes a packet has besides its arguments."""
LARGEST = 14
"""How many bytes the largest packet has, a write request."""


class Function(IntEnum):
    """What a request asks for."""

    READ = 0x10
    WRITE = 0x11


class Status(IntEnum):
    """What became of an access."""

    CARRIED_OUT = 0
    NO_ACK = 1
    NO_REGISTER = 2


class Refusal(IntEnum):
    """Why a byte string is no packet, or why a buffer cannot take one."""

    LENGTH = 31
    PROCESS_CODE = 32
    FRONT_CHECKSUM = 33
    END_CHECKSUM = 34
    RESERVED = 35
    FUNCTION = 36
    FIT = 37
    BUFFER = 38


class Refused(Exception):
    """Reading or writing a packet was refused."""

    def __init__(self, refusal: Refusal) -> None:
        super().__init__(f"refused {refusal.value}")
        self.refusal = refusal


@dataclass(frozen=True)
class Request:
    """An access to a register. A write has a word, a read has none."""

    function: Function
    address: int
    word: Optional[int] = None

    def __post_init__(self) -> None:
        if (self.word is not None) != (self.function == Function.WRITE):
            raise ValueError("a write has a word and a read has none")


@dataclass(frozen=True)
class Reply:
    """What came back from an access. A read that was carried out has a word, all others have none."""

    function: Function
    status: Status
    word: Optional[int] = None

    def __post_init__(self) -> None:
        has_word = self.function == Function.READ and self.status == Status.CARRIED_OUT
        if (self.word is not None) != has_word:
            raise ValueError("a read that was carried out has a word and no other reply has one")


class Frame(NamedTuple):
    """What a packet says, once its frame is known to be sound."""

    status: int
    function: int
    arguments: bytes


# Writing


def two_bytes(number: int) -> bytes:
    """A number of 16 bits as it is sent: high byte first."""
    return number.to_bytes(2, "big")


def pack(frame: Frame) -> bytes:
    """The bytes of a packet."""
    front = bytes([PROCESS_CODE, frame.status, 0, frame.function]) + two_bytes(len(frame.arguments))
    return sealed(sealed(front) + frame.arguments)


def pack_request(request: Request) -> bytes:
    """The packet that asks for the access."""
    word = b"" if request.word is None else two_bytes(request.word)
    return pack(Frame(0, request.function, two_bytes(request.address) + word))


def pack_reply(reply: Reply) -> bytes:
    """The packet that answers an access."""
    word = b"" if reply.word is None else two_bytes(reply.word)
    return pack(Frame(reply.status, reply.function, word))


def write_packet(packet: bytes, buffer: bytearray) -> int:
    """Writes the packet to the front of the buffer and says how many bytes it has. The rest stays as it was."""
    if len(buffer) < LARGEST:
        raise Refused(Refusal.BUFFER)
    buffer[: len(packet)] = packet
    return len(packet)


# Reading


def require(holds: bool, refusal: Refusal) -> None:
    """One test of a packet: refuses it unless the test holds."""
    if not holds:
        raise Refused(refusal)


def number_at(data: bytes, place: int) -> int:
    """The number of two bytes that starts at a place, counted from 0."""
    return data[place] * 256 + data[place + 1]


def unpack_frame(packet: bytes) -> Frame:
    """Tests the frame, which is the same for requests and replies: tests 1 to 6, in order."""
    require(len(packet) >= OVERHEAD, Refusal.LENGTH)
    require(packet[0] == PROCESS_CODE, Refusal.PROCESS_CODE)
    require(number_at(packet, 6) == checksum(packet[:6]), Refusal.FRONT_CHECKSUM)
    require(len(packet) == OVERHEAD + number_at(packet, 4), Refusal.LENGTH)
    require(number_at(packet, len(packet) - 2) == checksum(packet[:-2]), Refusal.END_CHECKSUM)
    require(packet[2] == 0, Refusal.RESERVED)
    return Frame(packet[1], packet[3], packet[8:-2])


def unpack_request(packet: bytes) -> Request:
    """Reads the bytes as a request."""
    frame = unpack_frame(packet)
    require(frame.function in (Function.READ, Function.WRITE), Refusal.FUNCTION)
    function = Function(frame.function)
    count = 2 if function == Function.READ else 4
    require(frame.status == 0 and len(frame.arguments) == count, Refusal.FIT)
    address = number_at(frame.arguments, 0)
    word = None if function == Function.READ else number_at(frame.arguments, 2)
    return Request(function, address, word)


def unpack_reply(function: Function, packet: bytes) -> Reply:
    """Reads the bytes as the reply to a request of the function."""
    frame = unpack_frame(packet)
    require(frame.function == function, Refusal.FUNCTION)
    require(frame.status in (Status.CARRIED_OUT, Status.NO_ACK, Status.NO_REGISTER), Refusal.FIT)
    status = Status(frame.status)
    has_word = function == Function.READ and status == Status.CARRIED_OUT
    require(len(frame.arguments) == (2 if has_word else 0), Refusal.FIT)
    return Reply(function, status, number_at(frame.arguments, 0) if has_word else None)
