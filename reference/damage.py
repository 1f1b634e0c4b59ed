"""Packets with faults, made on purpose.

A fault of a draft is put in before the checksums are worked, so that only the test it is meant for can fail. A fault of
bytes is put in afterwards, as a bad line does it.
"""

from __future__ import annotations

from dataclasses import dataclass
from random import Random
from typing import Callable

from crc import checksum
from packets import PROCESS_CODE

READ = 0x10
WRITE = 0x11
UNKNOWN_FUNCTIONS = (0x00, 0x01, 0x0B, 0x0F, 0x12, 0x20, 0x90, 0xFF)


@dataclass
class Draft:
    """A packet before it is bytes. The checksums come out right, but for the errors put on them here."""

    function: int
    arguments: bytes = b""
    status: int = 0
    process_code: int = PROCESS_CODE
    reserved: int = 0
    count_error: int = 0
    """Added to the byte count."""
    front_error: int = 0
    """Exclusive-or on the first checksum."""
    end_error: int = 0
    """Exclusive-or on the last checksum."""

    def packet(self) -> bytes:
        """The bytes of the packet."""
        count = (len(self.arguments) + self.count_error) % 0x10000
        front = bytes([self.process_code, self.status, self.reserved, self.function]) + count.to_bytes(2, "big")
        front += (checksum(front) ^ self.front_error).to_bytes(2, "big")
        body = front + self.arguments
        return body + (checksum(body) ^ self.end_error).to_bytes(2, "big")


def any_word(random: Random) -> int:
    """A word; the ends of the range and of its low byte are more likely than others."""
    return random.choice([0, 1, 2, 255, 256, 0x7FFF, 0x8000, 65535] + [random.randrange(65536)] * 8)


def other_byte(random: Random, byte: int) -> int:
    """Any byte but the given one."""
    return (byte + random.randrange(1, 256)) % 256


def good_request(random: Random) -> Draft:
    """A request without faults."""
    function = random.choice([READ, WRITE])
    return Draft(function, random.randbytes(2 if function == READ else 4))


def good_reply(random: Random) -> Draft:
    """A reply without faults."""
    function = random.choice([READ, WRITE])
    status = random.choice([0, 0, 1, 2])
    has_word = function == READ and status == 0
    return Draft(function, random.randbytes(2) if has_word else b"", status)


# Faults of a draft, one or more for each test of a packet


def wrong_process_code(random: Random, draft: Draft) -> None:
    """The first byte is another one."""
    draft.process_code = random.choice([0x00, 0x6F, 0xE6, 0xEE, other_byte(random, PROCESS_CODE)])


def wrong_front_checksum(random: Random, draft: Draft) -> None:
    """The first checksum is another one; the last one is worked over it."""
    draft.front_error = random.choice([0x0001, 0x0100, 0x8000, 0xFFFF, random.randrange(1, 0x10000)])


def wrong_end_checksum(random: Random, draft: Draft) -> None:
    """The last checksum is another one."""
    draft.end_error = random.choice([0x0001, 0x0100, 0x8000, 0xFFFF, random.randrange(1, 0x10000)])


def wrong_count(random: Random, draft: Draft) -> None:
    """The byte count is not the number of arguments."""
    draft.count_error = random.choice([-4, -2, -1, 1, 2, 4, 8, 0x0100, 0x8000, random.randrange(1, 0x10000)])


def reserved_set(random: Random, draft: Draft) -> None:
    """The reserved byte is not 0."""
    draft.reserved = random.choice([1, 0x80, 0xFF, random.randrange(1, 256)])


def unknown_function(random: Random, draft: Draft) -> None:
    """The function is none there is."""
    draft.function = random.choice(UNKNOWN_FUNCTIONS)


def other_function(random: Random, draft: Draft) -> None:
    """A read becomes a write and the other way round; the arguments stay."""
    draft.function = WRITE if draft.function == READ else READ


def other_status(random: Random, draft: Draft) -> None:
    """The status is another one; the arguments stay."""
    draft.status = random.choice([status for status in (0, 1, 2, 3, 128, 255) if status != draft.status])


def other_arguments(random: Random, draft: Draft) -> None:
    """There are more or fewer arguments than fit, and the byte count says so."""
    fitting = len(draft.arguments)
    lengths = [0, 1, 2, 3, 4, 5, 6, fitting + 256, fitting + 256, random.randrange(7, 600)]
    draft.arguments = random.randbytes(random.choice([length for length in lengths if length != fitting]))


def status_with_arguments(random: Random, draft: Draft) -> None:
    """A reply that tells of a failure, and has arguments all the same."""
    draft.status = random.choice([1, 2])
    draft.arguments = random.randbytes(random.choice([1, 2, 2, 2, 4]))


DRAFT_FAULTS: list[Callable[[Random, Draft], None]] = [
    wrong_process_code,
    wrong_front_checksum,
    wrong_end_checksum,
    wrong_count,
    reserved_set,
    unknown_function,
    other_function,
    other_status,
    other_arguments,
    status_with_arguments,
]


# Faults of bytes


def byte_changed(random: Random, packet: bytes) -> bytes:
    """One byte is another one."""
    return changed_at(random, packet, random.randrange(len(packet)))


def changed_at(random: Random, packet: bytes, place: int) -> bytes:
    """The byte at a place is another one."""
    return packet[:place] + bytes([other_byte(random, packet[place])]) + packet[place + 1 :]


def bits_flipped(random: Random, packet: bytes) -> bytes:
    """One to three bits are the other way round."""
    damaged = bytearray(packet)
    for place in random.sample(range(len(packet) * 8), random.choice([1, 1, 2, 3])):
        damaged[place // 8] ^= 0x80 >> place % 8
    return bytes(damaged)


def truncated(random: Random, packet: bytes) -> bytes:
    """Bytes are missing at the end."""
    return packet[: random.randrange(len(packet))]


def front_missing(random: Random, packet: bytes) -> bytes:
    """Bytes are missing at the front."""
    return packet[random.randrange(1, len(packet)) :]


def lengthened(random: Random, packet: bytes) -> bytes:
    """There are more bytes behind the packet; zeros leave the checksum of it all as it is."""
    length = random.choice([1, 2, 2, 3, 8])
    return packet + random.choice([bytes(length), random.randbytes(length)])


def byte_inserted(random: Random, packet: bytes) -> bytes:
    """There is one byte more somewhere."""
    place = random.randrange(len(packet) + 1)
    return packet[:place] + random.randbytes(1) + packet[place:]


def bytes_swapped(random: Random, packet: bytes) -> bytes:
    """Two neighbours have changed places, such as the bytes of a number."""
    place = random.randrange(len(packet) - 1)
    return packet[:place] + packet[place + 1 : place + 2] + packet[place : place + 1] + packet[place + 2 :]


def doubled(random: Random, packet: bytes) -> bytes:
    """The packet comes twice."""
    return packet + packet


BYTE_FAULTS: list[Callable[[Random, bytes], bytes]] = [
    byte_changed,
    byte_changed,
    bits_flipped,
    truncated,
    front_missing,
    lengthened,
    byte_inserted,
    bytes_swapped,
    doubled,
]


def damaged_packet(random: Random, draft: Draft) -> bytes:
    """The packet of the draft with one to three faults; draft faults first, as they need a draft."""
    draft_faults = random.choice([0, 1, 1, 1, 2, 2, 2, 3])
    for fault in random.sample(DRAFT_FAULTS, draft_faults):
        fault(random, draft)
    packet = draft.packet()
    if draft_faults == 0 or random.random() < 0.15:
        packet = random.choice(BYTE_FAULTS)(random, packet)
    return packet
