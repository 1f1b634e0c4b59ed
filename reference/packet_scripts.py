"""Scripts of packets and values.

Three in four are right throughout; every fourth has one error, somewhere or on its last line. The kinds of error take
turns, so that a few hundred scripts have them all.
"""

from __future__ import annotations

from random import Random
from typing import Callable

import damage
from crc import sealed
from lines import (
    BAD_NUMBERS, ErrorMaker, Line, any_number, line_of, number, raw_line, silent_line, taken, text_line,
    with_endings, word,
)

FEWEST_LINES = 30
MOST_LINES = 80
SIZES = [0, 1, *range(9, 17), 14, 14, 15, 100, 1023, 1024]
LONGEST_COUNT = 0xFFFF
WORD_COUNTS = {"single": 1, "pair": 2, "signed": 2, "quad": 4, "region": 4}
"""The kinds of values, and how many words they have."""


# Fields


def size(random: Random) -> str:
    """The size of a buffer."""
    return number(random, random.choice([*SIZES, random.randrange(1025)]))


def size_or_none(random: Random) -> list[str]:
    """The size of a buffer, or no field."""
    return random.choice([[], [size(random)]])


def byte_fields(random: Random, data: bytes) -> list[str]:
    """The bytes as fields, in capital or small letters or both."""
    style = random.choice(["X", "x", "mixed"])
    if style == "mixed":
        return [random.choice(f"{byte:02X} {byte:02x}".split()) for byte in data]
    return [f"{byte:02{style}}" for byte in data]


# Packets


def crc_line(random: Random) -> list[Line]:
    """The checksum of some bytes."""
    length = random.choice([0, 1, 2, 3, 4, 6, 8, 10, random.randrange(5, 40), random.randrange(40, 700)])
    data = random.choice([random.randbytes(length), random.randbytes(length), bytes(length), b"\xff" * length,
                          sealed(random.randbytes(length)), b"123456789"])
    return [line_of(random, ["crc", *byte_fields(random, data)])]


def request_line(random: Random) -> list[Line]:
    """A packet that asks for an access."""
    access = random.choice([["read", word(random)], ["write", word(random), word(random)]])
    return [line_of(random, ["request", *access, *size_or_none(random)])]


def reply_line(random: Random) -> list[Line]:
    """A packet that answers an access."""
    answer = random.choice(
        [["read", "word", word(random)], ["read", "word", word(random)], ["read", "no-ack"], ["read", "no-register"],
         ["write", "done"], ["write", "no-ack"], ["write", "no-register"]]
    )
    return [line_of(random, ["reply", *answer, *size_or_none(random)])]


def unpack_line(random: Random, directive: list[str], packet: bytes) -> Line:
    """A line that has a packet read."""
    return line_of(random, directive + byte_fields(random, packet))


def access_of(random: Random, draft: damage.Draft) -> str:
    """The access a reply is read as an answer to: mostly the right one."""
    right = "read" if draft.function == damage.READ else "write"
    wrong = "write" if right == "read" else "read"
    return random.choice([right] * 6 + [wrong])


def packet_read(random: Random) -> tuple[list[str], damage.Draft]:
    """A directive that reads a packet, and a packet for it without faults; seldom a packet of the other direction."""
    request, reply = damage.good_request(random), damage.good_reply(random)
    if random.random() < 0.1:
        request, reply = reply, request
    return random.choice([(["unpack-request"], request), (["unpack-reply", access_of(random, reply)], reply)])


def good_unpack_line(random: Random) -> list[Line]:
    """A packet without faults is read."""
    directive, draft = packet_read(random)
    return [unpack_line(random, directive, draft.packet())]


def damaged_unpack_line(random: Random) -> list[Line]:
    """A packet with faults is read."""
    directive, draft = packet_read(random)
    return [unpack_line(random, directive, damage.damaged_packet(random, draft))]


def garbage_line(random: Random) -> list[Line]:
    """Any bytes are read as a packet."""
    data = random.randbytes(random.choice([0, 1, 9, 10, 11, 12, 14, random.randrange(40)]))
    if random.random() < 0.5:
        data = b"\x6e" + data
    return [unpack_line(random, packet_read(random)[0], data)]


def swept_lines(random: Random) -> list[Line]:
    """A packet is read with every one of its bytes changed in turn."""
    directive, draft = packet_read(random)
    packet = draft.packet()
    return [unpack_line(random, directive, damage.changed_at(random, packet, place)) for place in range(len(packet))]


def cut_lines(random: Random) -> list[Line]:
    """A packet is read at every length up to its own."""
    directive, draft = packet_read(random)
    packet = draft.packet()
    return [unpack_line(random, directive, packet[:length]) for length in range(len(packet) + 1)]


def longest_line(random: Random) -> list[Line]:
    """A packet with as many arguments as the byte count can say."""
    directive, draft = packet_read(random)
    draft.arguments = random.randbytes(LONGEST_COUNT)
    return [unpack_line(random, directive, draft.packet())]


# Values


def signed(random: Random) -> str:
    """A signed number of 32 bits; its ends and small ones are more likely than others."""
    ends = [-(1 << 31), (1 << 31) - 1, -1, 1, -3, 3, -65535, -65536, -65537, -32768]
    value = random.choice([random.choice(ends), any_number(random, 32) - (1 << 31)])
    return "-" + number(random, -value) if value < 0 else number(random, value)


def value_field(random: Random, kind: str) -> str:
    """A value of a kind."""
    if kind == "signed":
        return signed(random)
    if kind == "region":
        return ",".join(word(random) for _ in range(4))
    return number(random, any_number(random, 16 * WORD_COUNTS[kind]))


def put_line(random: Random) -> list[Line]:
    """The words of a value."""
    kind = random.choice([*WORD_COUNTS])
    return [line_of(random, ["put", kind, value_field(random, kind)])]


def take_line(random: Random) -> list[Line]:
    """The value of some words, of which there may be too many or too few."""
    kind, count = random.choice([*WORD_COUNTS.items()])
    if random.random() < 0.3:
        count = random.choice([0, 1, 2, 3, 4, 5, 6, 8, random.randrange(40)])
    ends = [number(random, random.choice([0, 0x7FFF, 0x8000, 0xFFFF])) for _ in range(count)]
    words = random.choice([ends, [word(random) for _ in range(count)]])
    return [line_of(random, ["take", kind, *words])]


MAKERS: list[tuple[int, Callable[[Random], list[Line]]]] = [
    (60, silent_line),
    (100, crc_line),
    (100, request_line),
    (100, reply_line),
    (80, good_unpack_line),
    (350, damaged_unpack_line),
    (60, garbage_line),
    (8, swept_lines),
    (6, cut_lines),
    (120, put_line),
    (120, take_line),
]
"""What makes the lines of a script, and how often."""


# Errors. The most telling cases come first.

BAD_SIZES = [
    "1025", "65550", "0x401", "-14", "0x", "65536", "4294967310", "18446744073709551630", "+14", "1_4", "14.0",
]
BAD_BYTES = [
    "6", "6EE", "0x6E", "G0", "0G", "0x", "+6", "-1", "6_", "\u00e9", "\u0661\u0661", "\uff16\uff25", "6E,", "6E6E",
    "0006E", "6E\x0b", "6E\u00a0", "6\x00", ":", "..", "6E\x1f00",
]

UNKNOWN_DIRECTIVES = [
    "crcs 6E", "CRC 6E", "unpack 6E", "\x0b", "crc\u00a06E", "\ufeffcrc 6E", "crc\x1f6E", "6E", ":", "\x0bcrc 6E", "Crc",
    "unpack_request 6E", "unpack-requests 6E", "requests read 1", "request-read 1", "Request read 1", "\u00a0",
    "Put single 1", "takes pair 1 1", "REPLY write done", "crc\x0b6E", "\u2003", "\x00", "\u0085",
]
MISSING_FIELDS = [
    "request write 1", "reply read word", "put single", "request read", "take", "unpack-reply", "reply write",
    "request", "put", "reply read", "reply", "request write", "put region", "request write 0xFFFF # 1",
    "reply read word#1",
]
EXTRA_FIELDS = [
    "request read 1 14 0", "request write 1 2 14 5", "put pair 1 2", "reply read word 1 14 1", "put region 1 1 78 58",
    "reply write done 14 3", "put single 1 0", "reply read no-ack 14 14", "put signed - 3",
    "reply write no-register 14 done", "request read 1 2 3 4", "put region 1,1,78,58 1", "put region 1, 1, 78, 58",
]
OTHER_WORDS = [
    "request READ 1", "request Write 1 2", "request erase 1", "request 1", "request word 1", "reply both no-ack",
    "reply no-ack", "reply read No-ack", "reply read noack", "reply read no_register", "reply write ok",
    "put double 5", "take 5", "put Single 5", "put 5", "take word 5", "put signed-pair 5", "take Region 1 1 78 58",
    "put u16 5", "take i32 1 1", "take put 1",
    "reply write Done", "reply read 1", "reply write 0", "reply read \u00e9", "unpack-reply 6E 00",
    "unpack-reply READ 6E", "unpack-reply done 6E", "unpack-reply no-ack",
    "unpack-request read 6E 00 00 10 00 02 BC 9A 00 02 20 42",
]
IMPOSSIBLE_REPLIES = [
    "reply read done", "reply write word 1", "reply read done 14", "reply write word 1 14", "reply write word",
]
BAD_VALUES = [
    "single 65536", "signed 2147483648", "pair 4294967296", "quad 18446744073709551616", "region 1,1,78",
    "signed -2147483649", "single -1", "region 1,1,78,65536", "signed +3", "region 1,1,78,58,1", "signed --3",
    "region 1,1,-1,58", "pair -1", "region 1,,78,58", "signed 0x80000000", "quad -1", "signed -0x80000001", "signed -",
    "signed 4294967293", "region ,1,1,78,58", "signed -0x", "region 1,1,78,58,", "signed 3-", "region 5", "signed -+3",
    "single 1,1", "signed 0x-3", "quad 1,2,3,4", "signed \u22123", "region 1;1;78;58", "signed -0X3",
    "region +1,1,78,58", "single 0x10000", "pair 0x100000000", "quad 0x10000000000000000", "signed -1_0",
    "signed -18446744073709551617", "region 1,1,78,18446744073709551617", "single -0", "region -0,1,3,3",
]
BAD_WORDS = [
    "single 65536", "signed -3 0", "region 1,1,78,58", "pair 1 G", "pair 5678h 1", "quad 1 2 3 0x10000", "single -1",
    "single : 0005", "pair 0X1 1", "single 00FF", "pair 1 2 3 -4", "quad 1 2 3 4 5 6 7 8 9 x",
]


def bad_number_line(random: Random, turn: int) -> Line:
    """A number that is none, or is too large, in some place where a number has to stand."""
    bad = taken(BAD_NUMBERS, turn)
    fields = random.choice(
        [["request", "read", bad], ["request", "write", bad, word(random)], ["request", "write", word(random), bad],
         ["reply", "read", "word", bad], ["request", "read", bad, "14"], ["request", "write", word(random), bad, "16"]]
    )
    return line_of(random, fields)


def bad_size_line(random: Random, turn: int) -> Line:
    """A size that is no number, or is too large."""
    directive = random.choice(
        [["request", "read", word(random)], ["request", "write", word(random), word(random)],
         ["reply", "read", "word", word(random)], ["reply", "write", "done"], ["reply", "read", "no-ack"]]
    )
    return line_of(random, [*directive, taken(BAD_SIZES + BAD_NUMBERS, turn)])


def bad_byte_line(random: Random, turn: int) -> Line:
    """A field that is no byte, among bytes that are."""
    directive = random.choice([["crc"], ["unpack-request"], ["unpack-reply", "read"], ["unpack-reply", "write"]])
    fields = byte_fields(random, random.choice([b"", random.randbytes(random.randrange(20))]))
    fields.insert(random.randrange(len(fields) + 1), taken(BAD_BYTES, turn))
    return line_of(random, [*directive, *fields, "00"])


ERROR_MAKERS: list[ErrorMaker] = [
    bad_number_line,
    bad_byte_line,
    bad_size_line,
    text_line(UNKNOWN_DIRECTIVES),
    text_line(MISSING_FIELDS),
    text_line(EXTRA_FIELDS),
    text_line(OTHER_WORDS),
    text_line(IMPOSSIBLE_REPLIES),
    text_line([f"put {value}" for value in BAD_VALUES]),
    text_line([f"take {words}" for words in BAD_WORDS]),
    raw_line,
]
"""What makes the lines with an error, by kind."""


# Scripts


def right_lines(random: Random) -> list[Line]:
    """The lines of a script without errors."""
    count = random.randint(FEWEST_LINES, MOST_LINES)
    weights = [weight for weight, _ in MAKERS]
    makers = [maker for _, maker in MAKERS]
    lines: list[Line] = longest_line(random) if random.random() < 0.01 else []
    while len(lines) < count:
        lines += random.choices(makers, weights)[0](random)
    return lines[:count]


def put_error(random: Random, lines: list[Line], turn: int) -> None:
    """Puts an error into the script: on any line or on the last one. Kinds take turns, and the cases of a kind too."""
    kind_turn, kind = divmod(turn, len(ERROR_MAKERS))
    line = ERROR_MAKERS[kind](random, kind_turn)
    last = len(lines) - 1
    lines[random.choice([last, random.randrange(last)])] = line


def packet_script(random: Random, turn: int) -> bytes:
    """The script whose turn it is."""
    lines = right_lines(random)
    error_turn, quarter = divmod(turn, 4)
    if quarter == 3:
        put_error(random, lines, error_turn)
    return with_endings(random, lines)
