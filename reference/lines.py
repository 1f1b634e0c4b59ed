"""What all generated scripts are made of: numbers, blanks, comments, endings, and lines with an error."""

from __future__ import annotations

from random import Random
from typing import Callable, TypeVar

import damage

Line = bytes
"""A line of the script without its ending."""
ErrorMaker = Callable[[Random, int], Line]
"""What makes the lines with an error of some kind. It is given the turn of its kind."""
Case = TypeVar("Case")


# Fields


def number(random: Random, value: int) -> str:
    """One of the ways to write a number."""
    zeros = "0" * random.choice([0, 0, 0, 0, 1, 3, 40])
    forms = [f"{value}", f"{zeros}{value}", f"0x{zeros}{value:x}", f"0x{zeros}{value:X}", f"0x{value:04X}"]
    return random.choice(forms)


def word(random: Random) -> str:
    """A number of 16 bits."""
    return number(random, damage.any_word(random))


def any_number(random: Random, bits: int) -> int:
    """A number of so many bits, 16 or more; the ends of its words are more likely than others."""
    ends = [end for place in range(16, bits + 1, 16) for end in (1 << place - 1, (1 << place) - 1, 1 << place)]
    number = random.choice([0, 1, random.choice(ends), random.getrandbits(random.randint(1, bits))]
                           + [random.getrandbits(bits)] * 3)
    return min(number, (1 << bits) - 1)


# Lines

BLANKS = [" "] * 20 + ["\t", "  ", " \t ", "\t\t", "\f", "\r"]
COMMENTS = [
    "", " a comment", "# request read", " crc 6E", " \t#", " \u00e9\u4e2d \U0001f4f7", " a\rb", " a\x0cb\x0bc",
    " a\u0085b", " a\u2028b\u2029c", " \u00a0", "\x00", " \u0661",
]
"""Comments. Some have characters that end a line elsewhere, but not in a script."""


def blank(random: Random) -> str:
    """What separates two fields."""
    return random.choice(BLANKS)


def comment(random: Random) -> str:
    """A comment."""
    return "#" + random.choice(COMMENTS)


def line_of(random: Random, fields: list[str]) -> Line:
    """A line that has the fields, with blanks about them, and sometimes a comment."""
    text = "".join(field + blank(random) for field in fields[:-1]) + fields[-1]
    if random.random() < 0.1:
        text = blank(random) + text
    if random.random() < 0.1:
        text += blank(random)
    if random.random() < 0.1:
        text += random.choice(["", " "]) + comment(random)
    return text.encode("utf-8")


def silent_line(random: Random) -> list[Line]:
    """A line that has no directive."""
    text = random.choice(["", "", " ", "\t", " \t  ", comment(random), comment(random), "  " + comment(random)])
    return [text.encode("utf-8")]


def with_endings(random: Random, lines: list[Line]) -> bytes:
    """The lines with their endings; the last one may have none."""
    endings = random.choice([[b"\n"], [b"\n"], [b"\r\n"], [b"\n", b"\r\n"]])
    ended = [line + random.choice(endings) for line in lines[:-1]]
    last_ending = random.choice([b"", *endings])
    return b"".join(ended) + lines[-1] + last_ending


# Errors. The most telling cases come first.

BAD_NUMBERS = [  # none of 16 bits
    "65536", "0x10000", "-1", "+1", "1_0", "0x", "\u0661", "0X10", "-0", "x10", "0x1_0", "0x+1", "0x-1", "1.0", "1e3",
    "FF", "0xG", "10h", "0b1", "0o7", "1,000", "\uff11", "\u00b2", "1\u00a0", "0x\u0661", "''", "4294967296",
    "4294967297", "18446744073709551616", "18446744073709551617", "0x10000000000000001", "00065536", "0x00010000",
    "9" * 400, "0x" + "F" * 400, "1" + "0" * 5000,
]
NOT_UTF_8 = [
    b"crc \xff", b"crc 6E # \x80", b"# \xc3", b"#\xc3(", b"crc 6E # \xed\xa0\x80", b"# \xc0\x80", b"\xff",
    b"# \xf5\x80\x80\x80", b"# \xe2\x82", b"request read 1 #\xfe", b" \xa0", b"crc\xa06E", b"# \xf4\x90\x80\x80",
]


def taken(cases: list[Case], turn: int) -> Case:
    """The case whose turn it is."""
    return cases[turn % len(cases)]


def raw_line(random: Random, turn: int) -> Line:
    """A line that is wrong by its bytes."""
    return taken(NOT_UTF_8, turn)


def text_line(texts: list[str]) -> ErrorMaker:
    """What makes the lines given, as they are."""
    return lambda random, turn: taken(texts, turn).encode("utf-8")
