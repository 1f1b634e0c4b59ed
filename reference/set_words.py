"""Words for sets: at, within and past the limits of each attribute."""

from __future__ import annotations

from random import Random

import values
from camera import Attribute, Between, Colours, OnSensor
from lines import any_number

Words = list[int]

REGIONS = [
    (1, 1, 3, 3), (1, 1, 2, 3), (1, 1, 3, 2), (1, 1, 78, 58), (1, 1, 79, 58), (1, 1, 78, 59), (0, 1, 78, 58),
    (1, 0, 78, 58), (76, 56, 78, 58), (77, 56, 78, 58), (76, 57, 78, 58), (77, 56, 79, 58), (76, 57, 78, 59),
    (5, 6, 7, 8), (5, 6, 6, 8), (5, 6, 7, 7), (57, 1, 59, 3), (60, 5, 77, 57), (1, 57, 3, 59), (3, 3, 1, 1),
    (78, 58, 1, 1), (5, 5, 5, 5), (0, 0, 0, 0), (0, 0, 2, 2), (58, 78, 58, 78), (1, 1, 58, 78), (1, 78, 58, 1),
    (65535, 1, 1, 3), (65534, 1, 78, 58), (65534, 1, 0, 3), (1, 65535, 3, 1), (1, 65534, 78, 58), (1, 1, 65535, 58),
    (1, 1, 78, 65535), (1, 1, 0, 0), (32768, 1, 78, 58), (257, 1, 259, 3), (1, 1, 259, 3),
]
"""Regions at and past the limits: the smallest, one less, the edges, and sums past sixteen bits."""


def range_cases(attribute: Attribute, limits: Between) -> list[Words]:
    """All numbers of a short range and both sides of its ends, or of a long one the ends; and far ones."""
    near = [limits.least - 1, limits.least, limits.least + 1, limits.greatest - 1, limits.greatest, limits.greatest + 1]
    if limits.greatest - limits.least < 10:
        near = [*range(limits.least - 1, limits.greatest + 2)]
    top = 1 << 16 * attribute.words
    far = [top // 2, top // 2 - 1, top - 1, top // 4, 65535, 65536, 65536 + limits.greatest, limits.least - 2,
           limits.greatest * 2 + 1, 65533, top - 65536, top - 65533, 256, 0x8000]
    numbers = dict.fromkeys(number % top for number in [*near, *far])
    return [values.words_of(number, attribute.words) for number in numbers]


def colours(random: Random) -> Words:
    """A colour table within its limits. Most of it is 0."""
    words = [0] * 512
    for place in sorted({0, 1, 510, 511, *random.sample(range(512), random.choice([0, 3, 10]))}):
        words[place] = random.randrange(0x100 if place % 2 == 0 else 0x10000)
    return words


def full_colours(random: Random) -> Words:
    """A colour table within its limits that has no word 0."""
    return [random.randrange(1, 0x100 if place % 2 == 0 else 0x10000) for place in range(512)]


def colours_with_high_byte(random: Random, place: int) -> Words:
    """A colour table with a high byte in the word at a place, which has to be an odd one for it to be right."""
    words = colours(random)
    words[place] = random.choice([0x100, 0x8000, 0xFF00, 0x100 * random.randrange(1, 256) + random.randrange(256)])
    return words


def colour_cases(random: Random) -> list[Words]:
    """Colour tables: right ones, and a high byte in one word."""
    places = [0, 1, 510, 511, 2, 3, 255, 256, random.randrange(512), random.randrange(512)]
    tables = [colours_with_high_byte(random, place) for place in places]
    brightest = [0xFF if place % 2 == 0 else 0xFFFF for place in range(512)]
    return [*tables, brightest, colours(random)]


def any_region(random: Random) -> Words:
    """A region within the limits."""
    start_column, start_row = random.randint(1, 76), random.randint(1, 56)
    return [start_column, start_row, random.randint(start_column + 2, 78), random.randint(start_row + 2, 58)]


def cases(random: Random, attribute: Attribute) -> list[Words]:
    """Words at and past the limits of an attribute that can be set."""
    limits = attribute.limits
    if isinstance(limits, Between):
        return range_cases(attribute, limits)
    if isinstance(limits, OnSensor):
        return [*map(list, REGIONS), *[any_region(random) for _ in range(4)]]
    if isinstance(limits, Colours):
        return colour_cases(random)
    ends = [0, 1, 30, 65535, 65536, (1 << 31) - 1, 1 << 31, (1 << 32) - 1, random.getrandbits(32)]
    return [values.words_of(number, attribute.words) for number in ends]


def right_words(random: Random, attribute: Attribute) -> Words:
    """Words within the limits of an attribute that can be set."""
    limits = attribute.limits
    if isinstance(limits, Between):
        return values.words_of(random.randint(limits.least, limits.greatest), attribute.words)
    if isinstance(limits, OnSensor):
        return any_region(random)
    if isinstance(limits, Colours):
        return colours(random)
    return values.words_of(any_number(random, 32), attribute.words)


def any_words(random: Random, attribute: Attribute) -> Words:
    """Words at or past some limit of an attribute that can be set."""
    return random.choice(cases(random, attribute))
