"""Values and the words they are kept in, and the response code in a status word (docs/WORDS.md)."""

from __future__ import annotations

from typing import NamedTuple, Sequence

WORD_BITS = 16
WORDS = 1 << WORD_BITS
"""How many words there are: a word is below it."""


class WrongSize(Exception):
    """A list of words has another number of words than the kind."""

    NUMBER = 6

    def __init__(self) -> None:
        super().__init__(f"refused {self.NUMBER}")


class Region(NamedTuple):
    """A region of the sensor, in the order of its words."""

    start_column: int
    start_row: int
    end_column: int
    end_row: int


def words_of(number: int, word_count: int) -> list[int]:
    """The words of a number, low word first; those of a negative one in two's complement."""
    return [number >> WORD_BITS * place & WORDS - 1 for place in range(word_count)]


def number_of(words: Sequence[int], signed: bool = False) -> int:
    """The number that the words keep, low word first."""
    number = sum(word << WORD_BITS * place for place, word in enumerate(words))
    limit = 1 << WORD_BITS * len(words)
    return number - limit if signed and number >= limit // 2 else number


def require_size(words: Sequence[int], word_count: int) -> None:
    """Refuses another number of words."""
    if len(words) != word_count:
        raise WrongSize


class NumberKind:
    """A kind of number, from the least to the greatest."""

    def __init__(self, word_count: int, signed: bool = False) -> None:
        limit = 1 << WORD_BITS * word_count
        self.word_count = word_count
        self.signed = signed
        self.least = -limit // 2 if signed else 0
        self.greatest = self.least + limit - 1

    def put(self, value: int) -> list[int]:
        """The words of a number of the kind."""
        return words_of(value, self.word_count)

    def take(self, words: Sequence[int]) -> int:
        """The number whose words these are."""
        require_size(words, self.word_count)
        return number_of(words, self.signed)


class RegionKind:
    """The kind of regions: any four words."""

    word_count = len(Region._fields)

    def put(self, value: Region) -> list[int]:
        """The words of a region."""
        return list(value)

    def take(self, words: Sequence[int]) -> Region:
        """The region whose words these are."""
        require_size(words, self.word_count)
        return Region(*words)


SINGLE = NumberKind(1)
PAIR = NumberKind(2)
SIGNED = NumberKind(2, signed=True)
QUAD = NumberKind(4)
REGION = RegionKind()


def response_code(status: int) -> int:
    """The response code in a status word."""
    byte = status >> 8
    return byte if byte < 0x80 else byte - 0x100


def code_byte(code: int) -> int:
    """The byte of a response code."""
    return code % 0x100
