"""Bench scripts: lines, fields, numbers, bytes, marks and runs of pixels, and what is wrong with them.

Nothing here leans on what Python takes for a blank, a digit or the end of a line, which is more than a script may have.
"""

from __future__ import annotations

import re
from typing import Mapping, Optional, TypeVar

Value = TypeVar("Value")

BLANKS = " \t\f\r"
DECIMAL_DIGITS = "0123456789"
HEXADECIMAL_DIGITS = "0123456789abcdefABCDEF"


class FieldError(Exception):
    """A line of the script is wrong."""


class ScriptError(Exception):
    """A line of the script is wrong, and which one, counted from 1."""

    def __init__(self, line: int, message: str) -> None:
        super().__init__(f"line {line}: {message}")
        self.line = line
        self.message = message

    def one_line_later(self) -> ScriptError:
        """The same error on the next line."""
        return ScriptError(self.line + 1, self.message)


def without_ending(line: bytes) -> bytes:
    """The line without the newline that ends it."""
    return line.removesuffix(b"\n")


def split_fields(line: bytes) -> list[str]:
    """The fields of a line, which has lost its ending. There are none if the line is blank or only a comment."""
    try:
        text = line.decode("utf-8")
    except UnicodeDecodeError:
        raise FieldError("not UTF-8") from None
    before_comment = text.partition("#")[0]
    return [field for field in re.split("[" + BLANKS + "]", before_comment) if field]


def digits_value(digits: str, base: int, largest: int) -> Optional[int]:
    """The value of a row of digits, or nothing if it is larger than the largest."""
    value = 0
    for digit in digits:
        value = value * base + int(digit, 16)
        if value > largest:
            return None
    return value


def only(text: str, allowed: str) -> bool:
    """Whether the text has one character or more, all of them allowed ones."""
    return text != "" and all(character in allowed for character in text)


def parse_number(text: str, largest: int, what: str) -> int:
    """The number that a field is, from 0 to the largest."""
    if text.startswith("0x"):
        digits, base, allowed = text[2:], 16, HEXADECIMAL_DIGITS
    else:
        digits, base, allowed = text, 10, DECIMAL_DIGITS
    if not only(digits, allowed):
        raise FieldError(f"{what}: {text!a} is not a number")
    value = digits_value(digits, base, largest)
    if value is None:
        raise FieldError(f"{what}: {text!a} is more than {largest}")
    return value


def parse_signed(text: str, least: int, greatest: int, what: str) -> int:
    """The number that a field is, from the least to the greatest: a number, or a minus sign and a number."""
    if not text.startswith("-"):
        return parse_number(text, greatest, what)
    return -parse_number(text[1:], -least, what)


def parse_numbers(text: str, count: int, largest: int, what: str) -> list[int]:
    """The numbers that a field has, so many of them, with commas between them."""
    parts = text.split(",")
    if len(parts) != count:
        raise FieldError(f"{what}: {text!a} is not {count} numbers with commas between them")
    return [parse_number(part, largest, what) for part in parts]


def parse_run(text: str, largest: int) -> tuple[int, int]:
    """The count and the value of a run of equal pixels, `COUNTxVALUE`, both in decimal digits."""
    parts = text.split("x", 1)
    if len(parts) != 2 or not all(only(part, DECIMAL_DIGITS) for part in parts):
        raise FieldError(f"{text!a} is not a run COUNTxVALUE")
    return parse_number(parts[0], largest, "count"), parse_number(parts[1], largest, "pixel")


def parse_byte(text: str) -> int:
    """The byte that a field is: exactly two hexadecimal digits."""
    if len(text) != 2 or not only(text, HEXADECIMAL_DIGITS):
        raise FieldError(f"{text!a} is not a byte of two hexadecimal digits")
    return int(text, 16)


def require_few(count: int, most: int, what: str) -> None:
    """Makes sure that there are no more of something than a line may have."""
    if count > most:
        raise FieldError(f"there are more than {most} {what}")


class Fields:
    """The fields of one line, taken from left to right."""

    def __init__(self, fields: list[str]) -> None:
        self.fields = fields
        self.place = 0

    def more(self) -> bool:
        """Whether there is a field left."""
        return self.place < len(self.fields)

    def take(self, what: str) -> str:
        """The next field, which has to be there."""
        if not self.more():
            raise FieldError(f"{what} is missing")
        self.place += 1
        return self.fields[self.place - 1]

    def choice(self, choices: Mapping[str, Value], what: str) -> Value:
        """What the next field, one of the given words, stands for."""
        text = self.take(what)
        if text not in choices:
            raise FieldError(f"{what}: {text!a} is none of {', '.join(choices)}")
        return choices[text]

    def number(self, largest: int, what: str) -> int:
        """The next field as a number from 0 to the largest."""
        return parse_number(self.take(what), largest, what)

    def number_if_any(self, largest: int, what: str) -> Optional[int]:
        """The next field as a number, or nothing if no field is left."""
        return self.number(largest, what) if self.more() else None

    def signed(self, least: int, greatest: int, what: str) -> int:
        """The next field as a number from the least to the greatest."""
        return parse_signed(self.take(what), least, greatest, what)

    def rest_as_numbers(self, largest: int, what: str) -> list[int]:
        """All fields that are left as numbers; there may be none."""
        numbers = []
        while self.more():
            numbers.append(self.number(largest, what))
        return numbers

    def rest_as_marks(self) -> list[bool]:
        """All fields that are left as marks, one digit a mark: 1 for true and 0 for false. There may be none."""
        marks = []
        while self.more():
            text = self.take("marks")
            if not only(text, "01"):
                raise FieldError(f"{text!a} has other digits than 0 and 1")
            marks += [digit == "1" for digit in text]
        return marks

    def rest_as_pixels(self, largest: int, most: int) -> list[int]:
        """All fields that are left as runs of pixels; there may be none. There are no more pixels than the most."""
        pixels: list[int] = []
        while self.more():
            count, value = parse_run(self.take("run"), largest)
            require_few(len(pixels) + count, most, "pixels")
            pixels += [value] * count
        return pixels

    def rest_as_bytes(self) -> bytes:
        """All fields that are left as bytes; there may be none."""
        data = []
        while self.more():
            data.append(parse_byte(self.take("byte")))
        return bytes(data)

    def end(self) -> None:
        """Makes sure that no field is left."""
        if self.more():
            raise FieldError(f"{self.take('field')!a} is one field too many")
