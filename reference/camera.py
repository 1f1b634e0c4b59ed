"""The camera head: its registers and attributes, its command words, and what an access does to it (docs/CAMERA.md)."""

from __future__ import annotations

from dataclasses import dataclass, field
from enum import Enum, IntEnum, auto
from typing import NamedTuple, Optional, Sequence, Union

import values
from bus import NO_REGISTER, NOT_ACKNOWLEDGED, Fault

# Registers

POWER = 0x0000
STATUS = 0x0002
COMMAND = 0x0004
LENGTH = 0x0006
DATA = 0x0008
DATA_WORDS = 16
BLOCK = 0xF800
BLOCK_WORDS = 512


class Register(Enum):
    """What stands at an address."""

    POWER = auto()
    STATUS = auto()
    COMMAND = auto()
    LENGTH = auto()
    DATA = auto()
    BLOCK = auto()


class Place(NamedTuple):
    """A register; of data and block, which word."""

    register: Register
    index: int = 0


PLACES = {
    POWER: Place(Register.POWER),
    STATUS: Place(Register.STATUS),
    COMMAND: Place(Register.COMMAND),
    LENGTH: Place(Register.LENGTH),
    **{DATA + 2 * index: Place(Register.DATA, index) for index in range(DATA_WORDS)},
    **{BLOCK + 2 * index: Place(Register.BLOCK, index) for index in range(BLOCK_WORDS)},
}
"""The registers by their addresses. At every other address there is none."""


# Limits of sets


@dataclass(frozen=True)
class Between:
    """The number is in a range, to which both ends belong. It is signed if the range has negative numbers."""

    least: int
    greatest: int

    def allow(self, words: Sequence[int]) -> bool:
        """Whether a set may have the words."""
        return self.least <= values.number_of(words, signed=self.least < 0) <= self.greatest


class EveryValue:
    """Nothing is ruled out."""

    def allow(self, words: Sequence[int]) -> bool:
        """Whether a set may have the words."""
        return True


class OnSensor:
    """A region of three columns and three rows or more that keeps off the edges of the sensor."""

    LEAST_START = 1
    LEAST_SPAN = 2
    LAST_COLUMN = 78
    LAST_ROW = 58

    def allow(self, words: Sequence[int]) -> bool:
        """Whether a set may have the words."""
        region = values.REGION.take(words)
        columns = self.span_fits(region.start_column, region.end_column, self.LAST_COLUMN)
        rows = self.span_fits(region.start_row, region.end_row, self.LAST_ROW)
        return columns and rows

    def span_fits(self, start: int, end: int, last: int) -> bool:
        """Whether the columns or the rows fit, of which the last one allowed is given."""
        return self.LEAST_START <= start and start + self.LEAST_SPAN <= end <= last


class Colours:
    """Entries of two words; the high byte of the first one is 0."""

    def allow(self, words: Sequence[int]) -> bool:
        """Whether a set may have the words."""
        return all(word < 0x100 for word in words[::2])


Limits = Union[Between, EveryValue, OnSensor, Colours]


# Attributes


class Type(IntEnum):
    """What a command does with its attribute."""

    GET = 0
    SET = 1
    RUN = 2


GET = (Type.GET,)
RUN = (Type.RUN,)
GET_SET = (Type.GET, Type.SET)
GET_RUN = (Type.GET, Type.RUN)
ALL = (Type.GET, Type.SET, Type.RUN)


class Attribute(NamedTuple):
    """A row of the table. Start words that are not named are 0."""

    number: int
    name: str
    base: int
    words: int
    types: tuple[Type, ...]
    limits: Limits = EveryValue()
    start: tuple[int, ...] = ()

    def start_words(self) -> list[int]:
        """All the words it has at the start."""
        return [*self.start, *[0] * (self.words - len(self.start))]

    def is_settable(self) -> bool:
        """Whether it can be set."""
        return Type.SET in self.types

    def is_saved(self) -> bool:
        """Whether a save copies it."""
        return self.is_settable() and self.number != COLOUR_TABLE


ATTRIBUTES = [
    Attribute(0, "gain control on", 0x0100, 2, GET_SET, Between(0, 1)),
    Attribute(1, "status", 0x0204, 4, GET),
    Attribute(2, "serial number", 0x0208, 4, GET),
    Attribute(3, "sensor temperature", 0x0214, 1, GET),
    Attribute(4, "telemetry on", 0x0218, 2, GET_SET, Between(0, 1)),
    Attribute(5, "telemetry place", 0x021C, 2, GET_SET, Between(0, 1), (1,)),
    Attribute(6, "frame average", 0x0220, 0, RUN),
    Attribute(7, "frames averaged", 0x0224, 2, GET_SET, Between(0, 7), (3,)),
    Attribute(8, "colour scheme", 0x0304, 2, GET_SET, Between(0, 8), (1,)),
    Attribute(9, "colour table", 0x0308, 512, GET_SET, Colours()),
    Attribute(10, "focus metric on", 0x030C, 2, GET_SET, Between(0, 1)),
    Attribute(11, "focus region", 0x0310, 4, GET_SET, OnSensor(), (1, 1, 78, 58)),
    Attribute(12, "focus threshold", 0x0314, 2, GET_SET, EveryValue(), (30,)),
    Attribute(13, "flat-field target", 0x0844, 1, ALL, Between(0, 16383), (8192,)),
    Attribute(14, "OEM status", 0x0848, 2, GET),
    Attribute(15, "frame mean", 0x084C, 1, GET),
    Attribute(16, "pin mode", 0x0854, 2, GET_SET, Between(0, 5)),
    Attribute(17, "sync delay", 0x0858, 2, GET_SET, Between(-3, 3)),
    Attribute(18, "user defaults", 0x085C, 2, GET_RUN),
    Attribute(19, "restore", 0x0860, 0, RUN),
]

HEAD_STATUS = 1
SERIAL_NUMBER = 2
SENSOR_TEMPERATURE = 3
COLOUR_TABLE = 9
FRAME_MEAN = 15
USER_DEFAULTS = 18
RESTORE = 19


# Command words

STRAY_BITS = 0xB000
PROTECTION_BIT = 0x4000
PROTECTED_MODULE = 8


class Command(NamedTuple):
    """What a command word asks for, whether or not the attribute has the type."""

    attribute: Attribute
    type: Type

    def is_run_of(self, number: int) -> bool:
        """Whether it runs the attribute of the number."""
        return self.type == Type.RUN and self.attribute.number == number


DIRECTORY = {attribute.base >> 2: attribute for attribute in ATTRIBUTES}
"""The attributes by bits 11-2 of their command words."""


def is_protected(base: int) -> bool:
    """Whether the protection bit belongs to a command word, by its module."""
    return base >> 8 & 0xF == PROTECTED_MODULE


def command_word(attribute: Attribute, kind: int) -> int:
    """The command word of an attribute and a type."""
    return attribute.base + kind + (PROTECTION_BIT if is_protected(attribute.base) else 0)


def command_of(word: int) -> Optional[Command]:
    """What a command word asks for, or nothing if it is none."""
    attribute = DIRECTORY.get(word >> 2 & 0x3FF)
    kind = word & 3
    has_protection = word & PROTECTION_BIT != 0
    if word & STRAY_BITS or kind == 3 or attribute is None or has_protection != is_protected(word):
        return None
    return Command(attribute, Type(kind))


class Code(IntEnum):
    """Response codes."""

    DONE = 0
    WRONG_LENGTH = -6
    NO_COMMAND = -7
    LACKS_TYPE = -8
    OUT_OF_LIMITS = -9
    ALREADY_SAVED = -15
    NOTHING_SAVED = -18


# Making

MOST_POLLS = 9999
MOST_BUSY_NUMBERS = 64
MOST_MARKS = 4096
PIXELS = 80 * 60
BRIGHTEST = 16383


class HeadRefusal(IntEnum):
    """Why a head is not made, or does not take a frame."""

    FRAME_SIZE = 51
    PIXEL = 52
    SETTINGS = 53


class HeadRefused(Exception):
    """A head was not made, or did not take a frame."""

    def __init__(self, refusal: HeadRefusal) -> None:
        super().__init__(f"refused {refusal.value}")
        self.refusal = refusal


@dataclass(frozen=True)
class Settings:
    """What a head is made from. A mark is true where the access is acknowledged."""

    boot_polls: int = 0
    serial: int = 0
    temperature: int = 0
    busy_numbers: list[int] = field(default_factory=list)
    marks: list[bool] = field(default_factory=list)

    def are_right(self) -> bool:
        """Whether a head can be made from them."""
        polls_fit = all(polls <= MOST_POLLS for polls in [self.boot_polls, *self.busy_numbers])
        return polls_fit and len(self.busy_numbers) <= MOST_BUSY_NUMBERS and len(self.marks) <= MOST_MARKS


# The head


class Mode(Enum):
    """How an access that is acknowledged is taken."""

    HUNG = auto()
    BOOTING = auto()
    BUSY = auto()
    IDLE = auto()


class Head:
    """A simulated camera head. It is a bus."""

    def __init__(self, settings: Settings) -> None:
        if not settings.are_right():
            raise HeadRefused(HeadRefusal.SETTINGS)
        self.hung = False
        self.boot_polls = settings.boot_polls
        self.busy_polls = 0
        self.code = 0
        self.count = 0
        self.length = 0
        self.data = [0] * DATA_WORDS
        self.block = [0] * BLOCK_WORDS
        self.attributes = [attribute.start_words() for attribute in ATTRIBUTES]
        self.attributes[SERIAL_NUMBER] = values.QUAD.put(settings.serial)
        self.attributes[SENSOR_TEMPERATURE] = [settings.temperature]
        self.saved: Optional[dict[int, list[int]]] = None
        self.coming_busy_numbers = iter(list(settings.busy_numbers))
        self.coming_marks = iter(list(settings.marks))

    def mode(self) -> Mode:
        """The first mode that applies."""
        if self.hung:
            return Mode.HUNG
        if self.boot_polls > 0:
            return Mode.BOOTING
        return Mode.BUSY if self.busy_polls > 0 else Mode.IDLE

    def shown(self, number: int) -> list[int]:
        """The words that an attribute shows."""
        if number == HEAD_STATUS:
            return [0, 0, self.count, 0]
        if number == USER_DEFAULTS:
            return [0 if self.saved is None else 1, 0]
        return list(self.attributes[number])

    def load_frame(self, pixels: Sequence[int]) -> None:
        """Takes what the sensor sees: the mean becomes that of the pixels, rounded down."""
        if len(pixels) != PIXELS:
            raise HeadRefused(HeadRefusal.FRAME_SIZE)
        if max(pixels) > BRIGHTEST:
            raise HeadRefused(HeadRefusal.PIXEL)
        self.attributes[FRAME_MEAN] = [sum(pixels) // PIXELS]

    # One access

    def read(self, address: int) -> int:
        """The word at an address."""
        place = self.reach(address)
        if place.register == Register.STATUS:
            return self.poll()
        return self.held(place) if self.mode() == Mode.IDLE else 0

    def write(self, address: int, word: int) -> None:
        """Writes a word to an address."""
        place = self.reach(address)
        mode = self.mode()
        if mode == Mode.IDLE:
            self.store(place, word)
        elif mode != Mode.HUNG:
            self.hung = True

    def reach(self, address: int) -> Place:
        """The register at an address, if there is one and the access is acknowledged."""
        place = PLACES.get(address)
        if place is None:
            raise Fault(NO_REGISTER, address)
        if not next(self.coming_marks, True):
            raise Fault(NOT_ACKNOWLEDGED, address)
        return place

    def poll(self) -> int:
        """Reads the status register."""
        mode = self.mode()
        if mode == Mode.BOOTING:
            self.boot_polls -= 1
            return 0x0000
        if mode == Mode.BUSY:
            self.busy_polls -= 1
        return 0x0007 if mode != Mode.IDLE else values.code_byte(self.code) * 0x100 + 0x06

    def held(self, place: Place) -> int:
        """The word that a register other than the status shows while the camera is idle."""
        if place.register == Register.LENGTH:
            return self.length
        if place.register == Register.DATA:
            return self.data[place.index]
        if place.register == Register.BLOCK:
            return self.block[place.index]
        return 0

    def store(self, place: Place, word: int) -> None:
        """Takes a word for a register while the camera is idle."""
        if place.register == Register.LENGTH:
            self.length = word
        elif place.register == Register.DATA:
            self.data[place.index] = word
        elif place.register == Register.BLOCK:
            self.block[place.index] = word
        elif place.register == Register.COMMAND:
            self.take_command(word)

    # Carrying out a command

    def take_command(self, word: int) -> None:
        """Takes a command word: judges it, and carries it out if it is right."""
        self.busy_polls = next(self.coming_busy_numbers, 0)
        self.count = (self.count + 1) % values.WORDS
        command = command_of(word)
        code = Code.NO_COMMAND if command is None else self.judge(command)
        self.code = code.value
        if command is not None and code == Code.DONE:
            self.carry_out(command)

    def judge(self, command: Command) -> Code:
        """The response code of a command."""
        attribute, kind = command
        if kind not in attribute.types:
            return Code.LACKS_TYPE
        if self.length != (0 if kind == Type.RUN else attribute.words):
            return Code.WRONG_LENGTH
        if kind == Type.SET and not attribute.limits.allow(self.passed(attribute)):
            return Code.OUT_OF_LIMITS
        if command.is_run_of(USER_DEFAULTS) and self.saved is not None:
            return Code.ALREADY_SAVED
        if command.is_run_of(RESTORE) and self.saved is None:
            return Code.NOTHING_SAVED
        return Code.DONE

    def carry_out(self, command: Command) -> None:
        """Does what a command asks for, once it is judged right."""
        attribute, kind = command
        if kind == Type.GET:
            self.registers_of(attribute)[: attribute.words] = self.shown(attribute.number)
        elif kind == Type.SET:
            self.attributes[attribute.number] = self.passed(attribute)
        elif command.is_run_of(USER_DEFAULTS):
            self.saved = {other.number: self.shown(other.number) for other in ATTRIBUTES if other.is_saved()}
        elif command.is_run_of(RESTORE) and self.saved is not None:
            for number, words in self.saved.items():
                self.attributes[number] = list(words)

    def registers_of(self, attribute: Attribute) -> list[int]:
        """The registers that the words of an attribute pass through, from the first one on."""
        return self.block if attribute.words > DATA_WORDS else self.data

    def passed(self, attribute: Attribute) -> list[int]:
        """The words that stand in the registers for an attribute."""
        return self.registers_of(attribute)[: attribute.words]
