"""Conversations with camera heads, as lines of a script.

A conversation follows the head that its lines leave, so that it can do what a careful program does: wait until the
camera is no longer busy, and repeat what was not acknowledged.
"""

from __future__ import annotations

from dataclasses import replace
from random import Random
from typing import Iterable, Optional, Sequence, Union

import camera
from bus import Fault
from camera import (
    ATTRIBUTES, BLOCK, COMMAND, DATA, DATA_WORDS, LENGTH, STATUS, Attribute, Head, HeadRefused, Mode, Type,
)
from lines import Line, line_of, number, silent_line

MOST_POLLS = 60
"""How many polls a conversation waits for the camera."""
MOST_TRIES = 20
"""How often an access is repeated that is not acknowledged."""

Run = tuple[int, int]
"""The count and the value of a run of equal pixels."""


class Conversation:
    """A script over camera heads as it grows: its lines, and the head that they leave."""

    def __init__(self, random: Random) -> None:
        self.random = random
        self.lines: list[Line] = []
        self.settings = camera.Settings()
        self.made: Optional[Head] = None
        self.first_head_place = 0
        """Where the line stands that makes the first head."""

    def say(self, *fields: Union[str, int]) -> None:
        """Adds a line."""
        if self.random.random() < 0.02:
            self.lines += silent_line(self.random)
        texts = [field if isinstance(field, str) else number(self.random, field) for field in fields]
        self.lines.append(line_of(self.random, texts))

    # Settings

    def boot(self, polls: int) -> None:
        """The next head has so many boot polls."""
        self.say("boot", polls)
        self.settings = replace(self.settings, boot_polls=polls)

    def serial(self, serial: int) -> None:
        """The next head has the serial number."""
        self.say("serial", serial)
        self.settings = replace(self.settings, serial=serial)

    def fpa(self, temperature: int) -> None:
        """The next head has the sensor temperature."""
        self.say("fpa", temperature)
        self.settings = replace(self.settings, temperature=temperature)

    def busy(self, numbers: Sequence[int]) -> None:
        """The next head has the numbers of busy polls."""
        self.say("busy", *numbers)
        self.settings = replace(self.settings, busy_numbers=list(numbers))

    def acks(self, marks: str) -> None:
        """The next head has the acknowledgement marks, one digit each. They stand in one field or in several."""
        fields = []
        start = 0
        while start < len(marks):
            end = start + self.random.choice([1, 2, 8, 33, 400, 5000])
            fields.append(marks[start:end])
            start = end
        self.say("acks", *fields)
        self.settings = replace(self.settings, marks=[mark == "1" for mark in marks])

    def links(self, count: int) -> None:
        """The next head has so many packet links laid over it."""
        self.say("links", count)

    # The head

    def make(self) -> bool:
        """Makes a head, and says whether there is a new one."""
        self.say("make")
        try:
            head = Head(self.settings)
        except HeadRefused:
            return False
        if self.made is None:
            self.first_head_place = len(self.lines) - 1
        self.made = head
        return True

    def head(self) -> Head:
        """The head that the lines so far leave."""
        assert self.made is not None, "no head was made"
        return self.made

    def is_idle(self) -> bool:
        """Whether the camera is idle."""
        return self.head().mode() == Mode.IDLE

    def is_waiting(self) -> bool:
        """Whether the camera is booting or busy."""
        return self.head().mode() in (Mode.BOOTING, Mode.BUSY)

    def frame(self, runs: Iterable[Run]) -> None:
        """Gives the head a frame."""
        runs = list(runs)
        zeros = self.random.choice(["", "", "", "0", "000"])
        self.say("frame", *[f"{zeros}{count}x{zeros}{value}" for count, value in runs])
        try:
            self.head().load_frame([value for count, value in runs for _ in range(count)])
        except HeadRefused:
            pass

    def look(self, *numbers: int) -> None:
        """Shows the state and the attributes of the numbers."""
        self.say("state")
        for attribute in numbers:
            self.say("attribute", attribute)

    def look_at_all(self) -> None:
        """Shows the state and all attributes."""
        self.look(*range(len(ATTRIBUTES)))

    # Accesses

    def read(self, address: int) -> Optional[int]:
        """One read: the word, or nothing if it is refused."""
        self.say("read", address)
        try:
            return self.head().read(address)
        except Fault:
            return None

    def write(self, address: int, word: int) -> bool:
        """One write, and whether it was carried out."""
        self.say("write", address, word)
        try:
            self.head().write(address, word)
        except Fault:
            return False
        return True

    def surely_read(self, address: int) -> None:
        """Reads until it is acknowledged."""
        tries = 1
        while self.read(address) is None and tries < MOST_TRIES:
            tries += 1

    def surely_write(self, address: int, word: int) -> None:
        """Writes until it is acknowledged."""
        tries = 1
        while not self.write(address, word) and tries < MOST_TRIES:
            tries += 1

    def wait(self) -> None:
        """Reads the status until the camera is neither booting nor busy, and then once more."""
        polls = 0
        while self.is_waiting() and polls < MOST_POLLS:
            self.read(STATUS)
            polls += 1
        self.surely_read(STATUS)

    # Commands

    def command(self, word: int, length: Optional[int] = None) -> None:
        """Writes a command word, after a length if one is given, and waits."""
        if length is not None:
            self.surely_write(LENGTH, length)
        self.surely_write(COMMAND, word)
        self.wait()

    def put_words(self, attribute: Attribute, words: Sequence[int]) -> None:
        """Writes words for an attribute. Of the block only those are written that do not stand there."""
        if attribute.words <= DATA_WORDS:
            for place, word in enumerate(words):
                self.surely_write(DATA + 2 * place, word)
            return
        for place, word in enumerate(words):
            if self.head().block[place] != word:
                self.surely_write(BLOCK + 2 * place, word)

    def read_words(self, attribute: Attribute) -> None:
        """Reads the registers of an attribute; of the block some."""
        if attribute.words <= DATA_WORDS:
            self.read_data(attribute.words)
            return
        for place in sorted({0, 1, 2, 255, 256, 510, 511, *self.random.sample(range(512), 5)}):
            self.surely_read(BLOCK + 2 * place)

    def read_data(self, count: int = DATA_WORDS) -> None:
        """Reads data registers from the first one on."""
        for place in range(count):
            self.surely_read(DATA + 2 * place)

    def get(self, attribute: Attribute) -> None:
        """Gets an attribute as it should be done."""
        self.command(camera.command_word(attribute, Type.GET), attribute.words)
        self.read_words(attribute)

    def set(self, attribute: Attribute, words: Sequence[int]) -> None:
        """Sets an attribute as it should be done, whether or not the words are within its limits."""
        self.surely_write(LENGTH, attribute.words)
        self.put_words(attribute, words)
        self.command(camera.command_word(attribute, Type.SET))

    def run(self, attribute: Attribute) -> None:
        """Runs an attribute as it should be done."""
        self.command(camera.command_word(attribute, Type.RUN), 0)
