"""What every bus is: registers of sixteen bits that are read and written at addresses."""

from __future__ import annotations

from typing import Protocol

NOT_ACKNOWLEDGED = 21
NO_REGISTER = 22


class Fault(Exception):
    """An access was refused: with which number, and at which address."""

    def __init__(self, number: int, address: int) -> None:
        super().__init__(f"refused {number} at {address:04X}")
        self.number = number
        self.address = address


class Bus(Protocol):
    """One access at a time. An access that is refused raises a Fault."""

    def read(self, address: int) -> int:
        """The word at an address."""

    def write(self, address: int, word: int) -> None:
        """Writes a word to an address."""
