"""The session that a panel makes its calls on, over any bus to a camera (docs/CALLS.md)."""

from __future__ import annotations

from contextlib import contextmanager
from enum import Enum, IntEnum
from typing import Iterator, NamedTuple, Optional, Sequence

import values
from bus import Bus, Fault
from camera import ATTRIBUTES, BLOCK, COMMAND, DATA, DATA_WORDS, LENGTH, STATUS, Attribute, Type, command_word

MOST_BUDGET = 1000
BUSY_BIT = 0x0001
BOOTED_BIT = 0x0004


class Refusal(IntEnum):
    """Why a call was not carried out."""

    ASLEEP = 1
    AWAKE = 2
    COMMAND_PARKED = 3
    NOTHING_PARKED = 4
    NOT_OFFERED = 5
    WRONG_SIZE = 6
    BAD_BUDGET = 7
    BUS = 8
    STILL_BUSY = 9
    CAMERA = 10


class CallRefused(Exception):
    """A call was not carried out. The detail is the address or the response code, where there is one."""

    def __init__(self, refusal: Refusal, detail: str = "") -> None:
        super().__init__(f"refused {refusal.value}{detail}")
        self.refusal = refusal


def require(holds: bool, refusal: Refusal) -> None:
    """One test of a call: refuses it unless the test holds."""
    if not holds:
        raise CallRefused(refusal)


def require_budget(budget: int) -> None:
    """The test of a budget."""
    require(1 <= budget <= MOST_BUDGET, Refusal.BAD_BUDGET)


def offered(kind: Type, number: int) -> Attribute:
    """The attribute of a number, which has to be there and to have the kind of command."""
    require(number < len(ATTRIBUTES) and kind in ATTRIBUTES[number].types, Refusal.NOT_OFFERED)
    return ATTRIBUTES[number]


def require_size(attribute: Attribute, words: Sequence[int]) -> None:
    """The test of a buffer, or of the words of a set."""
    require(len(words) == attribute.words, Refusal.WRONG_SIZE)


# What a call does to the camera


@contextmanager
def refusing_faults() -> Iterator[None]:
    """Turns the fault of an access into the refusal of the call."""
    try:
        yield
    except Fault as fault:
        raise CallRefused(Refusal.BUS, f" at {fault.address:04X}") from None


def first_register(attribute: Attribute) -> int:
    """The address that the first word of an attribute passes through. The others follow at every second address."""
    return BLOCK if attribute.words > DATA_WORDS else DATA


def send(bus: Bus, kind: Type, attribute: Attribute, words: Sequence[int]) -> None:
    """Sends a command up to its command word. Only a set has words."""
    with refusing_faults():
        for place, word in enumerate(words):
            bus.write(first_register(attribute) + 2 * place, word)
        bus.write(LENGTH, 0 if kind == Type.RUN else attribute.words)
        bus.write(COMMAND, command_word(attribute, kind))


def poll(bus: Bus, budget: int, mask: int, wanted: int) -> int:
    """Reads status until the bits of the mask are as wanted, as often as the budget allows, and gives that status."""
    for _ in range(budget):
        with refusing_faults():
            status = bus.read(STATUS)
        if status & mask == wanted:
            return status
    raise CallRefused(Refusal.STILL_BUSY)


def fetch(bus: Bus, attribute: Attribute, buffer: list[int]) -> None:
    """Reads the words of an attribute into a buffer, one by one from the first on."""
    with refusing_faults():
        for place in range(attribute.words):
            buffer[place] = bus.read(first_register(attribute) + 2 * place)


# The session


class State(Enum):
    """What a session can be, with the words for it."""

    ASLEEP = "asleep"
    READY = "ready"
    PARKED = "parked"


class Stage(Enum):
    """How far a command has come whose answer is owed."""

    WAITS = "waits"
    READS = "reads"


class Owed(NamedTuple):
    """A command that the camera has taken, and whose answer is owed."""

    kind: Type
    attribute: Attribute
    stage: Stage


class Session:
    """A session. It keeps no bus: each call is given one.

    A command in flight, which is begun and not yet collected, is kept as a parked one is. So parking it is to do
    nothing more with it.
    """

    def __init__(self) -> None:
        self.awake = False
        self.owed: Optional[Owed] = None

    def state(self) -> State:
        """The state of the session."""
        if not self.awake:
            return State.ASLEEP
        return State.READY if self.owed is None else State.PARKED

    # Whole calls. One that is refused raises CallRefused.

    def wake(self, bus: Bus, budget: int) -> None:
        """Waits until the camera has booted and is not busy."""
        require(not self.awake, Refusal.AWAKE)
        require_budget(budget)
        poll(bus, budget, BUSY_BIT | BOOTED_BIT, BOOTED_BIT)
        self.awake = True

    def get(self, bus: Bus, number: int, buffer: list[int], budget: int) -> None:
        """Gets the words of an attribute into a buffer."""
        attribute = self.tested(Type.GET, number)
        require_size(attribute, buffer)
        require_budget(budget)
        self.begin(bus, Type.GET, number)
        self.collect(bus, buffer, budget)

    def set(self, bus: Bus, number: int, words: Sequence[int], budget: int) -> None:
        """Sets an attribute to words."""
        attribute = self.tested(Type.SET, number)
        require_size(attribute, words)
        require_budget(budget)
        self.begin(bus, Type.SET, number, words)
        self.collect(bus, [], budget)

    def run(self, bus: Bus, number: int, budget: int) -> None:
        """Runs what an attribute stands for."""
        self.tested(Type.RUN, number)
        require_budget(budget)
        self.begin(bus, Type.RUN, number)
        self.collect(bus, [], budget)

    def tested(self, kind: Type, number: int) -> Attribute:
        """The attribute of a command, after the first tests of all commands."""
        require(self.awake, Refusal.ASLEEP)
        require(self.owed is None, Refusal.COMMAND_PARKED)
        return offered(kind, number)

    # Steps

    def begin(self, bus: Bus, kind: Type, number: int, words: Sequence[int] = ()) -> None:
        """Sends a command on a ready session. It owes its answer once the camera has taken it."""
        if self.state() != State.READY:
            raise ValueError("only a ready session begins a command")
        if words and kind != Type.SET:
            raise ValueError("only a set has words")
        attribute = offered(kind, number)
        if kind == Type.SET:
            require_size(attribute, words)
        send(bus, kind, attribute, words)
        self.owed = Owed(kind, attribute, Stage.WAITS)

    def collect(self, bus: Bus, buffer: list[int], budget: int) -> None:
        """The rest of the command whose answer is owed, from the stage that it has reached."""
        if self.owed is None:
            raise ValueError("only a command that is owed its answer is collected")
        kind, attribute, stage = self.owed
        if kind == Type.GET:
            require_size(attribute, buffer)
        require_budget(budget)
        if stage == Stage.WAITS:
            self.wait(bus, budget)
        if kind == Type.GET:
            self.owed = Owed(kind, attribute, Stage.READS)
            fetch(bus, attribute, buffer)
        self.owed = None

    def wait(self, bus: Bus, budget: int) -> None:
        """Waits for the response code. If it is not 0 the command has its answer, and is refused."""
        code = values.response_code(poll(bus, budget, BUSY_BIT, 0))
        if code != 0:
            self.owed = None
            raise CallRefused(Refusal.CAMERA, f" code {code}")
