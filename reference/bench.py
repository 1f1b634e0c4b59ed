#!/usr/bin/env python3
"""The bench: reads a script on standard input and prints what its directives answer.

docs/BENCH.md says what a script is. This is a second implementation, written from the documents alone, to compare the
bench of the proved crates with.
"""

from __future__ import annotations

import sys
from dataclasses import replace
from typing import Callable, Iterable, Iterator, NamedTuple, Optional, Sequence, Union

import camera
import packets
import values
from bus import Bus, Fault
from camera import Head, HeadRefused, Type
from crc import checksum
from link import PacketLink
from packets import Function, Refused, Reply, Request, Status
from script import (
    FieldError, Fields, ScriptError, parse_numbers, require_few, split_fields, without_ending,
)
from session import CallRefused, Session, State

LARGEST_WORD = 0xFFFF
LARGEST_SIZE = 1024
LARGEST_SERIAL = (1 << 64) - 1
MOST_BUSY_NUMBERS = 100
MOST_MARKS = 5000
MOST_PIXELS = 65535
MOST_LINKS = 2
FILLER = 0xEE
WORD_FILLER = 0xEEEE

KINDS: dict[str, Union[values.NumberKind, values.RegionKind]] = {
    "single": values.SINGLE,
    "pair": values.PAIR,
    "signed": values.SIGNED,
    "quad": values.QUAD,
    "region": values.REGION,
}
"""The words for kinds of values."""

FUNCTIONS = {"read": Function.READ, "write": Function.WRITE}
"""The words for functions."""

REPLIES = {
    Function.READ: {"word": Status.CARRIED_OUT, "no-ack": Status.NO_ACK, "no-register": Status.NO_REGISTER},
    Function.WRITE: {"done": Status.CARRIED_OUT, "no-ack": Status.NO_ACK, "no-register": Status.NO_REGISTER},
}
"""The words for the replies that can answer a function."""

COMMANDS = {"get": Type.GET, "set": Type.SET, "run": Type.RUN}
"""The words for kinds of commands."""


class Answer(NamedTuple):
    """A line to print, and the number of the script's line it answers."""

    line: int
    text: str


def word_for(words: dict[str, Status], status: Status) -> str:
    """The word that stands for a status."""
    return next(word for word, meaning in words.items() if meaning == status)


def listed(data: bytes) -> str:
    """A list of bytes as it is printed behind an answer."""
    return " :" + "".join(f" {byte:02X}" for byte in data)


def listed_words(words: Sequence[int]) -> str:
    """A list of words as it is printed behind an answer."""
    return " :" + "".join(f" {word:04X}" for word in words)


def yes_or_no(holds: bool) -> str:
    """The word for whether something holds."""
    return "yes" if holds else "no"


def put_words(fields: Fields) -> list[int]:
    """The words of the value in the next two fields, the kind and the value."""
    kind = fields.choice(KINDS, "kind")
    if isinstance(kind, values.RegionKind):
        numbers = parse_numbers(fields.take("region"), kind.word_count, LARGEST_WORD, "region")
        return kind.put(values.Region(*numbers))
    if kind.signed:
        return kind.put(fields.signed(kind.least, kind.greatest, "value"))
    return kind.put(fields.number(kind.greatest, "value"))


def printed(value: Union[int, values.Region]) -> str:
    """A value as it is printed."""
    return ",".join(map(str, value)) if isinstance(value, values.Region) else str(value)


def written(name: str, packet: bytes, size: Optional[int]) -> str:
    """The answer of a directive that writes a packet: the packet, or the whole buffer if its size is given."""
    buffer = bytearray([FILLER] * (packets.LARGEST if size is None else size))
    try:
        length = packets.write_packet(packet, buffer)
    except Refused as refused:
        return f"{name} {refused}{listed(buffer)}"
    return name + listed(buffer[:length] if size is None else buffer)


def called(name: str, call: Callable[[], None]) -> str:
    """The answer of a directive that makes a call on a session, or takes a step of one."""
    try:
        call()
    except CallRefused as refused:
        return f"{name} {refused}"
    return f"{name} ok"


class Bench:
    """One run of the bench. What directives leave for later ones is kept here.

    A directive takes its fields and gives its answer, or nothing if it has none.
    """

    def __init__(self) -> None:
        self.directives: dict[str, Callable[[Fields], Optional[str]]] = {
            "crc": self.crc,
            "request": self.request,
            "reply": self.reply,
            "unpack-request": self.unpack_request,
            "unpack-reply": self.unpack_reply,
            "put": self.put,
            "take": self.take,
            "boot": self.boot,
            "serial": self.serial,
            "fpa": self.fpa,
            "busy": self.busy,
            "acks": self.acks,
            "links": self.links,
            "make": self.make,
            "read": self.read,
            "write": self.write,
            "frame": self.frame,
            "state": self.state,
            "attribute": self.attribute,
            "wake": self.wake,
            "get": self.get,
            "set": self.set,
            "run": self.run,
            "begin": self.begin,
            "collect": self.collect,
            "park": self.park,
        }
        self.settings = camera.Settings()
        self.link_count = 0
        """How many packet links are laid over the next head."""
        self.made: Optional[Head] = None
        self.made_bus: Optional[Bus] = None
        """The head under its links."""
        self.session = Session()
        """The session with the head. There is none to speak of while there is no head."""
        self.in_flight = False
        """Whether the session has a command in flight: begun, and neither collected nor parked."""

    def carry_out(self, fields: Fields) -> Optional[str]:
        """Carries out the directive of one line. A field that is left over is an error."""
        directive = fields.choice(self.directives, "directive")
        if self.in_flight and directive not in (self.collect, self.park):
            raise FieldError("a command is in flight")
        answer = directive(fields)
        fields.end()
        return answer

    def crc(self, fields: Fields) -> str:
        """`crc BYTES..`"""
        return f"crc {checksum(fields.rest_as_bytes()):04X}"

    def request(self, fields: Fields) -> str:
        """`request read ADDRESS [SIZE]`, `request write ADDRESS WORD [SIZE]`"""
        function = fields.choice(FUNCTIONS, "access")
        address = fields.number(LARGEST_WORD, "address")
        word = fields.number(LARGEST_WORD, "word") if function == Function.WRITE else None
        size = fields.number_if_any(LARGEST_SIZE, "size")
        return written("request", packets.pack_request(Request(function, address, word)), size)

    def reply(self, fields: Fields) -> str:
        """`reply read word WORD [SIZE]`, `reply write done [SIZE]`, and either access with `no-ack` or `no-register`"""
        function = fields.choice(FUNCTIONS, "access")
        status = fields.choice(REPLIES[function], "reply")
        has_word = function == Function.READ and status == Status.CARRIED_OUT
        word = fields.number(LARGEST_WORD, "word") if has_word else None
        size = fields.number_if_any(LARGEST_SIZE, "size")
        return written("reply", packets.pack_reply(Reply(function, status, word)), size)

    def unpack_request(self, fields: Fields) -> str:
        """`unpack-request BYTES..`"""
        try:
            request = packets.unpack_request(fields.rest_as_bytes())
        except Refused as refused:
            return f"unpack-request {refused}"
        if request.word is None:
            return f"unpack-request read {request.address:04X}"
        return f"unpack-request write {request.address:04X} {request.word:04X}"

    def unpack_reply(self, fields: Fields) -> str:
        """`unpack-reply read BYTES..`, `unpack-reply write BYTES..`"""
        function = fields.choice(FUNCTIONS, "access")
        try:
            reply = packets.unpack_reply(function, fields.rest_as_bytes())
        except Refused as refused:
            return f"unpack-reply {refused}"
        answer = f"unpack-reply {word_for(REPLIES[function], reply.status)}"
        return answer if reply.word is None else f"{answer} {reply.word:04X}"

    # Values

    def put(self, fields: Fields) -> str:
        """`put KIND VALUE`"""
        return "put" + listed_words(put_words(fields))

    def take(self, fields: Fields) -> str:
        """`take KIND WORDS..`"""
        kind = fields.choice(KINDS, "kind")
        words = fields.rest_as_numbers(LARGEST_WORD, "word")
        try:
            return f"take {printed(kind.take(words))}"
        except values.WrongSize as refused:
            return f"take {refused}"

    # Settings of the next head

    def boot(self, fields: Fields) -> None:
        """`boot N`"""
        self.settings = replace(self.settings, boot_polls=fields.number(LARGEST_WORD, "boot polls"))

    def serial(self, fields: Fields) -> None:
        """`serial N`"""
        self.settings = replace(self.settings, serial=fields.number(LARGEST_SERIAL, "serial number"))

    def fpa(self, fields: Fields) -> None:
        """`fpa N`"""
        self.settings = replace(self.settings, temperature=fields.number(LARGEST_WORD, "sensor temperature"))

    def busy(self, fields: Fields) -> None:
        """`busy N..`"""
        numbers = fields.rest_as_numbers(LARGEST_WORD, "busy polls")
        require_few(len(numbers), MOST_BUSY_NUMBERS, "busy numbers")
        self.settings = replace(self.settings, busy_numbers=numbers)

    def acks(self, fields: Fields) -> None:
        """`acks MARKS..`"""
        marks = fields.rest_as_marks()
        require_few(len(marks), MOST_MARKS, "marks")
        self.settings = replace(self.settings, marks=marks)

    def links(self, fields: Fields) -> None:
        """`links N`"""
        self.link_count = fields.number(MOST_LINKS, "links")

    # The head

    def make(self, fields: Fields) -> str:
        """`make`"""
        try:
            self.made = Head(self.settings)
        except HeadRefused as refused:
            return f"make {refused}"
        self.made_bus = self.made
        for _ in range(self.link_count):
            self.made_bus = PacketLink(self.made_bus)
        self.session = Session()
        return "make ok"

    def head(self) -> Head:
        """The head, which has to be there."""
        if self.made is None:
            raise FieldError("there is no head yet")
        return self.made

    def bus(self) -> Bus:
        """The bus to the head, which has to be there."""
        if self.made_bus is None:
            raise FieldError("there is no head yet")
        return self.made_bus

    def read(self, fields: Fields) -> str:
        """`read ADDRESS`"""
        address = fields.number(LARGEST_WORD, "address")
        try:
            return f"read ok {self.bus().read(address):04X}"
        except Fault as fault:
            return f"read {fault}"

    def write(self, fields: Fields) -> str:
        """`write ADDRESS WORD`"""
        address = fields.number(LARGEST_WORD, "address")
        word = fields.number(LARGEST_WORD, "word")
        try:
            self.bus().write(address, word)
        except Fault as fault:
            return f"write {fault}"
        return "write ok"

    def frame(self, fields: Fields) -> str:
        """`frame RUNS..`"""
        pixels = fields.rest_as_pixels(LARGEST_WORD, MOST_PIXELS)
        try:
            self.head().load_frame(pixels)
        except HeadRefused as refused:
            return f"frame {refused}"
        return "frame ok"

    def state(self, fields: Fields) -> str:
        """`state`"""
        head = self.head()
        polls = f"boot {head.boot_polls} busy {head.busy_polls}"
        numbers = f"code {head.code} count {head.count} length {head.length}"
        saved = yes_or_no(head.saved is not None)
        return f"state session {self.session.state().value} hung {yes_or_no(head.hung)} {polls} {numbers} saved {saved}"

    def attribute(self, fields: Fields) -> str:
        """`attribute NUMBER`"""
        number = fields.number(len(camera.ATTRIBUTES) - 1, "attribute")
        return f"attribute {number}{listed_words(self.head().shown(number))}"

    # The session

    def wake(self, fields: Fields) -> str:
        """`wake BUDGET`"""
        budget = fields.number(LARGEST_WORD, "budget")
        bus = self.bus()
        return called("wake", lambda: self.session.wake(bus, budget))

    def get(self, fields: Fields) -> str:
        """`get ATTRIBUTE SIZE BUDGET`"""
        number = fields.number(LARGEST_WORD, "attribute")
        buffer = [WORD_FILLER] * fields.number(LARGEST_SIZE, "size")
        budget = fields.number(LARGEST_WORD, "budget")
        bus = self.bus()
        return called("get", lambda: self.session.get(bus, number, buffer, budget)) + listed_words(buffer)

    def set(self, fields: Fields) -> str:
        """`set ATTRIBUTE BUDGET WORDS..`"""
        number = fields.number(LARGEST_WORD, "attribute")
        budget = fields.number(LARGEST_WORD, "budget")
        words = fields.rest_as_numbers(LARGEST_WORD, "word")
        bus = self.bus()
        return called("set", lambda: self.session.set(bus, number, words, budget))

    def run(self, fields: Fields) -> str:
        """`run ATTRIBUTE BUDGET`"""
        number = fields.number(LARGEST_WORD, "attribute")
        budget = fields.number(LARGEST_WORD, "budget")
        bus = self.bus()
        return called("run", lambda: self.session.run(bus, number, budget))

    def begin(self, fields: Fields) -> str:
        """`begin get ATTRIBUTE`, `begin set ATTRIBUTE WORDS..`, `begin run ATTRIBUTE`"""
        kind = fields.choice(COMMANDS, "command")
        number = fields.number(LARGEST_WORD, "attribute")
        words = fields.rest_as_numbers(LARGEST_WORD, "word") if kind == Type.SET else []
        bus = self.bus()
        if self.session.state() != State.READY:
            raise FieldError("the session is not ready")
        answer = called("begin", lambda: self.session.begin(bus, kind, number, words))
        self.in_flight = self.session.state() == State.PARKED
        return answer

    def require_in_flight(self) -> None:
        """Makes sure that a command is in flight."""
        if not self.in_flight:
            raise FieldError("no command is in flight")

    def collect(self, fields: Fields) -> str:
        """`collect SIZE BUDGET`"""
        buffer = [WORD_FILLER] * fields.number(LARGEST_SIZE, "size")
        budget = fields.number(LARGEST_WORD, "budget")
        self.require_in_flight()
        self.in_flight = False
        bus = self.bus()
        return called("collect", lambda: self.session.collect(bus, buffer, budget)) + listed_words(buffer)

    def park(self, fields: Fields) -> str:
        """`park`"""
        self.require_in_flight()
        self.in_flight = False
        return "park ok"


def run(lines: Iterable[bytes]) -> Iterator[Answer]:
    """Carries out a script, given as lines with their endings, and gives the answers one by one.

    An error of the script is raised as ScriptError, after the answers of the lines before it.
    """
    bench = Bench()
    for number, line in enumerate(lines, start=1):
        try:
            fields = split_fields(without_ending(line))
            answer = bench.carry_out(Fields(fields)) if fields else None
        except FieldError as error:
            raise ScriptError(number, str(error)) from None
        if answer is not None:
            yield Answer(number, answer)


def main() -> int:
    """Runs the script on standard input and gives the exit status."""
    status = 0
    error_text = ""
    try:
        for answer in run(sys.stdin.buffer):
            sys.stdout.buffer.write(answer.text.encode("ascii") + b"\n")
    except ScriptError as error:
        status, error_text = 1, f"error: {error}\n"
    sys.stdout.buffer.flush()
    sys.stderr.write(error_text)
    return status


if __name__ == "__main__":
    sys.exit(main())
