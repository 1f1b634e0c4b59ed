#!/usr/bin/env python3
"""Tests of the reference: that it says what the documents say, and that a comparison can fail."""

from __future__ import annotations

import io
import itertools
import os
import subprocess
import sys
import tempfile
import unittest
import unittest.mock
from random import Random
from typing import Callable, Optional, Sequence

import bench
import camera
import compare
import damage
import generate
import head_scripts
import lines
import link
import packet_scripts
import packets
import script
import session_scripts
import set_words
import values
from bus import Bus, Fault
from camera import ATTRIBUTES, COMMAND, DATA, LENGTH, STATUS, Head, HeadRefused, Settings, Type
from crc import checksum, sealed
from damage import Draft
from packets import Function, Refused, Reply, Request, Status
from session import CallRefused, Owed, Session, Stage, State

HERE = os.path.dirname(os.path.abspath(__file__))
EXAMPLE = bytes.fromhex("6E 00 00 10 00 02 BC 9A 00 02 20 42")


def transcript(text: bytes) -> tuple[list[str], Optional[int]]:
    """What the bench prints for a script, and the line of its error if it has one."""
    expected = compare.run_reference(text)
    return [answer.text for answer in expected.answers], expected.error and expected.error.line


def refusal(read: Callable[[], object]) -> Optional[int]:
    """The number a reading is refused with, or nothing."""
    try:
        read()
    except Refused as refused:
        return refused.refusal.value
    return None


def request_refusal(packet: bytes) -> Optional[int]:
    """The number the bytes are refused with as a request, or nothing."""
    return refusal(lambda: packets.unpack_request(packet))


def reply_refusal(function: Function, packet: bytes) -> Optional[int]:
    """The number the bytes are refused with as a reply, or nothing."""
    return refusal(lambda: packets.unpack_reply(function, packet))


class Checksum(unittest.TestCase):
    def test_table(self) -> None:
        table = [
            (b"", 0x0000),
            (bytes.fromhex("6E"), 0x8D68),
            (b"123456789", 0x31C3),
            (bytes.fromhex("6E 00 00 0B 00 00"), 0x2F4A),
            (bytes.fromhex("6E 00 00 0B 00 00 2F 4A"), 0x0000),
            (bytes.fromhex("6E 00 00 0B 00 02"), 0x0F08),
            (bytes.fromhex("6E 00 00 0B 00 02 0F 08 00 01"), 0x1021),
        ]
        for data, expected in table:
            self.assertEqual(checksum(data), expected, data)

    def test_sealed_bytes_have_checksum_0(self) -> None:
        for length in range(40):
            self.assertEqual(checksum(sealed(bytes(range(200, 200 + length)))), 0)


class Writing(unittest.TestCase):
    def test_example(self) -> None:
        self.assertEqual(packets.pack_request(Request(Function.READ, 0x0002)), EXAMPLE)

    def test_requests_read_back(self) -> None:
        for request in (Request(Function.READ, 0xFFFE), Request(Function.WRITE, 0x0006, 0xA5C3)):
            self.assertEqual(packets.unpack_request(packets.pack_request(request)), request)

    def test_replies_read_back(self) -> None:
        replies = [Reply(Function.READ, Status.CARRIED_OUT, 0xA5C3), Reply(Function.WRITE, Status.CARRIED_OUT)]
        replies += [Reply(function, status) for function in Function for status in (Status.NO_ACK, Status.NO_REGISTER)]
        for reply in replies:
            self.assertEqual(packets.unpack_reply(reply.function, packets.pack_reply(reply)), reply)

    def test_lengths(self) -> None:
        self.assertEqual(len(packets.pack_request(Request(Function.WRITE, 1, 2))), packets.LARGEST)
        self.assertEqual(len(packets.pack_reply(Reply(Function.WRITE, Status.CARRIED_OUT))), packets.OVERHEAD)

    def test_a_small_buffer_is_refused_and_stays(self) -> None:
        buffer = bytearray(b"\xee" * 13)
        self.assertEqual(refusal(lambda: packets.write_packet(EXAMPLE, buffer)), 38)
        self.assertEqual(buffer, b"\xee" * 13)

    def test_the_rest_of_a_buffer_stays(self) -> None:
        buffer = bytearray(b"\xee" * 14)
        self.assertEqual(packets.write_packet(EXAMPLE, buffer), 12)
        self.assertEqual(buffer, EXAMPLE + b"\xee\xee")

    def test_impossible_values(self) -> None:
        self.assertRaises(ValueError, Reply, Function.WRITE, Status.CARRIED_OUT, 1)
        self.assertRaises(ValueError, Reply, Function.READ, Status.CARRIED_OUT)
        self.assertRaises(ValueError, Reply, Function.READ, Status.NO_ACK, 1)
        self.assertRaises(ValueError, Request, Function.READ, 1, 1)
        self.assertRaises(ValueError, Request, Function.WRITE, 1)


FAULTS = [
    (32, {"process_code": 0x6F}),
    (33, {"front_error": 0x0100}),
    (31, {"count_error": 1}),
    (34, {"end_error": 0x0001}),
    (35, {"reserved": 0x80}),
    (36, {"function": 0x12}),
    (37, {"status": 3}),
]
"""One fault for each test of a packet that is long enough, in the order of the tests, and its refusal."""


class Reading(unittest.TestCase):
    def request(self, **fault: int) -> Optional[int]:
        return request_refusal(Draft(**{"function": 0x10, "arguments": b"\x00\x02", **fault}).packet())

    def reply(self, **fault: int) -> Optional[int]:
        return reply_refusal(Function.WRITE, Draft(**{"function": 0x11, **fault}).packet())

    def test_each_refusal(self) -> None:
        self.assertIsNone(self.request())
        self.assertIsNone(self.reply())
        for expected, fault in FAULTS:
            self.assertEqual(self.request(**fault), expected, fault)
            self.assertEqual(self.reply(**fault), expected, fault)

    def test_the_earlier_test_gives_the_refusal(self) -> None:
        for (expected, earlier), (_, later) in itertools.combinations(FAULTS, 2):
            self.assertEqual(self.request(**earlier, **later), expected, (earlier, later))
            self.assertEqual(self.reply(**earlier, **later), expected, (earlier, later))

    def test_fewer_than_10_bytes_come_first(self) -> None:
        for length in range(10):
            for packet in (EXAMPLE[:length], b"\xff" * length):
                self.assertEqual(request_refusal(packet), 31)
                self.assertEqual(reply_refusal(Function.READ, packet), 31)

    def test_every_changed_byte_is_noticed(self) -> None:
        expected = [32] + [33] * 7 + [34] * 4
        for place, byte in enumerate(EXAMPLE):
            packet = EXAMPLE[:place] + bytes([byte ^ 0x40]) + EXAMPLE[place + 1 :]
            self.assertEqual(request_refusal(packet), expected[place], place)

    def test_one_byte_more_or_less(self) -> None:
        self.assertEqual(request_refusal(EXAMPLE + b"\x00"), 31)
        self.assertEqual(request_refusal(EXAMPLE[:-1]), 31)

    def test_what_fits_a_request(self) -> None:
        for function, status, count in itertools.product((0x10, 0x11), (0, 1, 2, 255), (0, 1, 2, 3, 4, 5, 258, 260)):
            fits = status == 0 and count == (2 if function == 0x10 else 4)
            packet = Draft(function, bytes(count), status).packet()
            self.assertEqual(request_refusal(packet), None if fits else 37, (function, status, count))

    def test_what_fits_a_reply(self) -> None:
        for function, status, count in itertools.product(Function, (0, 1, 2, 3, 255), (0, 1, 2, 3, 4, 256, 258)):
            has_word = status == 0 and function == Function.READ
            fits = status <= 2 and count == (2 if has_word else 0)
            packet = Draft(function, bytes(count), status).packet()
            self.assertEqual(reply_refusal(function, packet), None if fits else 37, (function, status, count))

    def test_a_reply_to_the_other_function(self) -> None:
        self.assertEqual(reply_refusal(Function.WRITE, Draft(0x10, b"\x00\x01").packet()), 36)
        self.assertEqual(reply_refusal(Function.READ, Draft(0x11).packet()), 36)
        self.assertEqual(reply_refusal(Function.READ, Draft(0x11, status=3).packet()), 36)


class Values(unittest.TestCase):
    TABLE: list[tuple[str, object, list[int]]] = [
        ("single", 5, [0x0005]),
        ("pair", 0x12345678, [0x5678, 0x1234]),
        ("signed", -3, [0xFFFD, 0xFFFF]),
        ("signed", -1, [0xFFFF, 0xFFFF]),
        ("signed", -(1 << 31), [0x0000, 0x8000]),
        ("signed", (1 << 31) - 1, [0xFFFF, 0x7FFF]),
        ("quad", 0x0123456789ABCDEF, [0xCDEF, 0x89AB, 0x4567, 0x0123]),
        ("region", values.Region(1, 2, 78, 58), [0x0001, 0x0002, 0x004E, 0x003A]),
    ]

    def test_table(self) -> None:
        for name, value, words in self.TABLE:
            kind = bench.KINDS[name]
            self.assertEqual(kind.put(value), words)
            self.assertEqual(kind.take(words), value)

    def test_another_number_of_words_is_refused(self) -> None:
        for kind in bench.KINDS.values():
            for count in set(range(9)) - {kind.word_count}:
                self.assertRaises(values.WrongSize, kind.take, [0] * count)

    def test_ends(self) -> None:
        self.assertEqual((values.SIGNED.least, values.SIGNED.greatest), (-(1 << 31), (1 << 31) - 1))
        self.assertEqual((values.QUAD.least, values.QUAD.greatest), (0, (1 << 64) - 1))

    def test_response_codes(self) -> None:
        self.assertEqual(values.response_code(0xF706), -9)
        self.assertEqual(values.code_byte(-9), 0xF7)
        self.assertEqual([values.response_code(word) for word in (0x00FF, 0x7F00, 0x8000, 0xFFFF)], [0, 127, -128, -1])
        for code in range(-128, 128):
            self.assertEqual(values.response_code(values.code_byte(code) * 256 + 6), code)


def made(**settings: object) -> Head:
    """A head with some settings."""
    return Head(Settings(**settings))


def status_after(head: Head, word: int, length: Optional[int] = None, data: Sequence[int] = ()) -> int:
    """The status after a command word, with the length and the data words written before it if there are any."""
    for place, data_word in enumerate(data):
        head.write(DATA + 2 * place, data_word)
    if length is not None:
        head.write(LENGTH, length)
    head.write(COMMAND, word)
    return head.read(STATUS)


def code_after(head: Head, word: int, length: Optional[int] = None, data: Sequence[int] = ()) -> int:
    """The response code after a command word."""
    return values.response_code(status_after(head, word, length, data))


def set_code(number: int, *words: int) -> int:
    """The response code of a set on a new head."""
    attribute = ATTRIBUTES[number]
    return code_after(made(), camera.command_word(attribute, Type.SET), attribute.words, words)


def fault(access: Callable[[], object]) -> Optional[tuple[int, int]]:
    """The number and the address that an access is refused with, or nothing."""
    try:
        access()
    except Fault as found:
        return found.number, found.address
    return None


def head_refusal(attempt: Callable[[], object]) -> Optional[int]:
    """The number that making or a frame is refused with, or nothing."""
    try:
        attempt()
    except HeadRefused as refused:
        return refused.refusal.value
    return None


class Registers(unittest.TestCase):
    def test_addresses(self) -> None:
        expected = {0, 2, 4, 6, *range(0x0008, 0x0028, 2), *range(0xF800, 0xFC00, 2)}
        self.assertEqual({address for address in range(65536) if fault(lambda: made().read(address)) is None}, expected)

    def test_no_register_comes_first_and_uses_no_mark(self) -> None:
        head = made(marks=[False])
        for address in (0x0001, 0x0007, 0x0028, 0xF7FE, 0xF801, 0xFC00, 0xFFFF):
            self.assertEqual(fault(lambda: head.read(address)), (22, address))
            self.assertEqual(fault(lambda: head.write(address, 1)), (22, address))
        self.assertEqual(fault(lambda: head.read(0x0002)), (21, 0x0002))
        self.assertIsNone(fault(lambda: head.read(0x0002)))

    def test_marks_are_used_up_one_by_one(self) -> None:
        head = made(marks=[True, False, False, True, False])
        faults = [fault(lambda: head.write(LENGTH, 7)) for _ in range(7)]
        missing = (21, LENGTH)
        self.assertEqual(faults, [None, missing, missing, None, missing, None, None])

    def test_nothing_changes_without_an_acknowledgement(self) -> None:
        head = made(boot_polls=2, marks=[False, False])
        self.assertEqual(fault(lambda: head.read(STATUS)), (21, STATUS))
        self.assertEqual(fault(lambda: head.write(COMMAND, 0)), (21, COMMAND))
        self.assertEqual((head.boot_polls, head.hung, head.count), (2, False, 0))

    def test_what_an_idle_camera_stores(self) -> None:
        head = made()
        for address in (0x0000, 0x0002, 0x0006, 0x0008, 0x0026, 0xF800, 0xFBFE):
            head.write(address, 0x1234)
        read = [head.read(address) for address in (0, 2, 4, 6, 0x0008, 0x000A, 0x0026, 0xF800, 0xF802, 0xFBFE)]
        self.assertEqual(read, [0, 6, 0, 0x1234, 0x1234, 0, 0x1234, 0x1234, 0, 0x1234])


class Links(unittest.TestCase):
    def test_faults_keep_their_numbers_and_addresses(self) -> None:
        for count in range(4):
            bus: Bus = made(marks=[True, False, False])
            for _ in range(count):
                bus = link.PacketLink(bus)
            bus.write(DATA, 0xABCD)
            self.assertEqual(fault(lambda: bus.read(DATA)), (21, DATA))
            self.assertEqual(fault(lambda: bus.write(0xFFFF, 1)), (22, 0xFFFF))
            self.assertEqual(fault(lambda: bus.write(LENGTH, 1)), (21, LENGTH))
            self.assertEqual([bus.read(address) for address in (STATUS, LENGTH, DATA)], [6, 0, 0xABCD])

    def test_what_the_far_end_refuses_changes_nothing(self) -> None:
        command = packets.pack_request(Request(Function.WRITE, COMMAND, 0))
        small = bytearray(b"\xEE" * 13)
        for data, buffer, number in ((command[:-1], bytearray(14), 31), (command[:-1] + b"\x00", bytearray(14), 34),
                                     (command, small, 38), (command[:-1] + b"\x00", small, 34)):
            head = made(boot_polls=1, marks=[False])
            before = bytes(buffer)
            self.assertEqual(refusal(lambda: link.serve(head, data, buffer)), number)
            self.assertEqual((bytes(buffer), head.hung), (before, False))
            self.assertEqual(fault(lambda: head.read(STATUS)), (21, STATUS))

    def test_the_far_end_replies(self) -> None:
        buffer = bytearray(b"\xEE" * 16)
        size = link.serve(made(marks=[False]), EXAMPLE, buffer)
        self.assertEqual(bytes(buffer[:size]), packets.pack_reply(Reply(Function.READ, Status.NO_ACK)))
        self.assertEqual(bytes(buffer[size:]), b"\xEE" * (16 - size))

    def test_the_near_end_refuses_what_is_no_reply(self) -> None:
        written = packets.pack_reply(Reply(Function.WRITE, Status.CARRIED_OUT))
        self.assertEqual(refusal(lambda: link.answer_to(Request(Function.READ, STATUS), written)), 36)


class Modes(unittest.TestCase):
    def test_booting(self) -> None:
        head = made(boot_polls=2)
        self.assertEqual([head.read(address) for address in (0, 4, 6, 8, 0xF800)], [0] * 5)
        self.assertEqual([head.read(STATUS) for _ in range(3)], [0x0000, 0x0000, 0x0006])

    def test_busy(self) -> None:
        head = made(busy_numbers=[2, 1])
        head.write(DATA, 5)
        head.write(LENGTH, 3)
        head.write(COMMAND, 0x0100)
        self.assertEqual([head.read(address) for address in (0, 4, 6, 8, 0xF800)], [0] * 5)
        self.assertEqual([head.read(STATUS) for _ in range(3)], [0x0007, 0x0007, 0xFA06])
        self.assertEqual((head.read(DATA), head.read(LENGTH)), (5, 3))
        self.assertEqual([status_after(head, 0), head.read(STATUS)], [0x0007, 0xF906])
        self.assertEqual(status_after(head, 0), 0xF906)

    def test_a_write_hangs_a_camera_that_boots_or_is_busy(self) -> None:
        for address in (0, 2, 4, 6, 8, 0xFBFE):
            booting, busy = made(boot_polls=1), made(busy_numbers=[3])
            busy.write(COMMAND, 0)
            for head in (booting, busy):
                head.write(address, 0)
                self.assertTrue(head.hung)

    def test_hung(self) -> None:
        head = made(boot_polls=1)
        head.write(LENGTH, 2)
        for address in (COMMAND, LENGTH, DATA):
            head.write(address, 0x0204)
        self.assertEqual([head.read(address) for address in (0, 2, 2, 4, 6, 8, 0xF800)], [0, 7, 7, 0, 0, 0, 0])
        self.assertEqual((head.boot_polls, head.count, head.length), (1, 0, 0))


class Commands(unittest.TestCase):
    def test_each_command_has_one_word(self) -> None:
        words = {camera.command_word(attribute, kind): (attribute, kind) for attribute in ATTRIBUTES for kind in Type}
        self.assertEqual(len(words), 60)
        for word in range(65536):
            command = camera.command_of(word)
            self.assertEqual(command and tuple(command), words.get(word))

    def test_the_protection_bit(self) -> None:
        head = made()
        self.assertEqual(status_after(head, 0x4859, 2, [3, 0]), 0x0006)
        self.assertEqual(head.shown(17), [3, 0])
        self.assertEqual(status_after(head, 0x0859, 2, [2, 0]), 0xF906)
        self.assertEqual(code_after(head, 0x4204, 4), -7)
        self.assertEqual(head.shown(17), [3, 0])

    def test_each_code(self) -> None:
        head = made()
        self.assertEqual(code_after(head, 0x0204, 4), 0)
        self.assertEqual(code_after(head, 0x0204, 3), -6)
        self.assertEqual(code_after(head, 0x0220, 1), -8)
        self.assertEqual(code_after(head, 0x0222, 1), -6)
        self.assertEqual(code_after(head, 0x0205, 4), -8)
        for word in (0x0207, 0x8204, 0x2204, 0x1204, 0x0200, 0xFFFF, 0x4850):
            self.assertEqual(code_after(head, word, 4), -7, word)
        self.assertEqual(status_after(head, 0x0101, 2, [2, 0]), 0xF706)
        self.assertEqual(code_after(head, 0x4862, 0), -18)
        self.assertEqual(code_after(head, 0x485E, 0), 0)
        self.assertEqual(code_after(head, 0x485E, 0), -15)
        self.assertEqual(code_after(head, 0x4862, 0), 0)
        self.assertEqual(head.count, 17)

    def test_the_earlier_code_counts(self) -> None:
        head = made()
        self.assertEqual(code_after(head, 0x0205, 9), -8)
        self.assertEqual(code_after(head, 0x0845, 9), -7)
        self.assertEqual(code_after(head, 0x0101, 3, [2, 0]), -6)
        self.assertEqual(code_after(head, 0x4862, 2), -6)
        self.assertEqual(code_after(head, 0x485E, 0), 0)
        self.assertEqual(code_after(head, 0x485E, 2), -6)

    def test_a_get_leaves_the_registers_behind(self) -> None:
        head = made(serial=0x0123456789ABCDEF)
        self.assertEqual(code_after(head, 0x0208, 4, range(100, 116)), 0)
        data = [head.read(DATA + 2 * place) for place in range(16)]
        self.assertEqual(data, [0xCDEF, 0x89AB, 0x4567, 0x0123, *range(104, 116)])

    def test_the_count_shows_its_own_get(self) -> None:
        head = made()
        self.assertEqual(code_after(head, 0xFFFF), -7)
        self.assertEqual(head.shown(1), [0, 0, 1, 0])
        self.assertEqual(code_after(head, 0x0204, 4), 0)
        self.assertEqual(head.read(DATA + 4), 2)

    def test_the_count_goes_round(self) -> None:
        head = made()
        head.count = 65535
        self.assertEqual(code_after(head, 0x0204, 4, [9, 9, 9, 9]), 0)
        self.assertEqual(head.data[:4], [0, 0, 0, 0])

    def test_a_set_changes_one_attribute(self) -> None:
        random = Random(1)
        for attribute in head_scripts.SETTABLE:
            head, words = made(), set_words.right_words(random, attribute)
            before = [head.shown(number) for number in range(20)]
            (head.block if attribute.words > 16 else head.data)[: len(words)] = words
            self.assertEqual(code_after(head, camera.command_word(attribute, Type.SET), attribute.words), 0)
            before[attribute.number], before[1] = words, [0, 0, 1, 0]
            self.assertEqual([head.shown(number) for number in range(20)], before)

    def test_save_and_restore(self) -> None:
        head = made()
        self.assertEqual(code_after(head, 0x4845, 1, [7]), 0)
        self.assertEqual((code_after(head, 0x485E, 0), head.shown(18)), (0, [1, 0]))
        self.assertEqual(code_after(head, 0x4845, 1, [8]), 0)
        head.block[1] = 0xABCD
        self.assertEqual(code_after(head, 0x0309, 512), 0)
        self.assertEqual(code_after(head, 0x4862, 0), 0)
        self.assertEqual((head.shown(13), head.shown(9)[1]), ([7], 0xABCD))


ENOUGH = 50
"""A budget that is enough."""


def refused(call: Callable[[], object]) -> str:
    """What a call is refused with, or nothing in words."""
    try:
        call()
    except CallRefused as found:
        return str(found)
    return ""


def woken(head: Head) -> Session:
    """A session that is ready, on a head that has booted and has a mark for the wake."""
    session = Session()
    session.wake(head, 1)
    return session


def ready(*busy_numbers: int, marks: str = "") -> tuple[Head, Session]:
    """A head and a session that is ready. The marks are those behind the wake."""
    head = made(busy_numbers=list(busy_numbers), marks=[True, *(mark == "1" for mark in marks)])
    return head, woken(head)


def parked_get() -> tuple[Head, Session]:
    """A head that is busy for two polls, and a session that is parked with a get of the sync delay."""
    head, session = ready(2)
    session.begin(head, Type.GET, 17)
    return head, session


class FirstTests(unittest.TestCase):
    """What is refused before any access."""

    def check(self, head: Head, session: Session, call: Callable[[], object], number: int) -> None:
        before = (session.awake, session.owed)
        with unittest.mock.patch.object(head, "reach", side_effect=AssertionError("an access")):
            self.assertEqual(refused(call), f"refused {number}")
        self.assertEqual((session.awake, session.owed), before)

    def test_1_and_3_come_first(self) -> None:
        for number, (head, session) in ((1, (made(), Session())), (3, parked_get())):
            for attribute, size, budget in itertools.product((17, 20), (2, 3), (0, 5)):
                self.check(head, session, lambda: session.get(head, attribute, [0] * size, budget), number)
                self.check(head, session, lambda: session.set(head, attribute, [0] * size, budget), number)
                self.check(head, session, lambda: session.run(head, attribute, budget), number)

    def test_2(self) -> None:
        for head, session in (ready(), parked_get()):
            for budget in (0, 1, 1001):
                self.check(head, session, lambda: session.wake(head, budget), 2)

    def test_5_comes_before_6_and_7(self) -> None:
        head, session = ready()
        lacking = {Type.GET: [6, 19, 20, 65535], Type.SET: [1, 3, 6, 15, 18, 19, 20, 65535],
                   Type.RUN: [0, 9, 17, 20, 65535]}
        for size, budget in itertools.product((0, 2), (0, 5)):
            for attribute in lacking[Type.GET]:
                self.check(head, session, lambda: session.get(head, attribute, [0] * size, budget), 5)
            for attribute in lacking[Type.SET]:
                self.check(head, session, lambda: session.set(head, attribute, [0] * size, budget), 5)
            for attribute in lacking[Type.RUN]:
                self.check(head, session, lambda: session.run(head, attribute, budget), 5)

    def test_6_comes_before_7(self) -> None:
        head, session = ready()
        wrong = ((17, 1), (17, 3), (17, 0), (9, 511), (9, 513), (9, 2))
        for budget, (attribute, size) in itertools.product((0, 5), wrong):
            self.check(head, session, lambda: session.get(head, attribute, [0] * size, budget), 6)
            self.check(head, session, lambda: session.set(head, attribute, [0] * size, budget), 6)

    def test_7(self) -> None:
        head, session = ready()
        asleep = Session()
        for budget in (0, 1001, 65535):
            self.check(head, asleep, lambda: asleep.wake(head, budget), 7)
            self.check(head, session, lambda: session.get(head, 17, [0] * 2, budget), 7)
            self.check(head, session, lambda: session.set(head, 17, [0] * 2, budget), 7)
            self.check(head, session, lambda: session.run(head, 6, budget), 7)
        self.assertEqual(refused(lambda: session.run(head, 6, 1000)), "")

    def test_a_collection_is_refused_and_stays_parked(self) -> None:
        head, session = parked_get()
        self.check(head, session, lambda: session.collect(head, [0], 0), 6)
        self.check(head, session, lambda: session.collect(head, [0] * 2, 1001), 7)
        self.assertEqual(refused(lambda: session.collect(head, [0] * 2, 3)), "")
        for kind, attribute in ((Type.SET, 17), (Type.RUN, 6)):
            session.begin(head, kind, attribute, [0, 0] if kind == Type.SET else [])
            self.check(head, session, lambda: session.collect(head, [0] * 9, 0), 7)
            self.assertEqual(refused(lambda: session.collect(head, [0] * 9, 1)), "")

    def test_beginning(self) -> None:
        head, session = ready()
        self.check(head, session, lambda: session.begin(head, Type.GET, 19), 5)
        self.check(head, session, lambda: session.begin(head, Type.SET, 3, [1, 2, 3]), 5)
        self.check(head, session, lambda: session.begin(head, Type.SET, 17, [1]), 6)
        self.check(head, session, lambda: session.begin(head, Type.RUN, 17), 5)
        self.assertRaises(ValueError, Session().begin, head, Type.GET, 17)
        self.assertRaises(ValueError, session.collect, head, [], 5)


class Calls(unittest.TestCase):
    """What calls do."""

    def test_wakes(self) -> None:
        head, session = made(boot_polls=3, marks=[True, False]), Session()
        self.assertEqual(refused(lambda: session.wake(head, 1)), "refused 9")
        self.assertEqual(refused(lambda: session.wake(head, 1)), "refused 8 at 0002")
        self.assertEqual(refused(lambda: session.wake(head, 2)), "refused 9")
        self.assertEqual((session.state(), head.boot_polls), (State.ASLEEP, 0))
        self.assertEqual(refused(lambda: session.wake(head, 1)), "")
        self.assertEqual(session.state(), State.READY)

    def test_a_wake_waits_for_a_busy_camera(self) -> None:
        head, session = made(busy_numbers=[2]), Session()
        head.write(COMMAND, 0)
        self.assertEqual(refused(lambda: session.wake(head, 2)), "refused 9")
        self.assertEqual(refused(lambda: session.wake(head, 1)), "")

    def test_all_commands(self) -> None:
        random = Random(2)
        head, session = ready(*[1] * 64)
        for attribute in ATTRIBUTES:
            buffer = [0xEEEE] * attribute.words
            if Type.SET in attribute.types:
                words = set_words.right_words(random, attribute)
                session.set(head, attribute.number, words, 2)
                self.assertEqual((head.shown(attribute.number), head.length), (words, attribute.words))
            if Type.GET in attribute.types:
                session.get(head, attribute.number, buffer, 2)
                self.assertEqual(buffer, head.shown(attribute.number))
            if Type.RUN in attribute.types:
                session.run(head, attribute.number, 2)
                self.assertEqual(head.length, 0)
        self.assertEqual((session.state(), head.count, head.hung), (State.READY, 34, False))

    def test_budgets_about_the_busy_polls(self) -> None:
        for polls in (0, 1, 2, 999):
            head, session = ready(polls)
            session.run(head, 6, polls + 1)
            self.assertEqual(session.state(), State.READY)
        for polls, budget in ((1, 1), (2, 1), (2, 2), (999, 999), (1000, 1000), (1001, 1000), (9999, 1000)):
            head, session = ready(polls)
            self.assertEqual(refused(lambda: session.run(head, 6, budget)), "refused 9")
            self.assertEqual((session.state(), head.busy_polls), (State.PARKED, polls - budget))

    def test_a_refusal_of_the_camera_leaves_a_ready_session(self) -> None:
        head, session = ready(1, 0, 0, 1)
        self.assertEqual(refused(lambda: session.set(head, 17, [4, 0], 5)), "refused 10 code -9")
        self.assertEqual(refused(lambda: session.run(head, 19, 5)), "refused 10 code -18")
        self.assertEqual(refused(lambda: session.run(head, 18, 5)), "")
        self.assertEqual(refused(lambda: session.run(head, 18, 5)), "refused 10 code -15")
        self.assertEqual(session.state(), State.READY)

    def test_a_missing_mark_at_every_place(self) -> None:
        cases: list[tuple[Type, int, list[int]]] = [
            (Type.GET, 17, [LENGTH, COMMAND, STATUS, STATUS, DATA, DATA + 2]),
            (Type.SET, 17, [DATA, DATA + 2, LENGTH, COMMAND, STATUS, STATUS]),
            (Type.RUN, 6, [LENGTH, COMMAND, STATUS, STATUS]),
        ]
        for kind, number, addresses in cases:
            taken = addresses.index(COMMAND)
            for place, address in enumerate(addresses):
                head, session = ready(1, marks="1" * place + "0")
                head.attributes[17] = [1, 0]
                buffer = [0xEEEE] * 2
                call = {Type.GET: lambda: session.get(head, number, buffer, ENOUGH),
                        Type.SET: lambda: session.set(head, number, [2, 0], ENOUGH),
                        Type.RUN: lambda: session.run(head, number, ENOUGH)}[kind]
                self.assertEqual(refused(call), f"refused 8 at {address:04X}")
                stage = Stage.READS if kind == Type.GET and address in (DATA, DATA + 2) else Stage.WAITS
                owed = Owed(kind, ATTRIBUTES[number], stage) if place > taken else None
                self.assertEqual((session.owed, head.count), (owed, int(place > taken)), (kind, place))
                self.assertEqual(buffer, [1, 0xEEEE] if kind == Type.GET and address == DATA + 2 else [0xEEEE] * 2)
                if owed is None:
                    self.assertEqual(refused(call), "")
                    continue
                self.assertEqual(refused(call), "refused 3")
                self.assertEqual(refused(lambda: session.collect(head, buffer, ENOUGH)), "")
                self.assertEqual(buffer, [1, 0] if kind == Type.GET else [0xEEEE] * 2)

    def test_the_block_in_parts(self) -> None:
        head, session = ready(marks="1" * 512 + "0")
        self.assertEqual(refused(lambda: session.set(head, 9, [5] * 512, 1)), "refused 8 at 0006")
        head, session = ready(marks="1" * 514 + "0")
        buffer = [0xEEEE] * 512
        self.assertEqual(refused(lambda: session.get(head, 9, buffer, 1)), "refused 8 at FBFE")
        self.assertEqual(buffer, [0] * 511 + [0xEEEE])

    def test_a_budget_counts_acknowledged_reads(self) -> None:
        head, session = ready(5, marks="1110")
        self.assertEqual(refused(lambda: session.run(head, 6, 1)), "refused 9")
        self.assertEqual(refused(lambda: session.collect(head, [], 1)), "refused 8 at 0002")

    def test_a_hung_camera_is_waited_for_in_vain(self) -> None:
        head, session = ready(1)
        head.write(COMMAND, 0)
        self.assertEqual(refused(lambda: session.get(head, 17, [0] * 2, 20)), "refused 9")
        self.assertEqual((head.hung, session.state()), (True, State.PARKED))

    def test_over_links(self) -> None:
        head = made(busy_numbers=[2], marks=[True] * 6 + [False])
        bus = link.PacketLink(link.PacketLink(head))
        session, buffer = Session(), [0xEEEE] * 2
        session.wake(bus, 1)
        self.assertEqual(refused(lambda: session.get(bus, 17, buffer, ENOUGH)), "refused 8 at 0008")
        self.assertEqual(refused(lambda: session.collect(bus, buffer, ENOUGH)), "")
        self.assertEqual(buffer, [0, 0])


class SetLimits(unittest.TestCase):
    def test_ranges(self) -> None:
        for attribute in ATTRIBUTES:
            if not isinstance(attribute.limits, camera.Between):
                continue
            least, greatest = attribute.limits.least, attribute.limits.greatest
            for number, code in ((least, 0), (greatest, 0), (least - 1, -9), (greatest + 1, -9)):
                words = values.words_of(number, attribute.words)
                self.assertEqual(set_code(attribute.number, *words), code, (attribute.name, number))

    def test_the_high_word_counts(self) -> None:
        self.assertEqual(set_code(0, 1, 0), 0)
        self.assertEqual(set_code(0, 0, 1), -9)
        self.assertEqual(set_code(12, 0xFFFF, 0xFFFF), 0)

    def test_sync_delay(self) -> None:
        for words, code in {(3, 0): 0, (4, 0): -9, (0xFFFD, 0xFFFF): 0, (0xFFFC, 0xFFFF): -9, (0xFFFD, 0): -9}.items():
            self.assertEqual(set_code(17, *words), code, words)

    def test_regions(self) -> None:
        for region in [(1, 1, 3, 3), (1, 1, 78, 58), (76, 56, 78, 58), (57, 1, 59, 3)]:
            self.assertEqual(set_code(11, *region), 0, region)
        for region in [(1, 1, 2, 3), (1, 1, 3, 2), (1, 1, 79, 58), (1, 1, 78, 59), (0, 1, 3, 3), (1, 0, 3, 3)]:
            self.assertEqual(set_code(11, *region), -9, region)
        self.assertEqual(set_code(11, 65535, 1, 1, 3), -9)

    def test_colours(self) -> None:
        for place, code in ((0, -9), (1, 0), (2, -9), (510, -9), (511, 0)):
            head = made()
            head.block[place] = 0x0100
            self.assertEqual(code_after(head, 0x0309, 512), code, place)


class Making(unittest.TestCase):
    def test_start_words(self) -> None:
        head = made(serial=(1 << 64) - 2, temperature=777)
        named = {2: [0xFFFE, 0xFFFF, 0xFFFF, 0xFFFF], 3: [777], 5: [1, 0], 7: [3, 0], 8: [1, 0], 11: [1, 1, 78, 58]}
        named |= {12: [30, 0], 13: [8192]}
        counts = [2, 4, 4, 1, 2, 2, 0, 2, 2, 512, 2, 4, 2, 1, 2, 1, 2, 2, 2, 0]
        for number, count in enumerate(counts):
            self.assertEqual(head.shown(number), named.get(number, [0] * count), number)

    def test_limits(self) -> None:
        right = [{"boot_polls": 9999}, {"busy_numbers": [9999] * 64}, {"marks": [True] * 4096}]
        wrong = [{"boot_polls": 10000}, {"busy_numbers": [0] * 65}, {"busy_numbers": [0] * 63 + [10000]},
                 {"marks": [True] * 4097}]
        for settings in right:
            self.assertIsNone(head_refusal(lambda: made(**settings)))
        for settings in wrong:
            self.assertEqual(head_refusal(lambda: made(**settings)), 53)


class Frames(unittest.TestCase):
    def mean(self, *runs: tuple[int, int]) -> int:
        head = made()
        head.load_frame([value for count, value in runs for _ in range(count)])
        return head.shown(15)[0]

    def test_means(self) -> None:
        self.assertEqual(self.mean((4800, 1)), 1)
        self.assertEqual(self.mean((4799, 1), (1, 0)), 0)
        self.assertEqual(self.mean((4799, 0), (1, 4800)), 1)
        self.assertEqual(self.mean((4800, 16383)), 16383)
        self.assertEqual(self.mean((2400, 16383), (2400, 0)), 8191)

    def test_refusals_change_nothing(self) -> None:
        head = made()
        head.load_frame([9] * 4800)
        frames = {51: [[], [1] * 4799, [1] * 4801, [16384]], 52: [[1] * 4799 + [16384], [65535] + [1] * 4799]}
        for number, refused in frames.items():
            for frame in refused:
                self.assertEqual(head_refusal(lambda: head.load_frame(frame)), number)
        self.assertEqual(head.shown(15), [9])


class ScriptFields(unittest.TestCase):
    def test_numbers(self) -> None:
        for text, value in [("0", 0), ("65535", 65535), ("0xFfFf", 65535), ("0" * 9999 + "7", 7), ("0x0010", 16)]:
            self.assertEqual(script.parse_number(text, 65535, "word"), value)

    def test_what_is_no_number(self) -> None:
        for text in lines.BAD_NUMBERS:
            self.assertRaises(script.FieldError, script.parse_number, text, 65535, "word")
        for text in packet_scripts.BAD_SIZES:
            self.assertRaises(script.FieldError, script.parse_number, text, 1024, "size")

    def test_signed_numbers(self) -> None:
        cases = {"-3": -3, "-0x3": -3, "3": 3, "0": 0, "-2147483648": -(1 << 31), "0x7FFFFFFF": (1 << 31) - 1}
        for text, value in cases.items():
            self.assertEqual(script.parse_signed(text, -(1 << 31), (1 << 31) - 1, "value"), value)
        for text in ("-2147483649", "2147483648", "--3", "-", "- 3", "+3", "-+3", "0x-3", ""):
            self.assertRaises(script.FieldError, script.parse_signed, text, -(1 << 31), (1 << 31) - 1, "value")

    def test_runs(self) -> None:
        for text, run in {"2400x16383": (2400, 16383), "0x0": (0, 0), "007x010": (7, 10), "0x12": (0, 12)}.items():
            self.assertEqual(script.parse_run(text, 65535), run)
        for text in ("1", "x", "1x", "x1", "1x2x3", "0xF", "1X1", "65536x1", "1x65536", "-1x1", "1x+1", ""):
            self.assertRaises(script.FieldError, script.parse_run, text, 65535)

    def test_bytes(self) -> None:
        self.assertEqual([script.parse_byte(text) for text in ("6E", "6e", "00", "fF")], [0x6E, 0x6E, 0, 0xFF])

    def test_what_is_no_byte(self) -> None:
        for text in packet_scripts.BAD_BYTES:
            self.assertRaises(script.FieldError, script.parse_byte, text)

    def test_only_blanks_separate(self) -> None:
        self.assertEqual(script.split_fields(b" \ta\t\tb\r c\fd\r"), ["a", "b", "c", "d"])
        text = "a\x0bb\x1fd\u00a0e\u0085f\u2028g\u3000h"
        self.assertEqual(script.split_fields(text.encode("utf-8")), [text])

    def test_comments(self) -> None:
        self.assertEqual(script.split_fields(b"crc 6E#6F # 70"), ["crc", "6E"])
        self.assertEqual(script.split_fields(b" # crc"), [])

    def test_not_utf_8_even_in_a_comment(self) -> None:
        for line in lines.NOT_UTF_8:
            self.assertRaises(script.FieldError, script.split_fields, line)

    def test_endings(self) -> None:
        ended = {b"a\n": b"a", b"a\r\n": b"a\r", b"a": b"a", b"\n": b"", b"": b""}
        for line, expected in ended.items():
            self.assertEqual(script.without_ending(line), expected)


class Directives(unittest.TestCase):
    def check(self, text: str, *expected: str) -> None:
        self.assertEqual(transcript(text.encode("utf-8")), (list(expected), None))

    def test_crc(self) -> None:
        self.check("crc\ncrc 6E\n", "crc 0000", "crc 8D68")

    def test_request(self) -> None:
        self.check("request read 0x2", "request : 6E 00 00 10 00 02 BC 9A 00 02 20 42")
        self.check("request read 2 14", "request : 6E 00 00 10 00 02 BC 9A 00 02 20 42 EE EE")
        self.check("request read 2 3", "request refused 38 : EE EE EE")
        self.check("request write 2 1 0", "request refused 38 :")

    def test_reply(self) -> None:
        self.check("reply read word 1", "reply : 6E 00 00 10 00 02 BC 9A 00 01 10 21")
        self.check("reply write no-ack 13", "reply refused 38 :" + " EE" * 13)
        for reply in ("read no-ack", "read no-register", "write done", "write no-ack", "write no-register"):
            (answer,), _ = transcript(f"reply {reply} 14".encode())
            self.assertTrue(answer.endswith(" 00 00 EE EE EE EE"), answer)

    def test_unpack_request(self) -> None:
        self.check("unpack-request", "unpack-request refused 31")
        self.check("unpack-request 6e 00 00 10 00 02 bc 9a 00 02 20 42", "unpack-request read 0002")
        (packet,), _ = transcript(b"request write 6 2")
        self.check(packet.replace("request :", "unpack-request"), "unpack-request write 0006 0002")

    def test_unpack_reply(self) -> None:
        answers = {"read word 1": "word 0001", "write done": "done"}
        answers |= {f"{access} {word}": word for access in ("read", "write") for word in ("no-ack", "no-register")}
        for reply, answer in answers.items():
            (packet,), _ = transcript(f"reply {reply}".encode())
            directive = "unpack-reply " + reply.split()[0]
            self.check(packet.replace("reply :", directive), f"unpack-reply {answer}")
        self.check("unpack-reply read", "unpack-reply refused 31")

    def test_errors_of_the_script(self) -> None:
        wrong = packet_scripts.UNKNOWN_DIRECTIVES + packet_scripts.MISSING_FIELDS + packet_scripts.EXTRA_FIELDS
        wrong += packet_scripts.OTHER_WORDS + packet_scripts.IMPOSSIBLE_REPLIES
        wrong += [f"put {value}" for value in packet_scripts.BAD_VALUES]
        wrong += [f"take {words}" for words in packet_scripts.BAD_WORDS]
        for line in [text.encode("utf-8") for text in wrong] + lines.NOT_UTF_8:
            self.assertEqual(transcript(b"crc\n\n#\r\n" + line + b"\ncrc\n"), (["crc 0000"], 4), line)

    def test_put_and_take(self) -> None:
        self.check("put single 5", "put : 0005")
        self.check("put pair 0x12345678", "put : 5678 1234")
        self.check("put signed -3\nput signed -0x3", "put : FFFD FFFF", "put : FFFD FFFF")
        self.check("put region 1,0x2,78,58", "put : 0001 0002 004E 003A")
        self.check("take signed 0xFFFD 65535", "take -3")
        self.check("take region 1 1 78 58", "take 1,1,78,58")
        self.check("take quad 65535 65535 65535 65535", f"take {(1 << 64) - 1}")
        self.check("take single\ntake pair 1\ntake single 1 2", *["take refused 6"] * 3)

    def test_accesses(self) -> None:
        self.check("acks 10 1\nmake\nread 2\nread 2\nwrite 4 0\nread 1\nwrite 0xFFFF 1",
                   "make ok", "read ok 0006", "read refused 21 at 0002", "write ok", "read refused 22 at 0001",
                   "write refused 22 at FFFF")

    def test_state_and_attributes(self) -> None:
        self.check("boot 1\nbusy 3\nmake\nread 2\nwrite 6 2\nwrite 8 4\nwrite 4 0x4859\nstate\nwrite 6 0\nstate",
                   "make ok", "read ok 0000", "write ok", "write ok", "write ok",
                   "state session asleep hung no boot 0 busy 3 code -9 count 1 length 2 saved no", "write ok",
                   "state session asleep hung yes boot 0 busy 3 code -9 count 1 length 2 saved no")
        self.check("serial 0xFFFFFFFFFFFFFFFE\nfpa 1\nmake\nattribute 2\nattribute 3\nattribute 6\nattribute 0x13",
                   "make ok", "attribute 2 : FFFE FFFF FFFF FFFF", "attribute 3 : 0001", "attribute 6 :",
                   "attribute 19 :")

    def test_frames(self) -> None:
        self.check("make\nframe 2400x16383 2400x0\nattribute 15\nframe\nframe 4799x1 1x16384\nattribute 15",
                   "make ok", "frame ok", "attribute 15 : 1FFF", "frame refused 51", "frame refused 52",
                   "attribute 15 : 1FFF")

    def test_a_refused_make_keeps_the_old_head_and_the_settings(self) -> None:
        self.check("fpa 5\nmake\nfpa 6\nboot 10000\nmake\nattribute 3\nboot 0\nmake\nattribute 3",
                   "make ok", "make refused 53", "attribute 3 : 0005", "make ok", "attribute 3 : 0006")

    def test_the_most_that_a_line_may_have(self) -> None:
        self.check("busy" + " 0" * 100 + "\nmake\nbusy\nacks " + "1" * 5000 + "\nmake\nacks\nmake\nframe 65535x1",
                   "make refused 53", "make refused 53", "make ok", "frame refused 51")

    def test_errors_of_scripts_over_heads(self) -> None:
        wrong = head_scripts.TOO_MANY + head_scripts.UNKNOWN + head_scripts.MISSING + head_scripts.EXTRA
        wrong += [f"serial {serial}" for serial in head_scripts.BAD_SERIALS]
        wrong += [f"acks {marks}" for marks in head_scripts.BAD_MARKS]
        wrong += [f"frame {runs}" for runs in head_scripts.BAD_RUNS]
        wrong += [f"attribute {number}" for number in head_scripts.BAD_ATTRIBUTES]
        wrong += [f"links {links}" for links in head_scripts.BAD_LINKS]
        for line in wrong:
            self.assertEqual(transcript(f"make\n{line}\nstate".encode()), (["make ok"], 2), line)

    def test_links(self) -> None:
        for count in range(3):
            self.check(f"acks 10\nlinks {count}\nmake\nread 2\nread 2\nread 1\nframe 4800x7\nattribute 15\nread 2",
                       "make ok", "read ok 0006", "read refused 21 at 0002", "read refused 22 at 0001", "frame ok",
                       "attribute 15 : 0007", "read ok 0006")

    def test_calls(self) -> None:
        self.check("boot 1\nmake\nwake 1\nwake 0\nwake 1\nstate\nwake 1",
                   "make ok", "wake refused 9", "wake refused 7", "wake ok",
                   "state session ready hung no boot 0 busy 0 code 0 count 0 length 0 saved no", "wake refused 2")
        self.check("make\nget 17 2 9\nwake 1\nset 17 1 0xFFFD 65535\nget 17 2 1\nget 17 3 1\nget 6 0 1\nget 17 2 0",
                   "make ok", "get refused 1 : EEEE EEEE", "wake ok", "set ok", "get ok : FFFD FFFF",
                   "get refused 6 : EEEE EEEE EEEE", "get refused 5 :", "get refused 7 : EEEE EEEE")
        self.check("make\nwake 1\nset 17 1 4 0\nset 17 1\nrun 19 1\nrun 18 1\nrun 65535 1\nset 20 0",
                   "make ok", "wake ok", "set refused 10 code -9", "set refused 6", "run refused 10 code -18", "run ok",
                   "run refused 5", "set refused 5")
        self.check("acks 111110\nmake\nwake 1\nget 17 2 9\nget 17 2 9\nmake\nstate",
                   "make ok", "wake ok", "get refused 8 at 000A : 0000 EEEE", "get refused 3 : EEEE EEEE", "make ok",
                   "state session asleep hung no boot 0 busy 0 code 0 count 0 length 0 saved no")

    def test_steps(self) -> None:
        begun = ["make ok", "wake ok", "begin ok"]
        self.check("busy 1\nmake\nwake 1\nbegin get 15\ncollect 1 2\nbegin get 6", *begun, "collect ok : 0000",
                   "begin refused 5")
        self.check("busy 1\nmake\nwake 1\nbegin set 17 3 0\ncollect 1 2\nbegin set 17 1\nget 17 2 1", *begun,
                   "collect ok : EEEE", "begin refused 6", "get ok : 0003 0000")
        self.check("busy 1\nmake\nwake 1\nbegin run 19\ncollect 0 1\nrun 6 1", *begun, "collect refused 9 :",
                   "run refused 3")
        self.check("make\nwake 1\nbegin run 19\ncollect 1 1\nbegin run 6", *begun, "collect refused 10 code -18 : EEEE",
                   "begin ok")
        self.check("make\nwake 1\nbegin get 17\ncollect 3 0\nget 17 2 9", *begun, "collect refused 6 : EEEE EEEE EEEE",
                   "get refused 3 : EEEE EEEE")
        self.check("busy 1\nmake\nwake 1\nbegin get 17\n\n# in flight\npark\nstate\nwrite 6 2\nread 2", *begun,
                   "park ok", "state session parked hung no boot 0 busy 1 code 0 count 1 length 2 saved no", "write ok",
                   "read ok 0007")
        self.check("acks 10\nmake\nwake 1\nbegin get 17\nbegin get 17", "make ok", "wake ok",
                   "begin refused 8 at 0006", "begin ok")

    def test_a_refused_make_keeps_the_session(self) -> None:
        self.check("make\nwake 1\nboot 10000\nmake\nrun 6 1", "make ok", "wake ok", "make refused 53", "run ok")

    def test_errors_of_scripts_with_calls(self) -> None:
        wrong = session_scripts.MISSING + session_scripts.EXTRA + session_scripts.OTHER_WORDS
        wrong += session_scripts.NOT_IN_FLIGHT + [f"get 17 {size} 1" for size in session_scripts.BAD_SIZES]
        for front in ("make", "make\nwake 1", "make\nwake 1\nbegin get 17\npark"):
            line = front.count("\n") + 2
            for text in wrong + ([] if front.endswith("wake 1") else session_scripts.NOT_READY):
                answers, error = transcript(f"{front}\n{text}\nstate".encode())
                self.assertEqual((len(answers), error), (line - 1, line), text)

    def test_errors_while_a_command_is_in_flight(self) -> None:
        for text in session_scripts.WHILE_IN_FLIGHT + session_scripts.WRONG_IN_FLIGHT + session_scripts.OTHER_WORDS:
            answers, error = transcript(f"make\nwake 1\nbegin set 17 0 0\n{text}\npark".encode())
            self.assertEqual((answers, error), (["make ok", "wake ok", "begin ok"], 4), text)

    def test_every_directive_is_tried_while_a_command_is_in_flight(self) -> None:
        tried = {text.split()[0] for text in session_scripts.WHILE_IN_FLIGHT}
        self.assertEqual(tried, set(bench.Bench().directives) - {"collect", "park"})

    def test_calls_need_a_head(self) -> None:
        for text in session_scripts.NO_HEAD:
            self.assertEqual(transcript(f"boot 10000\nmake\n{text}".encode()), (["make refused 53"], 3), text)

    def test_directives_that_need_a_head(self) -> None:
        for line in head_scripts.NO_HEAD:
            self.assertEqual(transcript(f"boot 10000\nmake\n{line}".encode()), (["make refused 53"], 3), line)
            self.assertIsNone(transcript(f"make\n{line}".encode())[1], line)

    def test_empty_scripts(self) -> None:
        for text in (b"", b"\n", b"\r\n", b" \t", b"# nothing"):
            self.assertEqual(transcript(text), ([], None))


class Program(unittest.TestCase):
    def run_bench(self, text: bytes) -> subprocess.CompletedProcess[bytes]:
        command = [sys.executable, os.path.join(HERE, "bench.py")]
        return subprocess.run(command, input=text, capture_output=True, check=False)

    def test_a_right_script(self) -> None:
        done = self.run_bench(b"crc 6E\r\nunpack-request 00")
        self.assertEqual((done.stdout, done.stderr), (b"crc 8D68\nunpack-request refused 31\n", b""))
        self.assertEqual(done.returncode, 0)

    def test_an_error(self) -> None:
        done = self.run_bench(b"crc 6E\ncrc \xff\ncrc")
        self.assertEqual((done.stdout, done.returncode), (b"crc 8D68\n", 1))
        self.assertTrue(done.stderr.startswith(b"error: line 2: "), done.stderr)
        self.assertEqual(done.stderr.count(b"\n"), 1)


class Generated(unittest.TestCase):
    SEEDS = 360
    PACKETS, HEADS, SESSIONS = range(3)

    @classmethod
    def setUpClass(cls) -> None:
        cls.scripts = [generate.generate(seed) for seed in range(cls.SEEDS)]
        cls.transcripts = [transcript(text) for text in cls.scripts]
        cls.answers = {answer for answers, _ in cls.transcripts for answer in answers}

    def test_same_seed_same_script(self) -> None:
        for seed in (7, 8):
            self.assertEqual(generate.generate(seed), self.scripts[seed])
        self.assertNotEqual(self.scripts[7], self.scripts[8])

    def test_lengths_and_errors(self) -> None:
        for seed, (text, (_, error)) in enumerate(zip(self.scripts, self.transcripts)):
            turn, kind = divmod(seed, 3)
            count = len(list(io.BytesIO(text)))
            fewest = {self.HEADS: head_scripts.FEWEST_LINES, self.SESSIONS: 1}
            self.assertIn(count, range(fewest[kind], 70000) if kind in fewest else range(30, 81))
            has_error = {self.PACKETS: turn % 4 == 3, self.HEADS: turn % 5 == 4,
                         self.SESSIONS: session_scripts.has_error(turn)}
            self.assertEqual(error is not None, has_error[kind], seed)

    def require_answers(self, starts: set[str]) -> None:
        for start in starts:
            self.assertTrue(any(answer.startswith(start) for answer in self.answers), start)

    def test_every_kind_of_answer_on_packets_and_values_comes_up(self) -> None:
        wanted = {"crc", "request :", "reply :", "request refused 38", "reply refused 38"}
        wanted |= {"unpack-request read", "unpack-request write", "unpack-reply word", "unpack-reply done"}
        wanted |= {"unpack-reply no-ack", "unpack-reply no-register"}
        wanted |= {f"unpack-request refused {number}" for number in range(31, 38)}
        wanted |= {f"unpack-reply refused {number}" for number in range(31, 38)}
        wanted |= {"put :", "take -", "take refused 6"}
        self.require_answers(wanted)

    def test_every_kind_of_answer_on_heads_comes_up(self) -> None:
        wanted = {"make ok", "make refused 53", "frame ok", "frame refused 51", "frame refused 52"}
        wanted |= {f"{access} refused {number} at" for access in ("read", "write") for number in (21, 22)}
        wanted |= {"read ok 0000", "read ok 0007", "write ok"}
        wanted |= {f"read ok {values.code_byte(code):02X}06" for code in camera.Code}
        wanted |= {f"attribute {number} :" for number in range(20)}
        wanted |= {f"state session asleep hung {hung}" for hung in ("yes", "no")}
        self.require_answers(wanted)

    def test_every_kind_of_answer_of_sessions_comes_up(self) -> None:
        wanted = {"wake ok", "get ok :", "set ok", "run ok", "begin ok", "collect ok :", "park ok"}
        refusals = {"wake": (2, 7, 9), "get": (1, 3, 5, 6, 7, 9), "set": (1, 3, 5, 6, 7, 9), "run": (1, 3, 5, 7, 9),
                    "begin": (5, 6), "collect": (6, 7, 9)}
        wanted |= {f"{name} refused {number}" for name, numbers in refusals.items() for number in numbers}
        reached = {"wake": (2,), "get": (2, 4, 6, 8, 10, 0xFBFE), "set": (2, 4, 6, 8, 10, 0xF800, 0xF802),
                   "run": (2, 4, 6), "begin": (4, 6, 8, 10, 0xF800), "collect": (2, 8, 10, 0xFBFE)}
        wanted |= {f"{name} refused 8 at {address:04X}" for name, addresses in reached.items() for address in addresses}
        wanted |= {f"{name} refused 10 code {code}" for name, code in (
            ("set", -9), ("run", -15), ("run", -18), ("collect", -9), ("collect", -15), ("collect", -18))}
        wanted |= {f"state session {state.value} hung {hung}" for state in State for hung in ("yes", "no")}
        self.require_answers(wanted)

    def test_scripts_end_in_flight_too(self) -> None:
        ends = [answers[-1] for answers, error in self.transcripts if error is None and answers]
        self.assertIn("begin ok", ends)

    def test_every_number_of_links_comes_up(self) -> None:
        counts = {line.split()[1] for text in self.scripts for line in text.split(b"\n") if compare.sets_links(line)}
        self.assertTrue({b"0", b"1", b"2"} <= counts)

    def test_most_cameras_are_kept_alive(self) -> None:
        for kind in (self.HEADS, self.SESSIONS):
            transcripts = [answers for answers, _ in self.transcripts[kind :: 3]]
            hung = [answers for answers in transcripts if any("hung yes" in answer for answer in answers)]
            self.assertIn(len(hung), range(3, len(transcripts) // 4))

    def test_every_draft_fault_and_pair_has_a_packet(self) -> None:
        random = Random(1)
        for faults in itertools.permutations(damage.DRAFT_FAULTS, 2):
            draft = damage.good_reply(random)
            for fault in faults:
                fault(random, draft)
            self.assertGreaterEqual(len(draft.packet()), 10)


class Comparison(unittest.TestCase):
    SCRIPT = compare.Script("a script", b"# first\ncrc\ncrc 6E\nnone\n")
    OUTPUT = b"crc 0000\ncrc 8D68\n"
    ERRORS = b"error: line 4: it is wrong\n"

    def difference(self, output: bytes, errors: bytes, status: Optional[int]) -> Optional[str]:
        expected = compare.run_reference(self.SCRIPT.text)
        return compare.difference(self.SCRIPT, expected, compare.Observed(output, errors, status))

    def test_agreement(self) -> None:
        self.assertIsNone(self.difference(self.OUTPUT, self.ERRORS, 1))

    def test_another_output(self) -> None:
        for output in (b"", b"crc 0000\n", b"crc 0000\ncrc 8D68", b"crc 0000\r\ncrc 8D68\n", self.OUTPUT + b"\n"):
            self.assertIsNotNone(self.difference(output, self.ERRORS, 1), output)
        found = self.difference(b"crc 0000\ncrc 8D69\n", self.ERRORS, 1)
        self.assertIn("a script, output line 2, line 3: crc 6E", found or "")

    def test_another_end(self) -> None:
        for status in (0, 2, 101, -6, None):
            self.assertIsNotNone(self.difference(self.OUTPUT, self.ERRORS, status), status)
        for errors in (b"", b"error: line 3: x", b"error: line 44: x", b"line 4: x", b" error: line 4: x"):
            self.assertIsNotNone(self.difference(self.OUTPUT, errors, 1), errors)

    def test_scripts_are_run_over_links(self) -> None:
        text = b"make\n links\t0x1 # one\nmake\r\nlinks 3\nread 2\nlinks 0"
        over = compare.with_links(compare.Script("a script", text))
        self.assertEqual([run.text for run in over], [text] + [
            b"links %d\nmake\nlinks %d\nmake\r\nlinks 3\nread 2\nlinks %d\n" % (count, count, count) for count in range(3)
        ])
        self.assertEqual(len(compare.with_links(self.SCRIPT)), 1)

    def test_another_transcript_over_links_is_noticed(self) -> None:
        scripts = [compare.Script("a script", b"make\nstate\nnone\n")]
        for wrong, count in ((b"sed 's/^make/crc/'", 4), (b"sed 's/^links [12]/boot 1/'", 2), (b"cat", 0)):
            program = b"#!/bin/sh\n%s | %s %s\n" % (
                wrong, sys.executable.encode(), os.path.join(HERE, "bench.py").encode())
            with tempfile.TemporaryDirectory() as folder:
                path = os.path.join(folder, "wrong")
                with open(path, "wb") as file:
                    file.write(program)
                os.chmod(path, 0o755)
                self.assertEqual(len(compare.compare(path, scripts).differences), count, wrong)

    def test_nothing_compared_is_no_agreement(self) -> None:
        for arguments in (["--seeds", "0"], ["--seeds", "0", os.devnull]):
            command = [sys.executable, os.path.join(HERE, "compare.py"), os.path.join(HERE, "bench.py"), *arguments]
            done = subprocess.run(command, capture_output=True, check=False)
            self.assertEqual(done.returncode, 1, done)

    def test_the_reference_agrees_with_itself(self) -> None:
        command = [sys.executable, os.path.join(HERE, "compare.py"), os.path.join(HERE, "bench.py"), "--seeds", "4"]
        done = subprocess.run(command, capture_output=True, check=False)
        self.assertEqual(done.returncode, 0, done)
        self.assertRegex(done.stdout, rb"^reference: 4 scripts, [0-9]+ lines, all agree\n$")


if __name__ == "__main__":
    unittest.main()
