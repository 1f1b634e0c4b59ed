"""Scripts over camera heads.

The subjects take turns, and so do the cases of a subject, so that some hundred scripts have them all. Each script goes
on with other subjects until it is long enough. Four in five are right throughout; every fifth has one error. A few are
long: they use up all that a head can be made with.
"""

from __future__ import annotations

from dataclasses import replace
from random import Random
from typing import Callable, NamedTuple, Optional

import camera
import set_words
from camera import (
    ATTRIBUTES, BLOCK, BLOCK_WORDS, COLOUR_TABLE, COMMAND, DATA, DATA_WORDS, FRAME_MEAN, HEAD_STATUS, LENGTH, PLACES,
    POWER, RESTORE, STATUS, USER_DEFAULTS, Type,
)
from conversation import Conversation, Run
from damage import any_word
from lines import (
    BAD_NUMBERS, ErrorMaker, Line, any_number, line_of, raw_line, taken, text_line, with_endings, word,
)

FEWEST_LINES = 120
REGISTERS = list(PLACES)
EDGES = [
    0x0000, 0x0001, 0x0002, 0x0003, 0x0004, 0x0005, 0x0006, 0x0007, 0x0008, 0x0009, 0x000A, 0x0024, 0x0025, 0x0026,
    0x0027, 0x0028, 0x002A, 0x0100, 0x0102, 0x0802, 0x7FFE, 0x7800, 0x8000, 0x8002, 0xF002, 0xF7FE, 0xF7FF, 0xF800,
    0xF801, 0xF802, 0xFBFC, 0xFBFD, 0xFBFE, 0xFBFF, 0xFC00, 0xFC02, 0xFFFE, 0xFFFF,
]
"""Addresses at which registers begin and end, and others that differ from a register's in a few bits."""
FLAT_FIELD_TARGET = 13
KINDS = [POWER, STATUS, COMMAND, LENGTH, DATA, DATA + 2 * 15, BLOCK, BLOCK + 2 * 511]
"""A register of each kind; of data and block the first and the last one."""
SETTABLE = [attribute for attribute in ATTRIBUTES if attribute.is_settable()]
SAVED = [attribute for attribute in ATTRIBUTES if attribute.is_saved()]


# Words and addresses


def any_address(random: Random) -> int:
    """An address; those of registers are more likely than others."""
    return random.choice(random.choice([KINDS, REGISTERS, EDGES, range(65536)]))


def any_command_word(random: Random) -> int:
    """A command word: one of an attribute, one with a wrong bit, or any."""
    right = camera.command_word(random.choice(ATTRIBUTES), random.choice([0, 1, 2]))
    return random.choice([right, right, right ^ 1 << random.randrange(16), right | 3, any_word(random)])


def marks(random: Random, count: int, missing: float) -> str:
    """Acknowledgement marks, of which a part is missing."""
    return "".join("0" if random.random() < missing else "1" for _ in range(count))


def small_busy_numbers(random: Random, count: int) -> list[int]:
    """Busy polls that are soon over."""
    return [random.choice([0, 0, 1, 1, 2, 3, 7]) for _ in range(count)]


# Making


def set_up(talk: Conversation) -> None:
    """Settings as most heads have them. Some are left as they are, if a head can be made from them."""
    random = talk.random
    steps: list[Callable[[], None]] = [
        lambda: talk.boot(random.choice([0, 0, 1, 2, 5])),
        lambda: talk.serial(any_number(random, 64)),
        lambda: talk.fpa(any_word(random)),
        lambda: talk.busy(small_busy_numbers(random, random.choice([0, 3, 20, 64]))),
        lambda: talk.acks(marks(random, random.choice([0, 0, 0, 30, 200]), 0.1)),
        lambda: talk.links(random.choice([0, 0, 0, 0, 1, 2])),
    ]
    random.shuffle(steps)
    may_stay = talk.settings.are_right() and max([talk.settings.boot_polls, *talk.settings.busy_numbers]) < 10
    for step in steps:
        if not may_stay or random.random() < 0.8:
            step()


def new_head(talk: Conversation) -> None:
    """Makes a head as most are, and waits until it has booted."""
    if talk.made is None and talk.random.random() < 0.3:
        talk.boot(10000)
        talk.make()
        talk.boot(0)
    set_up(talk)
    talk.make()
    talk.wait()


def fill_registers(talk: Conversation) -> None:
    """Writes words that are not 0 to the length, the data registers and some of the block."""
    random = talk.random
    places = [LENGTH, *range(DATA, DATA + 2 * DATA_WORDS, 2), BLOCK, BLOCK + 2 * 511]
    for address in [*places, BLOCK + 2 * random.randrange(BLOCK_WORDS)]:
        talk.surely_write(address, random.randrange(1, 65536))


def read_kinds(talk: Conversation) -> None:
    """Reads a register of each kind but the status, and an address or two without one."""
    random = talk.random
    addresses = [address for address in KINDS if address != STATUS]
    addresses += [random.choice(EDGES) | 1, any_address(random) | 1]
    for address in random.sample(addresses, len(addresses)):
        talk.read(address)


# Exchanges with an idle camera


def right_set(talk: Conversation) -> None:
    """Sets an attribute within its limits."""
    attribute = talk.random.choice(SETTABLE)
    talk.set(attribute, set_words.right_words(talk.random, attribute))
    talk.look(attribute.number)


def any_set(talk: Conversation) -> None:
    """Sets an attribute at or past some limit."""
    attribute = talk.random.choice(SETTABLE)
    talk.set(attribute, set_words.any_words(talk.random, attribute))
    talk.look(attribute.number)


def any_get(talk: Conversation) -> None:
    """Gets an attribute, and sometimes reads the registers behind."""
    talk.get(talk.random.choice([attribute for attribute in ATTRIBUTES if Type.GET in attribute.types]))
    if talk.random.random() < 0.4:
        talk.read_data()


def any_run(talk: Conversation) -> None:
    """Runs an attribute, and looks at what runs may and may not change."""
    talk.run(talk.random.choice([attribute for attribute in ATTRIBUTES if Type.RUN in attribute.types]))
    talk.look(FLAT_FIELD_TARGET, FRAME_MEAN, USER_DEFAULTS)
    if talk.random.random() < 0.4:
        talk.read_data(4)


def any_command(talk: Conversation) -> None:
    """A command word that may be none, with a length that may be wrong."""
    random = talk.random
    talk.command(any_command_word(random), random.choice([None, 0, 1, 2, 4, 512, any_word(random)]))
    talk.look()
    if random.random() < 0.3:
        talk.write(random.choice([POWER, STATUS]), random.choice([0, 1, any_word(random)]))
        talk.read(STATUS)


def any_frame(talk: Conversation) -> None:
    """The sensor sees something."""
    talk.frame(mixed_frame(talk.random))
    talk.look(FRAME_MEAN)


def stray_words(talk: Conversation) -> None:
    """Words in registers that are of no account for the next command."""
    for _ in range(talk.random.choice([1, 3, 16])):
        talk.surely_write(talk.random.choice(REGISTERS[3:]), any_word(talk.random))


EXCHANGES = [right_set, right_set, any_set, any_get, any_get, any_run, any_command, any_frame, stray_words]


def some_exchanges(talk: Conversation, count: int) -> None:
    """Exchanges of all kinds."""
    for _ in range(count):
        talk.random.choice(EXCHANGES)(talk)


# Subjects. Each is given the turn of its cases.


def exchanges(talk: Conversation, turn: int) -> None:
    """A head is talked to as it should be."""
    new_head(talk)
    some_exchanges(talk, talk.random.randint(6, 12))
    talk.look_at_all()


def command_words(talk: Conversation, turn: int) -> None:
    """All command words of an attribute, and those that differ from them in one bit, with its own length."""
    attribute = taken(ATTRIBUTES, turn)
    new_head(talk)
    fill_registers(talk)
    for kind in Type:
        word = camera.command_word(attribute, kind)
        talk.surely_write(LENGTH, 0 if kind == Type.RUN else attribute.words)
        for near in [word, *[word ^ 1 << bit for bit in range(16)], word | 3, word + 4, word - 4]:
            talk.command(near % 65536)
        talk.look(attribute.number)
    talk.look_at_all()


def lengths(talk: Conversation, turn: int) -> None:
    """All commands of an attribute with right and wrong lengths, and words within its limits or not."""
    random = talk.random
    attribute = taken(ATTRIBUTES, turn)
    new_head(talk)
    fill_registers(talk)
    right = attribute.words
    wrong = [0, 1, 2, 4, 16, 512, right + 1, right - 1, right + 256, 65535, any_word(random)]
    for kind in random.sample(list(Type), 3):
        for length in [right, *random.sample(wrong, 6), right, 0]:
            if attribute.is_settable() and random.random() < 0.5:
                talk.put_words(attribute, set_words.any_words(random, attribute))
            talk.command(camera.command_word(attribute, kind), length % 65536)
        talk.look(attribute.number)
    talk.read_data()
    talk.look_at_all()


def limits(talk: Conversation, turn: int) -> None:
    """Sets of an attribute at and past its limits, in any order."""
    random = talk.random
    attribute = taken(SETTABLE, turn)
    new_head(talk)
    cases = set_words.cases(random, attribute)
    for words in random.sample(cases, len(cases)):
        talk.set(attribute, words)
        talk.say("attribute", attribute.number)
        if random.random() < 0.2:
            talk.get(attribute)
    talk.look_at_all()


def other_limits(talk: Conversation, turn: int) -> None:
    """The same of another attribute."""
    limits(talk, turn + len(SETTABLE) // 2)


def colour_table(talk: Conversation, turn: int) -> None:
    """A colour table with no word 0 goes in through the block, or is refused, and comes out again."""
    random = talk.random
    table = ATTRIBUTES[COLOUR_TABLE]
    new_head(talk)
    talk.set(table, set_words.full_colours(random))
    talk.look(COLOUR_TABLE)
    place = random.choice([0, 1, 510, 511, random.randrange(512)])
    talk.set(table, set_words.colours_with_high_byte(random, place))
    talk.look(COLOUR_TABLE)
    fill_registers(talk)
    talk.get(table)
    if turn % 2 == 0:
        for index in range(BLOCK_WORDS):
            talk.surely_read(BLOCK + 2 * index)
    talk.read_data()
    talk.look_at_all()


def change(talk: Conversation) -> None:
    """Sets all attributes that are saved."""
    for attribute in talk.random.sample(SAVED, len(SAVED)):
        talk.set(attribute, set_words.right_words(talk.random, attribute))


def change_some(talk: Conversation) -> None:
    """Sets an attribute or two."""
    for _ in range(talk.random.choice([1, 1, 2])):
        right_set(talk)


def change_colours(talk: Conversation) -> None:
    """Sets the colour table, which is not saved."""
    talk.set(ATTRIBUTES[COLOUR_TABLE], set_words.colours(talk.random))


def save(talk: Conversation) -> None:
    """Runs the user defaults, sometimes with another length left over."""
    if talk.random.random() < 0.2:
        talk.command(camera.command_word(ATTRIBUTES[USER_DEFAULTS], Type.RUN), talk.random.choice([1, 2, 512]))
    talk.run(ATTRIBUTES[USER_DEFAULTS])
    talk.look_at_all()


def restore(talk: Conversation) -> None:
    """Runs restore, sometimes with another length left over."""
    if talk.random.random() < 0.2:
        talk.command(camera.command_word(ATTRIBUTES[RESTORE], Type.RUN), talk.random.choice([1, 2, 512]))
    talk.run(ATTRIBUTES[RESTORE])
    talk.look_at_all()


def ask_defaults(talk: Conversation) -> None:
    """Gets the user defaults."""
    talk.get(ATTRIBUTES[USER_DEFAULTS])


ORDERS = [
    [restore, change, save, change_colours, change, any_frame, restore],
    [any_frame, change, save, change, restore, change, any_frame, restore],
    [save, ask_defaults, save, change, restore, restore],
    [change_colours, change, save, change_colours, change_some, save, restore],
    [ask_defaults, change, restore, save, restore, change_some, restore],
    [change, save, ask_defaults, change_some, save, change_some, restore, save, change_some, restore],
]
ANY_ORDER = [save, restore, restore, change_some, change_colours, any_frame, ask_defaults]


def defaults(talk: Conversation, turn: int) -> None:
    """Saves and restores, with sets in between."""
    new_head(talk)
    for step in [*taken(ORDERS, turn), *talk.random.choices(ANY_ORDER, k=4)]:
        step(talk)
    if talk.random.random() < 0.3:
        talk.make()
        talk.wait()
        restore(talk)


def registers(talk: Conversation, turn: int) -> None:
    """An idle camera: all the edges, all data registers, and a part of the block or all of it, are written and read."""
    random = talk.random
    new_head(talk)
    block = range(BLOCK, BLOCK + 2 * BLOCK_WORDS, 2)
    data = range(DATA, DATA + 2 * DATA_WORDS, 2)
    stretch = [*block] if turn % 8 == 0 else random.sample(block, 20)
    addresses = [*EDGES, LENGTH, *data, *stretch, *[random.randrange(65536) for _ in range(10)]]
    for address in random.sample(addresses, len(addresses)):
        if address != COMMAND:
            talk.write(address, any_word(random))
    for address in random.sample(addresses, len(addresses)):
        talk.read(address)
    talk.command(camera.command_word(ATTRIBUTES[HEAD_STATUS], Type.GET), random.choice([4, 4, 5]))
    for address in random.sample([*data, *KINDS], len(data) + len(KINDS)):
        talk.read(address)
    talk.look_at_all()


def when_hung(talk: Conversation) -> None:
    """A hung camera: reads, writes and commands of all kinds."""
    random = talk.random
    for _ in range(3):
        talk.read(STATUS)
    read_kinds(talk)
    for address in random.sample(KINDS, 4):
        talk.write(address, any_word(random))
    talk.command(any_command_word(random), random.choice([0, 2]))
    talk.frame(mixed_frame(random))
    read_kinds(talk)
    talk.look_at_all()


def booting(talk: Conversation, turn: int) -> None:
    """A camera that boots is read everywhere. Then it is let boot, or is written to and hangs."""
    random = talk.random
    set_up(talk)
    talk.acks(random.choice(["", "", "1011", "0", "10"]))
    talk.boot(random.choice([1, 2, 3, 4, 5, 9, 30]))
    talk.make()
    read_kinds(talk)
    talk.look(3, 15)
    for _ in range(random.randrange(talk.settings.boot_polls + 1)):
        talk.read(STATUS)
        if random.random() < 0.3:
            talk.read(any_address(random))
    talk.look()
    talk.write(random.choice(EDGES) | 1, any_word(random))
    if turn % 2 == 0:
        talk.surely_write(taken(KINDS, turn // 2), random.choice([0, any_word(random), any_command_word(random)]))
        talk.look()
        if talk.head().hung:
            when_hung(talk)
    talk.wait()
    some_exchanges(talk, 3)
    talk.look_at_all()


def busy(talk: Conversation, turn: int) -> None:
    """A camera that is busy is read everywhere. Then it is let finish, or is written to and hangs."""
    random = talk.random
    set_up(talk)
    talk.busy([0] * random.choice([0, 1, 2]) + [random.choice([1, 2, 3, 5, 20]) for _ in range(random.choice([3, 8]))])
    talk.make()
    talk.wait()
    for _ in range(len(talk.settings.busy_numbers) + 1):
        fill_registers(talk)
        talk.surely_write(LENGTH, random.choice([0, 1, 2, 2, 2, 4]))
        talk.surely_write(COMMAND, any_command_word(random))
        talk.look()
        for _ in range(random.choice([0, 1, 2])):
            talk.read(STATUS)
        read_kinds(talk)
        talk.write(random.choice(EDGES) | 1, any_word(random))
        talk.look()
        talk.wait()
    talk.read_data()
    talk.look_at_all()


def busy_and_hung(talk: Conversation, turn: int) -> None:
    """A camera that is busy is written to, at a register of each kind in turn, and hangs."""
    random = talk.random
    set_up(talk)
    talk.busy([0, 0, *[random.choice([1, 2, 3, 9999]) for _ in range(4)]])
    talk.make()
    talk.wait()
    right_set(talk)
    fill_registers(talk)
    while talk.is_idle():
        talk.surely_write(LENGTH, random.choice([0, 2]))
        talk.surely_write(COMMAND, any_command_word(random))
    talk.surely_write(taken(KINDS, turn), random.choice([0, any_word(random), any_command_word(random)]))
    when_hung(talk)


def busy_numbers(talk: Conversation, turn: int) -> None:
    """The most numbers of busy polls, or fewer, are used up, and then commands take no polls."""
    random = talk.random
    count = taken([64, 64, 1, 30], turn)
    set_up(talk)
    talk.busy([random.randrange(6) for _ in range(count - 1)] + [random.choice([1, 2, 3])])
    talk.make()
    talk.wait()
    for _ in range(count + 2):
        talk.surely_write(COMMAND, any_command_word(random))
        talk.look()
        talk.wait()
    talk.look_at_all()


def unacknowledged_writes(talk: Conversation, turn: int) -> None:
    """A camera that boots, and later is busy, is written to and does not acknowledge, so that it does not hang."""
    random = talk.random
    boot_polls, writes = random.choice([1, 2, 3]), random.choice([1, 2, 4])
    set_up(talk)
    talk.boot(boot_polls)
    talk.busy([random.choice([1, 2, 3])])
    talk.acks("0" * writes + "1" * (boot_polls + 3) + "0" * writes)
    talk.make()
    for command in (None, any_command_word(random)):
        if command is not None:
            talk.write(LENGTH, random.choice([0, 1, 2, 4]))
            talk.write(COMMAND, command)
        for _ in range(writes):
            talk.write(random.choice(KINDS), any_word(random))
        talk.look()
        talk.wait()
    talk.read_data()
    talk.look_at_all()


def wander(talk: Conversation, steps: int, hazard: float) -> None:
    """Accesses without a plan. While the camera is booting or busy, it is written to at a given hazard."""
    random = talk.random
    for _ in range(steps):
        if talk.is_waiting() and random.random() >= hazard:
            talk.read(random.choice([STATUS, STATUS, STATUS, any_address(random)]))
        elif random.random() < 0.4:
            talk.read(any_address(random))
        elif random.random() < 0.4:
            talk.write(COMMAND, any_command_word(random))
        elif random.random() < 0.5:
            talk.write(LENGTH, random.choice([0, 1, 2, 4, 512]))
        else:
            talk.write(any_address(random), any_word(random))
        if random.random() < 0.15:
            talk.look(random.randrange(20))


def acknowledgements(talk: Conversation, turn: int) -> None:
    """Many accesses are not acknowledged, in every mode, until the marks run out."""
    random = talk.random
    set_up(talk)
    talk.boot(random.choice([0, 1, 3]))
    talk.acks(marks(random, random.choice([1, 5, 40, 120]), random.choice([0.2, 0.5, 1.0])))
    talk.make()
    for address in [0x0001, 0xFFFF, STATUS, STATUS, any_address(random)]:
        talk.read(address)
    wander(talk, random.choice([40, 80]), 0.0)
    talk.wait()
    some_exchanges(talk, 3)
    wander(talk, 20, 0.02)
    talk.look_at_all()


def noise(talk: Conversation, turn: int) -> None:
    """Accesses without a plan, until the camera hangs or for some time."""
    set_up(talk)
    talk.make()
    wander(talk, talk.random.choice([60, 120]), talk.random.choice([0.0, 0.05, 0.5]))
    talk.look_at_all()


def counts(talk: Conversation, turn: int) -> None:
    """The count of commands is got between commands of all kinds, right and wrong, and accesses that are none."""
    random = talk.random
    new_head(talk)
    for _ in range(random.randint(5, 10)):
        step = random.choice([any_command, any_run, right_set, any_set])
        step(talk)
        talk.write(random.choice([STATUS, POWER, LENGTH, 0x0005]), any_word(random))
        talk.get(ATTRIBUTES[HEAD_STATUS])
        talk.look(HEAD_STATUS)
    talk.get(ATTRIBUTES[USER_DEFAULTS])
    talk.look_at_all()


class Making(NamedTuple):
    """Settings at or past a limit. Those that are not given stay as they are."""

    boot_polls: Optional[int] = None
    busy_numbers: Optional[tuple[int, ...]] = None
    marks: Optional[str] = None


MAKINGS = [
    Making(boot_polls=9999),
    Making(boot_polls=10000),
    Making(busy_numbers=(9999,)),
    Making(busy_numbers=(10000,)),
    Making(busy_numbers=(1,) * 64),
    Making(busy_numbers=(1,) * 65),
    Making(marks="1" * 4096),
    Making(marks="1" * 4097),
    Making(busy_numbers=(0,) * 63 + (9999,)),
    Making(busy_numbers=(0,) * 63 + (10000,)),
    Making(boot_polls=65535),
    Making(busy_numbers=(0,) * 100),
    Making(marks="1" * 5000),
    Making(boot_polls=9999, busy_numbers=(9999,) * 64, marks="1" * 4096),
    Making(boot_polls=10000, busy_numbers=(10000,) * 65, marks="1" * 4097),
    Making(busy_numbers=(65535, 1)),
    Making(marks="0" * 4097),
    Making(busy_numbers=(0,) * 65, boot_polls=1),
]


def set_up_making(talk: Conversation, case: Making) -> None:
    """The settings of a case, and others for what has no limit."""
    if case.boot_polls is not None:
        talk.boot(case.boot_polls)
    if case.busy_numbers is not None:
        talk.busy(case.busy_numbers)
    if case.marks is not None:
        talk.acks(case.marks)
    talk.serial(any_number(talk.random, 64))
    talk.fpa(any_word(talk.random))


def make_right(talk: Conversation) -> None:
    """Makes a head after a refusal. Only the settings that were refused are others."""
    settings = talk.settings
    if settings.boot_polls > camera.MOST_POLLS:
        talk.boot(3)
    if not replace(settings, boot_polls=0, marks=[]).are_right():
        talk.busy([2, 1])
    if len(settings.marks) > camera.MOST_MARKS:
        talk.acks("101")
    talk.make()


def makings(talk: Conversation, turn: int) -> None:
    """Heads are made at and past the limits. The old head stays where a new one is refused."""
    random = talk.random
    for case in (taken(MAKINGS, 2 * turn), taken(MAKINGS, 2 * turn + 1), random.choice(MAKINGS)):
        new_head(talk)
        right_set(talk)
        set_up_making(talk, case)
        if not talk.make() and random.random() < 0.5:
            make_right(talk)
        talk.look_at_all()
        for address in [STATUS, STATUS, LENGTH, DATA, STATUS]:
            talk.read(address)
        if talk.is_idle():
            talk.surely_write(LENGTH, 2)
            talk.surely_write(COMMAND, any_command_word(random))
            talk.look()
            talk.read(STATUS)
        talk.look(0, 2)


def split_run(random: Random, run: Run) -> list[Run]:
    """A run as one or two that say the same, and sometimes an empty one."""
    count, value = run
    first = random.randint(0, count)
    return random.choice([[run], [run], [(first, value), (count - first, value)], [(0, 65535), run]])


FRAMES: list[list[Run]] = [
    [(4800, 1)], [(4799, 1)], [(4801, 1)], [(4799, 1), (1, 0)], [(1, 0), (4799, 1)], [(4799, 0), (1, 4800)],
    [(4799, 0), (1, 4799)], [(4800, 16383)], [(4799, 16383), (1, 16382)], [(4799, 0), (1, 16384)],
    [(1, 16384), (4799, 0)], [(2400, 16383), (2400, 0)], [], [(4800, 16384)], [(4800, 0)], [(65535, 0)],
    [(4799, 16383), (1, 65535)], [(2400, 0), (1, 16384), (2399, 0)], [(2399, 16383), (2401, 0)], [(1, 5)],
    [(4799, 16383)], [(4801, 16383)], [(2400, 1), (2400, 2)], [(2399, 2), (2401, 1)], [(9600, 1)], [(4800, 65535)],
    [(4801, 16384)], [(80, 100), (4720, 0)], [(60, 16383), (4740, 1)], [(1, 16384)], [(4720, 100), (80, 0)],
    [(4799, 32768), (1, 0)],
]
"""Frames at and past the limits, and means that are just whole or just not."""


def mixed_frame(random: Random) -> list[Run]:
    """A frame of runs that are all right."""
    ends = sorted(random.sample(range(1, 4800), random.choice([0, 1, 5, 30])))
    brightest = random.choice([1, 2, 255, 16383])
    return [(end - start, random.randint(0, brightest)) for start, end in zip([0, *ends], [*ends, 4800])]


def frames(talk: Conversation, turn: int) -> None:
    """Frames at and past the limits, and their means."""
    random = talk.random
    new_head(talk)
    for case in range(8):
        frame = taken(FRAMES, 5 * turn + case)
        talk.frame(part for run in frame for part in split_run(random, run))
        talk.look(FRAME_MEAN)
        if random.random() < 0.3:
            talk.get(ATTRIBUTES[FRAME_MEAN])
        if random.random() < 0.3:
            talk.frame(mixed_frame(random))
            talk.look(FRAME_MEAN)
    if turn % 4 == 0:
        talk.frame((1, random.randint(0, 16383)) for _ in range(4800))
    talk.look_at_all()


SUBJECTS: list[Callable[[Conversation, int], None]] = [
    exchanges,
    command_words,
    limits,
    defaults,
    registers,
    booting,
    lengths,
    busy,
    busy_numbers,
    frames,
    acknowledgements,
    makings,
    unacknowledged_writes,
    counts,
    busy_and_hung,
    colour_table,
    noise,
    other_limits,
]
"""What scripts are about. The number of subjects and that of scripts to one with an error have no common divisor."""


# Long scripts


def all_marks(talk: Conversation) -> None:
    """All marks of a head are used up; the last ones are missing."""
    random = talk.random
    talk.busy([])
    talk.boot(0)
    talk.acks(marks(random, 4090, 0.01) + random.choice(["000000", "101010", "111110"]))
    talk.make()
    for _ in range(4100):
        talk.read(random.choice([STATUS, LENGTH, DATA]))
    talk.look_at_all()


def all_boot_polls(talk: Conversation) -> None:
    """The most boot polls are used up."""
    talk.boot(9999)
    talk.make()
    for _ in range(9990):
        talk.read(STATUS)
    talk.wait()
    talk.look_at_all()


def all_busy_polls(talk: Conversation) -> None:
    """The most busy polls are used up."""
    talk.busy([9999, 2])
    talk.make()
    for attribute in (ATTRIBUTES[2], ATTRIBUTES[3], ATTRIBUTES[HEAD_STATUS]):
        talk.surely_write(LENGTH, attribute.words)
        talk.surely_write(COMMAND, camera.command_word(attribute, Type.GET))
        while talk.is_waiting():
            talk.read(STATUS)
        talk.wait()
        talk.read_data()
    talk.look_at_all()


def all_counts(talk: Conversation) -> None:
    """The count of commands goes once round."""
    talk.make()
    for _ in range(65534):
        talk.write(COMMAND, 0)
    for _ in range(3):
        talk.get(ATTRIBUTES[HEAD_STATUS])
        talk.look(HEAD_STATUS)


LONG_SUBJECTS: list[Callable[[Conversation], None]] = [
    all_marks,
    all_counts,
    all_boot_polls,
    all_busy_polls,
]
LONG_EVERY = 100
LONG_FIRST = 25


# Errors. The most telling cases come first.

NO_HEAD = [
    "read 2", "state", "write 4 0", "attribute 0", "frame 4800x1", "frame", "read 1", "attribute 19", "write 1 1",
    "frame 1x16384",
]
"""What needs a head."""
BAD_SERIALS = [
    "18446744073709551616", "0x10000000000000000", "-1", "1_0", "18446744073709551617", "0x", "+1", "1,1", "1.0", "FF",
    "99999999999999999999999", "36893488147419103232", "-0", "\u0661",
]
BAD_MARKS = ["2", "1 0 2", "0x1", "1,0", "-1", "01a", "1 1 x", "\u0661", "11_00", "1.0", "111121111", "+1", "ok"]
BAD_RUNS = [
    "4800", "65536x1", "1x65536", "x1", "4800x", "4800X1", "1x2x3", "4800x0x1", "-1x5", "1x-5", "4800x1 x", "4800 x 1",
    "0x1F", "4800x1,", "+1x1", "1*1", "4800x1 -", "1_0x1", "18446744073709556416x1", "4800x18446744073709551617",
    "4800x\u0661", "1x1 1", "0xFFFF", "4294967296x1", "1x", "x", "4800x1.0", "1x4294967297",
]
TOO_MANY = [
    "busy" + " 0" * 101, "acks " + "1" * 5001, "frame 65535x1 1x1", "acks" + " 10" * 2501, "frame 32768x0 32768x0",
    "busy" + " 9999" * 150, "frame 1x0 65535x0", "acks" + " 1" * 5001, "frame 4800x1 65535x1 4800x1",
    "frame 65535x16384 65535x1",
]
BAD_LINKS = ["3", "0x3", "-1", "256", "65536", "258", "two", "1 1", "", "+1", "0x", "65537", "4294967297", "1,1"]
BAD_ATTRIBUTES = ["20", "0x14", "255", "65535", "32", "256", "21", "276", "-1", "0x100", "1x1", "65536", "020"]
UNKNOWN = [
    "Make", "reads 2", "attributes 1", "State", "head", "poll", "mak", "READ 2", "status", "ack 1", "frames", "boots 1",
    "made", "serials 1", "write-word 4 0", "read:2", "attribute-1",
]
MISSING = [
    "write 4", "read", "attribute", "boot", "serial", "fpa", "write", "write 4 # 0", "read # 2", "boot #",
    "attribute\t",
]
EXTRA = [
    "make 1", "state 1", "read 2 2", "write 4 0 0", "attribute 1 1", "boot 1 2", "serial 1 2", "fpa 1 2", "make ok",
    "state all", "attribute 17 :", "read 2 0x", "make make",
]


def bad_number_line(random: Random, turn: int) -> Line:
    """A number that is none of 16 bits, in some place where one has to stand."""
    bad = taken(BAD_NUMBERS, turn)
    fields = random.choice(
        [["boot", bad], ["fpa", bad], ["busy", bad], ["busy", "1", bad, "2"], ["read", bad],
         ["write", bad, word(random)], ["write", word(random), bad], ["attribute", bad]]
    )
    return line_of(random, fields)


class Error(NamedTuple):
    """What makes lines with an error, and whether they are errors only while there is no head."""

    maker: ErrorMaker
    without_head: bool = False


ERRORS = [
    Error(bad_number_line),
    Error(text_line(TOO_MANY)),
    Error(text_line([f"attribute {number}" for number in BAD_ATTRIBUTES])),
    Error(text_line(NO_HEAD), without_head=True),
    Error(text_line([f"frame {runs}" for runs in BAD_RUNS])),
    Error(text_line(MISSING)),
    Error(text_line(EXTRA)),
    Error(text_line([f"acks {marks}" for marks in BAD_MARKS])),
    Error(text_line(UNKNOWN)),
    Error(text_line([f"serial {serial}" for serial in BAD_SERIALS])),
    Error(text_line([f"links {links}" for links in BAD_LINKS])),
    Error(raw_line),
]
"""The errors by kind."""


def put_error(talk: Conversation, turn: int) -> None:
    """Puts an error into the script: on any line or on the last one, or before there is a head."""
    kind_turn, kind = divmod(turn, len(ERRORS))
    last = len(talk.lines) - 1
    place = talk.random.choice([last, talk.random.randrange(last)])
    if ERRORS[kind].without_head:
        place = talk.random.randrange(talk.first_head_place + 1)
    talk.lines[place] = ERRORS[kind].maker(talk.random, kind_turn)


# Scripts


def grow(talk: Conversation, turn: int) -> None:
    """The lines of a script that is not long: the subject whose turn it is, and others."""
    case, subject = divmod(turn, len(SUBJECTS))
    SUBJECTS[subject](talk, case)
    while len(talk.lines) < FEWEST_LINES:
        talk.random.choice(SUBJECTS)(talk, talk.random.randrange(1000))


def head_script(random: Random, turn: int) -> bytes:
    """The script whose turn it is."""
    talk = Conversation(random)
    error_turn, fifth = divmod(turn, 5)
    if turn % LONG_EVERY == LONG_FIRST:
        taken(LONG_SUBJECTS, turn // LONG_EVERY)(talk)
    else:
        grow(talk, turn)
        if fifth == 4:
            put_error(talk, error_turn)
    return with_endings(random, talk.lines)
