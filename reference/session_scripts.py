"""Scripts of calls on a session with a camera head, and of raw accesses between them.

The subjects take turns, and so do the cases of a subject, as in the scripts over camera heads. A script goes on with
other subjects until it is long enough. Every third one has an error at its end.
"""

from __future__ import annotations

from random import Random
from typing import Callable, NamedTuple, Optional, Sequence, Union

import camera
import set_words
from camera import (
    ATTRIBUTES, BLOCK, COLOUR_TABLE, COMMAND, DATA, DATA_WORDS, FRAME_MEAN, HEAD_STATUS, LENGTH, RESTORE, STATUS,
    USER_DEFAULTS, Attribute, Type,
)
from conversation import Conversation
from damage import any_word
from head_scripts import KINDS, SAVED, SETTABLE, any_address, any_command_word, mixed_frame
from lines import BAD_NUMBERS, ErrorMaker, Line, any_number, line_of, silent_line, taken, text_line, with_endings, word
from session import MOST_BUDGET, CallRefused, Session, State

FEWEST_LINES = 60
OFFERED = [(attribute, kind) for attribute in ATTRIBUTES for kind in attribute.types]
"""All commands there are."""
SHORT = [(attribute, kind) for attribute, kind in OFFERED if attribute.words <= DATA_WORDS or kind == Type.RUN]
"""The commands whose words pass through the data registers, or that have none."""
NUMBERS = [*range(21), 65535]
"""Numbers of attributes: all there are, and two that are none."""
BUDGETS = [0, 1, 2, MOST_BUDGET, MOST_BUDGET + 1, 65535]
PLENTY = [10, 50, 100, MOST_BUDGET]
"""Budgets that the cameras of most subjects never use up."""
NAMES = {Type.GET: "get", Type.SET: "set", Type.RUN: "run"}


class SessionTalk(Conversation):
    """A script that makes calls as well. It follows the session that its lines leave."""

    def __init__(self, random: Random) -> None:
        super().__init__(random)
        self.session = Session()
        self.in_flight: Optional[Type] = None
        """The kind of the command in flight, if there is one."""

    def say(self, *fields: Union[str, int]) -> None:
        """Adds a line. A command that is in flight is collected or parked by it."""
        super().say(*fields)
        self.in_flight = None

    def make(self) -> bool:
        """Makes a head and a session, and says whether there are new ones."""
        is_new = super().make()
        if is_new:
            self.session = Session()
        return is_new

    def follow(self, call: Callable[[], None]) -> bool:
        """Makes a call on the session that is followed, and says whether it was carried out."""
        try:
            call()
        except CallRefused:
            return False
        return True

    def state(self) -> State:
        """The state of the session."""
        return self.session.state()

    # Calls

    def call_wake(self, budget: int) -> bool:
        """Wakes the session."""
        self.say("wake", budget)
        return self.follow(lambda: self.session.wake(self.head(), budget))

    def call_get(self, number: int, size: int, budget: int) -> bool:
        """Gets an attribute."""
        self.say("get", number, size, budget)
        return self.follow(lambda: self.session.get(self.head(), number, [0] * size, budget))

    def call_set(self, number: int, words: Sequence[int], budget: int) -> bool:
        """Sets an attribute."""
        self.say("set", number, budget, *words)
        return self.follow(lambda: self.session.set(self.head(), number, words, budget))

    def call_run(self, number: int, budget: int) -> bool:
        """Runs an attribute."""
        self.say("run", number, budget)
        return self.follow(lambda: self.session.run(self.head(), number, budget))

    def call(self, kind: Type, number: int, words: Sequence[int], budget: int) -> bool:
        """A command. What counts of the words for a get is how many there are."""
        if kind == Type.GET:
            return self.call_get(number, len(words), budget)
        return self.call_set(number, words, budget) if kind == Type.SET else self.call_run(number, budget)

    # Steps

    def begin(self, kind: Type, number: int, words: Sequence[int] = ()) -> bool:
        """Begins a command on the ready session, and says whether it is in flight. Only a set goes with the words."""
        sent = words if kind == Type.SET else ()
        self.say("begin", NAMES[kind], number, *sent)
        begun = self.follow(lambda: self.session.begin(self.head(), kind, number, sent))
        self.in_flight = kind if begun else None
        return begun

    def collect(self, size: int, budget: int) -> bool:
        """Collects the command in flight."""
        self.say("collect", size, budget)
        return self.follow(lambda: self.session.collect(self.head(), [0] * size, budget))

    def park(self) -> None:
        """Parks the command in flight."""
        self.say("park")

    def is_ready(self) -> bool:
        """Whether the session is ready."""
        return self.state() == State.READY


# Words


def words_for(random: Random, attribute: Attribute, kind: Type) -> list[int]:
    """Words as many as the attribute has. Those for a set are within its limits."""
    return set_words.right_words(random, attribute) if kind == Type.SET else [0] * attribute.words


def wrong_size(random: Random, size: int) -> int:
    """Another size than the right one."""
    sizes = [0, 1, 2, 3, 4, 5, 16, 17, size + 1, abs(size - 1), 2 * size, 511, 512, 513]
    return random.choice([other for other in sizes if other != size and other <= 1024])


def any_words(random: Random, attribute: Attribute) -> list[int]:
    """Words for a set at or past some limit, or any if there is none."""
    return set_words.any_words(random, attribute) if attribute.is_settable() else [any_word(random)] * attribute.words


# Making and waking


def new_head(talk: SessionTalk, busy: Sequence[int] = (), boot: int = 0, acks: str = "") -> None:
    """A head with its session. Settings that are as they were are not given again."""
    random = talk.random
    if talk.made is None or random.random() < 0.2:
        talk.serial(any_number(random, 64))
        talk.fpa(any_word(random))
        talk.links(0 if random.random() < 0.8 else random.choice([1, 2]))
    if talk.settings.boot_polls != boot:
        talk.boot(boot)
    if talk.settings.busy_numbers != list(busy):
        talk.busy(busy)
    if talk.settings.marks != [mark == "1" for mark in acks]:
        talk.acks(acks)
    talk.make()


def ready_head(talk: SessionTalk, busy: Sequence[int] = (), acks: str = "") -> None:
    """A head whose session is ready. One mark is for the poll of the wake, if there are any."""
    new_head(talk, busy, 0, "1" + acks if acks else "")
    talk.call_wake(talk.random.choice([1, *PLENTY]))


def keep_ready(talk: SessionTalk, busy: Sequence[int] = ()) -> None:
    """Makes a new head if the session is no longer ready."""
    if not talk.is_ready():
        ready_head(talk, busy)


def small_busy(random: Random) -> list[int]:
    """A list of busy polls that are soon over."""
    return [random.choice([0, 0, 1, 2, 3, 5]) for _ in range(random.choice([0, 1, 10, 64]))]


# Subjects. Each is given the turn of its cases.


def round_trip(talk: SessionTalk, number: int, budget: int) -> None:
    """A set of words at or past some limit, and a get."""
    attribute = ATTRIBUTES[number]
    talk.call_set(number, set_words.any_words(talk.random, attribute), budget)
    talk.call_get(number, attribute.words, budget)


def calls(talk: SessionTalk, turn: int) -> None:
    """A session is used as it should be."""
    random = talk.random
    boot = random.choice([0, 1, 2, 5])
    new_head(talk, small_busy(random), boot)
    talk.call_wake(random.choice([boot + 1, *PLENTY]))
    for _ in range(random.choice([10, 20])):
        attribute, kind = random.choice(SHORT)
        talk.call(kind, attribute.number, words_for(random, attribute, kind), random.choice(PLENTY))
        if kind != Type.GET:
            talk.look(attribute.number)
    talk.look_at_all()


def attributes(talk: SessionTalk, turn: int) -> None:
    """All three commands of every number of an attribute, in any order, whole or in steps."""
    random = talk.random
    ready_head(talk, small_busy(random))
    cases = [(number, kind) for number in NUMBERS for kind in Type]
    for number, kind in random.sample(cases, len(cases)):
        attribute = ATTRIBUTES[number] if number < len(ATTRIBUTES) else None
        if attribute is None or kind == Type.SET and not attribute.is_settable():
            words = [1] * (0 if attribute is None else attribute.words)
        else:
            words = words_for(random, attribute, kind)
        if random.random() < 0.7:
            talk.call(kind, number, words, random.choice(PLENTY))
        elif talk.begin(kind, number, words):
            talk.collect(len(words), random.choice(PLENTY))
    talk.look_at_all()


def sizes(talk: SessionTalk, turn: int) -> None:
    """Wrong numbers of words, for every attribute, with budgets that are right or wrong."""
    random = talk.random
    ready_head(talk)
    for number in random.sample(NUMBERS, len(NUMBERS)):
        size = ATTRIBUTES[number].words if number < len(ATTRIBUTES) else 2
        for kind in (Type.GET, Type.SET):
            wrong = [any_word(random) for _ in range(wrong_size(random, size))]
            talk.call(kind, number, wrong, random.choice([0, 1, 1000, 1001, *PLENTY]))
    talk.call_get(COLOUR_TABLE, 1024, 1)
    talk.call_set(COLOUR_TABLE, [0] * random.choice([511, 513, 600]), 1)
    for kind, wrong in ((Type.GET, 3), (Type.SET, 3), (Type.RUN, 0)):
        keep_ready(talk)
        talk.begin(kind, 13, [1] * (1 if kind == Type.GET else wrong))
        if talk.in_flight is not None:
            talk.collect(wrong, 5)
            talk.look(13)
    talk.look(9)


def every_call(talk: SessionTalk, size: int, budget: int) -> None:
    """All calls with a size and a budget, in any order, on an attribute that has the command or on none."""
    random = talk.random
    steps: list[Callable[[], object]] = [
        lambda: talk.call_wake(budget),
        lambda: talk.call_get(random.choice([17, 17, 6, 20]), size, budget),
        lambda: talk.call_set(random.choice([17, 17, 3, 65535]), [0] * size, budget),
        lambda: talk.call_run(random.choice([6, 6, 17, 20]), budget),
    ]
    for step in random.sample(steps, len(steps)):
        step()


def tests_in_order(talk: SessionTalk, turn: int) -> None:
    """Calls of all kinds in each state of the session, with sizes and budgets that are right or wrong."""
    random = talk.random
    new_head(talk)
    every_call(talk, random.choice([2, 3]), taken([0, 1001, 65535], turn))
    talk.look()
    for budget in random.sample(BUDGETS, 3):
        if not talk.is_ready():
            ready_head(talk)
        every_call(talk, random.choice([1, 2, 512]), budget)
        talk.look()
    ready_head(talk, [taken([0, 1, 3], turn)])
    if talk.begin(*random.choice([(Type.GET, 17), (Type.RUN, 13)])):
        talk.park()
    for budget in random.sample(BUDGETS, 3):
        every_call(talk, random.choice([0, 2, 3]), budget)
    talk.look(17)


def budgets(talk: SessionTalk, turn: int) -> None:
    """Every command with each budget, on cameras that are busy for a poll or so."""
    random = talk.random
    for case, budget in enumerate(random.sample(BUDGETS, len(BUDGETS))):
        attribute, kind = taken(SHORT, len(BUDGETS) * turn + case)
        words = words_for(random, attribute, kind)
        ready_head(talk, [random.choice([0, 1, 2])] * 2)
        talk.call(kind, attribute.number, words, budget)
        talk.look()
        keep_ready(talk, [random.choice([0, 1, 2])])
        if talk.begin(kind, attribute.number, words):
            talk.collect(len(words), budget)
        talk.look(attribute.number)


LONG_POLLS = [0, 1, 2, 7, 30, 998, 999, 1000, 1001, 2000, 9999]


def budgets_about(polls: int) -> list[int]:
    """Budgets that are just too small and just enough for a number of polls, where that can be."""
    return sorted({min(budget, MOST_BUDGET) for budget in (polls, polls + 1, polls + 2, MOST_BUDGET) if budget > 0})


def busy(talk: SessionTalk, turn: int) -> None:
    """A camera that is busy for some time, and budgets about it, for a get, a set and a run."""
    random = talk.random
    polls = taken(LONG_POLLS, turn)
    talk.links(0)
    for budget in budgets_about(polls):
        attribute, kind = random.choice(SHORT)
        words = words_for(random, attribute, kind)
        ready_head(talk, [polls, random.choice([0, 5])])
        if random.random() < 0.7:
            talk.call(kind, attribute.number, words, budget)
        elif talk.begin(kind, attribute.number, words):
            talk.collect(len(words), budget)
        talk.look(attribute.number)
        talk.call_get(17, 2, random.choice([1, budget]))
        if random.random() < 0.3:
            talk.read(STATUS)
            talk.look()


def booting(talk: SessionTalk, turn: int) -> None:
    """A camera that boots for some time is woken, with budgets about it, until it is awake."""
    polls = taken(LONG_POLLS, turn)
    talk.links(0)
    for budget in budgets_about(polls):
        new_head(talk, [], polls)
        wakes = 0
        while not talk.call_wake(budget) and wakes < 12:
            talk.look()
            wakes += 1
            if talk.random.random() < 0.3:
                every_call(talk, 2, talk.random.choice([0, 1]))
        talk.look()
        talk.call_get(3, 1, 1)


def waking(talk: SessionTalk, turn: int) -> None:
    """A camera has had raw commands, right and wrong, before it is woken, and may still be busy with the last one."""
    random = talk.random
    for _ in range(4):
        polls = random.choice([0, 1, 3, 1000])
        new_head(talk, [1, 0, polls])
        for _ in range(3):
            talk.wait()
            talk.surely_write(LENGTH, random.choice([0, 1, 2]))
            talk.surely_write(COMMAND, any_command_word(random))
        talk.look()
        talk.call_wake(random.choice(budgets_about(polls)))
        talk.look()
        talk.call_wake(MOST_BUDGET)
        talk.call_get(HEAD_STATUS, 4, 1)


def places(random: Random, count: int) -> list[int]:
    """All places of a short list; of a long one the ends and some."""
    if count <= 30:
        return [*range(count)]
    return sorted({0, 1, 16, *range(count - 4, count), *random.sample(range(count), 2)})


def missing_marks(talk: SessionTalk, attribute: Attribute, kind: Type) -> None:
    """A command of which each access in turn is not acknowledged, on a camera that is busy for some polls."""
    random = talk.random
    polls = random.choice([0, 1, 2])
    words = words_for(random, attribute, kind)
    passed = 0 if kind == Type.RUN else attribute.words
    for place in places(random, passed + 2 + polls + 1):
        tail = random.choice(["", "1", "0", "10", "01"])
        ready_head(talk, [polls], "1" * place + "0" + tail)
        if random.random() < 0.7:
            talk.call(kind, attribute.number, words, random.choice([polls + 1, 50]))
        elif talk.begin(kind, attribute.number, words):
            talk.collect(attribute.words, random.choice([polls + 1, 50]))
        talk.look(attribute.number)
        if talk.is_ready():
            talk.call(kind, attribute.number, words, random.choice([1, 50]))
        elif random.random() < 0.3:
            talk.call_get(17, 2, 10)
            talk.wait()
            talk.read_data(2)


def unacknowledged(talk: SessionTalk, turn: int) -> None:
    """Acknowledgement marks that are missing at every place of a get, a set and a run."""
    for kind in Type:
        missing_marks(talk, taken([attribute for attribute, other in SHORT if other == kind], turn), kind)


def unacknowledged_block(talk: SessionTalk, turn: int) -> None:
    """Marks that are missing at places of a get or a set of the colour table."""
    talk.links(0)
    missing_marks(talk, ATTRIBUTES[COLOUR_TABLE], taken([Type.GET, Type.SET], turn))


def unacknowledged_wake(talk: SessionTalk, turn: int) -> None:
    """Marks that are missing at every poll of a wake."""
    random = talk.random
    polls = taken([0, 1, 2, 4], turn)
    for place in range(polls + 2):
        for budget in {polls, polls + 1, place, place + 1}:
            new_head(talk, [], polls, "1" * place + "0" + random.choice(["", "0", "101"]))
            talk.call_wake(budget)
            talk.look()
            talk.call_wake(random.choice([1, polls, 50]))
            talk.call_get(17, 2, 1)


def many_missing(talk: SessionTalk, turn: int) -> None:
    """Calls as they come, while many accesses are not acknowledged."""
    random = talk.random
    for _ in range(4):
        missing = random.choice([0.02, 0.1, 0.3])
        marks = "".join("0" if random.random() < missing else "1" for _ in range(random.choice([20, 100, 400])))
        new_head(talk, small_busy(random), random.choice([0, 1, 3]), marks)
        tries = 0
        while not talk.call_wake(random.choice([1, 2, 10])) and tries < 10:
            tries += 1
        for _ in range(12):
            any_call(talk)
        talk.look(17, 13)


def sets_and_gets(talk: SessionTalk, turn: int) -> None:
    """Sets of an attribute at and past its limits, each followed by a get, or by the set in steps."""
    random = talk.random
    attribute = taken([attribute for attribute in SETTABLE if attribute.number != COLOUR_TABLE], turn)
    ready_head(talk, small_busy(random))
    cases = set_words.cases(random, attribute)
    for words in random.sample(cases, min(len(cases), 16)):
        if random.random() < 0.7:
            talk.call_set(attribute.number, words, random.choice(PLENTY))
        elif talk.begin(Type.SET, attribute.number, words):
            talk.collect(random.choice([0, 2, 1]), random.choice(PLENTY))
        if random.random() < 0.8:
            talk.call_get(attribute.number, attribute.words, random.choice(PLENTY))
        else:
            talk.look(attribute.number)
    talk.look_at_all()


def run_somehow(talk: SessionTalk, number: int) -> None:
    """Runs what an attribute stands for, whole or in steps."""
    if talk.is_ready() and talk.random.random() < 0.3:
        if talk.begin(Type.RUN, number):
            talk.collect(talk.random.choice([0, 1]), 50)
    else:
        talk.call_run(number, 50)


def save(talk: SessionTalk) -> None:
    """Runs the user defaults."""
    run_somehow(talk, USER_DEFAULTS)


def restore(talk: SessionTalk) -> None:
    """Runs restore."""
    run_somehow(talk, RESTORE)


def change(talk: SessionTalk) -> None:
    """Sets attributes that are saved."""
    for attribute in talk.random.sample(SAVED, talk.random.choice([1, 4, len(SAVED)])):
        talk.call_set(attribute.number, set_words.right_words(talk.random, attribute), 50)


def change_colours(talk: SessionTalk) -> None:
    """Sets the colour table, which is not saved."""
    talk.call_set(COLOUR_TABLE, set_words.colours(talk.random), 50)


def ask(talk: SessionTalk) -> None:
    """Gets the user defaults, the status and an attribute that is saved."""
    attribute = talk.random.choice(SAVED)
    for number in (USER_DEFAULTS, HEAD_STATUS, attribute.number):
        talk.call_get(number, ATTRIBUTES[number].words, 50)


ORDERS = [
    [restore, change, save, change, restore, ask],
    [save, save, change, restore, restore],
    [change, save, change_colours, change, restore],
    [ask, change, restore, save, ask, change, save, restore],
]


def defaults(talk: SessionTalk, turn: int) -> None:
    """Saves and restores, with sets and gets in between."""
    ready_head(talk, small_busy(talk.random))
    for step in [*taken(ORDERS, turn), *talk.random.choices([save, restore, change, ask], k=3)]:
        step(talk)
    for attribute in SAVED:
        talk.call_get(attribute.number, attribute.words, 50)
    talk.look_at_all()


def colour_table(talk: SessionTalk, turn: int) -> None:
    """The colour table is set and got, whole or in steps; a high byte in a wrong word is refused."""
    random = talk.random
    ready_head(talk, small_busy(random))
    talk.call_set(COLOUR_TABLE, set_words.full_colours(random), 50)
    talk.call_get(COLOUR_TABLE, 512, 50)
    talk.call_set(COLOUR_TABLE, set_words.colours_with_high_byte(random, taken([0, 1, 510, 511, 256, 255], turn)), 50)
    talk.surely_write(taken([BLOCK, BLOCK + 2 * 511, DATA], turn), any_word(random))
    if talk.begin(Type.GET, COLOUR_TABLE):
        talk.collect(taken([512, 512, 512, 511, 513, 1024, 0], turn), 50)
    keep_ready(talk)
    if talk.begin(Type.SET, COLOUR_TABLE, set_words.colours(random)):
        talk.collect(taken([0, 1, 512], turn), 50)
    talk.look(COLOUR_TABLE)


def frames(talk: SessionTalk, turn: int) -> None:
    """Frames, and gets of their means. A frame that comes while a get is parked is too late for it."""
    random = talk.random
    ready_head(talk, small_busy(random))
    for _ in range(6):
        talk.frame(random.choice([mixed_frame(random), [(4800, random.choice([0, 16383, 16384]))], [(1, 5)]]))
        talk.call_get(FRAME_MEAN, 1, random.choice(PLENTY))
    if talk.begin(Type.GET, FRAME_MEAN):
        talk.park()
    talk.frame(mixed_frame(random))
    talk.call_get(FRAME_MEAN, 1, 50)
    talk.wait()
    talk.read_data(1)
    talk.look(FRAME_MEAN)


def steps(talk: SessionTalk, turn: int) -> None:
    """Commands in steps: begun, collected with budgets and sizes that are right or not, or parked."""
    random = talk.random
    for case in range(8):
        attribute, kind = taken(SHORT, 8 * turn + case)
        keep_ready(talk, small_busy(random))
        if not talk.begin(kind, attribute.number, words_for(random, attribute, kind)):
            continue
        ending = random.choice(["collect", "collect", "collect", "wrong size", "wrong budget", "both wrong", "park"])
        if ending == "park":
            talk.park()
            talk.look()
            every_call(talk, 2, random.choice(BUDGETS))
            continue
        size = wrong_size(random, attribute.words) if ending in ("wrong size", "both wrong") else attribute.words
        budget = random.choice([0, 1001, 65535] if ending in ("wrong budget", "both wrong") else PLENTY)
        talk.collect(size, budget)
        talk.look(attribute.number)
        if random.random() < 0.3:
            every_call(talk, 2, 10)


def raw(talk: SessionTalk, turn: int) -> None:
    """Raw reads and writes between calls: of registers that calls use, and whole commands."""
    random = talk.random
    ready_head(talk, small_busy(random))
    for _ in range(8):
        attribute, kind = random.choice(SHORT)
        if talk.is_idle():
            talk.write(random.choice([LENGTH, DATA, DATA + 2, BLOCK, STATUS]), any_word(random))
        talk.call(kind, attribute.number, words_for(random, attribute, kind), random.choice([1, 2, 50]))
        talk.read(random.choice([STATUS, LENGTH, *KINDS]))
        talk.read_data(attribute.words if kind != Type.RUN else 1)
        if random.random() < 0.3 and talk.is_idle():
            talk.command(any_command_word(random), random.choice([None, 0, 1, 2, 4]))
            talk.look()
        if random.random() < 0.3:
            talk.read(any_address(random))
        keep_ready(talk, small_busy(random))
    talk.look_at_all()


def raw_while_busy(talk: SessionTalk, turn: int) -> None:
    """Raw accesses to a camera that is busy with a parked command: reads, and in some cases a write, which hangs it."""
    random = talk.random
    attribute, kind = taken(SHORT, turn)
    polls = random.choice([2, 3, 6])
    ready_head(talk, [polls])
    if random.random() < 0.5:
        talk.call(kind, attribute.number, words_for(random, attribute, kind), 1)
    elif talk.begin(kind, attribute.number, words_for(random, attribute, kind)):
        talk.park()
    for address in random.sample(KINDS, 4):
        talk.read(address)
    talk.call_get(17, 2, 5)
    if turn % 3 == 0:
        talk.write(taken(KINDS, turn // 3), random.choice([0, any_word(random), any_command_word(random)]))
        talk.look()
    talk.wait()
    every_call(talk, 2, 10)
    if talk.is_idle() and random.random() < 0.5:
        talk.command(any_command_word(random), random.choice([0, 2]))
        every_call(talk, 2, 10)
    talk.look_at_all()


def hung(talk: SessionTalk, turn: int) -> None:
    """A camera that is hung under a session that is ready or asleep: its calls wait in vain."""
    random = talk.random
    case = turn % 4
    new_head(talk, [random.choice([1, 4])], 2 if case == 0 else 0)
    if case != 0:
        talk.call_wake(5)
    talk.surely_write(COMMAND, any_command_word(random))
    if case in (0, 1):
        talk.surely_write(taken(KINDS, turn // 4), any_word(random))
    talk.look()
    if case == 0:
        talk.call_wake(random.choice([1, 10]))
        talk.call_wake(2)
    else:
        attribute, kind = random.choice(SHORT)
        talk.call(kind, attribute.number, words_for(random, attribute, kind), random.choice([1, 20]))
    every_call(talk, 2, 3)
    talk.look(17)


def remakes(talk: SessionTalk, turn: int) -> None:
    """Heads that are refused leave the session as it was, and heads that are made begin one that is asleep."""
    random = talk.random
    for state in random.sample(list(State), 3):
        new_head(talk, [random.choice([0, 1])])
        if state != State.ASLEEP:
            talk.call_wake(10)
        if state == State.PARKED and talk.begin(Type.GET, 17):
            talk.park()
        talk.boot(10000)
        talk.make()
        talk.boot(0)
        talk.look()
        every_call(talk, 2, 10)
        if random.random() < 0.5:
            talk.make()
            talk.look()
            every_call(talk, 2, 10)


def any_call(talk: SessionTalk) -> None:
    """A call of any kind, whole or in steps, mostly right."""
    random = talk.random
    attribute, kind = random.choice(SHORT)
    words = any_words(random, attribute) if kind == Type.SET else [0] * attribute.words
    if random.random() < 0.05:
        words = [0] * wrong_size(random, attribute.words)
    number = random.choice(NUMBERS) if random.random() < 0.05 else attribute.number
    budget = random.choice([*PLENTY, 1, 2, 3]) if random.random() < 0.9 else random.choice(BUDGETS)
    if random.random() < 0.05:
        talk.call_wake(budget)
    elif talk.is_ready() and random.random() < 0.3:
        if talk.begin(kind, number, words):
            if random.random() < 0.1:
                talk.park()
            else:
                talk.collect(len(words), budget)
    else:
        talk.call(kind, number, words, budget)


def noise(talk: SessionTalk, turn: int) -> None:
    """Calls and reads without a plan. A session that is parked for some time gets a new head."""
    random = talk.random
    ready_head(talk, small_busy(random))
    for _ in range(40):
        any_call(talk)
        if random.random() < 0.2:
            talk.read(random.choice([STATUS, STATUS, any_address(random)]))
        if random.random() < 0.15:
            talk.look(random.randrange(20))
        if not talk.is_ready() and random.random() < 0.4:
            ready_head(talk, small_busy(random))


SUBJECTS: list[Callable[[SessionTalk, int], None]] = [
    calls,
    unacknowledged,
    busy,
    attributes,
    steps,
    defaults,
    tests_in_order,
    booting,
    raw,
    sizes,
    sets_and_gets,
    unacknowledged_wake,
    budgets,
    colour_table,
    frames,
    raw_while_busy,
    remakes,
    many_missing,
    noise,
    unacknowledged_block,
    hung,
    waking,
]
"""What scripts are about. The number of subjects and that of scripts to one with an error have no common divisor."""


# Errors, at the end of a script. The most telling cases come first.


class Place(NamedTuple):
    """Where an error stands: in which state of the session, or while a command is in flight."""

    state: Optional[State]
    in_flight: bool = False


ANYWHERE = Place(None)
IN_FLIGHT = Place(None, in_flight=True)

NO_HEAD = [
    "wake 1", "get 17 2 100", "set 17 100 0 0", "run 6 100", "begin get 17", "begin set 17 0 0", "begin run 6",
    "collect 2 100", "park", "wake 0", "get 20 0 0", "run 20 1001", "set 65535 0", "begin run 65535", "collect 0 0",
]
"""What needs a head."""
NOT_IN_FLIGHT = ["collect 2 100", "park", "collect 0 0", "collect 1024 65535"]
"""What needs a command in flight."""
NOT_READY = ["begin get 17", "begin set 17 0 0", "begin run 6", "begin get 20", "begin set 17", "begin run 17"]
"""What needs a session that is ready."""
WHILE_IN_FLIGHT = [
    "boot 1", "read 2", "state", "make", "begin run 6", "wake 10", "get 17 2 100", "write 6 0", "crc 6E",
    "set 17 10 0 0", "run 6 10", "attribute 17", "frame 4800x1", "busy", "acks", "links 0", "serial 1", "fpa 1",
    "put single 5", "take single 5", "request read 2", "reply write done", "unpack-request 6E", "unpack-reply read 6E",
    "begin get 17", "begin set 17 0 0", "busy 1", "acks 1", "links 1", "crc",
]
"""What is an error while a command is in flight."""
THIRD = len(WHILE_IN_FLIGHT) // 3
MISSING = [
    "wake", "get 17 2", "set 17", "run 17", "begin", "begin get", "begin set", "begin run", "get", "get 17", "set",
    "run", "begin get # 17", "set 17 # 100",
]
EXTRA = [
    "wake 1 1", "get 17 2 100 0", "run 6 100 0", "begin get 17 2", "begin run 6 0", "wake 1000 1", "get 17 2 100 :",
    "begin get 17 2 100", "run 6 100 1", "begin run 13 1",
]
BAD_SIZES = ["1025", "0x401", "-1", "65535", "65536", "1_0", "0x", "two", "4294967296", "18446744073709551616"]
OTHER_WORDS = [
    "begin erase 17", "begin 17", "begin Get 17", "begin wake 1", "begin begin get 17", "begin collect 2 1",
    "begin park", "begin get get", "Wake 1", "waked 1", "gets 17 2 100", "resume 2 100", "resume", "sets 17 100 0 0",
    "check 17", "SET 17 100 0 0", "runs 6 1", "parks", "collects 2 1", "check_set 17 0 0", "begin resume 2", "wake ok",
    "get attribute 17 2 1", "begin-get 17", "set 17 100 : 0 0", "set 17 100 FFFD FFFF", "set 17 100 -3",
    "set 17 100 1,1",
]
WRONG_IN_FLIGHT = [
    "collect", "collect 2", "park 1", "collect 2 100 0", "collect 1025 1", "collect 2 65536", "collect -1 1",
    "collect 2 x", "collect 0x401 1", "park ok", "collect : 1", "Park", "collect 2 0x",
]


def bad_number_line(random: Random, turn: int) -> Line:
    """A number that is none of 16 bits, in some place where one has to stand."""
    bad = taken(BAD_NUMBERS, turn)
    fields = random.choice(
        [["wake", bad], ["get", bad, "2", "100"], ["get", "17", "2", bad], ["set", bad, "100", "0", "0"],
         ["set", "17", bad, "0", "0"], ["set", "17", "100", bad, "0"], ["set", "17", "100", "0", bad],
         ["run", bad, "1"], ["run", "6", bad], ["begin", "get", bad], ["begin", "run", bad],
         ["begin", "set", bad, "0"], ["begin", "set", "17", "0", bad], ["begin", "set", "17", "0", word(random), bad]]
    )
    return line_of(random, fields)


class Error(NamedTuple):
    """What makes lines with an error, and where they stand."""

    maker: ErrorMaker
    place: Place = ANYWHERE


ERRORS = [
    Error(text_line(WHILE_IN_FLIGHT[:THIRD]), IN_FLIGHT),
    Error(text_line(NOT_IN_FLIGHT), Place(State.READY)),
    Error(text_line(NOT_READY), Place(State.PARKED)),
    Error(text_line(MISSING)),
    Error(text_line(WHILE_IN_FLIGHT[THIRD:2 * THIRD]), IN_FLIGHT),
    Error(text_line(EXTRA), Place(State.READY)),
    Error(bad_number_line, Place(State.READY)),
    Error(text_line(NOT_READY), Place(State.ASLEEP)),
    Error(text_line([f"get 17 {size} 100" for size in BAD_SIZES])),
    Error(text_line(OTHER_WORDS), Place(State.READY)),
    Error(text_line(WRONG_IN_FLIGHT), IN_FLIGHT),
    Error(text_line(NOT_IN_FLIGHT), Place(State.PARKED)),
    Error(text_line(WHILE_IN_FLIGHT[2 * THIRD:]), IN_FLIGHT),
    Error(text_line(NOT_IN_FLIGHT), Place(State.ASLEEP)),
]
"""The errors by kind, but for those that need a head."""


def bring_to(talk: SessionTalk, place: Place) -> None:
    """Brings the session to where an error is to stand, with a new head where it is not there."""
    if place.in_flight:
        keep_ready(talk)
        while not talk.begin(*talk.random.choice([(Type.GET, 17, []), (Type.SET, 17, [1, 0]), (Type.RUN, 6, [])])):
            ready_head(talk)
    elif place.state is not None and talk.state() != place.state:
        new_head(talk)
        if place.state != State.ASLEEP:
            talk.call_wake(1)
        if place.state == State.PARKED and talk.begin(Type.GET, 17):
            talk.park()


def put_error(talk: SessionTalk, turn: int) -> None:
    """Puts an error at the end of the script, and sometimes more lines behind it; or one where there is no head yet."""
    kind_turn, kind = divmod(turn, len(ERRORS) + 1)
    if kind == len(ERRORS):
        del talk.lines[talk.random.randrange(talk.first_head_place + 1):]
        talk.lines.append(text_line(NO_HEAD)(talk.random, kind_turn))
    else:
        bring_to(talk, ERRORS[kind].place)
        talk.lines.append(ERRORS[kind].maker(talk.random, kind_turn))
    if talk.random.random() < 0.3:
        talk.lines += [*silent_line(talk.random), b"crc 6E", b"state"]


# Scripts

ERROR_EVERY = 3


def has_error(turn: int) -> bool:
    """Whether the script of a turn ends with an error."""
    return turn % ERROR_EVERY == ERROR_EVERY - 1


def session_script(random: Random, turn: int) -> bytes:
    """The script whose turn it is."""
    talk = SessionTalk(random)
    case, subject = divmod(turn, len(SUBJECTS))
    SUBJECTS[subject](talk, case)
    while len(talk.lines) < FEWEST_LINES:
        talk.random.choice(SUBJECTS)(talk, talk.random.randrange(1000))
    if has_error(turn):
        put_error(talk, turn // ERROR_EVERY)
    elif talk.is_ready() and random.random() < 0.3:
        talk.begin(Type.RUN, 6)
    return with_endings(random, talk.lines)
