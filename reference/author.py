"""The author of random programs: it chooses what is written next.

The choice looks at the state of the task that needs the operator, so that most
operators make sense there. Some are wild.
"""

from __future__ import annotations

import random
from collections import deque
from collections.abc import Callable
from dataclasses import dataclass, field

from loader import Listing, literal_of_proc
from machine import Frame, Task
from syllables import OPERATORS, Form, Operator, place_behind
from words import (
    GREATEST_NUMBER,
    Element,
    Fault,
    Operand,
    Original,
    Place,
    Proc,
    Ref,
    Row,
    Word,
    bits_of_number,
    couple_bits,
)

FIRST_PLACE = Place(0, 0)
# How often a fault of an operator that is tried is taken, at most. Others are common.
FAULT_SHARES = {
    Fault.UPLEVEL: 0.5,
    Fault.CRITICAL_BLOCK: 0.2,
    Fault.LOOP: 0.5,
    Fault.INVALID_INDEX: 0.15,
    Fault.MEMORY_PROTECT: 0.15,
    Fault.MARK_PENDING: 0.2,
    Fault.DIVIDE_BY_ZERO: 0.5,
    Fault.INTEGER_OVERFLOW: 0.5,
    Fault.EXPONENT: 0.1,
    Fault.STACK_OVERFLOW: 0.1,
}
COMMON_FAULT_SHARE = 0.03
PLAIN_OPERATORS = [name for name, (_, form) in OPERATORS.items() if form is Form.PLAIN]
ARRAYDEC, PRINT, PRINTROW, READ, PROCESS, AWAIT, STATUS, WAIT, CAUSE, DEALLOCATE, RESIZE = range(
    8, 19
)


# A weight, and what writes some operators.
Choice = tuple[int, Callable[[], list[Operator]]]


@dataclass(frozen=True)
class Features:
    """What decks may use."""

    lengths: bool = False  # DEALLOCATE and RESIZE
    tasks: bool = False  # PROCESS, AWAIT, STATUS, WAIT, CAUSE
    jobs: bool = False  # several jobs


@dataclass
class GrowingSegment:
    """A segment that is being written."""

    level: int
    operators: dict[Place, tuple[Operator, Place]] = field(default_factory=dict)
    end: Place = FIRST_PLACE
    plan: deque[Operator] = field(default_factory=deque)
    entries: set[Place] = field(default_factory=set)

    def append(self, operator: Operator) -> None:
        """Writes one operator at the end."""
        behind = place_behind(self.end, operator.name)
        self.operators[self.end] = (operator, behind)
        self.end = behind

    def listing(self) -> Listing:
        return Listing(self.operators, None, 0)


@dataclass
class GrowingProgram:
    """A program that is being written."""

    segments: list[GrowingSegment]
    rows: list[list[int]]


class Author:
    """Chooses what is written next, by the state of the task that needs it."""

    def __init__(self, rng: random.Random, features: Features) -> None:
        self.rng = rng
        self.features = features
        self.fault_share = rng.choice([0.0, 0.1, 0.3, 1.0])
        self.wild_share = rng.choice([0.01, 0.05, 0.2])
        self.closing = False
        self.shown: set[Frame] = set()
        self.program = GrowingProgram([], [])
        self.segment = GrowingSegment(2)
        self.task: Task | None = None

    def takes(self, fault: Fault) -> bool:
        """Whether a task is to end by this fault."""
        share = FAULT_SHARES.get(fault, COMMON_FAULT_SHARE)
        return self.rng.random() < share * self.fault_share

    # --- What is seen -----------------------------------------------------------

    @property
    def running(self) -> Frame:
        return self.task.running_frame()

    def visible(self, wanted: Callable[[Word], bool]) -> list[int]:
        """The couples of all cells in reach of a couple that hold a wanted word."""
        running = self.running
        level = running.level
        frame = running
        found = []
        while frame.level > 0:
            for offset, word in reversed(list(enumerate(frame.cells, start=2))):
                if wanted(word):
                    found.append(couple_bits(frame.level, offset, level))
            frame = frame.environment
        found.reverse()
        return [bits for bits in found if bits is not None]

    def has(self, *kinds: type) -> bool:
        """Whether a couple can name a word of one of these kinds."""
        return bool(self.visible(lambda word: isinstance(word, kinds)))

    def cell(self, *kinds: type) -> int:
        """The couple of a cell that holds a word of one of these kinds."""
        careful = self.rng.random() < 0.9
        couples = self.visible(
            lambda word: isinstance(word, kinds) and not (careful and self.recurs(word))
        )
        if not couples or self.rng.random() < self.wild_share / 4:
            return self.any_couple()
        recent = couples[-3:]
        return self.rng.choice(couples if self.rng.random() < 0.6 else recent)

    def recurs(self, word: Word) -> bool:
        """Whether a call of this procedure would be made within a call of its segment."""
        if not isinstance(word, Proc):
            return False
        active = {frame.returns_to.segment for frame in self.task.frames if frame.returns_to}
        return word.segment in active | {self.task.position.segment}

    def any_couple(self) -> int:
        """A couple that may name nothing."""
        rng, level = self.rng, self.running.level
        if rng.random() < 0.1:
            return couple_bits(0, self.any_intrinsic(), level)
        bits = couple_bits(rng.randint(0, level), rng.randint(0, 9), level)
        return bits if bits is not None else couple_bits(1, 2, level)

    def any_intrinsic(self) -> int:
        """The number of an intrinsic that decks may use, or a number beside them."""
        numbers = [7, ARRAYDEC, PRINT, PRINTROW, READ, 19]
        numbers += range(PROCESS, CAUSE + 1) if self.features.tasks else []
        numbers += [DEALLOCATE, RESIZE] if self.features.lengths else []
        return self.rng.choice(numbers)

    # --- Single operators -------------------------------------------------------

    def namc(self, *kinds: type) -> Operator:
        return Operator("NAMC", self.cell(*kinds))

    def intrinsic(self, number: int) -> Operator:
        return Operator("NAMC", couple_bits(0, number, self.running.level))

    def valc(self) -> Operator:
        return Operator("VALC", self.cell(Operand, Operand, Element, Proc, Ref))

    def small(self) -> Operator:
        """A small number, mostly."""
        rng = self.rng
        match rng.randrange(10):
            case 0:
                return Operator("ZERO")
            case 1:
                return Operator("ONE")
            case 2:
                return Operator("LT16", rng.randrange(1 << 16))
            case 3:
                return Operator("LT48", self.any_bits())
            case _:
                return Operator("LT8", rng.randrange(12))

    def any_bits(self) -> int:
        """48 bits: a number, mostly."""
        rng = self.rng
        match rng.randrange(20):
            case 0:
                return rng.getrandbits(48)
            case 1:
                return bits_of_number(rng.choice([1, -1]) * (GREATEST_NUMBER - rng.randrange(3)))
            case 2:
                return rng.choice([1 << 46, 1 << 47, 1 << 45, 1 << 39, 0x800000000000])
            case _:
                return bits_of_number(rng.randint(-1000, 1000))

    def mpcw(self) -> Operator:
        """A procedure of a segment that is one level deeper, if there is one."""
        deeper = [
            number
            for number, segment in enumerate(self.program.segments, start=1)
            if segment.level == self.segment.level + 1
        ]
        if not deeper:
            return Operator("NOOP")
        number = self.rng.choice(deeper)
        segment = self.program.segments[number - 1]
        place = FIRST_PLACE
        starts = [start for start in segment.operators if start != FIRST_PLACE]
        if starts and self.rng.random() < 0.15 and len(segment.entries) < 200:
            place = self.rng.choice(starts)
            segment.entries.add(place)
        return Operator("MPCW", literal_of_proc(Proc(number + 1, segment.level, place)))

    def number_operator(self) -> Operator:
        rng = self.rng
        names = "ADD ADD SUBT SUBT MULT IDIV RDIV LESS GREQ GRTR LSEQ EQUL NEQL CHSN"
        names += " LAND LOR LNOT LEQV SAME BSET BRST ISOL INSR"
        name = rng.choice(names.split())
        if name in ("BSET", "BRST"):
            return Operator(name, rng.randrange(50))
        if name in ("ISOL", "INSR"):
            high = rng.randrange(49)
            return Operator(name, high, rng.randrange(min(high + 3, 256)))
        return Operator(name)

    def back_branch(self) -> Operator:
        """A branch to a place that was written before."""
        name = self.rng.choice(["BRTR", "BRFL"] * 5 + ["BRUN"])
        starts = list(self.segment.operators)
        return Operator(name, *self.rng.choice(starts[-12:])) if starts else Operator("NOOP")

    def wild(self) -> Operator:
        """An operator that may make no sense here."""
        rng = self.rng
        match rng.randrange(12):
            case 0 | 1 | 2:
                return Operator(rng.choice(["VALC", "NAMC"]), self.any_couple())
            case 3 | 4:
                return self.number_operator()
            case 5:
                return self.back_branch()
            case 6:
                return self.mpcw()
            case _:
                names = [name for name in PLAIN_OPERATORS if name != "NVLD"]
                return Operator(rng.choice(names))

    # --- Several operators in a row ---------------------------------------------

    def called(self, number: int, *arguments: Operator) -> list[Operator]:
        """The call of an intrinsic."""
        return [Operator("MKST"), self.intrinsic(number), *arguments, Operator("ENTR")]

    def array_words(self) -> int:
        rng = self.rng
        return rng.choice([1, 2, rng.randint(3, 12), rng.randint(13, 70), rng.randint(71, 250)])

    def declare(self) -> list[Operator]:
        return self.called(ARRAYDEC, Operator("LT8", self.array_words()))

    def print_number(self) -> list[Operator]:
        return self.called(PRINT, self.valc())

    def print_row(self) -> list[Operator]:
        return self.called(PRINTROW, self.namc(Original, Row, Ref), Operator("LOAD"))

    def read(self) -> list[Operator]:
        return self.called(READ)

    def procedure(self) -> list[Operator]:
        """A procedure word, in a cell of its own."""
        return [self.mpcw()]

    def call(self) -> list[Operator]:
        """The call of a procedure, with some arguments."""
        arguments = [self.argument() for _ in range(self.rng.randrange(4))]
        flat = [operator for argument in arguments for operator in argument]
        return [Operator("MKST"), self.namc(Proc, Ref), *flat, Operator("ENTR")]

    def argument(self) -> list[Operator]:
        """What a procedure may be given."""
        match self.rng.randrange(16):
            case 0:
                return self.declare()
            case 1 | 2:
                return [self.valc()]
            case 3 | 4:
                return [self.namc(Operand, Proc, Original, Element), Operator("STFF")]
            case 5 | 6:
                return [self.namc(Original, Row), Operator("LOAD")]
            case 7 | 8:
                return self.element()
            case 9 | 10:
                return [self.namc(Proc), Operator("STFF")]
            case 11 | 12:
                return [self.namc(Operand, Element)]
            case _:
                return [self.small()]

    def element(self) -> list[Operator]:
        """An element copy, in a cell of its own."""
        operators = [self.namc(Original, Original, Row, Ref), self.index()]
        if self.rng.random() < 0.5:
            operators.reverse()
        return [*operators, Operator("INDX")]

    def index(self) -> Operator:
        return Operator("LT8", self.rng.choice([0, 0, 1, 2, self.rng.randrange(80)]))

    def read_element(self) -> list[Operator]:
        return [self.namc(Original, Row, Ref), self.index(), Operator("NXLV")]

    def store(self) -> list[Operator]:
        """A store, into a cell or an element, in either order."""
        rng = self.rng
        value = [self.small() if rng.random() < 0.6 else self.valc()]
        target = self.element() if rng.random() < 0.5 else [self.namc(Operand, Element, Ref, Proc)]
        name = "STOD" if rng.random() < 0.8 else "STON"
        both = [*value, *target] if rng.random() < 0.7 else [*target, *value]
        return [*both, Operator(name)]

    def reference(self) -> list[Operator]:
        return [self.namc(Operand, Original, Row, Proc, Element), Operator("STFF")]

    def self_reference(self) -> list[Operator]:
        """A couple that names its own cell or the one before it, and a use of it."""
        level = self.running.level
        offset = len(self.running.cells) + 2 - self.rng.randrange(2)
        couple = couple_bits(level, offset, level)
        if couple is None:
            return []
        use = self.rng.choice(["VALC", "LOAD", "STOD", "INDX"])
        uses = [Operator("VALC", couple)] if use == "VALC" else [self.small(), Operator(use)]
        return [Operator("NAMC", couple), *uses]

    def row_copy(self) -> list[Operator]:
        return [self.namc(Original, Row, Ref), Operator("LOAD")]

    def arithmetic(self) -> list[Operator]:
        operands = [self.valc() if self.rng.random() < 0.5 else self.small() for _ in range(2)]
        return [*operands, self.number_operator()]

    def skip(self) -> list[Operator]:
        """A branch over one operator. The branch is planned with its target."""
        name = self.rng.choice(["BRTR", "BRFL", "BRUN"])
        skipped = Operator(self.rng.choice(["NOOP", "PUSH", "DLET", "ONE", "ADD", "MKST"]))
        test = [] if name == "BRUN" else [self.valc()]
        return [*test, Operator(f"SKIP {name}"), skipped]

    def loop(self) -> list[Operator]:
        """A loop that counts down a cell, which it pushes."""
        level = self.running.level
        cell = couple_bits(level, len(self.running.cells) + 2, level)
        if self.task.frames[-1] is not self.running or cell is None:
            return [Operator("NOOP")]
        body = self.rng.choice([self.store, self.print_number, self.print_row, self.call])()
        if body[-1].name == "STON":
            body.append(Operator("DLET"))
        return [
            Operator("LT8", self.rng.randint(1, 6)),
            Operator("LOOP", len(body)),
            *body,
            Operator("VALC", cell),
            Operator("ONE"),
            Operator("SUBT"),
            Operator("NAMC", cell),
            Operator("STON"),
            Operator("ZERO"),
            Operator("GRTR"),
            Operator("BACK BRTR", len(body) + 7),
        ]

    def bits(self) -> list[Operator]:
        return [Operator("LT48", self.any_bits()), self.number_operator()]

    # --- Lengths and tasks ------------------------------------------------------

    def row_argument(self) -> list[Operator]:
        return [self.namc(Original, Original, Row, Ref), Operator("LOAD")]

    def deallocate(self) -> list[Operator]:
        return self.called(DEALLOCATE, *self.row_argument())

    def resize(self) -> list[Operator]:
        length = Operator("LT8", self.array_words())
        if self.rng.random() < 0.05:
            length = self.small()
        return self.called(RESIZE, *self.row_argument(), length)

    def process(self) -> list[Operator]:
        arguments = [self.argument() for _ in range(self.rng.randrange(4))]
        flat = [operator for argument in arguments for operator in argument]
        return self.called(PROCESS, self.namc(Proc), *flat)

    def task_number(self) -> Operator:
        return Operator("LT8", self.rng.choice([1, 2, 2, 3, 3, 4, 5, self.rng.randrange(12)]))

    def await_task(self) -> list[Operator]:
        return self.called(AWAIT, self.task_number())

    def status(self) -> list[Operator]:
        return self.called(STATUS, self.task_number())

    def wait(self) -> list[Operator]:
        return self.called(WAIT, self.namc(Operand, Operand, Ref))

    def cause(self) -> list[Operator]:
        return self.called(CAUSE, self.namc(Operand, Operand, Ref))

    # --- Leaving ----------------------------------------------------------------

    def close(self) -> list[Operator]:
        """Ends the marked record on top, as the call of an intrinsic."""
        cells = self.task.frames[-1].cells
        return [*[Operator("DLET")] * len(cells), self.intrinsic(READ), Operator("ENTR")]

    def return_word(self) -> list[Operator]:
        """A return with a word of some kind."""
        match self.rng.randrange(6):
            case 0:
                word = [self.namc(Operand, Original, Proc, Row, Element), Operator("STFF")]
            case 1:
                word = self.row_copy()
            case 2:
                word = self.element()
            case 3:
                word = []
            case _:
                word = [self.valc()]
        return [*word, Operator("RETN")]

    def show(self) -> list[Operator]:
        """Prints what the running record holds, and leaves it."""
        level = self.running.level
        operators = []
        for offset, word in enumerate(self.running.cells, start=2):
            couple = couple_bits(level, offset, level)
            if couple is None or len(operators) > 60:
                break
            if isinstance(word, Operand | Element):
                operators += self.called(PRINT, Operator("VALC", couple))
            elif isinstance(word, Original | Row):
                row = [Operator("NAMC", couple), Operator("LOAD")]
                operators += self.called(PRINTROW, *row)
        return [*operators, Operator("EXIT")]

    def leaving(self) -> list[Operator]:
        """What is written when a deck is to come to its end."""
        if not self.task.frames[-1].entered:
            return self.close()
        if self.running in self.shown:
            return [Operator("EXIT")]
        self.shown.add(self.running)
        return self.show()

    # --- The choice -------------------------------------------------------------

    def choices(self) -> list[Choice]:
        """What may be written next, with weights."""
        return [
            *self.number_choices(),
            *self.array_choices(),
            *self.procedure_choices(),
            *self.stack_choices(),
            *(self.task_choices() if self.features.tasks else []),
        ]

    def number_choices(self) -> list[Choice]:
        return [
            (4, lambda: [self.small()]),
            (3, lambda: [self.valc()]),
            (3, self.arithmetic),
            (2, lambda: [self.number_operator()]),
            (2, self.bits),
            (8 if self.has(Operand) else 0, self.print_number),
            (2, self.read),
            (10, self.store),
            (3, self.reference),
            (1, self.self_reference),
        ]

    def array_choices(self) -> list[Choice]:
        arrays = self.has(Original, Row)
        lengths = arrays and self.features.lengths
        return [
            (6 if self.task.frames[-1].entered else 0, self.declare),
            (5 if arrays else 0, self.print_row),
            (4 if arrays else 0, self.element),
            (3 if arrays else 0, self.read_element),
            (3 if arrays else 0, self.row_copy),
            (4 if lengths else 0, self.resize),
            (1 if lengths else 0, self.deallocate),
        ]

    def procedure_choices(self) -> list[Choice]:
        procedures = self.has(Proc)
        entered = [frame for frame in self.task.frames if frame.entered]
        inside = self.task.frames[-1].entered and (len(entered) > 1 or self.task.number > 1)
        return [
            (3 if procedures else 12, self.procedure),
            (16 if procedures else 0, self.call),
            (6 if inside else 0, lambda: [Operator("EXIT")]),
            (15 if inside else 0, self.return_word),
        ]

    def stack_choices(self) -> list[Choice]:
        entered = self.task.frames[-1].entered
        return [
            (2, self.skip),
            (3 if entered else 0, self.loop),
            (1, lambda: [self.back_branch()]),
            (1, lambda: [Operator("DLET")]),
            (1, lambda: [Operator("EXCH")]),
            (1, lambda: [Operator("DUPL")]),
            (1, lambda: [Operator("LOAD")]),
            (1, lambda: [Operator("STFF")]),
            (0 if entered else 4, lambda: [Operator("ENTR")]),
            (0 if entered else 25, self.close),
        ]

    def task_choices(self) -> list[Choice]:
        return [
            (8 if self.has(Proc) else 0, self.process),
            (2, self.await_task),
            (2, self.status),
            (2, self.wait),
            (4, self.cause),
        ]

    def next_operator(self) -> Operator:
        """The next operator to try."""
        if self.closing and not self.segment.plan:
            self.segment.plan.extend(self.leaving())
        elif self.rng.random() < self.wild_share / 3:
            return self.wild()
        while not self.segment.plan:
            choices = self.choices()
            weights = [weight for weight, _ in choices]
            ((_, choice),) = self.rng.choices(choices, weights)
            self.segment.plan.extend(choice())
        return self.placed(self.segment.plan.popleft())

    def placed(self, operator: Operator) -> Operator:
        """Gives a planned branch its target, which depends on where it stands."""
        if operator.name == "LOOP":
            return Operator("NOOP")
        if operator.name.startswith("BACK "):
            starts = list(self.segment.operators)
            return Operator(operator.name[5:], *starts[max(0, len(starts) - operator.number)])
        if operator.name.startswith("SKIP "):
            name = operator.name[5:]
            over = place_behind(self.segment.end, name)
            skipped = self.segment.plan[0].name if self.segment.plan else "NOOP"
            return Operator(name, *place_behind(over, skipped))
        return operator
