"""The image of a session of this reference, and the sectors that belong to it.

No task has the registers. Either nothing is present, or all for which core has
room, in areas side by side; one hole has the rest of core. So these images are
made without the program that reads them.
"""

from __future__ import annotations

from images import (
    AWAITS,
    COUNTS,
    READY,
    REGISTERS,
    WAITS_AT,
    Image,
    ImageJob,
    ImageSwitch,
    ImageTask,
)
from machine import SECTOR_WORDS, Array, Awaits, Frame, Job, Task, WaitsAt, sectors_of
from session import Session
from shape import (
    ARRAY,
    CODE,
    DATA_ROW,
    DICTIONARY_STACKS,
    DIRECTORY,
    FIRST_DICTIONARY,
    FIRST_TASK,
    MCP_STACK,
    NONE,
    SLOTS,
    STACK_VECTOR,
    made,
)
from words import Element, Name, Operand, Original, Place, Proc, Ref, Row, Word

FIRST_INTRINSIC, LAST_INTRINSIC = 8, 18
CODE_TAG, NUMBER_TAG = 3, 0


class Layout:
    """Lays a session out in a core and in sectors."""

    def __init__(self, session: Session, core: int, sectors: int, is_present: bool) -> None:
        self.machine = session.machine
        self.size = self.machine.stack_size
        self.is_present = is_present
        self.core = [0] * core
        self.links = [0] * sectors
        self.held: list[int] = []
        self.slots = {task: slot for slot, task in enumerate(self.machine.live_tasks())}
        self.dictionaries: dict[int, int] = {}
        self.spots: dict[Frame, tuple[int, int]] = {}  # stack and displacement of each record
        self.homes: dict[Array, int] = {}
        self.areas: dict[Array, int] = {}
        self.stacks = self.place_dictionaries()
        self.low = self.stacks + self.machine.peak * self.size
        self.free = self.low
        for task in self.slots:
            self.place_records(task)
        for job in self.machine.jobs:
            self.dictionary(job)
        for array, home in self.homes.items():
            self.original(array, home)
        for task in self.slots:
            self.stack(task)
        self.fixed_words()

    # --- where everything lies

    def place_dictionaries(self) -> int:
        """The dictionaries with their rows. Answers the address behind them."""
        at = FIRST_DICTIONARY
        for job in self.machine.jobs:
            self.dictionaries[job.number] = at
            self.spots[job.dictionary] = DICTIONARY_STACKS + job.number, 0
            for offset, cell in enumerate(job.dictionary.cells, start=2):
                if isinstance(cell, Original):
                    self.homes[cell.array] = at + offset
            at += 2 + len(job.dictionary.cells)
        return at

    def base(self, task: Task) -> int:
        """The address of a stack's first word."""
        return self.stacks + self.slots[task] * self.size

    def place_records(self, task: Task) -> None:
        """The records of a task, and the arrays that they own."""
        for frame in task.frames:
            self.spots[frame] = self.slots[task], frame.below
            first = self.base(task) + frame.below + (2 if frame.entered else 1)
            for at, cell in enumerate(frame.cells, start=first):
                if isinstance(cell, Original):
                    self.homes[cell.array] = at

    def spot(self, frame: Frame) -> tuple[int, int]:
        """Stack and displacement of a record's mark."""
        return self.spots.get(frame, (MCP_STACK, 0))

    def chain(self, words: list[int], tag: int) -> int:
        """Puts words into sectors of their own. Answers the first of them."""
        first = len(self.held) // SECTOR_WORDS + 1
        count = sectors_of(len(words))
        for sector in range(first, first + count):
            self.links[sector - 1] = min(sector + 1, first + count - 1)
        self.held += [tag << 48 | word for word in words]
        self.held += [0] * (count * SECTOR_WORDS - len(words))
        return first

    def area(self, kind: int, words: list[int], tag: int, owner: int, kept: int) -> int | None:
        """Puts words into an area, if there is room. Answers the address of the first."""
        head, tail = self.free, self.free + len(words) + 1
        if not self.is_present or tail >= len(self.core):
            return None
        self.core[head] = made(3, (kind, 46), (len(words), 20), (owner, 0))
        self.core[head + 1 : tail] = [tag << 48 | word for word in words]
        self.core[tail] = made(3, (len(words), 20), (kept, 0))
        self.free = tail + 1
        return head + 1

    # --- words of core

    def fixed_words(self) -> None:
        self.core[0] = made(3, (1, 46))
        for n in range(FIRST_INTRINSIC, LAST_INTRINSIC + 1):
            self.core[n] = made(7, (1, 19), (n, 0))
        for task, slot in self.slots.items():
            parent = FIRST_TASK if task.parent is None else self.slots[task.parent]
            self.core[STACK_VECTOR + slot] = made(3, (1, 46), (parent, 36), (task.job.number, 16))
        hole = len(self.core) - self.free
        self.core[DIRECTORY] = made(3, (self.free if hole else 0, 0))
        if hole:
            self.core[self.free] = made(3, (3, 46), (hole, 20))

    def dictionary(self, job: Job) -> None:
        at = self.dictionaries[job.number]
        segments, rows = job.file.segments, job.file.rows
        self.core[at] = made(3, (1, 47), (1, 46), (MCP_STACK, 36), (1, 14))
        self.core[at + 1] = len(segments) + len(rows)
        for n, segment in enumerate(segments, start=at + 2):
            first = self.chain(segment.code, CODE_TAG)
            address = self.area(CODE, segment.code, CODE_TAG, n, first)
            where = [(0, 47), (first, 0)] if address is None else [(1, 47), (address, 0)]
            self.core[n] = made(3, (len(segment.code), 20), *where)

    def original(self, array: Array, home: int) -> None:
        """An original. An absent array of zeros has no sectors."""
        numbers, row = array.numbers, int(array.read_only)
        first = self.chain(numbers, NUMBER_TAG) if row or any(numbers) else 0
        address = self.area(DATA_ROW if row else ARRAY, numbers, NUMBER_TAG, home, first)
        where = [(0, 47), (first, 0)]
        if address is not None:
            self.areas[array] = address
            where = [(1, 47), (address, 0)]
        self.core[home] = made(5, (row, 43), (len(numbers), 20), *where)

    def stack(self, task: Task) -> None:
        base, last, running = self.base(task), 0, 0
        for frame in task.frames:
            mark = base + frame.below
            back = frame.below - last if last else 0
            self.core[mark] = self.mark(task, frame, back)
            if frame.entered and frame.returns_to is not None:
                segment, place = frame.returns_to
                self.core[mark + 1] = self.place(3, segment, running, place)
            elif frame.entered:
                self.core[mark + 1] = made(3)
            first = mark + (2 if frame.entered else 1)
            for at, cell in enumerate(frame.cells, start=first):
                if not isinstance(cell, Original):
                    self.core[at] = self.word(cell)
            last = frame.below
            running = frame.level if frame.entered else running
        top = task.frames[-1].height - 1
        self.core[base] = made(3, (top, 20), (running, 14), (last, 0))

    def mark(self, task: Task, frame: Frame, back: int) -> int:
        if not frame.entered:
            return made(3, (back, 0))
        stack, disp = self.spot(frame.environment)
        fields = [(int(stack != self.slots[task]), 47), (1, 46), (stack, 36), (disp, 20)]
        return made(3, *fields, (int(frame.wants_value), 19), (frame.level, 14), (back, 0))

    def place(self, tag: int, segment: int, level: int, place: Place) -> int:
        return made(tag, (place.syllable, 33), (place.word, 20), (level, 14), (segment, 0))

    def word(self, cell: Word) -> int:
        """The word of a cell, but for an original."""
        match cell:
            case Operand(number):
                return number
            case Name(couple):
                return made(1, (couple, 0))
            case Ref():
                stack, disp = self.spot(cell.frame)
                return made(1, (1, 46), (stack, 36), (disp, 20), (cell.offset, 0))
            case Proc(segment, level, place):
                return self.place(7, segment, level, place)
            case Row(array):
                return self.copy(array, 0, len(array.numbers))
            case Element(array, index):
                return self.copy(array, 1, index)
        raise AssertionError(cell)

    def copy(self, array: Array, indexed: int, number: int) -> int:
        fields = [(1, 46), (indexed, 45), (int(array.read_only), 43), (number, 20)]
        if array in self.areas:
            return made(5, (1, 47), *fields, (self.areas[array], 0))
        return made(5, *fields, (self.homes[array], 0))

    # --- tables

    def task_row(self, task: Task) -> ImageTask:
        segment, place = task.position
        parent = NONE if task.parent is None else self.slots[task.parent]
        critical = 0 if task.critical is None else self.spot(task.critical)[1]
        kind, awaited, offset = self.condition(task)
        return ImageTask(
            task.job.number, task.number, self.slots[task], parent, critical,
            kind, awaited, offset, segment, place.word, place.syllable,
        )  # fmt: skip

    def condition(self, task: Task) -> tuple[int, int, int]:
        match task.condition:
            case Awaits(number):
                return AWAITS, number, 0
            case WaitsAt():
                stack, disp = self.spot(task.condition.frame)
                if stack < SLOTS:
                    address = self.stacks + stack * self.size + disp
                else:
                    address = 0 if stack == MCP_STACK else self.dictionaries[task.job.number]
                return WAITS_AT, address, task.condition.offset
        return READY, 0, 0

    def job_row(self, job: Job, name: str) -> ImageJob:
        row = ImageJob(name.encode(), self.dictionaries[job.number])
        row.segments, row.rows = len(job.file.segments), len(job.file.rows)
        row.limit, row.made, row.next_task = job.limit, job.made, job.next_task
        row.numbers, row.next_number = job.numbers, job.next_number
        return row

    def critical_marks(self) -> list[int]:
        marks = [0] * SLOTS
        for task in self.slots:
            if task.parent is not None:
                slot = self.slots[task.parent]
                marks[slot] = max(marks[slot], self.spot(task.critical)[1])
        return marks


def image_of_session(
    session: Session, names: list[str], core: int, sectors: int, *, is_present: bool = False
) -> tuple[Image, bytes]:
    """The image of a session in a core of this size, and the bytes of its backing file."""
    machine = session.machine
    layout = Layout(session, core, sectors, is_present)
    registers = {name: 0 for name, _ in REGISTERS}
    registers |= {"slot": NONE, "stacks": layout.stacks}
    registers |= {"stack_size": machine.stack_size, "peak": machine.peak}
    counts = {name: 0 for name, _ in COUNTS}
    counts |= {"quantum": machine.quantum, "made": machine.made, "turn": machine.turn}
    counts |= {"last_job": machine.last_key[0], "last_number": machine.last_key[1]}
    counts |= {"running": NONE, "next_switch": session.next_switch}
    image = Image(
        layout.core,
        registers,
        [0] * 32,
        layout.critical_marks(),
        core,
        layout.low,
        layout.links,
        counts,
        [ImageSwitch(each.count, each.job, each.task) for each in machine.switches],
        [layout.job_row(job, name) for job, name in zip(machine.jobs, names)],
        [layout.task_row(task) for task in layout.slots],
    )
    return image, b"".join(word.to_bytes(8, "big") for word in layout.held)
