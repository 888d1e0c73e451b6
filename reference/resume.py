"""The session that goes on from an image, over the sectors of its backing.

The image has the words of core, and the backing has what isn't present. Both
are read once: what is made of them is a session of this reference, whose arrays
are always there.
"""

from __future__ import annotations

from collections.abc import Callable

from cards import Deck, Switch
from codefile import Codefile, Segment
from images import AWAITS, READY, ImageJob
from loader import LoadError, SegmentRules, listing_of, proc_of_literal, verify
from machine import (
    Array,
    Awaits,
    Frame,
    Job,
    Machine,
    Position,
    Ready,
    Task,
    WaitsAt,
    mcp_frame,
    sectors_of,
)
from session import Session
from shape import ARRAY, DICTIONARY_STACKS, SLOTS, Shown, ShownFrame, ShownTask, bits, tag
from words import (
    WORD_MASK,
    Element,
    Name,
    Operand,
    Original,
    Place,
    Proc,
    Ref,
    Row,
    SegmentWord,
    Word,
)

SECTOR_BYTES = 240
WORD_BYTES = 8
NOT_TOLD = 0
OUTER_LEVEL = 2
GREATEST_LEVEL = 31


def sectors_of_file(data: bytes) -> Callable[[int], list[int]]:
    """What reads a sector of a backing file. What lies past its end are zeros."""

    def read(sector: int) -> list[int]:
        at = (sector - 1) * SECTOR_BYTES
        held = data[at : at + SECTOR_BYTES].ljust(SECTOR_BYTES, b"\0")
        return [
            int.from_bytes(held[i : i + WORD_BYTES], "big")
            for i in range(0, SECTOR_BYTES, WORD_BYTES)
        ]

    return read


class Restored:
    """Makes the records, arrays, tasks and jobs that an image and its sectors tell."""

    def __init__(self, shown: Shown, read: Callable[[int], list[int]]) -> None:
        self.shown = shown
        self.image = shown.image
        self.read = read
        self.mcp = mcp_frame()
        self.dictionaries: list[Frame] = []
        self.frames: dict[int, Frame] = {}
        self.arrays: dict[int, Array] = {}
        self.tasks: dict[int, Task] = {}
        self.agrees = True  # core and sectors agree on code and data rows

    # --- what is held

    def words_of(self, home: int) -> list[int]:
        """The 48 bits of each word of an object: of its area, or else of its chain.

        Code and data rows leave core without being written, so a session has them in both.
        """
        kind, length = self.shown.objects[home]
        word = self.image.core[home]
        address = bits(word, 0, 20)
        if not bits(word, 47, 1):
            return self.words_of_chain(address, length) if address else [0] * length
        held = [each & WORD_MASK for each in self.image.core[address : address + length]]
        if kind != ARRAY:
            self.agrees &= held == self.words_of_chain(self.shown.areas[address][3], length)
        return held

    def words_of_chain(self, first: int, length: int) -> list[int]:
        """The words in a chain of sectors."""
        held: list[int] = []
        sector = first
        for _ in range(sectors_of(length)):
            held += self.read(sector)
            sector = self.image.links[sector - 1]
        return [each & WORD_MASK for each in held[:length]]

    def codefile(self, job: ImageJob) -> Codefile:
        """The program of a job, with the levels and entries that its MPCWs tell."""
        first = job.dict + 2
        code = [self.words_of(first + n) for n in range(job.segments)]
        rows = [self.words_of(first + job.segments + n) for n in range(job.rows)]
        file = Codefile(2, [Segment(NOT_TOLD, words) for words in code], rows)
        if file.segments:
            file.segments[0].level = OUTER_LEVEL
        for segment in file.segments:
            for operator, _ in listing_of(segment.code).operators.values():
                if operator.name == "MPCW":
                    self.tell(file, proc_of_literal(operator.number))
        return file

    def tell(self, file: Codefile, proc: Proc) -> None:
        """Notes what an MPCW tells of the segment that it names."""
        if 2 <= proc.segment <= 1 + len(file.segments):
            named = file.segments[proc.segment - 2]
            named.level = proc.level
            if proc.place != Place(0, 0) and proc.place not in named.entries:
                named.entries.append(proc.place)

    # --- records and words

    def record(self, stack: int, disp: int, job: int) -> Frame:
        """The record whose mark stands at a displacement of a stack."""
        if stack < SLOTS:
            return self.frames[self.shown.base(stack) + disp]
        return self.dictionaries[job - 1] if stack == DICTIONARY_STACKS + job else self.mcp

    def word(self, word: int, at: int, job: int) -> Word:
        """What a word of a cell is."""
        match tag(word):
            case 0:
                return Operand(word)
            case 1 if bits(word, 46, 1):
                return Ref(self.record(bits(word, 36, 10), bits(word, 20, 16), job), bits(word, 0, 13))
            case 1:
                return Name(bits(word, 0, 14))
            case 7:
                return self.procedure(word)
        if not bits(word, 46, 1):
            return Original(self.arrays[at])
        array = self.arrays[self.shown.home_of(word)]
        return Element(array, bits(word, 20, 20)) if bits(word, 45, 1) else Row(array)

    def procedure(self, word: int) -> Proc:
        """The procedure of a procedure's word."""
        place = Place(bits(word, 20, 13), bits(word, 33, 3))
        return Proc(bits(word, 0, 14), bits(word, 14, 5), place)

    def begin_records(self, task: ShownTask) -> None:
        """The records of a task, still empty, and the arrays that they own."""
        base = self.shown.base(task.row.slot)
        for shown in task.frames:
            frame = Frame(entered=shown.entered, below=shown.mark - base)
            frame.level, frame.wants_value = shown.level, shown.value
            self.frames[shown.mark] = frame
            for at in shown.cells:
                if at in self.shown.objects:
                    self.arrays[at] = Array(frame, self.words_of(at))

    def fill(self, task: ShownTask, shown: ShownFrame) -> None:
        """The words of a record."""
        frame, job = self.frames[shown.mark], task.row.job
        if shown.entered:
            frame.environment = self.record(shown.stack, shown.disp, job)
            if shown.number > 1:
                back = self.image.core[shown.mark + 1]
                place = Place(bits(back, 20, 13), bits(back, 33, 3))
                frame.returns_to = Position(bits(back, 0, 14), place)
        frame.cells += [self.word(self.image.core[at], at, job) for at in shown.cells]

    # --- tasks and jobs

    def dictionary(self, row: ImageJob, file: Codefile) -> Frame:
        """The record of a job's segments and data rows."""
        frame = Frame(level=1, environment=self.mcp, entered=True)
        frame.cells += [SegmentWord(number) for number in range(1, row.segments + 1)]
        for number, words in enumerate(file.rows):
            array = Array(frame, words, read_only=True)
            self.arrays[row.dict + 2 + row.segments + number] = array
            frame.cells.append(Original(array))
        return frame

    def job(self, number: int, row: ImageJob) -> Job:
        """A job without its tasks."""
        file = self.codefile(row)
        listings = [listing_of(segment.code) for segment in file.segments]
        self.dictionaries.append(self.dictionary(row, file))
        job = Job(number, file, listings, self.dictionaries[-1], row.limit, row.numbers)
        job.made, job.next_task, job.next_number = row.made, row.next_task, row.next_number
        return job

    def task(self, shown: ShownTask, jobs: list[Job]) -> Task:
        """A task whose parent is there already."""
        row = shown.row
        for frame in shown.frames:
            self.fill(shown, frame)
        parent = self.tasks.get(row.parent)
        critical = None
        if parent is not None:
            critical = self.frames[self.shown.base(row.parent) + row.critical]
        position = Position(shown.segment, Place(*shown.place))
        frames = [self.frames[frame.mark] for frame in shown.frames]
        job = jobs[row.job - 1]
        task = Task(job, row.number, parent, critical, frames, position, self.condition(shown))
        self.tasks[row.slot] = task
        return task

    def condition(self, shown: ShownTask) -> Ready | Awaits | WaitsAt:
        """Whether a task is ready, or what it waits for."""
        row = shown.row
        if row.kind == READY:
            return Ready()
        if row.kind == AWAITS:
            return Awaits(row.awaited)
        if row.awaited < self.image.stacks:
            frame = self.mcp if row.awaited == 0 else self.dictionaries[row.job - 1]
            return WaitsAt(frame, row.offset)
        return WaitsAt(self.frames[row.awaited], row.offset)

    def fill_machine(self, machine: Machine) -> None:
        """Takes jobs, tasks and counts."""
        image = self.image
        for number, row in enumerate(image.jobs, start=1):
            machine.jobs.append(self.job(number, row))
        shown_tasks = sorted(self.shown.by_slot.values(), key=lambda task: task.key)
        for shown in shown_tasks:
            self.begin_records(shown)
        for shown in shown_tasks:
            task = self.task(shown, machine.jobs)
            task.job.tasks.append(task)
        machine.made, machine.turn, machine.peak = image.made, image.turn, image.peak
        machine.last_key = image.last_job, image.last_number
        machine.dictionary_words = image.stacks - image.jobs[0].dict if image.jobs else 0
        for home, (_, length) in self.shown.objects.items():
            if home < image.stacks:
                machine.installed_sectors += sectors_of(length)
            else:
                machine.array_sectors += sectors_of(length)


def session_from(
    shown: Shown, read: Callable[[int], list[int]], put: Callable[[str], None]
) -> Session:
    """The session that an image and its sectors tell. No count halts it."""
    image = shown.image
    switches = [Switch(each.count, each.job, each.task) for each in image.switches]
    deck = Deck(stack=image.stack_size, quantum=image.quantum, switches=switches)
    session = Session(deck, [], len(image.core), len(image.links), put)
    session.next_switch = image.next_switch
    restored = Restored(shown, read)
    restored.fill_machine(session.machine)
    session.agrees = restored.agrees
    return session


# --- Whether the session is one in order ---------------------------------------------


def is_sound(session: Session) -> bool:
    """Whether core and sectors agree, all programs are admitted, and all places are starts of operators."""
    return session.agrees and all(is_admitted(job) and all(map(stands, job.tasks)) for job in session.machine.jobs)


def is_admitted(job: Job) -> bool:
    """Whether a job's program is an admitted one. What no MPCW names has any level that serves."""
    for segment in job.file.segments:
        segment.entries.sort()
        if segment.level == NOT_TOLD:
            segment.level = level_that_serves(job.file, segment)
    try:
        verify(job.file)
    except LoadError:
        return False
    return True


def level_that_serves(file: Codefile, segment: Segment) -> int:
    """The first level at which the rules refuse nothing in a segment, or the greatest."""
    for level in range(OUTER_LEVEL, GREATEST_LEVEL):
        segment.level = level
        if not SegmentRules(file, segment).check(first=False):
            return level
    return GREATEST_LEVEL


def stands(task: Task) -> bool:
    """Whether a task's places are those of operators, in segments of the levels that run there."""
    level = 0
    for frame in task.frames:
        back = frame.returns_to
        if back is not None and not is_start(task.job, back, level):
            return False
        level = frame.level if frame.entered else level
    procedures = [word for frame in task.frames for word in frame.cells if isinstance(word, Proc)]
    return is_start(task.job, task.position, level) and all(
        is_start(task.job, Position(proc.segment, proc.place), proc.level) for proc in procedures
    )


def is_start(job: Job, position: Position, level: int) -> bool:
    """Whether an operator of a segment of this level stands there."""
    number = position.segment - 2
    is_level = job.file.segments[number].level == level
    return is_level and position.place in job.listings[number].operators
