"""The machine: activation records, arrays, tasks and jobs, and how references are followed.

Arrays are always there. There is no core, no address and no presence bit. What
core size decides is one sum, which is tested before a step changes anything.
"""

from __future__ import annotations

from dataclasses import dataclass, field
from typing import NamedTuple

from cards import Switch
from codefile import Codefile
from loader import Listing
from words import (
    Element,
    Fault,
    FaultError,
    Intrinsic,
    Name,
    Operand,
    Original,
    Place,
    Proc,
    Ref,
    Row,
    SegmentWord,
    Word,
    couple_of,
)

MCP_WORDS = 160
SECTOR_WORDS = 30
MOST_LINKS = 1_024
FIRST_OFFSET = 2
FIRST_INTRINSIC = 8
LAST_INTRINSIC = 18
MOST_LIVE_TASKS = 15


class NoCoreError(Exception):
    """What a step needs exceeds core. Nothing was changed."""

    def __init__(self, need: int) -> None:
        super().__init__(need)
        self.need = need


class Position(NamedTuple):
    """A place in a segment, which is named by its displacement in the dictionary."""

    segment: int
    place: Place


@dataclass(eq=False)
class Array:
    """An array: the 48 bits of each element, and the record that owns it."""

    owner: Frame
    numbers: list[int]
    read_only: bool = False


@dataclass(eq=False)
class Frame:
    """An activation record.

    It is marked after MKST and entered after ENTR. `below` is the height of
    the stack under it.
    """

    level: int = 0
    environment: Frame | None = None
    entered: bool = False
    wants_value: bool = False
    returns_to: Position | None = None
    cells: list[Word] = field(default_factory=list)
    below: int = 1
    first_offset: int = FIRST_OFFSET

    @property
    def height(self) -> int:
        """The height of the stack if this is its top record."""
        return self.below + (2 if self.entered else 1) + len(self.cells)

    def arrays(self) -> list[Array]:
        """The arrays that this record owns."""
        return [cell.array for cell in self.cells if isinstance(cell, Original)]


@dataclass(frozen=True)
class Ready:
    """The task can run."""


@dataclass(frozen=True)
class Awaits:
    """The task waits until the task of this number has ended."""

    number: int


@dataclass(frozen=True, eq=False)
class WaitsAt:
    """The task waits until an event is caused at this cell."""

    frame: Frame
    offset: int


@dataclass(eq=False)
class Task:
    """A live task with its stack of activation records."""

    job: Job
    number: int
    parent: Task | None
    critical: Frame | None
    frames: list[Frame]
    position: Position
    condition: Ready | Awaits | WaitsAt = Ready()

    @property
    def key(self) -> tuple[int, int]:
        """The order of tasks: by job, then by number."""
        return self.job.number, self.number

    @property
    def label(self) -> str:
        """The task as printed lines name it."""
        return f"{self.job.number}.{self.number}"

    @property
    def ready(self) -> bool:
        """Whether the task can run."""
        return isinstance(self.condition, Ready)

    def depth(self) -> int:
        """How many parents are above this task."""
        return 0 if self.parent is None else 1 + self.parent.depth()

    def descends_from(self, other: Task) -> bool:
        """Whether `other` is a parent above this task."""
        return self.parent is not None and (
            self.parent is other or self.parent.descends_from(other)
        )

    def running_frame(self) -> Frame:
        """The topmost entered record."""
        return next(frame for frame in reversed(self.frames) if frame.entered)


@dataclass(eq=False)
class Job:
    """A job with its program, its dictionary and its live tasks."""

    number: int
    file: Codefile
    listings: list[Listing]
    dictionary: Frame
    limit: int
    numbers: list[int]
    made: int = 0
    next_task: int = 2
    next_number: int = 0
    tasks: list[Task] = field(default_factory=list)

    def task(self, number: int) -> Task | None:
        """The live task of this number."""
        return next((task for task in self.tasks if task.number == number), None)

    def depends_on(self, frame: Frame) -> bool:
        """Whether the record is critical for a live task."""
        return any(task.critical is frame for task in self.tasks)

    def deepest_first(self, tasks: list[Task]) -> list[Task]:
        """Tasks in the order in which they end together."""
        return sorted(tasks, key=lambda task: (-task.depth(), task.number))

    def words_of_segment(self, displacement: int) -> int:
        """The length of the segment at this displacement."""
        return len(self.file.segments[displacement - FIRST_OFFSET].code)


# What a reference can come to.


@dataclass(frozen=True, eq=False)
class CellEnd:
    """A cell that holds an operand."""

    frame: Frame
    offset: int


@dataclass(frozen=True, eq=False)
class ElementEnd:
    """An element of an array."""

    array: Array
    index: int


@dataclass(frozen=True, eq=False)
class ArrayEnd:
    """A whole array."""

    array: Array


@dataclass(frozen=True, eq=False)
class ProcEnd:
    """A procedure word, and the record in which it lies."""

    frame: Frame
    proc: Proc


@dataclass(frozen=True, eq=False)
class IntrinsicEnd:
    """A procedure of the MCP."""

    number: int


End = CellEnd | ElementEnd | ArrayEnd | ProcEnd | IntrinsicEnd


def frame_of_level(running: Frame, level: int) -> Frame:
    """The record of this level in the environment of the running record."""
    if level > running.level:
        raise FaultError(Fault.INVALID_ADDRESS)
    frame = running
    while frame.level > level:
        frame = frame.environment
    return frame


def word_at(frame: Frame, offset: int) -> Word:
    """The word of a cell. There is an invalid address where the record has no such cell."""
    index = offset - frame.first_offset
    if not 0 <= index < len(frame.cells):
        raise FaultError(Fault.INVALID_ADDRESS)
    return frame.cells[index]


def cell_of(reference: Name | Ref, running: Frame) -> tuple[Frame, int]:
    """The record and the offset that a reference names. The cell need not be there."""
    if isinstance(reference, Ref):
        return reference.frame, reference.offset
    level, displacement = couple_of(reference.couple, running.level)
    return frame_of_level(running, level), displacement


def element_end(copy: Element) -> ElementEnd:
    """What an element copy comes to. Its index is tested at each use."""
    if copy.index >= len(copy.array.numbers):
        raise FaultError(Fault.INVALID_INDEX)
    return ElementEnd(copy.array, copy.index)


def follow(reference: Word, running: Frame) -> End:
    """Follows a reference, link by link, to what it comes to.

    An element copy in place of a reference comes to its element at once.
    """
    word = reference
    links = 0
    while isinstance(word, Name | Ref):
        links += 1
        if links > MOST_LINKS:
            raise FaultError(Fault.LOOP)
        frame, offset = cell_of(word, running)
        word = word_at(frame, offset)
    match word:
        case Operand():
            return CellEnd(frame, offset)
        case Element():
            return element_end(word)
        case Row() | Original():
            return ArrayEnd(word.array)
        case Proc():
            return ProcEnd(frame, word)
        case Intrinsic():
            return IntrinsicEnd(word.number)
    raise FaultError(Fault.INVALID_OPERAND)


def sectors_of(words: int) -> int:
    """How many sectors hold that many words."""
    return -(-words // SECTOR_WORDS)


def mcp_frame() -> Frame:
    """The record of level 0. Its cells are the intrinsics."""
    cells: list[Word] = [Intrinsic(n) for n in range(FIRST_INTRINSIC, LAST_INTRINSIC + 1)]
    return Frame(entered=True, cells=cells, first_offset=FIRST_INTRINSIC)


def dictionary_frame(file: Codefile, mcp: Frame) -> Frame:
    """A job's record of level 1: its segments, then its data rows."""
    frame = Frame(level=1, environment=mcp, entered=True)
    frame.cells += [SegmentWord(number) for number in range(1, len(file.segments) + 1)]
    frame.cells += [Original(Array(frame, list(row), read_only=True)) for row in file.rows]
    return frame


@dataclass
class Machine:
    """All jobs, and the counts of the session."""

    core_words: int
    stack_size: int
    quantum: int
    switches: list[Switch]
    jobs: list[Job] = field(default_factory=list)
    made: int = 0
    last_key: tuple[int, int] = (0, 0)
    turn: int = 0
    peak: int = 0
    array_sectors: int = 0  # of the arrays that tasks own
    installed_sectors: int = 0  # of segments and data rows
    dictionary_words: int = 0
    greatest_need: int = 0  # of the steps so far

    def live_tasks(self) -> list[Task]:
        """All live tasks, by job and number."""
        return [task for job in self.jobs for task in job.tasks]

    def add_job(self, job: Job) -> None:
        """Takes a job at opening and starts its first task in its outer block."""
        outer = Frame(level=2, environment=job.dictionary, entered=True)
        position = Position(FIRST_OFFSET, Place(0, 0))
        job.tasks.append(Task(job, 1, None, None, [outer], position))
        self.jobs.append(job)
        self.peak = len(self.jobs)
        self.dictionary_words += 2 + len(job.dictionary.cells)
        objects = [segment.code for segment in job.file.segments] + job.file.rows
        self.installed_sectors += sum(sectors_of(len(words)) for words in objects)

    def sector_sum(self) -> int:
        """The sectors of everything installed and of every live array."""
        return self.installed_sectors + self.array_sectors

    def need_at_opening(self) -> int:
        """The words that the MCP, the dictionaries and one stack for each job take."""
        return MCP_WORDS + self.dictionary_words + self.peak * self.stack_size

    def need(self, task: Task, *, array_words: int = 0, starts: bool = False) -> int:
        """The words that a step of this task needs.

        `array_words` is the length of the touched array, 0 for none. `starts`
        says that the step starts a task.
        """
        peak = max(self.peak, len(self.live_tasks()) + 1) if starts else self.peak
        segment = task.job.words_of_segment(task.position.segment) + 2
        array = array_words + 2 if array_words else 0
        return MCP_WORDS + self.dictionary_words + peak * self.stack_size + segment + array

    def claim(self, task: Task, *, array_words: int = 0, starts: bool = False) -> None:
        """Tests that core has room for what a step of this task needs."""
        need = self.need(task, array_words=array_words, starts=starts)
        self.greatest_need = max(self.greatest_need, need)
        if need > self.core_words:
            raise NoCoreError(need)

    def start(self, child: Task) -> None:
        """Takes a new task."""
        child.job.tasks.append(child)
        child.job.next_task += 1
        self.peak = max(self.peak, len(self.live_tasks()))

    def release(self, frame: Frame) -> None:
        """The arrays of a record that is left are gone."""
        self.array_sectors -= sum(sectors_of(len(array.numbers)) for array in frame.arrays())

    def end(self, task: Task) -> None:
        """A task ends. Its records and its arrays are gone."""
        for frame in task.frames:
            self.release(frame)
        task.job.tasks.remove(task)
        for other in task.job.tasks:
            if other.condition == Awaits(task.number):
                other.condition = Ready()
