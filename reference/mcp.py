"""The intrinsics: the procedures of the MCP that an ENTR may call.

After the tests of its row an intrinsic cuts the marked record of the call and
pushes its answer, if it has one, on the record below.
"""

from __future__ import annotations

from collections.abc import Callable

from machine import (
    MOST_LIVE_TASKS,
    Array,
    Awaits,
    CellEnd,
    Frame,
    Machine,
    Position,
    ProcEnd,
    Ready,
    Task,
    WaitsAt,
    follow,
    sectors_of,
    word_at,
)
from operators import Step, number_of
from words import (
    Fault,
    FaultError,
    Name,
    Operand,
    Original,
    Ref,
    Row,
    Word,
    is_whole,
    operand_of,
    value_of,
)

LONGEST_ARRAY = 65_535
NO_MORE_NUMBERS = Operand(0x800000000000)
NUMBERS_IN_A_LINE = 10
NEVER_STARTED, READY, WAITING, ENDED = range(4)


class McpStep(Step):
    """One operator of one task, the calls of the MCP included."""

    def __init__(self, machine: Machine, task: Task) -> None:
        super().__init__(machine, task)
        self.lines: list[str] = []
        # The sector sum that a RESIZE to a greater length asks for, 0 for none.
        self.sectors_wanted = 0

    def call_intrinsic(self, number: int) -> None:
        """Makes a call of the MCP, if it has its number of arguments."""
        count, intrinsic = self.intrinsic(number)
        arguments = self.top.cells[1:]
        if count is not None and len(arguments) != count:
            raise FaultError(Fault.INVALID_OPERAND)
        intrinsic(arguments)

    def intrinsic(self, number: int) -> tuple[int | None, Callable[[list[Word]], None]]:
        """How many arguments the intrinsic has, None for any number, and what makes it."""
        return {
            8: (1, self.arraydec),
            9: (1, self.print_number),
            10: (1, self.print_row),
            11: (0, self.read),
            12: (None, self.process),
            13: (1, self.await_task),
            14: (1, self.status),
            15: (1, self.wait),
            16: (1, self.cause),
            17: (1, self.deallocate),
            18: (2, self.resize),
        }[number]

    def finish(self, *answers: Word) -> None:
        """Cuts the marked record, pushes the answers and goes on."""
        self.task.frames.pop()
        self.top.cells += answers
        self.go_on()

    def print(self, text: str) -> None:
        """Prints a line that begins with the task's label."""
        self.lines.append(f"{self.task.label} {text}")

    # --- Arrays -----------------------------------------------------------------

    def arraydec(self, arguments: list[Word]) -> None:
        """ARRAYDEC: an array of zeros, which the record below owns."""
        length = self.length_of(number_of(arguments[0]))
        self.need_no_dependent()
        self.machine.array_sectors += sectors_of(length)
        owner = self.task.frames[-2]
        self.finish(Original(Array(owner, [0] * length)))

    def length_of(self, number: int) -> int:
        """The length of an array, which must be within its limits."""
        if not 1 <= number <= LONGEST_ARRAY:
            raise FaultError(Fault.INVALID_INDEX)
        return number

    def array_of(self, word: Word) -> Array:
        """The array that a row copy names."""
        if not isinstance(word, Row):
            raise FaultError(Fault.INVALID_OPERAND)
        return word.array

    def need_writable(self, array: Array) -> None:
        """The array must not be a data row."""
        if array.read_only:
            raise FaultError(Fault.MEMORY_PROTECT)

    def print_row(self, arguments: list[Word]) -> None:
        """PRINTROW: prints a whole array, if all of it are numbers."""
        array = self.array_of(arguments[0])
        self.touch(array)
        if not all(is_whole(bits) for bits in array.numbers):
            raise FaultError(Fault.EXPONENT)
        self.need_no_dependent()
        texts = [str(value_of(bits)) for bits in array.numbers]
        for at in range(0, len(texts), NUMBERS_IN_A_LINE):
            self.print(" ".join(texts[at : at + NUMBERS_IN_A_LINE]))
        self.finish()

    def deallocate(self, arguments: list[Word]) -> None:
        """DEALLOCATE: all elements become 0."""
        array = self.array_of(arguments[0])
        self.need_writable(array)
        self.need_no_dependent()
        array.numbers = [0] * len(array.numbers)
        self.finish()

    def resize(self, arguments: list[Word]) -> None:
        """RESIZE: the array has another length. Further elements are 0."""
        array = self.array_of(arguments[0])
        length = self.length_of(number_of(arguments[1]))
        self.need_writable(array)
        self.need_no_dependent()
        self.touch(array)
        before = len(array.numbers)
        self.machine.array_sectors += sectors_of(length) - sectors_of(before)
        if length > before:
            self.sectors_wanted = self.machine.sector_sum()
        array.numbers = array.numbers[:length] + [0] * (length - before)
        self.finish()

    # --- Numbers ----------------------------------------------------------------

    def print_number(self, arguments: list[Word]) -> None:
        """PRINT: prints a number."""
        number = number_of(arguments[0])
        self.need_no_dependent()
        self.print(str(number))
        self.finish()

    def read(self, _: list[Word]) -> None:
        """READ: the job's next number, or a word that tells that there is none."""
        self.need_no_dependent()
        job = self.task.job
        if job.next_number == len(job.numbers):
            self.finish(NO_MORE_NUMBERS)
        else:
            job.next_number += 1
            self.finish(operand_of(job.numbers[job.next_number - 1]))

    # --- Tasks ------------------------------------------------------------------

    def process(self, arguments: list[Word]) -> None:
        """PROCESS: starts a task in a procedure, with the other words as its first cells."""
        end = self.procedure_to_start(arguments)
        parameters = arguments[1:]
        self.need_level(end)
        if 3 + len(parameters) > self.machine.stack_size:
            raise FaultError(Fault.STACK_OVERFLOW)
        self.need_no_dependent()
        job = self.task.job
        if len(job.tasks) == MOST_LIVE_TASKS:
            self.finish(operand_of(0))
            return
        self.machine.claim(self.task, starts=True)
        child = Task(
            job,
            job.next_task,
            parent=self.task,
            critical=self.task.frames[-2],
            frames=[
                Frame(
                    level=end.proc.level,
                    environment=end.frame,
                    entered=True,
                    cells=parameters,
                )
            ],
            position=Position(end.proc.segment, end.proc.place),
        )
        self.machine.start(child)
        self.finish(operand_of(child.number))

    def procedure_to_start(self, arguments: list[Word]) -> ProcEnd:
        """The procedure in which PROCESS is to start a task."""
        if not arguments or not isinstance(arguments[0], Name | Ref):
            raise FaultError(Fault.INVALID_OPERAND)
        if any(isinstance(word, Original) for word in arguments[1:]):
            raise FaultError(Fault.INVALID_OPERAND)
        end = follow(arguments[0], self.running)
        if not isinstance(end, ProcEnd):
            raise FaultError(Fault.INVALID_OPERAND)
        return end

    def await_task(self, arguments: list[Word]) -> None:
        """AWAIT: waits while the task of this number lives."""
        number = number_of(arguments[0])
        if self.task.job.task(number) is not None:
            self.task.condition = Awaits(number)
            return
        self.need_no_dependent()
        self.finish()

    def status(self, arguments: list[Word]) -> None:
        """STATUS: tells how the task of this number is."""
        number = number_of(arguments[0])
        self.need_no_dependent()
        self.finish(operand_of(self.status_of(number)))

    def status_of(self, number: int) -> int:
        """What STATUS answers for a task's number."""
        task = self.task.job.task(number)
        if task is not None:
            return READY if task.ready else WAITING
        return ENDED if 1 <= number < self.task.job.next_task else NEVER_STARTED

    # --- Events -----------------------------------------------------------------

    def cell_of_event(self, word: Word) -> CellEnd:
        """The cell that WAIT and CAUSE are given by reference."""
        if not isinstance(word, Name | Ref):
            raise FaultError(Fault.INVALID_OPERAND)
        end = follow(word, self.running)
        if not isinstance(end, CellEnd):
            raise FaultError(Fault.INVALID_OPERAND)
        return end

    def wait(self, arguments: list[Word]) -> None:
        """WAIT: waits while the cell holds 0."""
        end = self.cell_of_event(arguments[0])
        if word_at(end.frame, end.offset) == Operand(0):
            self.task.condition = WaitsAt(end.frame, end.offset)
            return
        self.need_no_dependent()
        self.finish()

    def cause(self, arguments: list[Word]) -> None:
        """CAUSE: stores 1 into the cell, and wakes the tasks that wait at it."""
        end = self.cell_of_event(arguments[0])
        self.need_no_dependent()
        end.frame.cells[end.offset - end.frame.first_offset] = operand_of(1)
        for task in self.task.job.tasks:
            if self.waits_at(task, end):
                task.condition = Ready()
        self.finish()

    def waits_at(self, task: Task, end: CellEnd) -> bool:
        """Whether a task waits at this cell."""
        waits = task.condition
        return (
            isinstance(waits, WaitsAt)
            and waits.frame is end.frame
            and waits.offset == end.offset
        )
