"""The operators. Each one first makes all its tests and then all its changes.

So a fault, or too little core, leaves everything as it was.
"""

from __future__ import annotations

from collections.abc import Callable

from loader import proc_of_literal
from machine import (
    Array,
    ArrayEnd,
    CellEnd,
    ElementEnd,
    End,
    Frame,
    IntrinsicEnd,
    Machine,
    Position,
    ProcEnd,
    Task,
    cell_of,
    follow,
    word_at,
)
from words import (
    GREATEST_NUMBER,
    WORD_MASK,
    Element,
    Fault,
    FaultError,
    Name,
    Operand,
    Original,
    Place,
    Ref,
    Row,
    Word,
    is_whole,
    operand_of,
    value_of,
)


class TaskEndedError(Exception):
    """The task has left its bottom record."""


ARITHMETIC: dict[str, Callable[[int, int], int]] = {
    "ADD": lambda a, b: a + b,
    "SUBT": lambda a, b: a - b,
    "MULT": lambda a, b: a * b,
}

DIVISIONS: dict[str, Callable[[int, int], int]] = {
    "IDIV": lambda a, b: quotient(a, b),
    "RDIV": lambda a, b: a - b * quotient(a, b),
}

COMPARISONS: dict[str, Callable[[int, int], bool]] = {
    "LESS": lambda a, b: a < b,
    "GREQ": lambda a, b: a >= b,
    "GRTR": lambda a, b: a > b,
    "LSEQ": lambda a, b: a <= b,
    "EQUL": lambda a, b: a == b,
    "NEQL": lambda a, b: a != b,
}

LOGIC: dict[str, Callable[[int, int], int]] = {
    "LAND": lambda a, b: a & b,
    "LOR": lambda a, b: a | b,
    "LEQV": lambda a, b: ~(a ^ b) & WORD_MASK,
    "SAME": lambda a, b: int(a == b),
}


def quotient(a: int, b: int) -> int:
    """The quotient, rounded toward zero."""
    size = abs(a) // abs(b)
    return size if (a < 0) == (b < 0) else -size


def number_of(word: Word) -> int:
    """The number that a word must be."""
    return numbers_of([word])[0]


def numbers_of(words: list[Word]) -> list[int]:
    """The numbers that words must be. All are tested to be operands first."""
    bits = bits_of(words)
    if not all(is_whole(each) for each in bits):
        raise FaultError(Fault.EXPONENT)
    return [value_of(each) for each in bits]


def bits_of(words: list[Word]) -> list[int]:
    """The bits of words that must be operands."""
    if not all(isinstance(word, Operand) for word in words):
        raise FaultError(Fault.INVALID_OPERAND)
    return [word.bits for word in words]


class Step:
    """One operator of one task."""

    def __init__(self, machine: Machine, task: Task) -> None:
        self.machine = machine
        self.task = task
        segment, place = task.position
        listing = task.job.listings[segment - 2]
        self.operator, self.behind = listing.operators[place]

    def make(self) -> None:
        """Makes the operator."""
        ROWS[self.operator.name](self)

    # --- Tests ------------------------------------------------------------------

    @property
    def top(self) -> Frame:
        """The last record of the stack."""
        return self.task.frames[-1]

    @property
    def running(self) -> Frame:
        """The topmost entered record."""
        return self.task.running_frame()

    def words(self, count: int) -> list[Word]:
        """The last words of the top record, the topmost one last."""
        if len(self.top.cells) < count:
            raise FaultError(Fault.STACK_UNDERFLOW)
        return self.top.cells[-count:]

    def movable(self, count: int) -> list[Word]:
        """The last words of the top record, of which none may be an original."""
        words = self.words(count)
        if any(isinstance(word, Original) for word in words):
            raise FaultError(Fault.INVALID_OPERAND)
        return words

    def need_room(self, words: int) -> None:
        """The stack must have room for that many words more."""
        if self.top.height + words > self.machine.stack_size:
            raise FaultError(Fault.STACK_OVERFLOW)

    def touch(self, array: Array) -> None:
        """The array must find room in core. This comes after every fault of an operator."""
        self.machine.claim(self.task, array_words=len(array.numbers))

    def need_level(self, end: ProcEnd) -> None:
        """A procedure runs one level above the record in which its word lies."""
        if end.frame.level + 1 != end.proc.level:
            raise FaultError(Fault.INVALID_OPERAND)

    # --- Changes ----------------------------------------------------------------

    def go_to(self, place: Place) -> None:
        """Goes on at a place of the same segment."""
        self.task.position = Position(self.task.position.segment, place)

    def go_on(self) -> None:
        """Goes on behind this operator."""
        self.go_to(self.behind)

    def drop(self, count: int) -> None:
        """Takes words off the top record."""
        del self.top.cells[len(self.top.cells) - count :]

    def replace(self, count: int, *words: Word) -> None:
        """Takes words off the top record, puts others on it, and goes on."""
        self.drop(count)
        self.top.cells += words
        self.go_on()

    def push_literal(self, word: Word) -> None:
        """Pushes a word, if there is room, and goes on."""
        self.need_room(1)
        self.replace(0, word)

    def enter(self, end: ProcEnd, *, wants_value: bool, back: Position) -> None:
        """Enters a procedure that no ENTR called. It gets no parameters."""
        self.task.frames.append(
            Frame(
                level=end.proc.level,
                environment=end.frame,
                entered=True,
                wants_value=wants_value,
                returns_to=back,
                below=self.top.height,
            )
        )
        self.task.position = Position(end.proc.segment, end.proc.place)

    def enter_to_repeat(self, end: ProcEnd, words: list[Word], kept: list[Word]) -> None:
        """Enters the procedure of a reference that is popped; then this operator is made again.

        `words` are taken off the stack, and `kept` are put back on it.
        """
        self.need_level(end)
        self.need_room(2 - len(words) + len(kept))
        self.drop(len(words))
        self.top.cells += kept
        self.enter(end, wants_value=False, back=self.task.position)

    # --- Numbers and bits -------------------------------------------------------

    def arithmetic(self) -> None:
        """ADD, SUBT, MULT: two numbers give a third, if it isn't too great."""
        a, b = numbers_of(self.words(2))
        result = ARITHMETIC[self.operator.name](a, b)
        if abs(result) > GREATEST_NUMBER:
            raise FaultError(Fault.INTEGER_OVERFLOW)
        self.replace(2, operand_of(result))

    def division(self) -> None:
        """IDIV, RDIV: the quotient or the remainder of two numbers."""
        a, b = numbers_of(self.words(2))
        if b == 0:
            raise FaultError(Fault.DIVIDE_BY_ZERO)
        self.replace(2, operand_of(DIVISIONS[self.operator.name](a, b)))

    def comparison(self) -> None:
        """LESS and its like: two numbers give 1 or 0."""
        a, b = numbers_of(self.words(2))
        self.replace(2, Operand(int(COMPARISONS[self.operator.name](a, b))))

    def logic(self) -> None:
        """LAND, LOR, LEQV, SAME: the bits of two operands."""
        a, b = bits_of(self.words(2))
        self.replace(2, Operand(LOGIC[self.operator.name](a, b)))

    def chsn(self) -> None:
        """CHSN: the number with the other sign."""
        (a,) = numbers_of(self.words(1))
        self.replace(1, operand_of(-a))

    def lnot(self) -> None:
        """LNOT: all bits inverted."""
        (a,) = bits_of(self.words(1))
        self.replace(1, Operand(~a & WORD_MASK))

    def bset(self) -> None:
        """BSET: one bit set."""
        a, bit = self.bit()
        self.replace(1, Operand(a | bit))

    def brst(self) -> None:
        """BRST: one bit reset."""
        a, bit = self.bit()
        self.replace(1, Operand(a & ~bit))

    def bit(self) -> tuple[int, int]:
        """The operand, and the bit that the parameter names."""
        (a,) = bits_of(self.words(1))
        if self.operator.number > 47:
            raise FaultError(Fault.INVALID_OPERAND)
        return a, 1 << self.operator.number

    def isol(self) -> None:
        """ISOL: a field of an operand, as the low bits of a new one."""
        (a,) = bits_of(self.words(1))
        shift, mask = self.bit_field()
        self.replace(1, Operand(a >> shift & mask))

    def insr(self) -> None:
        """INSR: a field of an operand is replaced by the low bits of another."""
        a, b = bits_of(self.words(2))
        shift, mask = self.bit_field()
        self.replace(2, Operand(a & ~(mask << shift) | (b & mask) << shift))

    def bit_field(self) -> tuple[int, int]:
        """Where the field of the parameters ends, and a mask of its width."""
        high, width = self.operator.number, self.operator.second
        if width == 0 or high > 47 or width > high + 1:
            raise FaultError(Fault.INVALID_OPERAND)
        return high - width + 1, (1 << width) - 1

    # --- Literals and the top of the stack --------------------------------------

    def zero(self) -> None:
        """ZERO: pushes 0."""
        self.push_literal(Operand(0))

    def one(self) -> None:
        """ONE: pushes 1."""
        self.push_literal(Operand(1))

    def literal(self) -> None:
        """LT8, LT16, LT48: pushes the parameter."""
        self.push_literal(Operand(self.operator.number))

    def mpcw(self) -> None:
        """MPCW: pushes a procedure word."""
        self.push_literal(proc_of_literal(self.operator.number))

    def namc(self) -> None:
        """NAMC: pushes a couple as a reference."""
        self.push_literal(Name(self.operator.number))

    def dlet(self) -> None:
        """DLET: drops a word."""
        self.movable(1)
        self.replace(1)

    def exch(self) -> None:
        """EXCH: exchanges two words."""
        a, b = self.movable(2)
        self.replace(2, b, a)

    def dupl(self) -> None:
        """DUPL: pushes a word again."""
        (a,) = self.movable(1)
        self.push_literal(a)

    def stff(self) -> None:
        """STFF: a couple becomes a reference to its cell, which must be there."""
        (word,) = self.words(1)
        if not isinstance(word, Name | Ref):
            raise FaultError(Fault.INVALID_OPERAND)
        if isinstance(word, Name):
            frame, offset = cell_of(word, self.running)
            word_at(frame, offset)
            word = Ref(frame, offset)
        self.replace(1, word)

    # --- Branches ---------------------------------------------------------------

    def branch(self) -> None:
        """BRUN: goes on at the target."""
        self.go_to(self.operator.target)

    def branch_on_bit(self) -> None:
        """BRTR, BRFL: goes on at the target if bit 0 is 1, or 0."""
        (a,) = bits_of(self.words(1))
        branches = a & 1 == (self.operator.name == "BRTR")
        self.replace(1)
        if branches:
            self.branch()

    def nvld(self) -> None:
        """NVLD: always faults."""
        raise FaultError(Fault.INVALID_OPERATOR)

    # --- Reading and storing ----------------------------------------------------

    def valc(self) -> None:
        """VALC: pushes the value that a couple comes to, or enters the procedure that makes it."""
        match follow(Name(self.operator.number), self.running):
            case CellEnd() as end:
                self.push_literal(word_at(end.frame, end.offset))
            case ElementEnd() as end:
                self.need_room(1)
                self.touch(end.array)
                self.replace(0, Operand(end.array.numbers[end.index]))
            case ProcEnd() as end:
                self.need_level(end)
                self.need_room(2)
                back = Position(self.task.position.segment, self.behind)
                self.enter(end, wants_value=True, back=back)
            case _:
                raise FaultError(Fault.INVALID_OPERAND)

    def load(self) -> None:
        """LOAD: a reference becomes the word that it comes to."""
        (word,) = self.words(1)
        if not isinstance(word, Name | Ref | Element):
            raise FaultError(Fault.INVALID_OPERAND)
        match follow(word, self.running):
            case CellEnd() as end:
                self.replace(1, word_at(end.frame, end.offset))
            case ElementEnd() as end:
                self.touch(end.array)
                self.replace(1, Operand(end.array.numbers[end.index]))
            case ArrayEnd() as end:
                self.replace(1, Row(end.array))
            case ProcEnd() as end:
                self.enter_to_repeat(end, [word], [])
            case _:
                raise FaultError(Fault.INVALID_OPERAND)

    def stod(self) -> None:
        """STOD: stores and drops the value."""
        self.store(leaves_value=False)

    def ston(self) -> None:
        """STON: stores and leaves the value."""
        self.store(leaves_value=True)

    def store(self, *, leaves_value: bool) -> None:
        """Stores a value at a destination, which may stand in either order."""
        value, destination = self.operand_first(self.words(2))
        if not isinstance(value, Operand) or not isinstance(destination, Name | Ref | Element):
            raise FaultError(Fault.INVALID_OPERAND)
        left = [value] if leaves_value else []
        match follow(destination, self.running):
            case CellEnd() as end:
                end.frame.cells[end.offset - end.frame.first_offset] = value
                self.replace(2, *left)
            case ElementEnd() as end:
                if end.array.read_only:
                    raise FaultError(Fault.MEMORY_PROTECT)
                self.touch(end.array)
                end.array.numbers[end.index] = value.bits
                self.replace(2, *left)
            case ProcEnd() as end:
                self.enter_to_repeat(end, [value, destination], [value])
            case _:
                raise FaultError(Fault.MEMORY_PROTECT)

    def operand_first(self, words: list[Word]) -> tuple[Word, Word]:
        """Two words. If the upper one is an operand they are exchanged."""
        lower, upper = words
        return (upper, lower) if isinstance(upper, Operand) else (lower, upper)

    def indx(self) -> None:
        """INDX: an array and an index give an element copy."""
        array, index = self.indexed()
        self.replace(2, Element(array, index))

    def nxlv(self) -> None:
        """NXLV: an array and an index give the element."""
        array, index = self.indexed()
        self.touch(array)
        self.replace(2, Operand(array.numbers[index]))

    def indexed(self) -> tuple[Array, int]:
        """The array and the index that the two topmost words name."""
        index, word = self.operand_first(self.words(2))
        if not isinstance(index, Operand) or not isinstance(word, Name | Ref | Row):
            raise FaultError(Fault.INVALID_OPERAND)
        end = ArrayEnd(word.array) if isinstance(word, Row) else follow(word, self.running)
        if not isinstance(end, ArrayEnd):
            raise FaultError(Fault.INVALID_OPERAND)
        number = number_of(index)
        if not 0 <= number < len(end.array.numbers):
            raise FaultError(Fault.INVALID_INDEX)
        return end.array, number

    # --- Entering and leaving ---------------------------------------------------

    def mkst(self) -> None:
        """MKST: begins a record, in which the words of a call are pushed."""
        self.need_room(1)
        self.task.frames.append(Frame(below=self.top.height))
        self.go_on()

    def called(self) -> ProcEnd | IntrinsicEnd:
        """What an ENTR calls."""
        if self.top.entered:
            raise FaultError(Fault.INVALID_OPERAND)
        if not self.top.cells:
            raise FaultError(Fault.STACK_UNDERFLOW)
        reference = self.top.cells[0]
        if not isinstance(reference, Name | Ref):
            raise FaultError(Fault.INVALID_OPERAND)
        end = follow(reference, self.running)
        if not isinstance(end, ProcEnd | IntrinsicEnd):
            raise FaultError(Fault.INVALID_OPERAND)
        return end

    def entr(self) -> None:
        """ENTR: enters the procedure that the marked record's first word comes to."""
        end = self.called()
        if isinstance(end, IntrinsicEnd):
            self.call_intrinsic(end.number)
            return
        self.need_level(end)
        frame = self.top
        frame.level = end.proc.level
        frame.environment = end.frame
        frame.entered = True
        frame.returns_to = Position(self.task.position.segment, self.behind)
        del frame.cells[0]
        self.task.position = Position(end.proc.segment, end.proc.place)

    def call_intrinsic(self, number: int) -> None:
        """Makes a call of the MCP. The class of steps that knows the MCP does this."""
        raise NotImplementedError

    def exit(self) -> None:
        """EXIT: leaves the running record."""
        self.need_entered()
        self.need_no_dependent()
        self.leave()

    def need_entered(self) -> None:
        """The top record must be entered."""
        if not self.top.entered:
            raise FaultError(Fault.MARK_PENDING)

    def need_no_dependent(self) -> None:
        """No live task may depend on the top record, which is to be cut."""
        if self.task.job.depends_on(self.top):
            raise FaultError(Fault.CRITICAL_BLOCK)

    def leave(self) -> None:
        """Cuts the running record and goes on where it was entered."""
        if len(self.task.frames) == 1:
            raise TaskEndedError
        frame = self.task.frames.pop()
        self.machine.release(frame)
        self.task.position = frame.returns_to

    def retn(self) -> None:
        """RETN: leaves the running record and pushes its last word on the one below."""
        self.need_entered()
        (word,) = self.words(1)
        if isinstance(word, Original | Name):
            raise FaultError(Fault.INVALID_OPERAND)
        if self.home_of(word) is self.top:
            raise FaultError(Fault.UPLEVEL)
        self.need_no_dependent()
        if self.top.wants_value:
            self.return_value(word)
        else:
            self.leave()
            self.top.cells.append(word)

    def home_of(self, word: Word) -> Frame | None:
        """The record of a reference's cell, or of the original of a copy."""
        if isinstance(word, Ref):
            return word.frame
        if isinstance(word, Row | Element):
            return word.array.owner
        return None

    def return_value(self, word: Word) -> None:
        """Leaves a record that was entered for a value, as the operator VALC would go on."""
        if isinstance(word, Operand):
            self.leave_with(word)
            return
        if not isinstance(word, Ref | Element):
            raise FaultError(Fault.INVALID_OPERAND)
        match self.followed_after_leaving(word):
            case CellEnd() as end:
                self.leave_with(word_at(end.frame, end.offset))
            case ElementEnd() as end:
                self.touch(end.array)
                self.leave_with(Operand(end.array.numbers[end.index]))
            case ProcEnd() as end:
                self.need_level(end)
                back = self.top.returns_to
                self.leave()
                self.enter(end, wants_value=True, back=back)
            case _:
                raise FaultError(Fault.INVALID_OPERAND)

    def leave_with(self, word: Word) -> None:
        """Leaves the running record and pushes a word on the one below."""
        self.leave()
        self.top.cells.append(word)

    def followed_after_leaving(self, word: Word) -> End:
        """What a returned reference comes to for the caller, once this record is cut."""
        callers = reversed(self.task.frames[:-1])
        return follow(word, next(frame for frame in callers if frame.entered))


# What makes each operator.
ROWS: dict[str, Callable[[Step], None]] = {
    **dict.fromkeys(ARITHMETIC, Step.arithmetic),
    **dict.fromkeys(DIVISIONS, Step.division),
    **dict.fromkeys(COMPARISONS, Step.comparison),
    **dict.fromkeys(LOGIC, Step.logic),
    "VALC": Step.valc,
    "NAMC": Step.namc,
    "CHSN": Step.chsn,
    "LNOT": Step.lnot,
    "BSET": Step.bset,
    "BRST": Step.brst,
    "ISOL": Step.isol,
    "INSR": Step.insr,
    "BRFL": Step.branch_on_bit,
    "BRTR": Step.branch_on_bit,
    "BRUN": Step.branch,
    "EXIT": Step.exit,
    "INDX": Step.indx,
    "RETN": Step.retn,
    "ENTR": Step.entr,
    "NXLV": Step.nxlv,
    "MKST": Step.mkst,
    "STFF": Step.stff,
    "ZERO": Step.zero,
    "ONE": Step.one,
    "LT8": Step.literal,
    "LT16": Step.literal,
    "LT48": Step.literal,
    "MPCW": Step.mpcw,
    "PUSH": Step.go_on,
    "NOOP": Step.go_on,
    "DLET": Step.dlet,
    "EXCH": Step.exch,
    "DUPL": Step.dupl,
    "STOD": Step.stod,
    "STON": Step.ston,
    "LOAD": Step.load,
    "NVLD": Step.nvld,
}
