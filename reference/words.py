"""The words of the machine, its faults and the endings of its tasks.

A word of a stack is one of the small classes below. Arrays and activation
records are objects of their own, so that a reference simply names one.
"""

from __future__ import annotations

from dataclasses import dataclass
from enum import Enum
from functools import cache
from typing import TYPE_CHECKING, NamedTuple

if TYPE_CHECKING:
    from machine import Array, Frame

WORD_MASK = (1 << 48) - 1
MAGNITUDE_MASK = (1 << 39) - 1
SIGN_BIT = 1 << 46
# Bit 47 and the seven bits of the exponent are zero in a whole operand.
NOT_WHOLE = 1 << 47 | 0x7F << 39
GREATEST_NUMBER = MAGNITUDE_MASK


class Fault(Enum):
    """What an operator can be refused with."""

    STACK_UNDERFLOW = "STACK UNDERFLOW"
    STACK_OVERFLOW = "STACK OVERFLOW"
    INVALID_OPERAND = "INVALID OPERAND"
    INVALID_INDEX = "INVALID INDEX"
    MEMORY_PROTECT = "MEMORY PROTECT"
    INVALID_ADDRESS = "INVALID ADDRESS"
    INTEGER_OVERFLOW = "INTEGER OVERFLOW"
    DIVIDE_BY_ZERO = "DIVIDE BY ZERO"
    EXPONENT = "EXPONENT"
    LOOP = "LOOP"
    UPLEVEL = "UPLEVEL"
    CRITICAL_BLOCK = "CRITICAL BLOCK"
    INVALID_OPERATOR = "INVALID OPERATOR"
    MARK_PENDING = "MARK PENDING"


class Ending(Enum):
    """How a task can end, besides by a fault."""

    ENDED = "ENDED"
    PARENT = "PARENT"
    DEADLOCK = "DEADLOCK"
    LIMIT = "LIMIT"


class FaultError(Exception):
    """An operator faults. Nothing was changed."""

    def __init__(self, fault: Fault) -> None:
        super().__init__(fault.value)
        self.fault = fault


class Place(NamedTuple):
    """A syllable of a segment. Places are ordered by word, then by syllable."""

    word: int
    syllable: int

    def __str__(self) -> str:
        return f"{self.word}:{self.syllable}"


@dataclass(frozen=True, slots=True)
class Operand:
    """48 bits."""

    bits: int


@dataclass(frozen=True, slots=True)
class Name:
    """A couple of level and displacement, not yet read: 14 bits."""

    couple: int


@dataclass(frozen=True, slots=True, eq=False)
class Ref:
    """A stuffed reference: one cell of one activation record."""

    frame: Frame
    offset: int


@dataclass(frozen=True, slots=True, eq=False)
class Row:
    """A copy of a descriptor: it names a whole array."""

    array: Array


@dataclass(frozen=True, slots=True, eq=False)
class Element:
    """An indexed copy of a descriptor: it names one element of an array."""

    array: Array
    index: int


@dataclass(frozen=True, slots=True, eq=False)
class Original:
    """The descriptor that owns an array. It never moves."""

    array: Array


@dataclass(frozen=True, slots=True)
class Proc:
    """A program control word: a procedure of the level at which it will run."""

    segment: int
    level: int
    place: Place


@dataclass(frozen=True, slots=True)
class Intrinsic:
    """A procedure of the MCP."""

    number: int


@dataclass(frozen=True, slots=True)
class SegmentWord:
    """The descriptor of a segment. Only dictionaries hold it."""

    number: int


Word = Operand | Name | Ref | Row | Element | Original | Proc | Intrinsic | SegmentWord


def is_whole(bits: int) -> bool:
    """Whether the 48 bits of an operand are a whole number."""
    return bits & NOT_WHOLE == 0


def value_of(bits: int) -> int:
    """The number that a whole operand represents. Minus zero is 0."""
    magnitude = bits & MAGNITUDE_MASK
    return -magnitude if bits & SIGN_BIT else magnitude


def bits_of_number(number: int) -> int:
    """The 48 bits of a number whose magnitude is at most GREATEST_NUMBER."""
    return -number | SIGN_BIT if number < 0 else number


def operand_of(number: int) -> Operand:
    """The operand of a number whose magnitude is at most GREATEST_NUMBER."""
    return Operand(bits_of_number(number))


def level_bits(running_level: int) -> int:
    """How many bits of a couple hold its level, at this running level."""
    for count, last_level in ((1, 1), (2, 3), (3, 7), (4, 15)):
        if running_level <= last_level:
            return count
    return 5


@cache
def couple_of(bits: int, running_level: int) -> tuple[int, int]:
    """The level and the displacement of a couple. The level's bits are reversed."""
    count = level_bits(running_level)
    level = sum((bits >> (13 - i) & 1) << i for i in range(count))
    return level, bits & ((1 << (14 - count)) - 1)


@cache
def couple_bits(level: int, displacement: int, running_level: int) -> int | None:
    """The 14 bits of a couple, or None if one of its parts doesn't fit."""
    count = level_bits(running_level)
    if level >= 1 << count or displacement >= 1 << (14 - count):
        return None
    return displacement | sum((level >> i & 1) << (13 - i) for i in range(count))
