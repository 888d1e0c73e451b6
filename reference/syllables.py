"""The operators: their codes, their parameters, and how code is read and written."""

from __future__ import annotations

from dataclasses import dataclass
from enum import Enum, auto

from words import Place


class Form(Enum):
    """What follows an operator's first syllable."""

    COUPLE = auto()  # 14 bits, the first six of them in the first syllable
    PLAIN = auto()  # nothing
    BYTE = auto()  # one number of 8 bits
    DOUBLE = auto()  # one number of 16 bits
    PAIR = auto()  # two numbers of 8 bits
    BRANCH = auto()  # 3 bits of syllable and 13 bits of word
    LITERAL = auto()  # the next whole word


PLAIN_CODES = {
    "ADD": 0x80, "SUBT": 0x81, "MULT": 0x82, "IDIV": 0x84, "RDIV": 0x85,
    "LESS": 0x88, "GREQ": 0x89, "GRTR": 0x8A, "LSEQ": 0x8B, "EQUL": 0x8C, "NEQL": 0x8D,
    "CHSN": 0x8E, "LAND": 0x90, "LOR": 0x91, "LNOT": 0x92, "LEQV": 0x93, "SAME": 0x94,
    "EXIT": 0xA3, "INDX": 0xA6, "RETN": 0xA7, "ENTR": 0xAB, "NXLV": 0xAD, "MKST": 0xAE,
    "STFF": 0xAF, "ZERO": 0xB0, "ONE": 0xB1, "PUSH": 0xB4, "DLET": 0xB5, "EXCH": 0xB6,
    "DUPL": 0xB7, "STOD": 0xB8, "STON": 0xB9, "LOAD": 0xBD, "NOOP": 0xFE, "NVLD": 0xFF,
}  # fmt: skip

OPERATORS: dict[str, tuple[int, Form]] = {
    "VALC": (0x00, Form.COUPLE),
    "NAMC": (0x40, Form.COUPLE),
    "BSET": (0x96, Form.BYTE),
    "BRST": (0x9E, Form.BYTE),
    "ISOL": (0x9A, Form.PAIR),
    "INSR": (0x9C, Form.PAIR),
    "BRFL": (0xA0, Form.BRANCH),
    "BRTR": (0xA1, Form.BRANCH),
    "BRUN": (0xA2, Form.BRANCH),
    "LT8": (0xB2, Form.BYTE),
    "LT16": (0xB3, Form.DOUBLE),
    "LT48": (0xBE, Form.LITERAL),
    "MPCW": (0xBF, Form.LITERAL),
    **{name: (code, Form.PLAIN) for name, code in PLAIN_CODES.items()},
}

NAME_OF_CODE = {code: name for name, (code, _) in OPERATORS.items()}

LENGTHS = {
    Form.COUPLE: 2,
    Form.PLAIN: 1,
    Form.BYTE: 2,
    Form.DOUBLE: 3,
    Form.PAIR: 3,
    Form.BRANCH: 3,
    Form.LITERAL: 1,
}


@dataclass(frozen=True, slots=True)
class Operator:
    """An operator with its parameter: a number, a pair of numbers, or a place."""

    name: str
    number: int = 0
    second: int = 0

    @property
    def target(self) -> Place:
        """Where a branch goes: `number` is the word, `second` the syllable."""
        return Place(self.number, self.second)


class BrokenCodeError(Exception):
    """No operator can be read: its code is unknown, or it runs past the segment."""

    def __init__(self, *, past_end: bool) -> None:
        super().__init__("past the end" if past_end else "unknown code")
        self.past_end = past_end


def moved(place: Place, syllables: int) -> Place:
    """The place that many syllables later."""
    return Place(*divmod(place.word * 6 + place.syllable + syllables, 6))


def syllable_at(code: list[int], place: Place) -> int:
    """The eight bits at a place inside the code; each word has six syllables."""
    return code[place.word] >> (40 - 8 * place.syllable) & 0xFF


def name_of_syllable(syllable: int) -> str | None:
    """The operator that begins with this syllable, or None."""
    if syllable < 0x80:
        return "VALC" if syllable < 0x40 else "NAMC"
    return NAME_OF_CODE.get(syllable)


def decode(code: list[int], place: Place) -> tuple[Operator, Place]:
    """The operator at a place inside the code, and the place after it."""
    first = syllable_at(code, place)
    name = name_of_syllable(first)
    if name is None:
        raise BrokenCodeError(past_end=False)
    form = OPERATORS[name][1]
    if form is Form.LITERAL:
        if place.word + 1 >= len(code):
            raise BrokenCodeError(past_end=True)
        return Operator(name, code[place.word + 1]), Place(place.word + 2, 0)
    behind = moved(place, LENGTHS[form])
    if behind > Place(len(code), 0):
        raise BrokenCodeError(past_end=True)
    number = 0
    for i in range(1, LENGTHS[form]):
        number = number << 8 | syllable_at(code, moved(place, i))
    if form is Form.COUPLE:
        return Operator(name, (first & 0x3F) << 8 | number), behind
    if form is Form.PAIR:
        return Operator(name, number >> 8, number & 0xFF), behind
    if form is Form.BRANCH:
        return Operator(name, number & 0x1FFF, number >> 13), behind
    return Operator(name, number), behind


def syllables_of(operator: Operator) -> bytes:
    """The syllables of an operator, without its literal word."""
    code, form = OPERATORS[operator.name]
    if form is Form.COUPLE:
        return bytes([code | operator.number >> 8, operator.number & 0xFF])
    if form is Form.BYTE:
        return bytes([code, operator.number])
    if form is Form.DOUBLE:
        return bytes([code]) + operator.number.to_bytes(2, "big")
    if form is Form.PAIR:
        return bytes([code, operator.number, operator.second])
    if form is Form.BRANCH:
        return bytes([code]) + (operator.second << 13 | operator.number).to_bytes(2, "big")
    return bytes([code])


def syllables_left(place: Place) -> int:
    """How many syllables of a word are filled before a literal that follows `place`."""
    return -place.syllable % 6


def place_behind(place: Place, name: str) -> Place:
    """The place after an operator of this name that stands at `place`."""
    form = OPERATORS[name][1]
    if form is Form.LITERAL:
        return Place(place.word + 2, 0)
    return moved(place, LENGTHS[form])
