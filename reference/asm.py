"""The assembler: the codefile that assembly cards denote.

It makes three passes. The first reads each card by itself. The second walks
through the cards in order and gives every segment, row and label its place.
The third looks for the first refused card, and then makes the code.
"""

from __future__ import annotations

import re
from dataclasses import dataclass, field

from cards import NAME, NATURAL, WHOLE, Card, RefusedError, words_of
from codefile import LONGEST_SEGMENT, MOST_OBJECTS, Codefile, Segment
from loader import GREATEST_LEVEL, literal_of_proc
from syllables import (
    OPERATORS,
    Form,
    Operator,
    place_behind,
    syllables_left,
    syllables_of,
)
from words import GREATEST_NUMBER, Place, Proc, bits_of_number, couple_bits

LONGEST_ROW = 65_535
BITS_LITERAL = re.compile(r"#[0-9A-Fa-f]{12}")
FILLER = 0xFF
FIRST_PLACE = Place(0, 0)
RANGES = {"LT8": 0xFF, "LT16": 0xFFFF, "BSET": 47, "BRST": 47, "ISOL": 0xFF, "INSR": 0xFF}


class CardError(Exception):
    """The card that is being read is refused with this reason."""

    def __init__(self, reason: int) -> None:
        super().__init__(reason)
        self.reason = reason


@dataclass
class Line:
    """A card, read by itself. `reason` tells why it is refused already, 0 for not."""

    card: int
    kind: str  # SEGMENT, ROW, NUM, ENTRY or OPERATOR
    reason: int = 0
    defines: str = ""  # the name of a segment or row, or the label of an operator
    level: int = 0  # of a segment
    numbers: list[int] = field(default_factory=list)
    operator: str = ""
    uses: str = ""  # a name or label
    uses_label: str = ""  # the label after the name of an MPCW
    # What the second pass adds.
    code: Code | None = None
    row: RowOfCards | None = None
    objects: int = 0  # segments and rows begun so far, this card's included
    repeated: bool = False
    too_long: bool = False


@dataclass
class Code:
    """A segment as its cards make it."""

    number: int
    level: int
    labels: dict[str, Place] = field(default_factory=dict)
    lines: list[Line] = field(default_factory=list)
    entry_lines: list[Line] = field(default_factory=list)
    has_card: bool = False
    end: Place = FIRST_PLACE

    @property
    def entry_labels(self) -> set[str]:
        """The labels that ENTRY cards name."""
        return {line.uses for line in self.entry_lines}


@dataclass
class RowOfCards:
    """A data row as its cards make it."""

    number: int
    words: list[int] = field(default_factory=list)
    has_card: bool = False


def text_of(card: Card) -> str:
    """The card without its comment."""
    return card.text.partition(";")[0]


# --- The first pass -------------------------------------------------------------


def read_line(card: Card) -> Line:
    """Reads a card by itself: reasons 1, 2 and 3."""
    words = words_of(text_of(card))
    line = Line(card.number, kind_of(words[0]))
    try:
        READERS[line.kind](line, words)
    except CardError as refused:
        line.reason = refused.reason
    return line


def kind_of(word: str) -> str:
    """What kind of card begins with this word."""
    return word if word in ("SEGMENT", "ROW", "NUM", "ENTRY") else "OPERATOR"


def name_in(text: str) -> str:
    """A name that an operand must be."""
    if NAME.fullmatch(text) is None:
        raise CardError(2)
    return text


def naturals_in(texts: list[str], greatest: int, reason: int) -> list[int]:
    """Numbers that operands must be; past their range they have the reason given."""
    if any(NATURAL.fullmatch(text) is None for text in texts):
        raise CardError(2)
    numbers = [int(text) for text in texts]
    if any(number > greatest for number in numbers):
        raise CardError(reason)
    return numbers


def words_in(texts: list[str]) -> list[int]:
    """The 48 bits of whole numbers and of hexadecimal literals."""
    for text in texts:
        if WHOLE.fullmatch(text) is None and BITS_LITERAL.fullmatch(text) is None:
            raise CardError(2)
    return [word_of(text) for text in texts]


def word_of(text: str) -> int:
    """The 48 bits of a well-formed literal."""
    if text.startswith("#"):
        return int(text[1:], 16)
    if abs(int(text)) > GREATEST_NUMBER:
        raise CardError(3)
    return bits_of_number(int(text))


def need_operands(words: list[str], count: int) -> None:
    """The card must have exactly that many operands."""
    if len(words) != count + 1:
        raise CardError(2)


def read_segment(line: Line, words: list[str]) -> None:
    """`SEGMENT name level`."""
    need_operands(words, 2)
    name = name_in(words[1])
    if NATURAL.fullmatch(words[2]) is None:
        raise CardError(2)
    line.defines = name
    line.level = int(words[2])
    if line.level > 0xFF:
        raise CardError(3)


def read_row(line: Line, words: list[str]) -> None:
    """`ROW name`."""
    need_operands(words, 1)
    line.defines = name_in(words[1])


def read_num(line: Line, words: list[str]) -> None:
    """`NUM v v ..`."""
    if len(words) < 2:
        raise CardError(2)
    line.numbers = words_in(words[1:])


def read_entry(line: Line, words: list[str]) -> None:
    """`ENTRY label`."""
    need_operands(words, 1)
    line.uses = name_in(words[1])


def read_operator(line: Line, words: list[str]) -> None:
    """`[label:] MNEMONIC [operand]`."""
    label = ""
    if words[0].endswith(":"):
        label = words[0][:-1]
        words = words[1:]
        if NAME.fullmatch(label) is None:
            raise CardError(1)
    if not words or words[0] not in OPERATORS:
        raise CardError(1)
    line.operator = words[0]
    try:
        read_operand(line, words)
    except CardError as refused:
        if refused.reason == 2:
            raise
        line.reason = refused.reason
    line.defines = label


def read_operand(line: Line, words: list[str]) -> None:
    """The operand of an operator, by the form of its parameters."""
    form = OPERATORS[line.operator][1]
    need_operands(words, 0 if form is Form.PLAIN else 1)
    match form:
        case Form.COUPLE:
            read_couple(line, words[1])
        case Form.BYTE | Form.DOUBLE:
            line.numbers = naturals_in(words[1:], RANGES[line.operator], 3)
        case Form.PAIR:
            line.numbers = naturals_in(two_parts(words[1]), RANGES[line.operator], 3)
        case Form.BRANCH:
            line.uses = name_in(words[1])
        case Form.LITERAL if line.operator == "LT48":
            line.numbers = words_in(words[1:])
        case Form.LITERAL:
            read_procedure(line, words[1])


def two_parts(text: str) -> list[str]:
    """The two operands before and after the first comma."""
    first, comma, second = text.partition(",")
    if not comma:
        raise CardError(2)
    return [first, second]


def read_couple(line: Line, text: str) -> None:
    """`level,displacement`, or `1,name` of a data row."""
    level, displacement = two_parts(text)
    if level == "1" and NAME.fullmatch(displacement) is not None:
        line.uses = displacement
        line.numbers = [1]
        return
    if NATURAL.fullmatch(level) is None or NATURAL.fullmatch(displacement) is None:
        raise CardError(2)
    line.numbers = [int(level), int(displacement)]


def read_procedure(line: Line, text: str) -> None:
    """`name`, or `name:label`."""
    name, colon, label = text.partition(":")
    line.uses = name_in(name)
    if colon:
        line.uses_label = name_in(label)


READERS = {
    "SEGMENT": read_segment,
    "ROW": read_row,
    "NUM": read_num,
    "ENTRY": read_entry,
    "OPERATOR": read_operator,
}

# --- The second pass ------------------------------------------------------------


class Program:
    """All cards with what they define: names, labels and places."""

    def __init__(self, lines: list[Line]) -> None:
        self.lines = lines
        self.names: dict[str, Code | RowOfCards] = {}
        self.codes: list[Code] = []
        self.rows: list[RowOfCards] = []
        self.code: Code | None = None
        self.row: RowOfCards | None = None
        for line in lines:
            self.lay_out(line)

    def lay_out(self, line: Line) -> None:
        """Takes the next card."""
        match line.kind:
            case "SEGMENT":
                self.code, self.row = Code(len(self.codes) + 1, line.level), None
                self.codes.append(self.code)
                self.define_name(line, self.code)
            case "ROW":
                self.code, self.row = None, RowOfCards(len(self.rows) + 1)
                self.rows.append(self.row)
                self.define_name(line, self.row)
            case "NUM":
                self.lay_out_numbers(line)
            case "ENTRY":
                if self.code is not None and not line.reason:
                    self.code.entry_lines.append(line)
            case _:
                self.lay_out_operator(line)
        line.code, line.row = self.code, self.row
        line.objects = len(self.codes) + len(self.rows)

    def define_name(self, line: Line, thing: Code | RowOfCards) -> None:
        """Gives a segment or row its name, unless that name is given already."""
        if line.defines in self.names:
            line.repeated = True
        elif line.defines:
            self.names[line.defines] = thing

    def lay_out_numbers(self, line: Line) -> None:
        """Gives the words of a NUM card to the current row."""
        if self.row is None:
            return
        self.row.has_card = True
        self.row.words += line.numbers
        line.too_long = len(self.row.words) > LONGEST_ROW

    def lay_out_operator(self, line: Line) -> None:
        """Gives an operator its place. A refused card takes no room."""
        code = self.code
        if code is None:
            return
        code.has_card = True
        if line.defines in code.labels:
            line.repeated = True
        elif line.defines:
            code.labels[line.defines] = code.end
        if line.reason or line.repeated:
            return
        code.lines.append(line)
        code.end = place_behind(code.end, line.operator)
        line.too_long = code.end > Place(LONGEST_SEGMENT, 0)

    # --- The third pass ---------------------------------------------------------

    def refuse(self) -> None:
        """Looks for the first refused card."""
        for line in self.lines:
            reason = self.reason_of(line)
            if reason:
                raise RefusedError(f"ASM {line.card} REASON {reason}")

    def reason_of(self, line: Line) -> int:
        """The lowest reason for which a card is refused, 0 for none."""
        if line.reason:
            return line.reason
        if line.repeated:
            return 4
        tests = [
            (5, self.uses_unknown),
            (6, self.stands_nowhere),
            (7, self.is_too_long_or_empty),
            (8, self.has_bad_couple),
            (9, self.is_one_too_many),
            (10, self.is_bad_entry),
            (11, self.names_no_entry),
        ]
        return next((reason for reason, test in tests if test(line)), 0)

    def uses_unknown(self, line: Line) -> bool:
        """Whether a name or label that the card uses is defined nowhere."""
        if not line.uses:
            return False
        if line.operator in ("VALC", "NAMC"):
            return not isinstance(self.names.get(line.uses), RowOfCards)
        if line.operator == "MPCW":
            named = self.names.get(line.uses)
            if not isinstance(named, Code) or named.level > GREATEST_LEVEL:
                return True
            return bool(line.uses_label) and line.uses_label not in named.labels
        return line.code is not None and line.uses not in line.code.labels

    def stands_nowhere(self, line: Line) -> bool:
        """Whether the card needs a current segment or row, and there is none."""
        if line.kind == "NUM":
            return line.row is None
        return line.kind in ("OPERATOR", "ENTRY") and line.code is None

    def is_too_long_or_empty(self, line: Line) -> bool:
        """Whether the card makes a segment or row too long, or begins one without a card."""
        if line.too_long:
            return True
        if line.kind == "SEGMENT":
            return not line.code.has_card
        return line.kind == "ROW" and not line.row.has_card

    def couple(self, line: Line) -> int | None:
        """The bits of a VALC's or NAMC's couple, or None where they don't fit."""
        level = line.numbers[0]
        if line.uses:
            displacement = len(self.codes) + 1 + self.names[line.uses].number
        else:
            displacement = line.numbers[1]
        return couple_bits(level, displacement, min(line.code.level, GREATEST_LEVEL))

    def has_bad_couple(self, line: Line) -> bool:
        """Whether a couple doesn't fit at the segment's level."""
        return line.operator in ("VALC", "NAMC") and self.couple(line) is None

    def is_one_too_many(self, line: Line) -> bool:
        """Whether the card begins segment or row number 256."""
        return line.kind in ("SEGMENT", "ROW") and line.objects > MOST_OBJECTS

    def is_bad_entry(self, line: Line) -> bool:
        """Whether an ENTRY names 0:0, a place that is one already, or is number 256."""
        if line.kind != "ENTRY":
            return False
        labels = line.code.labels
        before = [other for other in line.code.entry_lines if other.card < line.card]
        places = {labels[other.uses] for other in before if other.uses in labels}
        place = labels[line.uses]
        return place == FIRST_PLACE or place in places or len(before) == 255

    def names_no_entry(self, line: Line) -> bool:
        """Whether the label of an MPCW is no entry of its segment."""
        if line.operator != "MPCW" or not line.uses_label:
            return False
        named = self.names[line.uses]
        at_start = named.labels[line.uses_label] == FIRST_PLACE
        return at_start or line.uses_label not in named.entry_labels

    # --- The code ---------------------------------------------------------------

    def codefile(self) -> Codefile:
        """The codefile of cards of which none is refused."""
        has_entries = any(code.entry_lines for code in self.codes)
        return Codefile(
            2 if has_entries else 1,
            [self.segment(code) for code in self.codes],
            [row.words for row in self.rows],
        )

    def segment(self, code: Code) -> Segment:
        """The words of a segment, with its entries in order."""
        out = bytearray()
        for line in code.lines:
            operator = self.operator(line)
            out += syllables_of(operator)
            if OPERATORS[line.operator][1] is Form.LITERAL:
                out += bytes([FILLER]) * syllables_left(Place(0, len(out)))
                out += operator.number.to_bytes(6, "big")
        out += bytes([FILLER]) * syllables_left(Place(0, len(out)))
        words = [int.from_bytes(out[at : at + 6], "big") for at in range(0, len(out), 6)]
        entries = sorted(code.labels[line.uses] for line in code.entry_lines)
        return Segment(code.level, words, entries)

    def operator(self, line: Line) -> Operator:
        """The operator of a card, with the numbers of its parameters."""
        match OPERATORS[line.operator][1]:
            case Form.COUPLE:
                return Operator(line.operator, self.couple(line))
            case Form.BRANCH:
                return Operator(line.operator, *line.code.labels[line.uses])
            case Form.LITERAL if line.operator == "MPCW":
                return Operator("MPCW", literal_of_proc(self.procedure(line)))
            case _:
                return Operator(line.operator, *line.numbers)

    def procedure(self, line: Line) -> Proc:
        """The procedure word that an MPCW makes."""
        named = self.names[line.uses]
        place = named.labels[line.uses_label] if line.uses_label else FIRST_PLACE
        return Proc(named.number + 1, named.level, place)


def assemble(cards: list[Card]) -> Codefile:
    """The codefile of these cards. The first refused card is reported."""
    program = Program([read_line(card) for card in cards if text_of(card).strip(" ")])
    program.refuse()
    return program.codefile()
