"""The rules that a codefile must keep before its code is run."""

from __future__ import annotations

from dataclasses import dataclass

from codefile import Codefile, Segment
from syllables import BrokenCodeError, Operator, decode
from words import Place, Proc, couple_of

BRANCHES = ("BRUN", "BRTR", "BRFL")
LAST_OPERATORS = ("BRUN", "EXIT", "RETN", "NVLD")
OUTER_LEVEL = 2
GREATEST_LEVEL = 31
FIRST_PLACE = Place(0, 0)


class LoadError(Exception):
    """A program is refused: which segment (0 for none), where, and by which rule."""

    def __init__(self, segment: int, place: Place, rule: int) -> None:
        super().__init__(segment, place, rule)
        self.segment = segment
        self.place = place
        self.rule = rule


@dataclass
class Listing:
    """The operators of a segment, each with the place after it."""

    operators: dict[Place, tuple[Operator, Place]]
    broken_at: Place | None
    broken_rule: int

    def is_start(self, place: Place) -> bool:
        """Whether a branch may go there. The place of a break is the last start."""
        return place in self.operators or place == self.broken_at


def listing_of(code: list[int]) -> Listing:
    """Reads a segment from 0:0, operator by operator, to its end or to a break."""
    operators: dict[Place, tuple[Operator, Place]] = {}
    place = FIRST_PLACE
    while place.word < len(code):
        try:
            operators[place] = decode(code, place)
        except BrokenCodeError as broken:
            return Listing(operators, place, 2 if broken.past_end else 1)
        place = operators[place][1]
    return Listing(operators, None, 0)


def proc_of_literal(bits: int) -> Proc:
    """The procedure word that an MPCW's literal represents."""
    return Proc(bits & 0x3FFF, bits >> 14 & 0x1F, Place(bits >> 20 & 0x1FFF, bits >> 33 & 7))


def literal_of_proc(proc: Proc) -> int:
    """The literal of an MPCW that makes this procedure word."""
    return proc.place.syllable << 33 | proc.place.word << 20 | proc.level << 14 | proc.segment


class SegmentRules:
    """Collects what the rules refuse in one segment."""

    def __init__(self, file: Codefile, segment: Segment) -> None:
        self.file = file
        self.segment = segment
        self.listing = listing_of(segment.code)
        self.refused: list[tuple[Place, int]] = []

    def refuse(self, place: Place, rule: int) -> None:
        """Notes a refusal."""
        self.refused.append((place, rule))

    def check(self, *, first: bool) -> list[tuple[Place, int]]:
        """All refusals, as pairs of place and rule."""
        for place, (operator, _) in self.listing.operators.items():
            self.check_operator(place, operator)
        if self.listing.broken_at is not None:
            self.refuse(self.listing.broken_at, self.listing.broken_rule)
        else:
            self.check_last()
        if not OUTER_LEVEL <= self.segment.level <= GREATEST_LEVEL:
            self.refuse(FIRST_PLACE, 9)
        if first and self.segment.level != OUTER_LEVEL:
            self.refuse(FIRST_PLACE, 10)
        for entry in self.segment.entries:
            if not self.listing.is_start(entry):
                self.refuse(entry, 11)
        return self.refused

    def check_operator(self, place: Place, operator: Operator) -> None:
        """What is asked of one operator."""
        if operator.name in BRANCHES:
            self.check_branch(place, operator.target)
        elif operator.name in ("VALC", "NAMC"):
            level, _ = couple_of(operator.number, min(self.segment.level, GREATEST_LEVEL))
            if level > self.segment.level:
                self.refuse(place, 6)
        elif operator.name == "MPCW":
            self.check_procedure(place, operator.number)

    def check_branch(self, place: Place, target: Place) -> None:
        """A branch must go to a start."""
        if target.word >= len(self.segment.code) or target.syllable > 5:
            self.refuse(place, 4)
        elif not self.listing.is_start(target):
            self.refuse(place, 3)

    def check_procedure(self, place: Place, bits: int) -> None:
        """The literal of an MPCW must name a procedure of the next level."""
        proc = proc_of_literal(bits)
        number = proc.segment - 1
        if literal_of_proc(proc) != bits or not 1 <= number <= len(self.file.segments):
            self.refuse(place, 7)
            return
        named = self.file.segments[number - 1]
        if (
            proc.level != named.level
            or proc.level != self.segment.level + 1
            or not (proc.place == FIRST_PLACE or proc.place in named.entries)
        ):
            self.refuse(place, 8)

    def check_last(self) -> None:
        """Nothing may run past the end."""
        place, (operator, _) = list(self.listing.operators.items())[-1]
        if operator.name not in LAST_OPERATORS:
            self.refuse(place, 5)


def verify(file: Codefile) -> list[Listing]:
    """The listings of an admitted codefile.

    Else the first refusal by segment, then place, then rule.
    """
    if not file.segments:
        raise LoadError(0, FIRST_PLACE, 10)
    listings = []
    for number, segment in enumerate(file.segments, start=1):
        rules = SegmentRules(file, segment)
        refused = rules.check(first=number == 1)
        if refused:
            raise LoadError(number, *min(refused))
        listings.append(rules.listing)
    return listings
