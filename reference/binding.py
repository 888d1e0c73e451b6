"""Binding: segments of a host give way to segments of another program, its part."""

from __future__ import annotations

from dataclasses import dataclass

from codefile import Codefile, Segment
from loader import FIRST_PLACE, Listing, listing_of, literal_of_proc, proc_of_literal
from words import Proc, couple_of

MOST_PAIRS = 255
ROWS_LEVEL = 1


@dataclass(frozen=True)
class Pair:
    """A segment of the host, and the segment of the part that takes its place."""

    host: int
    part: int


class BindError(Exception):
    """A pair is refused: which, from 1, and why."""

    def __init__(self, pair: int, reason: int) -> None:
        super().__init__(pair, reason)
        self.pair = pair
        self.reason = reason


class Binder:
    """A host, a part and the pairs by which they are bound. Both are admitted."""

    def __init__(self, host: Codefile, part: Codefile, pairs: list[Pair]) -> None:
        self.host = host
        self.part = part
        self.pairs = pairs
        self.host_of_part = {pair.part: pair.host for pair in reversed(pairs)}
        self.part_of_host = {pair.host: pair.part for pair in reversed(pairs)}
        self.kept_procs = [
            proc
            for number, segment in enumerate(host.segments, start=1)
            if number not in self.part_of_host
            for proc in procs_in(listing_of(segment.code))
        ]

    def check(self) -> None:
        """Refuses the first pair that breaks a reason, with its lowest one."""
        for at, pair in enumerate(self.pairs):
            reason = self.reason_of(pair, self.pairs[:at])
            if reason is not None:
                raise BindError(at + 1, reason)

    def reason_of(self, pair: Pair, before: list[Pair]) -> int | None:
        """The lowest reason for which a pair is refused."""
        if pair.host > len(self.host.segments):
            return 1
        if pair.part > len(self.part.segments):
            return 2
        if any(pair.host == other.host or pair.part == other.part for other in before):
            return 3
        new = self.part.segments[pair.part - 1]
        if self.host.segments[pair.host - 1].level != new.level:
            return 4
        listing = listing_of(new.code)
        if any(proc.segment - 1 not in self.host_of_part for proc in procs_in(listing)):
            return 5
        if ROWS_LEVEL in couple_levels_in(listing, new.level):
            return 6
        places = {FIRST_PLACE, *new.entries}
        if any(
            proc.segment - 1 == pair.host and proc.place not in places for proc in self.kept_procs
        ):
            return 7
        return None

    def bound(self) -> Codefile:
        """The bound file, if no pair is refused."""
        return Codefile(
            max(self.host.version, self.part.version),
            [self.segment_at(number) for number in range(1, len(self.host.segments) + 1)],
            self.host.rows,
        )

    def segment_at(self, number: int) -> Segment:
        """A segment of the bound file: the host's, or the part's with its calls renamed."""
        if number not in self.part_of_host:
            return self.host.segments[number - 1]
        old = self.part.segments[self.part_of_host[number] - 1]
        code = list(old.code)
        for place, (operator, _) in listing_of(old.code).operators.items():
            if operator.name == "MPCW":
                proc = proc_of_literal(operator.number)
                named = self.host_of_part[proc.segment - 1] + 1
                code[place.word + 1] = literal_of_proc(Proc(named, proc.level, proc.place))
        return Segment(old.level, code, old.entries)


def procs_in(listing: Listing) -> list[Proc]:
    """The procedures that the MPCWs of a listing name."""
    operators = [operator for operator, _ in listing.operators.values()]
    return [proc_of_literal(op.number) for op in operators if op.name == "MPCW"]


def couple_levels_in(listing: Listing, level: int) -> set[int]:
    """The levels that the couples of a listing name."""
    operators = [operator for operator, _ in listing.operators.values()]
    return {couple_of(op.number, level)[0] for op in operators if op.name in ("VALC", "NAMC")}


def bind(host: Codefile, part: Codefile, pairs: list[Pair]) -> Codefile:
    """The host with the part's segments bound in by pairs."""
    binder = Binder(host, part, pairs)
    binder.check()
    return binder.bound()
