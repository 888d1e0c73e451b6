"""Codefiles: segments and data rows, and their bytes."""

from __future__ import annotations

from dataclasses import dataclass, field

from words import Place

MAGICS = {1: b"B67CODE1", 2: b"B67CODE2"}
MOST_OBJECTS = 255
LONGEST_SEGMENT = 8_191
CODE_TAG = 3
ROW_TAG = 0


@dataclass
class Segment:
    """A segment of code: the 48 bits of each word, and its further entry places."""

    level: int
    code: list[int]
    entries: list[Place] = field(default_factory=list)


@dataclass
class Codefile:
    """A program. Only version 2 has entries."""

    version: int
    segments: list[Segment]
    rows: list[list[int]]


class BadFileError(Exception):
    """The bytes are no codefile: why, and at which byte."""

    def __init__(self, reason: int, at: int) -> None:
        super().__init__(reason, at)
        self.reason = reason
        self.at = at


SHORT, BAD_HEADER, BAD_WORD, TOO_MANY, TRAILING, BAD_ENTRY = range(1, 7)


class Reader:
    """Reads the fields of a codefile from front to back."""

    def __init__(self, data: bytes) -> None:
        self.data = data
        self.at = 0

    def number(self, length: int) -> int:
        """The next field of that many bytes."""
        if self.at + length > len(self.data):
            raise BadFileError(SHORT, len(self.data))
        self.at += length
        return int.from_bytes(self.data[self.at - length : self.at], "big")

    def version(self) -> int:
        """The version that the first eight bytes tell."""
        header = self.number(8).to_bytes(8, "big")
        for version, magic in MAGICS.items():
            if header == magic:
                return version
        raise BadFileError(BAD_HEADER, 0)

    def counts(self) -> tuple[int, int]:
        """How many segments and rows follow."""
        segments, rows = self.number(2), self.number(2)
        if segments + rows > MOST_OBJECTS:
            raise BadFileError(TOO_MANY, 8)
        return segments, rows

    def segment(self, version: int) -> Segment:
        """The next segment."""
        level = self.number(1)
        entries: list[Place] = []
        if version == 2:
            for _ in range(self.number(1)):
                entries.append(self.entry(entries))
        return Segment(level, self.words(LONGEST_SEGMENT, CODE_TAG), entries)

    def entry(self, before: list[Place]) -> Place:
        """The next entry place, which is later than those before."""
        number = self.number(2)
        place = Place(number & 0x1FFF, number >> 13)
        least = before[-1] if before else Place(0, 0)
        if place.syllable > 5 or place <= least:
            raise BadFileError(BAD_ENTRY, self.at - 2)
        return place

    def words(self, most: int, tag: int) -> list[int]:
        """The next words, with their number before them."""
        length = self.number(2)
        if not 1 <= length <= most:
            raise BadFileError(TOO_MANY, self.at - 2)
        return [self.word(tag) for _ in range(length)]

    def word(self, tag: int) -> int:
        """The next word, of this tag."""
        number = self.number(8)
        if number >> 48 != tag:
            raise BadFileError(BAD_WORD, self.at - 8)
        return number & ((1 << 48) - 1)


def read_codefile(data: bytes) -> Codefile:
    """The codefile with these bytes."""
    reader = Reader(data)
    version = reader.version()
    segments, rows = reader.counts()
    file = Codefile(
        version,
        [reader.segment(version) for _ in range(segments)],
        [reader.words(65_535, ROW_TAG) for _ in range(rows)],
    )
    if reader.at < len(data):
        raise BadFileError(TRAILING, reader.at)
    return file


def write_codefile(file: Codefile) -> bytes:
    """The bytes of a codefile."""
    out = bytearray(MAGICS[file.version])
    out += len(file.segments).to_bytes(2, "big") + len(file.rows).to_bytes(2, "big")
    for segment in file.segments:
        out.append(segment.level)
        if file.version == 2:
            out.append(len(segment.entries))
            for place in segment.entries:
                out += (place.syllable << 13 | place.word).to_bytes(2, "big")
        out += bytes_of_words(segment.code, CODE_TAG)
    for row in file.rows:
        out += bytes_of_words(row, ROW_TAG)
    return bytes(out)


def bytes_of_words(words: list[int], tag: int) -> bytes:
    """The number of words, then each word under its tag."""
    return len(words).to_bytes(2, "big") + b"".join(
        (tag << 48 | word).to_bytes(8, "big") for word in words
    )


def hexadecimal_cards(data: bytes) -> list[str]:
    """Cards of 32 bytes each."""
    return [data[at : at + 32].hex() for at in range(0, len(data), 32)]
