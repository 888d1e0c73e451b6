"""Images: the text of a machine's words, registers and tables, read as numbers.

An image is what a halted run prints. Nothing here knows what its words mean;
`shape.py` judges that, and `dump.py` tells it.
"""

from __future__ import annotations

import struct
from dataclasses import dataclass, field

from cards import HEXADECIMAL, NAME, RefusedError, lines_of

GREATEST_IMAGE = 67_108_864
MOST_DIGITS = 64
HEADER = b"B67IMAGE"
WORD_BITS = 51
FORMATS = {2: "H", 4: "I", 8: "Q"}  # of a number of so many bytes
MOST_CORE = 1_048_575
LEAST_CORE = 256
REGISTERS = (
    ("s", 4),
    ("f", 4),
    ("bosr", 4),
    ("losr", 4),
    ("slot", 1),
    ("level", 1),
    ("segment", 2),
    ("word", 2),
    ("syllable", 1),
    ("dict", 4),
    ("entries", 2),
    ("stacks", 4),
    ("stack_size", 2),
    ("peak", 1),
)
COUNTS = (
    ("quantum", 4),
    ("made", 8),
    ("turn", 4),
    ("last_job", 1),
    ("last_number", 4),
    ("running", 1),
    ("next_switch", 4),
)
READY, AWAITS, WAITS_AT = range(3)


def image_refusal(card: int, reason: int) -> RefusedError:
    """The refusal of an image."""
    return RefusedError(f"IMAGE {card} REASON {reason}")


@dataclass
class ImageSwitch:
    """A switch of the deck."""

    count: int
    job: int
    task: int


@dataclass
class ImageJob:
    """The row of a job."""

    name: bytes
    dict: int = 0
    segments: int = 0
    rows: int = 0
    limit: int = 0
    made: int = 0
    next_task: int = 0
    numbers: list[int] = field(default_factory=list)
    next_number: int = 0


@dataclass
class ImageTask:
    """The row of a live task."""

    job: int
    number: int
    slot: int
    parent: int
    critical: int
    kind: int
    awaited: int
    offset: int
    segment: int
    word: int
    syllable: int


@dataclass
class Image:
    """All that an image tells. A word of core is tag times 2^48 and its bits."""

    core: list[int]
    registers: dict[str, int]
    display: list[int]
    critical: list[int]
    size: int
    low: int
    links: list[int]
    counts: dict[str, int]
    switches: list[ImageSwitch]
    jobs: list[ImageJob]
    tasks: list[ImageTask]

    def __getattr__(self, name: str) -> int:
        """A register or a count by its name."""
        for table in ("registers", "counts"):
            if name in self.__dict__.get(table, {}):
                return self.__dict__[table][name]
        raise AttributeError(name)


class EndedError(Exception):
    """The bytes end within an item."""


class Octets:
    """Bytes that are taken number by number."""

    def __init__(self, data: bytes) -> None:
        self.data = data
        self.at = 0
        self.out_of_range = False

    def take(self, count: int) -> bytes:
        """The next bytes."""
        if self.at + count > len(self.data):
            raise EndedError
        self.at += count
        return self.data[self.at - count : self.at]

    def number(self, size: int) -> int:
        """The next number of so many bytes."""
        return int.from_bytes(self.take(size), "big")

    def within(self, size: int, least: int, greatest: int) -> int:
        """A number that must lie in a range."""
        number = self.number(size)
        self.need(least <= number <= greatest)
        return number

    def need(self, holds: bool) -> None:
        """Notes whether a number lies in its range. The shape of the bytes is judged first."""
        self.out_of_range = self.out_of_range or not holds

    def numbers(self, size: int, count: int) -> list[int]:
        """So many numbers of one size."""
        return list(struct.unpack(f">{count}{FORMATS[size]}", self.take(size * count)))

    def fields(self, names: tuple[tuple[str, int], ...]) -> dict[str, int]:
        """Numbers with names."""
        return {name: self.number(size) for name, size in names}


def read_name(octets: Octets) -> bytes:
    """A job's name."""
    name = octets.take(octets.number(1))
    octets.need(NAME.fullmatch(name.decode("latin-1")) is not None)
    return name


def read_job(octets: Octets) -> ImageJob:
    """A job's row."""
    job = ImageJob(read_name(octets))
    job.dict = octets.number(4)
    job.segments = octets.number(2)
    job.rows = octets.number(2)
    octets.need(job.segments + job.rows <= 255)
    job.limit = octets.within(8, 1, 100_000_000)
    job.made = octets.number(8)
    job.next_task = octets.number(4)
    raw = octets.numbers(8, octets.number(4))
    job.numbers = [n - (1 << 64) if n >> 63 else n for n in raw]
    octets.need(all(abs(n) < 1 << 39 for n in job.numbers))
    job.next_number = octets.number(4)
    return job


def read_task(octets: Octets) -> ImageTask:
    """A task's row."""
    task = ImageTask(*(octets.number(size) for size in (1, 4, 1, 1, 2, 1, 4, 2, 2, 2, 1)))
    octets.need(task.kind <= WAITS_AT)
    octets.need(task.kind != READY or task.awaited == 0)
    octets.need(task.kind == WAITS_AT or task.offset == 0)
    return task


def read_switch(octets: Octets) -> ImageSwitch:
    """A switch."""
    return ImageSwitch(
        octets.within(8, 0, 800_000_000), octets.within(1, 1, 8), octets.within(4, 1, 100_000_000)
    )


def read_count(octets: Octets, least: int, greatest: int) -> int:
    """The number of items of a list."""
    return octets.within(4, least, greatest)


def items_of(octets: Octets) -> Image:
    """The image that numbers spell, one after the other."""
    octets.take(len(HEADER))
    core = octets.numbers(8, read_count(octets, LEAST_CORE, MOST_CORE))
    octets.need(all(word >> WORD_BITS == 0 for word in core))
    registers = octets.fields(REGISTERS)
    octets.need(64 <= registers["stack_size"] <= 16_383)
    display, critical = octets.numbers(4, 32), octets.numbers(2, 120)
    size, low = octets.number(4), octets.number(4)
    links = octets.numbers(4, read_count(octets, 1, MOST_CORE))
    counts = octets.fields(COUNTS)
    octets.need(1 <= counts["quantum"] <= 1_000_000)
    switches = [read_switch(octets) for _ in range(read_count(octets, 0, 100_000))]
    jobs = [read_job(octets) for _ in range(read_count(octets, 0, 8))]
    tasks = [read_task(octets) for _ in range(read_count(octets, 0, 120))]
    return Image(
        core, registers, display, critical, size, low, links, counts, switches, jobs, tasks
    )


def image_of(data: bytes, card: int, sectors: int | None) -> Image:
    """The image that bytes spell. Reasons 4 to 7 are looked for."""
    if data[: len(HEADER)] != HEADER:
        raise image_refusal(card, 4)
    octets = Octets(data)
    try:
        image = items_of(octets)
    except EndedError:
        raise image_refusal(card, 5) from None
    if octets.at != len(data):
        raise image_refusal(card, 5)
    if octets.out_of_range:
        raise image_refusal(card, 6)
    if sectors is not None and sectors != len(image.links):
        raise image_refusal(card, 7)
    return image


def bytes_of_text(text: bytes) -> tuple[int, bytes]:
    """The card of the image's beginning, and the bytes that its cards spell."""
    if len(text) > GREATEST_IMAGE:
        raise image_refusal(text.count(b"\n", 0, GREATEST_IMAGE) + 1, 9)
    cards = [(n, line) for n, line in enumerate(lines_of(text), start=1) if line]
    begins = next((i for i, (_, line) in enumerate(cards) if line == b"?IMAGE"), None)
    if begins is None:
        raise image_refusal(cards[-1][0] if cards else 0, 1)
    data = bytearray()
    for number, line in cards[begins + 1 :]:
        if line == b"?END":
            return cards[begins][0], bytes(data)
        digits = line.decode("latin-1")
        if len(line) > MOST_DIGITS or HEXADECIMAL.fullmatch(digits) is None:
            raise image_refusal(number, 2)
        data += bytes.fromhex(digits)
    raise image_refusal(cards[-1][0], 3)


def read_image(text: bytes, sectors: int | None) -> Image:
    """The image of a text, not yet judged."""
    card, data = bytes_of_text(text)
    return image_of(data, card, sectors)


# --- Writing ----------------------------------------------------------------------


def spelled(image: Image) -> bytes:
    """The bytes of an image."""
    out = bytearray(HEADER)

    def put(number: int, size: int) -> None:
        out.extend((number % (1 << 8 * size)).to_bytes(size, "big"))

    def put_all(numbers: list[int], size: int) -> None:
        rest = [number % (1 << 8 * size) for number in numbers]
        out.extend(struct.pack(f">{len(rest)}{FORMATS[size]}", *rest))

    put(len(image.core), 4)
    put_all(image.core, 8)
    for name, size in REGISTERS:
        put(image.registers[name], size)
    put_all(image.display, 4)
    put_all(image.critical, 2)
    put(image.size, 4)
    put(image.low, 4)
    put(len(image.links), 4)
    put_all(image.links, 4)
    for name, size in COUNTS:
        put(image.counts[name], size)
    put(len(image.switches), 4)
    for switch in image.switches:
        put(switch.count, 8)
        put(switch.job, 1)
        put(switch.task, 4)
    put(len(image.jobs), 4)
    for job in image.jobs:
        put(len(job.name), 1)
        out.extend(job.name)
        for number, size in ((job.dict, 4), (job.segments, 2), (job.rows, 2)):
            put(number, size)
        for number, size in ((job.limit, 8), (job.made, 8), (job.next_task, 4)):
            put(number, size)
        put(len(job.numbers), 4)
        put_all(job.numbers, 8)
        put(job.next_number, 4)
    put(len(image.tasks), 4)
    for task in image.tasks:
        fields = (task.job, task.number, task.slot, task.parent, task.critical, task.kind)
        for number, size in zip(fields, (1, 4, 1, 1, 2, 1)):
            put(number, size)
        more = (task.awaited, task.offset, task.segment, task.word, task.syllable)
        for number, size in zip(more, (4, 2, 2, 2, 1)):
            put(number, size)
    return bytes(out)


def text_of(image: Image) -> bytes:
    """The text of an image."""
    return text_of_bytes(spelled(image))


def text_of_bytes(data: bytes) -> bytes:
    """Bytes as the cards of an image."""
    cards = [data[i : i + 32].hex() for i in range(0, len(data), 32)]
    return "".join(card + "\n" for card in ["?IMAGE", *cards, "?END"]).encode()
