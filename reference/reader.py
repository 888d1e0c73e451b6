"""Reads an image and its backing file, by docs/MACHINE.md alone (sections 4, 13, 15 and 24).

    python3 reader.py IMAGE                       what `dump` prints of it
    python3 reader.py IMAGE --arrays BACKING      the numbers in its arrays and data rows

IMAGE is a file with what `image` printed. It is taken as it is: `resume` and `dump`
judge it. Nothing else of this folder is used here, so that the page is tested: who has
it, an image and its backing file can read both. `compare_reader.py` compares this with
a built program. Nothing is proved.
"""

from __future__ import annotations

import sys
from dataclasses import dataclass, field
from pathlib import Path

SECTOR_WORDS = 30
WORD_BYTES = 8
FIRST_DICTIONARY_STACK, MCP_STACK = 128, 136
AWAITS, WAITS_AT = 1, 2


def bits(word: int, high: int, low: int) -> int:
    """Bits high down to low of a word."""
    return (word >> low) & ((1 << (high - low + 1)) - 1)


class Numbers:
    """Bytes that are taken from the front, as numbers."""

    def __init__(self, data: bytes) -> None:
        self.data = data
        self.at = 0

    def raw(self, count: int) -> bytes:
        """The next bytes."""
        if self.at + count > len(self.data):
            raise ValueError("the image ends within an item")
        self.at += count
        return self.data[self.at - count : self.at]

    def one(self, width: int) -> int:
        """The next number of so many bytes."""
        return int.from_bytes(self.raw(width), "big")

    def some(self, count: int, width: int) -> list[int]:
        """So many numbers of one width."""
        data = self.raw(count * width)
        return [int.from_bytes(data[k : k + width], "big") for k in range(0, len(data), width)]

    def each(self, *widths: int) -> list[int]:
        """Numbers of these widths."""
        return [self.one(width) for width in widths]

    def listed(self, width: int) -> list[int]:
        """A list, its number of items before it."""
        return self.some(self.one(4), width)


@dataclass
class Job:
    """The row of a job."""

    name: str
    dictionary: int
    segments: int
    rows: int


@dataclass
class Record:
    """An activation record: the address of its mark, and its cells from `first` to `last`."""

    mark: int
    first: int
    last: int
    entered: bool
    level: int
    stack: int
    displacement: int

    def offset(self, address: int) -> int:
        """The number of the cell at an address; the first cell is 2."""
        return address - self.first + 2


@dataclass
class Task:
    """The row of a live task, and its records from the bottom up."""

    job: int
    number: int
    slot: int
    condition: int
    wanted: int
    offset: int
    segment: int
    word: int
    syllable: int
    records: list[Record] = field(default_factory=list)

    @property
    def name(self) -> str:
        """The task as lines name it."""
        return f"{self.job}.{self.number}"


class Image:
    """What an image says."""

    def __init__(self, text: str) -> None:
        self.read(numbers_of(text))
        self.of_slot = {task.slot: task for task in self.tasks}
        for task in self.tasks:
            task.records = self.records_of(task)

    def read(self, take: Numbers) -> None:
        """Takes the items of section 26, in their order."""
        if take.raw(8) != b"B67IMAGE":
            raise ValueError("the bytes are not those of an image")
        self.core = take.listed(8)
        self.s, self.f, _, _ = take.some(4, 4)
        take.each(1, 1)  # slot and level, which the row of the running task and its mark have
        self.segment, self.word, self.syllable = take.each(2, 2, 1)
        take.each(4, 2)  # the dictionary that is in use
        self.stacks, self.stack_words, self.peak = take.each(4, 2, 1)
        take.some(32, 4)  # the display
        take.some(120, 2)  # the marks that tasks may not leave
        take.each(4, 4)  # core's size, and the first address of its areas
        self.links = take.listed(4)
        take.each(4, 8, 4, 1, 4)  # counts, and the last operator's job and task
        self.running = take.one(1)
        take.one(4)  # switches that are passed
        for _ in range(take.one(4)):
            take.each(8, 1, 4)
        self.jobs = [job_of(take) for _ in range(take.one(4))]
        self.tasks = [task_of(take) for _ in range(take.one(4))]
        if take.at != len(take.data):
            raise ValueError("the image goes on after its last item")

    # --- Words, stacks and records

    def tag(self, address: int) -> int:
        """The tag of a word of core."""
        return self.core[address] >> 48

    def content(self, address: int) -> int:
        """The 48 bits of a word of core."""
        return self.core[address] & ((1 << 48) - 1)

    def is_running(self, task: Task) -> bool:
        """Whether the registers are this task's."""
        return self.running < len(self.tasks) and self.tasks[self.running] is task

    def base(self, stack: int) -> int:
        """The address of a slot's first word."""
        return self.stacks + stack * self.stack_words

    def records_of(self, task: Task) -> list[Record]:
        """The records of a task, found from its top mark down."""
        if self.is_running(task):
            top, mark = self.s, self.f
        else:
            base = self.base(task.slot)
            top = base + bits(self.content(base), 35, 20)
            mark = base + bits(self.content(base), 13, 0)
        records: list[Record] = []
        while True:
            word = self.content(mark)
            entered = bool(bits(word, 46, 46))
            first = mark + (2 if entered else 1)
            where = bits(word, 45, 36), bits(word, 35, 20)
            records.append(Record(mark, first, top, entered, bits(word, 18, 14), *where))
            below = bits(word, 13, 0)
            if below == 0:
                return records[::-1]
            top, mark = mark - 1, mark - below

    # --- Names, as section 26 writes them

    def record_at(self, stack: int, displacement: int) -> str:
        """The record whose mark is so far from the base of a stack."""
        if stack == MCP_STACK:
            return "MCP"
        if stack >= FIRST_DICTIONARY_STACK:
            return f"DICT {stack - FIRST_DICTIONARY_STACK + 1}"
        return self.record_of_mark(self.base(stack) + displacement)

    def record_of_mark(self, mark: int) -> str:
        """The record whose mark is at this address."""
        task = self.of_slot[(mark - self.stacks) // self.stack_words]
        return next(f"{task.name} {k}" for k, each in enumerate(task.records, 1) if each.mark == mark)

    def cell_at(self, address: int) -> str:
        """The cell of a record or of a dictionary that is at this address."""
        if address < self.stacks:
            number = max(k for k, job in enumerate(self.jobs, 1) if job.dictionary <= address)
            return f"DICT {number} {address - self.jobs[number - 1].dictionary}"
        task = self.of_slot[(address - self.stacks) // self.stack_words]
        return next(
            f"{task.name} {k} {each.offset(address)}"
            for k, each in enumerate(task.records, 1)
            if each.first <= address <= each.last
        )

    def array_of_copy(self, word: int) -> str:
        """The array that a copy is of, by the cell of its original."""
        address = bits(word, 19, 0)
        if bits(word, 47, 47):
            address = bits(self.content(address - 1), 19, 0)  # the head before the area's words
        return self.cell_at(address)

    # --- The dump

    def cell_text(self, address: int) -> str:
        """What a cell holds."""
        tag, word = self.tag(address), self.content(address)
        if tag == 0:
            return f"NUM {word:012x}"
        if tag == 1 and bits(word, 46, 46):
            return f"REF {self.record_at(bits(word, 45, 36), bits(word, 35, 20))} {bits(word, 12, 0)}"
        if tag == 1:
            return f"NAME {word:04x}"
        if tag == 7:
            place = f"{bits(word, 32, 20)}:{bits(word, 35, 33)}"
            return f"PROC {bits(word, 13, 0) - 1} {place} {bits(word, 18, 14)}"
        if not bits(word, 46, 46):
            return f"ARRAY {bits(word, 39, 20)}"
        if bits(word, 45, 45):
            return f"ELEMENT {self.array_of_copy(word)} {bits(word, 39, 20)}"
        return f"ROW {self.array_of_copy(word)}"

    def task_text(self, task: Task) -> str:
        """The line of a task. Of the running one the registers have the place."""
        here = self if self.is_running(task) else task
        place = f"{here.segment - 1} {here.word}:{here.syllable}"
        if task.condition == AWAITS:
            return f"TASK {task.name} AWAITS {task.wanted} {place}"
        if task.condition == WAITS_AT:
            return f"TASK {task.name} WAITS {self.record_of_mark(task.wanted)} {task.offset} {place}"
        return f"TASK {task.name} READY {place}"

    def dump(self) -> str:
        """The text of the dump."""
        lines = []
        for task in sorted(self.tasks, key=lambda task: (task.job, task.number)):
            lines.append(self.task_text(task))
            for k, record in enumerate(task.records, 1):
                if record.entered:
                    link = self.record_at(record.stack, record.displacement)
                    lines.append(f"FRAME {k} LEVEL {record.level} ENV {link}")
                else:
                    lines.append(f"FRAME {k} MARKED")
                for address in range(record.first, record.last + 1):
                    lines.append(f"CELL {record.offset(address)} {self.cell_text(address)}")
        return "".join(line + "\n" for line in lines)

    # --- Arrays

    def originals(self) -> list[int]:
        """The addresses of the originals: of data rows, then of arrays of records."""
        rows = [
            job.dictionary + 2 + job.segments + row for job in self.jobs for row in range(job.rows)
        ]
        cells = [
            address
            for task in sorted(self.tasks, key=lambda task: (task.job, task.number))
            for record in task.records
            for address in range(record.first, record.last + 1)
            if self.tag(address) == 5 and not bits(self.content(address), 46, 46)
        ]
        return rows + cells

    def array_at(self, original: int, backing: bytes) -> list[int]:
        """The 48 bits of each word of the array with this original."""
        word = self.content(original)
        length, address = bits(word, 39, 20), bits(word, 19, 0)
        if bits(word, 47, 47):
            return [self.content(at) for at in range(address, address + length)]
        if address == 0:
            return [0] * length
        held: list[int] = []
        sector = address
        while len(held) < length:
            first = (sector - 1) * SECTOR_WORDS * WORD_BYTES
            data = backing[first : first + SECTOR_WORDS * WORD_BYTES]
            held += [int.from_bytes(data[k + 2 : k + 8], "big") for k in range(0, len(data), 8)]
            sector = self.links[sector - 1]
        return held[:length]

    def arrays(self, backing: bytes) -> dict[str, list[int]]:
        """All arrays by the names of their originals."""
        return {self.cell_at(at): self.array_at(at, backing) for at in self.originals()}


def numbers_of(text: str) -> Numbers:
    """The bytes between `?IMAGE` and `?END`."""
    lines = [line.rstrip() for line in text.split("\n")]
    if "?IMAGE" not in lines:
        raise ValueError("there is no card ?IMAGE")
    start = lines.index("?IMAGE")
    if "?END" not in lines[start:]:
        raise ValueError("there is no card ?END")
    return Numbers(bytes.fromhex("".join(lines[start + 1 : lines.index("?END", start)])))


def job_of(take: Numbers) -> Job:
    """The row of a job."""
    name = take.raw(take.one(1)).decode()
    job = Job(name, *take.each(4, 2, 2))
    take.each(8, 8, 4)  # limit, operators, next task
    take.listed(8)  # the numbers for READ
    take.one(4)
    return job


def task_of(take: Numbers) -> Task:
    """The row of a task."""
    job, number, slot, _, _ = take.each(1, 4, 1, 1, 2)
    return Task(job, number, slot, *take.each(1, 4, 2), *take.each(2, 2, 1))


def number_text(word: int) -> str:
    """The value of 48 bits, or their digits if they are no whole number."""
    if bits(word, 45, 39) or bits(word, 47, 47):
        return f"#{word:012x}"
    magnitude = bits(word, 38, 0)
    return f"-{magnitude}" if magnitude and bits(word, 46, 46) else str(magnitude)


def text_of_arrays(arrays: dict[str, list[int]]) -> str:
    """The arrays with their numbers, ten on a line, each line with the index of its first."""
    lines = []
    for name, numbers in arrays.items():
        lines.append(f"array {name}, {len(numbers)} {'word' if len(numbers) == 1 else 'words'}:")
        lines += [
            f"{first:8}  {' '.join(map(number_text, numbers[first : first + 10]))}"
            for first in range(0, len(numbers), 10)
        ]
    return "".join(line + "\n" for line in lines)


def usage(why: str) -> int:
    """Says what is wrong with the words, and how to call this."""
    print(f"{why}\nusage: python3 reader.py IMAGE [--arrays BACKING]", file=sys.stderr)
    return 2


def main() -> int:
    """Prints the dump of an image, or its arrays."""
    words = sys.argv[1:]
    if not (len(words) == 1 or (len(words) == 3 and words[1] == "--arrays")):
        return usage("one image, and --arrays with its backing file if you like")
    try:
        image = Image(Path(words[0]).read_text(encoding="latin-1"))
        backing = Path(words[2]).read_bytes() if len(words) == 3 else b""
    except OSError as error:
        return usage(f"{error.filename}: not a file that can be read")
    except ValueError as error:
        print(f"reader.py: {words[0]}: {error}", file=sys.stderr)
        return 2
    whole = len(image.links) * SECTOR_WORDS * WORD_BYTES
    if len(words) == 3 and len(backing) != whole:
        print(f"reader.py: {words[2]}: {len(backing)} bytes, but the image's backing file has {whole}", file=sys.stderr)
        return 2
    text = image.dump() if len(words) == 1 else text_of_arrays(image.arrays(backing))
    try:
        sys.stdout.write(text)
        sys.stdout.flush()
    except BrokenPipeError:
        sys.stderr.close()
    return 0


if __name__ == "__main__":
    sys.exit(main())
