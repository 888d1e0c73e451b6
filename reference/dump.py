"""The text of a dump: of a session of this reference, and of an image.

    python3 dump.py < IMAGE
"""

from __future__ import annotations

import sys

from cards import RefusedError
from images import AWAITS, READY, image_refusal, read_image
from machine import Awaits, Frame, Machine, Task, WaitsAt
from shape import DICTIONARY_STACKS, SLOTS, NotShapedError, Shown, ShownTask, bits, session_of, tag
from words import Element, Name, Operand, Original, Proc, Ref, Row, Word

# --- Of a session of the reference --------------------------------------------------


def frame_name(machine: Machine, frame: Frame) -> str:
    """How a dump names an activation record."""
    for task in machine.live_tasks():
        for number, other in enumerate(task.frames, start=1):
            if other is frame:
                return f"{task.label} {number}"
    for job in machine.jobs:
        if job.dictionary is frame:
            return f"DICT {job.number}"
    return "MCP"


def array_name(machine: Machine, word: Row | Element) -> str:
    """How a dump names an array: its owner, and the offset of its original."""
    owner = word.array.owner
    at = next(
        offset
        for offset, cell in enumerate(owner.cells, start=2)
        if isinstance(cell, Original) and cell.array is word.array
    )
    return f"{frame_name(machine, owner)} {at}"


def cell_text(machine: Machine, word: Word) -> str:
    """What a cell holds."""
    match word:
        case Operand(number):
            return f"NUM {number:012x}"
        case Name(couple):
            return f"NAME {couple:04x}"
        case Ref():
            return f"REF {frame_name(machine, word.frame)} {word.offset}"
        case Original():
            return f"ARRAY {len(word.array.numbers)}"
        case Row():
            return f"ROW {array_name(machine, word)}"
        case Element():
            return f"ELEMENT {array_name(machine, word)} {word.index}"
        case Proc(segment, level, place):
            return f"PROC {segment - 1} {place} {level}"
    raise AssertionError(word)


def condition_text(machine: Machine, task: Task) -> str:
    """Whether a task is ready, or what it waits for."""
    match task.condition:
        case Awaits(number):
            return f"AWAITS {number}"
        case WaitsAt():
            at = task.condition
            return f"WAITS {frame_name(machine, at.frame)} {at.offset}"
    return "READY"


def dump_of_session(machine: Machine) -> list[str]:
    """The dump of the state that the reference has."""
    lines = []
    for task in sorted(machine.live_tasks(), key=lambda task: task.key):
        segment, place = task.position
        state = condition_text(machine, task)
        lines.append(f"TASK {task.label} {state} {segment - 1} {place}")
        for number, frame in enumerate(task.frames, start=1):
            if frame.entered:
                environment = frame_name(machine, frame.environment)
                lines.append(f"FRAME {number} LEVEL {frame.level} ENV {environment}")
            else:
                lines.append(f"FRAME {number} MARKED")
            for offset, word in enumerate(frame.cells, start=2):
                lines.append(f"CELL {offset} {cell_text(machine, word)}")
    return lines


# --- Of an image --------------------------------------------------------------------


class ImageDump:
    """Names what the words of an image mean."""

    def __init__(self, shown: Shown) -> None:
        self.shown = shown
        self.image = shown.image

    def frame(self, stack: int, disp: int, job: int) -> str:
        """The name of the record whose mark stands there."""
        if stack < SLOTS:
            row = self.shown.by_slot[stack].row
            return f"{row.job}.{row.number} {self.shown.marked_at(stack, disp).number}"
        return f"DICT {job}" if stack == DICTIONARY_STACKS + job else "MCP"

    def array(self, word: int, job: int) -> str:
        """The name of a copy's array."""
        home = self.shown.home_of(word)
        if home < self.image.stacks:
            return f"DICT {job} {home - self.image.jobs[job - 1].dict}"
        slot, owner = self.shown.owner_of(home)
        row = self.shown.by_slot[slot].row
        return f"{row.job}.{row.number} {owner.number} {home - owner.cells.start + 2}"

    def cell(self, word: int, job: int) -> str:
        """What a cell holds."""
        match tag(word):
            case 0:
                return f"NUM {bits(word, 0, 48):012x}"
            case 1 if bits(word, 46, 1):
                frame = self.frame(bits(word, 36, 10), bits(word, 20, 16), job)
                return f"REF {frame} {bits(word, 0, 13)}"
            case 1:
                return f"NAME {bits(word, 0, 14):04x}"
            case 7:
                place = f"{bits(word, 20, 13)}:{bits(word, 33, 3)}"
                return f"PROC {bits(word, 0, 14) - 1} {place} {bits(word, 14, 5)}"
        if not bits(word, 46, 1):
            return f"ARRAY {bits(word, 20, 20)}"
        if bits(word, 45, 1):
            return f"ELEMENT {self.array(word, job)} {bits(word, 20, 20)}"
        return f"ROW {self.array(word, job)}"

    def condition(self, task: ShownTask) -> str:
        """Whether a task is ready, or what it waits for."""
        row = task.row
        if row.kind == READY:
            return "READY"
        if row.kind == AWAITS:
            return f"AWAITS {row.awaited}"
        if row.awaited < self.image.stacks:
            name = "MCP" if row.awaited == 0 else f"DICT {row.job}"
        else:
            slot, disp = divmod(row.awaited - self.image.stacks, self.shown.size)
            name = self.frame(slot, disp, row.job)
        return f"WAITS {name} {row.offset}"

    def lines(self) -> list[str]:
        """The dump."""
        lines = []
        for task in sorted(self.shown.by_slot.values(), key=lambda task: task.key):
            job, number = task.key
            word, syllable = task.place
            at = f"{task.segment - 1} {word}:{syllable}"
            lines.append(f"TASK {job}.{number} {self.condition(task)} {at}")
            for k, frame in enumerate(task.frames, start=1):
                if frame.entered:
                    environment = self.frame(frame.stack, frame.disp, job)
                    lines.append(f"FRAME {k} LEVEL {frame.level} ENV {environment}")
                else:
                    lines.append(f"FRAME {k} MARKED")
                for offset, at in enumerate(frame.cells, start=2):
                    lines.append(f"CELL {offset} {self.cell(self.image.core[at], job)}")
        return lines


def judged(text: bytes, sectors: int | None) -> Shown:
    """The session that the text of an image shows, or the refusal of the text."""
    image = read_image(text, sectors)
    try:
        return session_of(image)
    except NotShapedError:
        card = next(
            n
            for n, line in enumerate(text.split(b"\n"), start=1)
            if line.removesuffix(b"\r").rstrip(b" ") == b"?IMAGE"
        )
        raise image_refusal(card, 8) from None


def dumped(text: bytes) -> list[str]:
    """The dump of the text of an image."""
    return ImageDump(judged(text, None)).lines()


def main() -> int:
    """Prints the dump of standard input."""
    if len(sys.argv) > 1:
        print("usage: python3 dump.py < IMAGE", file=sys.stderr)
        return 2
    try:
        lines = dumped(sys.stdin.buffer.read())
    except RefusedError as refused:
        print(refused)
        return 2
    sys.stdout.write("".join(line + "\n" for line in lines))
    return 0


if __name__ == "__main__":
    sys.exit(main())
