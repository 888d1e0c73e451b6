"""Shows the machine at work, operator by operator. Nothing here is proved.

    python3 trace.py DECK              each operator, and the record on top after it
    python3 trace.py DECK 100 120      operators 100 to 120 alone
    python3 trace.py DECK 100          operator 100 and all after it
    python3 trace.py DECK last         the last 20 operators, and before each fault
                                       the last 20 of the task that faults
    python3 trace.py DECK --draw 40    the stacks after 40 operators, for Graphviz

A line has the operator's count, its task, its place (segment@word:syllable), its
card, its name, and the cells of the record on top, each with its tag before it.
What the machine prints stands after the operator that printed it, as the machine
prints it. There is no core here, and no backing file: a run goes on as in the
greatest core.
"""

from __future__ import annotations

import re
import subprocess
import sys
import time
from collections import defaultdict, deque
from collections.abc import Callable
from dataclasses import dataclass
from pathlib import Path

from asm import read_line
from b67ref import FILE_SECTORS, programs_of
from cards import Deck, RefusedError, read_deck
from machine import FIRST_OFFSET, Array, Frame, Machine, Ready, Task
from session import Session
from syllables import OPERATORS, Form, Operator
from words import (
    MAGNITUDE_MASK,
    NOT_WHOLE,
    SIGN_BIT,
    Element,
    Fault,
    Intrinsic,
    Name,
    Operand,
    Original,
    Place,
    Proc,
    Ref,
    Row,
    Word,
    couple_of,
)

MOST_CELLS = 6
MOST_OPERATORS = 20
SILENT_SECONDS = 2.0
OPERATORS_A_LOOK = 250
GREATEST_CORE = 1_048_575
COUNT = re.compile(r"[0-9]{1,9}")
CELLS = Path(__file__).resolve().parent.parent / "scripts" / "cells.sh"
NAMED = re.compile(rb"^ *CELL[ ;]|(?:VALC|NAMC) +[a-z]", re.MULTILINE)
NAME = re.compile(rb"(?:VALC|NAMC) +([a-z][a-z0-9_]*)")


# --- Texts ------------------------------------------------------------------------


def number_text(bits: int) -> str:
    """The value of 48 bits, or their digits if they are no whole number."""
    if bits & NOT_WHOLE:
        return f"#{bits:012x}"
    return f"{'-' if bits & SIGN_BIT else ''}{bits & MAGNITUDE_MASK}"


def frame_text(frame: Frame, machine: Machine) -> str:
    """A record as `task number`, counted from the bottom of its stack."""
    for task in machine.live_tasks():
        if frame in task.frames:
            return f"{task.label} {task.frames.index(frame) + 1}"
    return "MCP" if frame.level == 0 else "dictionary"


def array_text(array: Array, machine: Machine) -> str:
    """An array by its original, as a dump names it: its record, and the cell there."""
    for job in machine.jobs:
        if array.owner is job.dictionary:
            return f"DICT {job.number} {cell_of_original(array)}"
    return f"{frame_text(array.owner, machine)} {cell_of_original(array)}"


def cell_of_original(array: Array) -> int:
    """The offset of the cell that holds the original of an array."""
    return next(
        offset
        for offset, cell in enumerate(array.owner.cells, start=array.owner.first_offset)
        if isinstance(cell, Original) and cell.array is array
    )


def word_text(word: Word, running: Frame, machine: Machine) -> str:
    """A word, its tag before it."""
    match word:
        case Operand():
            return f"0: {number_text(word.bits)}"
        case Name():
            return "1: {},{}".format(*couple_of(word.couple, running.level))
        case Ref():
            return f"1: cell {word.offset} of {frame_text(word.frame, machine)}"
        case Original():
            return f"5: array of {len(word.array.numbers)}"
        case Row():
            return f"5: copy of array {array_text(word.array, machine)}"
        case Element():
            return f"5: element {word.index} of {array_text(word.array, machine)}"
        case Proc():
            return f"7: segment {word.segment - 1} at {word.place}"
        case Intrinsic():
            return f"7: intrinsic {word.number}"
    return "3: segment"


def operator_text(operator: Operator, level: int) -> str:
    """An operator as on its card; branches and MPCW with a place for a name."""
    form = OPERATORS[operator.name][1]
    if form is Form.PLAIN:
        return operator.name
    if form is Form.COUPLE:
        return "{} {},{}".format(operator.name, *couple_of(operator.number, level))
    if form is Form.BRANCH:
        return f"{operator.name} {operator.target}"
    if form is Form.PAIR:
        return f"{operator.name} {operator.number},{operator.second}"
    if operator.name == "MPCW":
        return f"MPCW segment {(operator.number & 0x3FFF) - 1}"
    literal = number_text(operator.number) if form is Form.LITERAL else operator.number
    return f"{operator.name} {literal}"


# --- Cards ------------------------------------------------------------------------

Cards = list[dict[Place, int]]


def cards_of_operators(deck: Deck, session: Session) -> list[Cards]:
    """For each job and segment the number of each operator's card."""
    return [
        places_of_cards(numbers, [listing.operators for listing in job.listings])
        for numbers, job in zip(map(numbers_of_cards, deck.jobs), session.machine.jobs)
    ]


def numbers_of_cards(job) -> list[list[int]]:
    """For each segment the numbers of its operators' cards, in order."""
    segments: list[list[int]] = []
    for card in job.assembly or []:
        if not card.text.partition(";")[0].strip():
            continue
        line = read_line(card)
        if line.kind == "SEGMENT":
            segments.append([])
        elif line.kind == "OPERATOR" and segments:
            segments[-1].append(line.card)
    return segments


def places_of_cards(numbers: list[list[int]], operators: list) -> Cards:
    """The numbers by the places of the operators. What has no card has no number."""
    return [dict(zip(places, cards)) for places, cards in zip(operators, numbers)]


Names = dict[int, str]


def without_names(path: Path) -> tuple[bytes, Names]:
    """A deck with couples in place of names, and the name that each card has."""
    text = path.read_bytes()
    if not NAMED.search(text):
        return text, {}
    made = subprocess.run(["sh", CELLS, path], stdout=subprocess.PIPE, check=False)
    if made.returncode != 0:
        sys.exit(made.returncode)
    found = ((card, NAME.search(line.partition(b";")[0])) for card, line in enumerate(text.splitlines(), 1))
    return made.stdout, {card: name[1].decode() for card, name in found if name}


# --- The session ------------------------------------------------------------------


@dataclass(frozen=True)
class Made:
    """An operator that was made: its count, its task, its line, and what it printed."""

    count: int
    task: str
    line: str
    printed: list[str]

    @property
    def faulted(self) -> bool:
        """Whether its task ended by a fault."""
        return any(f"{self.task} {fault.value}" in self.printed for fault in Fault)

    def show(self) -> None:
        """Prints its line, and what it printed."""
        print("\n".join([self.line, *self.printed]))


class Clock:
    """Says on standard error how far a run has come, if nothing was shown for a while."""

    def __init__(self) -> None:
        self.since = time.monotonic()
        self.has_spoken = False

    def look(self, made: int) -> None:
        """Looks at the time after so many operators."""
        if made % OPERATORS_A_LOOK == 0 and time.monotonic() - self.since > SILENT_SECONDS:
            hint = "" if self.has_spoken else "; sh scripts/where.sh DECK says at once where a run goes wrong"
            print(f"trace.py: {made} operators so far{hint}", file=sys.stderr, flush=True)
            self.has_spoken = True
            self.since = time.monotonic()

    def shown(self) -> None:
        """Something was shown."""
        self.since = time.monotonic()


class Traced(Session):
    """A session that shows each of its operators."""

    def __init__(self, deck: Deck, show: Callable[[Made], None], names: Names) -> None:
        self.show = show
        self.names = names
        self.clock = Clock()
        self.printed: list[str] = []
        programs = programs_of(deck)
        super().__init__(deck, programs, GREATEST_CORE, FILE_SECTORS, self.printed.append)
        self.cards = cards_of_operators(deck, self)

    def step(self) -> None:
        """Makes one operator and shows it."""
        kept = self.next_switch, self.machine.turn
        task = self.choose()
        self.next_switch, self.machine.turn = kept
        segment, place = task.position.segment - FIRST_OFFSET, task.position.place
        operator = task.job.listings[segment].operators.get(place)
        text = operator_text(operator[0], task.running_frame().level) if operator else "past its end"
        cards = self.cards[task.job.number - 1]
        card = cards[segment].get(place, "-") if segment < len(cards) else "-"
        if card in self.names:
            text = f"{text} {self.names[card]}"
        super().step()
        where = f"{segment + 1}@{place}"
        made = self.machine.made
        line = f"{made:6} {task.label} {where:8} card {card:>4}  {text:17} {self.after(task)}"
        self.show(Made(made, task.label, line, self.printed[:]))
        self.printed.clear()
        self.clock.look(made)

    def after(self, task: Task) -> str:
        """The record on top of the task's stack."""
        if task not in task.job.tasks:
            return "ended"
        top, running = task.frames[-1], task.running_frame()
        shown = [word_text(cell, running, self.machine) for cell in top.cells[-MOST_CELLS:]]
        state = f"level {top.level}" if top.entered else "marked"
        waits = "" if isinstance(task.condition, Ready) else ", waits"
        more = "... | " if len(top.cells) > MOST_CELLS else ""
        return f"record {len(task.frames)}, {state}{waits}: {more}{' | '.join(shown)}".rstrip()


def drawing(machine: Machine) -> str:
    """The stacks as text for Graphviz: static links solid, dynamic links dashed."""
    lines = ["digraph stacks {", "rankdir=BT; node [shape=record, fontname=monospace];"]
    names = {
        id(frame): f"t{task.job.number}_{task.number}_{k}"
        for task in machine.live_tasks()
        for k, frame in enumerate(task.frames, 1)
    }
    for task in machine.live_tasks():
        running = task.running_frame()
        state = type(task.condition).__name__
        lines.append(f"subgraph cluster_{task.job.number}_{task.number} {{")
        lines.append(f'label="task {task.label}: {state}";')
        for frame in task.frames:
            head = f"mark, level {frame.level}" if frame.entered else "mark, open"
            cells = [word_text(cell, running, machine) for cell in reversed(frame.cells)]
            lines.append(f'{names[id(frame)]} [label="{{{"|".join([*cells, head])}}}"];')
        lines.append("}")
        for below, frame in zip(task.frames, task.frames[1:]):
            lines.append(f"{names[id(frame)]} -> {names[id(below)]} [style=dashed];")
        for frame in task.frames:
            if frame.entered and id(frame.environment) in names:
                lines.append(f"{names[id(frame)]} -> {names[id(frame.environment)]};")
    return "\n".join([*lines, "}"])


# --- The command ------------------------------------------------------------------


def draw(deck: Deck, names: Names, count: int) -> None:
    """Prints the drawing of the stacks after so many operators."""
    session = Traced(deck, lambda made: None, names)
    while session.lives() and session.machine.made < count and session.machine.made != session.halt:
        session.step()
    print(drawing(session.machine))


def trace(deck: Deck, names: Names, first: int, end: float) -> None:
    """Prints the operators from `first` to `end`, and makes none after them."""
    session = Traced(deck, lambda made: show(made) if first <= made.count else None, names)

    def show(made: Made) -> None:
        made.show()
        session.clock.shown()

    while session.lives() and session.machine.made != session.halt and session.machine.made < end:
        session.step()
    if session.machine.made < end or session.machine.made == session.halt:
        print(ending_of(session), end="")


def trace_last(deck: Deck, names: Names) -> None:
    """Prints the last operators of each task that faults, and the last ones of the run.

    Two dots stand where operators are left out between them.
    """
    latest: deque[Made] = deque(maxlen=MOST_OPERATORS)
    of_task: defaultdict[str, deque[Made]] = defaultdict(lambda: deque(maxlen=MOST_OPERATORS))
    kept: dict[int, Made] = {}

    def keep(made: Made) -> None:
        latest.append(made)
        of_task[made.task].append(made)
        if made.faulted:
            kept.update((each.count, each) for each in of_task[made.task])

    ending = ending_of(Traced(deck, keep, names))
    kept.update((made.count, made) for made in latest)
    before = min(kept, default=0) - 1
    for count in sorted(kept):
        if count != before + 1:
            print("    ..")
        kept[count].show()
        before = count
    print(ending, end="")


def ending_of(session: Traced) -> str:
    """Runs a session to its end, and gives the line of a halt, if it halts."""
    return "" if session.run() else f"HALTED {session.machine.made}\n"


def usage(why: str) -> int:
    """Says what is wrong with the words, and how to call this."""
    print(f"{why}\nusage: python3 trace.py DECK [FROM [TO] | last | --draw COUNT]", file=sys.stderr)
    return 2


def main() -> int:
    """Runs the deck and shows what was asked for."""
    if len(sys.argv) < 2:
        return usage("a deck is missing")
    path, words = Path(sys.argv[1]), sys.argv[2:]
    counts = [int(word) for word in words if COUNT.fullmatch(word)]
    is_draw = len(words) == 2 and words[0] == "--draw" and len(counts) == 1
    if words != ["last"] and not is_draw and (len(counts) != len(words) or len(counts) > 2):
        return usage(f"{' '.join(words)}: not what to show")
    if len(counts) == 2 and counts[0] > counts[1]:
        return usage(f"{counts[0]} comes after {counts[1]}")
    if not path.is_file():
        return usage(f"{path}: not a file that can be read")
    try:
        text, names = without_names(path)
        deck = read_deck(text)
        programs_of(deck)
    except OSError:
        return usage(f"{path}: not a file that can be read")
    except RefusedError as refused:
        print(refused)
        return 2
    try:
        if is_draw:
            draw(deck, names, counts[0])
        elif words:
            trace_last(deck, names) if words == ["last"] else trace(deck, names, counts[0], (*counts, float("inf"))[1])
        else:
            trace(deck, names, 0, float("inf"))
        sys.stdout.flush()
    except BrokenPipeError:
        sys.stderr.close()
    return 0


if __name__ == "__main__":
    sys.exit(main())
