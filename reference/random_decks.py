"""Random decks that really do things.

    python3 random_decks.py SEED [--lengths] [--tasks] [--jobs] [--broken]

prints the deck of a seed. The decks are written by running them: a program
grows at the place where a task needs an operator that isn't written yet. Some
operator is tried there. If it faults, nothing was changed, and mostly another
one is tried. So programs run long, and now and then one ends by a fault. Some
decks are of a kind of their own (`closures.py`, `crews.py`).
"""

from __future__ import annotations

import argparse
import random
import sys

from author import Author, Features, GrowingProgram, GrowingSegment
from cards import Deck, Job, Switch
from closures import deck_of_closures
from codefile import Codefile, Segment
from crews import deck_of_crews
from deck_text import broken, text_of_deck
from loader import BRANCHES, Listing
from machine import NoCoreError, Task
from mcp import McpStep
from operators import TaskEndedError
from session import Session
from syllables import Operator, place_behind
from words import Ending, Fault, FaultError

LONGEST_SEGMENT = 400
TRIALS = 60
GREATEST_SIZE = 1 << 24
CREW_SHARE = 0.5


class WritingSession(Session):
    """A session whose programs are written while they run."""

    def __init__(self, deck: Deck, programs: list[GrowingProgram], author: Author) -> None:
        self.growing = programs
        self.author = author
        forms = [running_form(program) for program in programs]
        super().__init__(deck, forms, GREATEST_SIZE, GREATEST_SIZE, lambda _: None)

    def choose(self) -> Task:
        """The next task. An operator that isn't written yet is a NOOP at first."""
        task = super().choose()
        self.segment = self.growing[task.job.number - 1].segments[task.position.segment - 2]
        self.fresh = task.position.place not in self.segment.operators
        if self.fresh:
            behind = place_behind(task.position.place, "NOOP")
            self.segment.operators[task.position.place] = (Operator("NOOP"), behind)
        return task

    def ending_of(self, step: McpStep) -> Ending | Fault | None:
        """Makes the operator; if it isn't written yet, one is found first."""
        if not self.fresh:
            return super().ending_of(step)
        author, segment = self.author, self.segment
        author.program = self.growing[step.task.job.number - 1]
        author.segment, author.task = segment, step.task
        del segment.operators[segment.end]
        for _ in range(TRIALS):
            operator = author.next_operator()
            step.operator = operator
            step.behind = place_behind(segment.end, operator.name)
            try:
                step.make()
            except FaultError as error:
                if not author.takes(error.fault):
                    segment.plan.clear()
                    continue
                self.write(operator)
                return error.fault
            except (NoCoreError, TaskEndedError):
                if not author.closing and author.rng.random() >= 0.1:
                    continue
                self.write(operator)
                return Ending.ENDED
            self.write(operator)
            return None
        self.write(Operator("NVLD"))
        return Fault.INVALID_OPERATOR

    def is_long(self) -> bool:
        """Whether some segment is long enough."""
        return any(segment.end.word > LONGEST_SEGMENT for segment in self.growing_segments())

    def growing_segments(self) -> list[GrowingSegment]:
        """All segments that are being written."""
        return [segment for program in self.growing for segment in program.segments]

    def write(self, operator: Operator) -> None:
        """Writes an operator, and the one that it may branch over."""
        segment = self.segment
        segment.append(operator)
        while operator.name in BRANCHES and operator.target > segment.end:
            skipped = segment.plan.popleft() if segment.plan else Operator("NOOP")
            segment.append(skipped)


def running_form(program: GrowingProgram) -> tuple[Codefile, list[Listing]]:
    """The program as a session takes it. Its listings grow."""
    segments = [Segment(segment.level, [0]) for segment in program.segments]
    listings = [segment.listing() for segment in program.segments]
    return Codefile(1, segments, program.rows), listings


def new_program(rng: random.Random, author: Author) -> GrowingProgram:
    """The segments by their levels, and some data rows."""
    levels = [2]
    deepest = rng.choice([2, 3, 3, 4, 4, 5, 6, 9, 17]) if rng.random() < 0.9 else 31
    for level in range(3, deepest + 1):
        levels += [level] * rng.choice([1, 1, 2, 3] if level < 5 else [1])
    tail = levels[1:]
    rng.shuffle(tail)
    rows = [
        [author.any_bits() for _ in range(rng.choice([1, 3, 11, 40]))]
        for _ in range(rng.choice([0, 0, 1, 2, 3]))
    ]
    return GrowingProgram([GrowingSegment(level) for level in [2, *tail]], rows)


def random_deck(seed: int, features: Features) -> bytes:
    """The deck of a seed."""
    rng = random.Random(f"{seed} {features}")
    if rng.random() < 0.1:
        return deck_of_closures(rng)
    if features.tasks and rng.random() < CREW_SHARE:
        return deck_of_crews(rng, lengths=features.lengths, jobs=features.jobs)
    author = Author(rng, features)
    deck = Deck()
    deck.stack = rng.choice([64, 90, 128, 256, 256, 512, 512, 512, 1500])
    if features.tasks or features.jobs:
        deck.quantum = rng.choice([1, 2, 3, 7, 20, 1000])
        deck.switches = random_switches(rng, features)
    jobs = rng.randint(1, 8) if features.jobs and rng.random() < 0.7 else 1
    programs = [new_program(rng, author) for _ in range(jobs)]
    for number in range(1, jobs + 1):
        count = rng.choice([0, 0, 1, 4, 9])
        numbers = [rng.choice([rng.randint(-99, 99), rng.randint(-9, 9)]) for _ in range(count)]
        limit = rng.choice([40, 200, 800, 800, 1200]) + rng.randrange(30)
        deck.jobs.append(Job(f"J{number}", 0, limit=limit, numbers=numbers))
    if rng.random() < 0.15:
        deck.halt = rng.randint(1, 400)
    budget = rng.choice([20, 40, 80, 150, 250]) * (1 + jobs // 2)
    write_programs(deck, programs, author, budget)
    return text_of_deck(deck, programs, rng)


def random_switches(rng: random.Random, features: Features) -> list[Switch]:
    """Switches at rising counts, to tasks that may be there."""
    switches = []
    count = rng.randrange(3)
    for _ in range(rng.choice([0, 0, 3, 20, 60])):
        count += rng.choice([1, 1, 2, 5, 17])
        job = rng.randint(1, 8 if features.jobs else 1)
        switches.append(Switch(count, rng.choice([1, job]), rng.choice([1, 1, 2, 2, 3, 4, 5])))
    return switches


def write_programs(
    deck: Deck, programs: list[GrowingProgram], author: Author, budget: int
) -> None:
    """Writes the programs by running them for some steps, then ends every segment."""
    session = WritingSession(deck, programs, author)
    while session.lives() and session.machine.made < 2 * budget + 200:
        author.closing = session.machine.made > budget or session.is_long()
        session.step()
    for segment in session.growing_segments():
        names = ["EXIT", "RETN", "EXIT", "NVLD"] if segment.level > 2 else ["EXIT"]
        segment.append(Operator(author.rng.choice(names)))


def deck_of_seed(seed: int, features: Features, *, breaks: bool = False) -> bytes:
    """The deck of a seed, broken if that is asked for."""
    deck = random_deck(seed, features)
    return broken(deck, random.Random(f"broken {seed}")) if breaks else deck


def add_features(parser: argparse.ArgumentParser) -> None:
    """The options that tell what decks may use."""
    parser.add_argument("--lengths", action="store_true", help="DEALLOCATE and RESIZE")
    parser.add_argument("--tasks", action="store_true", help="tasks and events")
    parser.add_argument("--jobs", action="store_true", help="several jobs")
    parser.add_argument("--broken", action="store_true", help="decks with refused cards")


def features_of(options: argparse.Namespace) -> Features:
    """What the options say that decks may use."""
    return Features(options.lengths, options.tasks, options.jobs)


def main() -> None:
    """Prints the deck of a seed."""
    parser = argparse.ArgumentParser(description="Prints the random deck of a seed.")
    parser.add_argument("seed", type=int)
    add_features(parser)
    options = parser.parse_args()
    deck = deck_of_seed(options.seed, features_of(options), breaks=options.broken)
    sys.stdout.buffer.write(deck)


if __name__ == "__main__":
    main()
