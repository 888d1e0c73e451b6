"""Random hosts, parts and pairs: a built program's `bind` against the reference.

    python3 random_bind.py PROGRAM --seeds 0..300

Each deck of two jobs is bound by random pairs, by both. What is bound is then
checked by the program, and it runs as the host does whose cards were changed by
hand: segment cards of the part in the place of the host's, with other names.
"""

from __future__ import annotations

import argparse
import random
import subprocess
import sys
import tempfile
from collections import Counter
from dataclasses import dataclass, field
from pathlib import Path

from asm import assemble
from b67ref import Backing, FILE_SECTORS, outcome_of
from cards import RefusedError, read_cards
from codefile import hexadecimal_cards, write_codefile
from small_decks import text_of

RUN_WORDS = ["run", "--core", "4096", "--backing", "backing"]
WRONG_WORDS = ["1", "=1", "1=", "0=1", "1=256", "01=1", "1=1=1", "1=+1", "--core", ""]


@dataclass
class Segment:
    """The cards of a segment: what it calls, and the constant that it prints."""

    level: int
    constant: int
    calls: list[tuple[int, bool]] = field(default_factory=list)
    names_row: bool = False
    has_entry: bool = False
    is_padded: bool = False

    def cards(self, own: str, names: list[str]) -> list[str]:
        """The cards under this name, where the segments called have these."""
        cards = [f"SEGMENT {own} {self.level}"]
        if self.is_padded:
            cards.append("NOOP")
        if self.has_entry:
            cards += ["ZERO", "DLET", "E: NOOP", "ENTRY E"]
        for number, at_entry in self.calls:
            cards.append(f"MPCW {names[number]}{':E' if at_entry else ''}")
        cards += ["MKST", "NAMC 0,9", f"LT8 {self.constant}", "ENTR"]
        for cell in range(len(self.calls)):
            cards += ["MKST", f"NAMC {self.level},{2 + cell}", "ENTR"]
        if self.names_row:
            cards += ["NAMC 1,2", "DLET"]
        return [*cards, "EXIT"]


@dataclass
class Program:
    """Segments, and data rows of one number."""

    segments: list[Segment]
    rows: int

    def cards(self, letter: str) -> list[str]:
        """The program's cards. The letter begins each segment's name."""
        names = [f"{letter}{number}" for number in range(len(self.segments))]
        cards = []
        for name, segment in zip(names, self.segments):
            cards += segment.cards(name, names)
        return cards + self.row_cards()

    def row_cards(self) -> list[str]:
        """The cards of the data rows."""
        return [card for row in range(self.rows) for card in (f"ROW R{row}", f"NUM {row}")]


def random_program(rng: random.Random, most: int) -> Program:
    """A program whose segments, at most so many and one, call those of the next level."""
    levels = [2, *sorted(rng.choice([3, 3, 4, 5]) for _ in range(rng.randint(1, most)))]
    has_entries = rng.random() < 0.5
    segments = [Segment(level, rng.randrange(256)) for level in levels]
    for segment in segments:
        segment.has_entry = has_entries and rng.random() < 0.8
        segment.is_padded = rng.random() < 0.15
        segment.names_row = rng.random() < 0.1
    for segment in segments:
        below = [n for n, other in enumerate(segments) if other.level == segment.level + 1]
        if rng.random() < 0.02:
            below = list(range(len(segments)))
        for _ in range(rng.choice([0, 1, 1, 2]) if below else 0):
            number = rng.choice(below)
            at_entry = segments[number].has_entry and rng.random() < 0.7
            segment.calls.append((number, at_entry))
    return Program(segments, rng.choice([0, 1, 1, 2]))


def random_pairs(rng: random.Random, host: Program, part: Program) -> list[tuple[int, int]]:
    """Pairs of numbers from 0, most of them of one level, and with what they call."""
    pairs: list[tuple[int, int]] = []
    wanted = [rng.randrange(len(part.segments))]
    while wanted:
        new = wanted.pop()
        taken = {pair[0] for pair in pairs}
        level = part.segments[new].level
        fitting = [n for n, s in enumerate(host.segments) if s.level == level and n not in taken]
        old = rng.choice(fitting) if fitting else rng.randrange(len(host.segments))
        pairs.append((old, new))
        if rng.random() < 0.8:
            done = {pair[1] for pair in pairs} | set(wanted)
            wanted += sorted({n for n, _ in part.segments[new].calls} - done)
        if not wanted and rng.random() < 0.3:
            wanted.append(rng.randrange(len(part.segments)))
        if len(pairs) > 12:
            break
    if rng.random() < 0.1:
        at = rng.randrange(len(pairs))
        pairs[at] = (rng.randrange(9), rng.randrange(9))
    rng.shuffle(pairs)
    return pairs


def words_of(rng: random.Random, pairs: list[tuple[int, int]]) -> list[str]:
    """The words of `bind`, now and then malformed ones."""
    words = [f"{old + 1}={new + 1}" for old, new in pairs]
    if rng.random() < 0.04:
        words.insert(rng.randrange(len(words) + 1), rng.choice(WRONG_WORDS))
    if rng.random() < 0.02:
        words = words * 256
    return ["bind", *words]


def body_of(rng: random.Random, cards: list[str], *, spoils: bool) -> list[str]:
    """The body of a job: the cards, or their codefile as hexadecimal cards, maybe with one
    digit spoiled."""
    if rng.random() < 0.6:
        return ["?ASM", *cards]
    try:
        file = assemble(read_cards(text_of(cards)))
    except RefusedError:
        return ["?ASM", *cards]
    if rng.random() < 0.3:
        file.version = 2
    digits = "".join(hexadecimal_cards(write_codefile(file)))
    if spoils:
        at = rng.randrange(len(digits))
        digits = digits[:at] + rng.choice("0123456789abcdef") + digits[at + 1 :]
    return ["?HEX", *[digits[at : at + 64] for at in range(0, len(digits), 64)]]


def deck_of(rng: random.Random, host: Program, part: Program, *, spoils: bool) -> bytes:
    """A deck of the two, now and then of another number of jobs, or with a wrong card."""
    jobs = [
        ["?JOB HOST", *body_of(rng, host.cards("H"), spoils=spoils), "?END"],
        ["?JOB PART", *body_of(rng, part.cards("P"), spoils=spoils), "?END"],
    ]
    if rng.random() < 0.06:
        jobs = (jobs + jobs)[: rng.choice([0, 1, 3, 4])]
    cards = [card for job in jobs for card in job]
    if cards and rng.random() < 0.06:
        cards.insert(rng.randrange(len(cards)), rng.choice(["?NO", "ADDD", "LT8 256", "?DATA"]))
    return text_of(cards)


def by_hand(host: Program, part: Program, pairs: list[tuple[int, int]]) -> list[str]:
    """The host's cards with those of the part in them, under the host's names."""
    names = [f"H{number}" for number in range(len(host.segments))]
    renamed = [f"P{number}" for number in range(len(part.segments))]
    for old, new in pairs:
        renamed[new] = names[old]
    part_at = dict(pairs)
    cards = []
    for number, (name, segment) in enumerate(zip(names, host.segments)):
        if number in part_at:
            cards += part.segments[part_at[number]].cards(name, renamed)
        else:
            cards += segment.cards(name, names)
    return cards + host.row_cards()


class Comparison:
    """A program under test, and what was found so far."""

    def __init__(self, program: Path, folder: Path) -> None:
        self.program = program
        self.folder = folder
        self.results: Counter[str] = Counter()
        self.answers: Counter[str] = Counter()

    def run_program(self, words: list[str], deck: bytes) -> tuple[int, str]:
        """The status and the printed text of the program."""
        done = subprocess.run(
            [str(self.program), *words],
            input=deck,
            capture_output=True,
            cwd=self.folder,
            timeout=120,
            check=False,
        )
        return done.returncode, done.stdout.decode("latin-1")

    def same(self, what: str, found: object, wanted: object) -> None:
        """Notes whether two answers are the same."""
        self.results["same" if found == wanted else "differs"] += 1
        if found != wanted:
            print(f"{what}: the program has {found}, wanted {wanted}")

    def compare(self, seed: int) -> None:
        """Compares all on the deck of a seed."""
        rng = random.Random(f"bind {seed}")
        host, part = random_program(rng, 9), random_program(rng, 5)
        pairs = random_pairs(rng, host, part)
        spoils = rng.random() < 0.06
        words, deck = words_of(rng, pairs), deck_of(rng, host, part, spoils=spoils)
        wanted = outcome_of(words, deck, Backing(FILE_SECTORS))
        found = self.run_program(words, deck)
        self.same(f"{seed}: {' '.join(words[:9])}", found, (wanted.status, wanted.text()))
        self.answers[answer_kind(wanted.status, wanted.text())] += 1
        if found[0] == 0 and not spoils:
            self.look_at(seed, found[1], text_of(by_hand(host, part, pairs)))

    def look_at(self, seed: int, bound: str, cards: bytes) -> None:
        """The bound file is admitted, and runs as the host changed by hand does."""
        file = f"?JOB B\n?HEX\n{bound}?END\n".encode()
        hand = b"?JOB B\n?ASM\n" + cards + b"?END\n"
        status, _ = self.run_program(["check"], file)
        self.same(f"{seed}: check", status, 0)
        lines, wanted = self.run_program(RUN_WORDS, file), self.run_program(RUN_WORDS, hand)
        self.same(f"{seed}: run", lines, wanted)


def answer_kind(status: int, text: str) -> str:
    """What sort of answer it is."""
    words = text.split()
    if status == 0:
        return "bound, version " + text[15]
    return f"BIND REASON {words[3]}" if words[0] == "BIND" else words[0]


def main() -> int:
    """Compares a range of seeds."""
    parser = argparse.ArgumentParser(description="Compares a program's bind with the reference.")
    parser.add_argument("program", type=Path)
    parser.add_argument("--seeds", required=True, help="A..B, B not included")
    options = parser.parse_args()
    first, last = map(int, options.seeds.split(".."))
    with tempfile.TemporaryDirectory() as folder:
        comparison = Comparison(options.program.resolve(), Path(folder))
        for seed in range(first, last):
            comparison.compare(seed)
    for result, count in comparison.results.most_common():
        print(f"{count} {result}")
    print(", ".join(f"{answer}: {count}" for answer, count in comparison.answers.most_common()))
    return int(comparison.results["differs"] > 0)


if __name__ == "__main__":
    sys.exit(main())
