"""Runs a built program and the reference on the same random decks.

    python3 compare.py PROGRAM --seeds 0..1000 --core 65536 [--lengths] [--tasks] [--jobs]
        [--broken] [--tight] [--small] [--keep FOLDER]

It reports every difference in printed bytes or exit status. With `--tight`
each deck also runs in the smallest core in which it needs not stop, and in one
word less. With `--broken` decks have refused cards, and `check`, `asm` and
`convert` are tried too. With `--small` small decks are tried instead, of which
most are refused. Differing decks are kept in a folder.
"""

from __future__ import annotations

import argparse
import re
import subprocess
import sys
import tempfile
from collections import Counter
from dataclasses import dataclass, field
from pathlib import Path

from b67ref import FILE_SECTORS, Backing, Outcome, outcome_of
from random_decks import add_features, deck_of_seed, features_of
from small_decks import small_deck

LEAST_CORE = 256
GREATEST_CORE = 1_048_575
TIME_LIMIT = 120


@dataclass
class Comparison:
    """A program under test, and what was found so far."""

    program: Path
    folder: Path
    keep: Path
    results: Counter[str] = field(default_factory=Counter)
    endings: Counter[str] = field(default_factory=Counter)

    def run_program(self, words: list[str], deck: bytes) -> tuple[int, bytes]:
        """The status and the printed bytes of the program."""
        command = [str(self.program), *words]
        if self.program.suffix == ".py":
            command.insert(0, sys.executable)
        done = subprocess.run(
            command,
            input=deck,
            capture_output=True,
            cwd=self.folder,
            timeout=TIME_LIMIT,
            check=False,
        )
        return done.returncode, done.stdout + done.stderr

    def compare(self, name: str, words: list[str], deck: bytes) -> Outcome:
        """Runs both on a deck, and answers what the reference did."""
        wanted = outcome_of(words, deck, Backing(FILE_SECTORS))
        status, printed = self.run_program(words, deck)
        self.results[self.judge(wanted, status, printed)] += 1
        if self.judge(wanted, status, printed) == "differs":
            self.report(name, words, deck, wanted, status, printed)
        self.endings[f"status {wanted.status}"] += 1
        for line in wanted.lines:
            last = line.split(" ", 1)[-1]
            if last[-1:].isupper():
                self.endings[last] += 1
        return wanted

    def judge(self, wanted: Outcome, status: int, printed: bytes) -> str:
        """How the program's answer compares."""
        if (status, printed) == (wanted.status, wanted.text().encode()):
            return "same"
        if status == 5 and printed in full_texts(wanted):
            return "backing full, as may be"
        return "differs"

    def report(
        self, name: str, words: list[str], deck: bytes, wanted: Outcome, status: int, printed: bytes
    ) -> None:
        """Tells a difference and keeps its deck."""
        self.keep.mkdir(parents=True, exist_ok=True)
        (self.keep / f"{name}.deck").write_bytes(deck)
        (self.keep / f"{name}.wanted").write_text(wanted.text())
        (self.keep / f"{name}.printed").write_bytes(printed)
        lines = printed.decode("latin-1").splitlines()
        at = next(
            (i for i, pair in enumerate(zip(wanted.lines, lines)) if pair[0] != pair[1]),
            min(len(wanted.lines), len(lines)),
        )
        print(f"{name}: {' '.join(words)}: status {status}, the reference has {wanted.status}")
        print(f"  line {at + 1}: the program has {lines[at : at + 2]}")
        print(f"  line {at + 1}: the reference has {wanted.lines[at : at + 2]}")


def full_texts(wanted: Outcome) -> set[bytes]:
    """The texts of a run that may stop with a full backing."""
    return {
        "".join(
            line + "\n"
            for line in [*wanted.lines[: stop.lines], f"BACKING FULL {stop.sum} {FILE_SECTORS}"]
        ).encode()
        for stop in wanted.possible_stops
    }


def run_words(core: int) -> list[str]:
    """The words of a run."""
    return ["run", "--core", str(core), "--backing", "backing"]


def compare_deck(comparison: Comparison, seed: int, options: argparse.Namespace) -> None:
    """Compares all that is asked for on the deck of a seed."""
    if options.small:
        comparison.compare(f"{seed}-small", *small_deck(seed))
        return
    deck = deck_of_seed(seed, features_of(options), breaks=options.broken)
    wanted = comparison.compare(f"{seed}-run", run_words(options.core), deck)
    if options.broken:
        comparison.compare(f"{seed}-check", ["check"], deck)
        cards = b"\n".join(card for card in deck.split(b"\n") if not card.startswith(b"?"))
        comparison.compare(f"{seed}-asm", ["asm"], cards)
        comparison.compare(f"{seed}-convert", ["convert"], cards)
    if options.tight and wanted.status in (0, 3) and wanted.need:
        tight = max(wanted.need, LEAST_CORE)
        comparison.compare(f"{seed}-tight", run_words(tight), deck)
        if tight > LEAST_CORE:
            comparison.compare(f"{seed}-less", run_words(tight - 1), deck)


def main() -> int:
    """Compares a range of seeds."""
    parser = argparse.ArgumentParser(description="Compares a program with the reference.")
    parser.add_argument("program", type=Path)
    parser.add_argument("--seeds", required=True, help="A..B, B not included")
    parser.add_argument("--core", type=int, default=65_536)
    parser.add_argument("--tight", action="store_true", help="also in the smallest core")
    parser.add_argument("--small", action="store_true", help="small decks of every refusal")
    parser.add_argument("--keep", type=Path, default=Path("differences"))
    add_features(parser)
    options = parser.parse_args()
    if not options.program.is_file():
        parser.error(f"{options.program}: not a program")
    if not re.fullmatch(r"[0-9]+\.\.[0-9]+", options.seeds):
        parser.error(f"{options.seeds}: not a range of seeds, A..B")
    first, last = map(int, options.seeds.split(".."))
    with tempfile.TemporaryDirectory() as folder:
        comparison = Comparison(options.program.resolve(), Path(folder), options.keep)
        for seed in range(first, last):
            compare_deck(comparison, seed, options)
    for result, count in comparison.results.most_common():
        print(f"{count} {result}")
    print(", ".join(f"{ending}: {count}" for ending, count in comparison.endings.most_common(30)))
    return int(comparison.results["differs"] > 0)


if __name__ == "__main__":
    sys.exit(main())
