"""Searches in random decks by the page's module, and by the reference.

    python3 reference/compare_searches.py [--seeds 0..200] [--lengths] [--tasks] [--jobs]

from the top of the repository, with node on the path. For each deck it seeks
places, switches, operators within a height and the deepest stack, from several
counts on, in a core that suffices and in a small one. The module of
`web/b67.html` answers (`b67_web_find`, by `web/check/finds.mjs`). It reports
every answer that differs.

The counts of the reference come from a walk over each operator of the run. No
line of the searched program is used.
"""

from __future__ import annotations

import argparse
import json
import random
import subprocess
import sys
import tempfile
from collections import Counter
from dataclasses import dataclass

from b67ref import programs_of
from cards import RefusedError, read_deck
from machine import NoCoreError
from random_decks import add_features, deck_of_seed, features_of
from session import Session

GREATEST_CORE = 1_048_575
SECTORS = 65_535
MOST_OPERATORS = 3_000
QUERIES = 12


@dataclass(frozen=True)
class Look:
    """What the next operator is, after so many: its task, its place, and how high its stack stands."""

    job: int
    number: int
    place: tuple[int, int, int, int]
    switches: bool
    height: int
    mark: int


class Walked(Session):
    """A run that is looked at before each operator."""

    def __init__(self, text: bytes, core: int) -> None:
        deck = read_deck(text)
        super().__init__(deck, programs_of(deck), core, SECTORS, lambda line: None)
        self.looks: list[Look] = []
        self.stops = self.machine.need_at_opening() > core

    def walk(self) -> None:
        """Goes through the run, up to the most operators, the halt or a stop."""
        while not self.stops and self.lives() and self.machine.made != self.halt and len(self.looks) < MOST_OPERATORS:
            self.looks.append(self.look())
            try:
                self.step()
            except NoCoreError:
                self.stops = True

    def look(self) -> Look:
        """The next operator."""
        kept = self.next_switch, self.machine.turn
        task = self.choose()
        self.next_switch, self.machine.turn = kept
        at, top = task.position, task.frames[-1]
        return Look(
            task.job.number,
            task.number,
            (task.job.number, at.segment, at.place.word, at.place.syllable),
            task.key != self.machine.last_key,
            top.height,
            top.below,
        )


@dataclass(frozen=True)
class Query:
    """A search: its kind, the counts, and what it seeks."""

    kind: int
    first: int
    most: int
    words: tuple[int, ...]

    def asked(self, core: int, text: bytes) -> str:
        """The search, and the deck, as the module is asked."""
        numbers = [*self.words, 0] if self.kind == 2 else [*self.words]
        return json.dumps({"core": core, "kind": self.kind, "numbers": numbers, "from": self.first, "most": self.most, "text": text.decode("latin-1")})

    def holds(self, look: Look) -> bool:
        """Whether it seeks this operator."""
        if self.kind == 0:
            return look.place in {self.words[i : i + 4] for i in range(0, len(self.words), 4)}
        if self.kind == 1:
            return look.switches
        job, number, height = self.words
        return (look.job, look.number) == (job, number) and look.mark <= height

    def answer(self, run: Walked) -> str:
        """What the reference answers. Where the run stops short, the search does unless it has found its count."""
        looked = range(self.first, min(self.most, len(run.looks)))
        stops = run.stops and self.most >= len(run.looks)
        if self.kind == 3:
            if stops:
                return "stops"
            return str(max(looked, key=lambda n: (run.looks[n].height, -n), default="none"))
        found = next((n for n in looked if self.holds(run.looks[n])), None)
        return str(found) if found is not None else "stops" if stops else "none"


def queries_of(dice: random.Random, looks: list[Look]) -> list[Query]:
    """Some searches of each kind."""
    queries = []
    for turn in range(QUERIES):
        first = dice.choice((0, 0, 1, dice.randrange(len(looks) + 2)))
        most = dice.choice((MOST_OPERATORS, first + dice.randrange(1, 200), dice.randrange(1, len(looks) + 2)))
        look = dice.choice(looks)
        words = {
            0: tuple(number for it in dice.sample(looks, min(len(looks), dice.randrange(1, 4))) for number in it.place),
            2: (look.job, look.number, dice.choice((look.mark, look.mark - 1, look.mark + 1, dice.randrange(1, 40)))),
        }
        queries.append(Query(turn % 4, first, min(most, MOST_OPERATORS), words.get(turn % 4, ())))
    return queries


def answers_of(asked: list[str]) -> list[str]:
    """What the page's module answers to these searches."""
    with tempfile.NamedTemporaryFile("w", encoding="utf-8") as file:
        file.write("\n".join(asked))
        file.flush()
        words = ["node", "--experimental-wasm-memory64", "web/check/finds.mjs", "web/b67.html", file.name]
        done = subprocess.run(words, capture_output=True, text=True, check=False)
    if done.returncode:
        sys.exit(done.stderr[-2000:])
    return done.stdout.split()


def main() -> int:
    """Compares, and answers 1 if something differs."""
    options = argparse.ArgumentParser()
    options.add_argument("--seeds", default="0..100")
    add_features(options)
    given = options.parse_args()
    low, high = map(int, given.seeds.split(".."))
    asked, wanted, queries = [], [], []
    for seed in range(low, high):
        text = deck_of_seed(seed, features_of(given))
        dice = random.Random(seed)
        for core in (GREATEST_CORE, dice.choice((600, 1_000, 2_000))):
            try:
                run = Walked(text, core)
            except RefusedError:
                continue
            run.walk()
            for query in queries_of(dice, run.looks) if run.looks else ():
                asked.append(query.asked(core, text))
                wanted.append(query.answer(run))
                queries.append((seed, core, query))
    printed = answers_of(asked)
    kinds = Counter(("place", "switch", "within", "deepest")[it[2].kind] for it in queries)
    wrong = [(it, a, b) for it, a, b in zip(queries, wanted, printed, strict=True) if a != b]
    for it, a, b in wrong[:20]:
        print(*it, "reference", a, "program", b)
    ends = Counter("found" if it.isdecimal() else it for it in wanted)
    print(f"{len(asked)} searches, {dict(kinds)}, {dict(ends)}; {len(wrong)} differ")
    return 1 if wrong else 0


if __name__ == "__main__":
    sys.exit(main())
