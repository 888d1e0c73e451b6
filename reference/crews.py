"""Decks whose tasks start, await, wake and disturb each other."""

from __future__ import annotations

import random
from dataclasses import dataclass, field

LENGTHS = [1, 5, 31, 40, 64, 90, 150]


@dataclass
class Scope:
    """What the cards of a segment may name: couples, as they are written."""

    operands: list[str]
    arrays: list[str]
    procedures: dict[str, bool] = field(default_factory=dict)  # whether it returns a word
    own: list[str] = field(default_factory=list)  # operands of its own record
    number: str = ""  # the cell of the number that PROCESS gave last


class Crew:
    """Writes the program of one job."""

    def __init__(self, rng: random.Random, *, lengths: bool) -> None:
        self.rng = rng
        self.lengths = lengths
        self.dares = rng.choice([0.0, 0.02, 0.1])

    def cards(self) -> list[str]:
        """The segments: an outer block, procedures in it, and procedures in these."""
        rng = self.rng
        returns = [rng.random() < 0.3 for _ in range(rng.randint(1, 3))]
        cells = [f"MPCW P{n}" for n in range(1, len(returns) + 1)]
        procedures = {f"2,{n + 2}": answer for n, answer in enumerate(returns)}
        start = len(cells) + 2
        operands = [f"2,{start + n}" for n in range(rng.randint(3, 5))]
        cells += [rng.choice(["ZERO", "ZERO", "ONE", "LT8 5"]) for _ in operands]
        arrays = [f"2,{start + len(operands) + n}" for n in range(rng.randint(1, 3))]
        number = f"2,{start + len(operands) + len(arrays)}"
        outer = Scope(operands, arrays, procedures, operands, number)
        text = ["SEGMENT MAIN 2", *cells]
        for _ in arrays:
            text += self.array()
        text += ["ZERO", *self.actions(outer, rng.randint(4, 16))]
        for task in range(2, rng.choice([2, 3, 8, 16])):
            text += call(13, f"LT8 {task}")
        text += [*self.print(outer), "EXIT"]
        for n, answers in enumerate(returns, start=1):
            text += self.procedure(n, outer, answers=answers)
        return text

    def procedure(self, n: int, outer: Scope, *, answers: bool) -> list[str]:
        """A procedure of the outer block, and one in it."""
        rng = self.rng
        # 3,2 and 3,3 are its parameters; then a procedure, a number, an element and an array.
        inner_answers = rng.random() < 0.3
        scope = Scope(
            [*outer.operands, "3,2", "3,3", "3,6"],
            [*outer.arrays, "3,7"],
            outer.procedures | {"3,4": inner_answers},
            ["3,2", "3,5"],
            "3,5",
        )
        text = [f"SEGMENT P{n} 3", f"MPCW Q{n}", "ZERO", *self.element(outer), *self.array()]
        text += [*self.actions(scope, rng.randint(2, 9)), *self.end(scope, answers=answers)]
        inner = Scope([*scope.operands, "4,2", "4,3"], scope.arrays, {}, ["4,2"], "4,4")
        text += [f"SEGMENT Q{n} 4", "ZERO", *self.actions(inner, rng.randint(1, 7))]
        return text + self.end(inner, answers=inner_answers)

    def end(self, scope: Scope, *, answers: bool) -> list[str]:
        """A procedure is left, mostly when its last child has ended."""
        rng = self.rng
        text = call(13, f"VALC {scope.number}") if rng.random() < 0.8 else []
        return [*text, f"VALC {rng.choice(scope.own)}", "RETN"] if answers else [*text, "EXIT"]

    def actions(self, scope: Scope, count: int) -> list[str]:
        """Some actions, each of which leaves the record's cells as they were."""
        rng = self.rng
        choices = [
            (4, self.print),
            (4, self.store),
            (5, self.add),
            (3, self.wait),
            (6, self.cause),
            (3, self.await_task),
            (2, self.status),
            (5, self.store_element),
            (3, self.print_element),
            (1, self.read),
            (3 if self.lengths else 0, self.other_length),
            (8 if scope.procedures else 0, self.process),
            (3 if scope.procedures else 0, self.call),
        ]
        text = []
        for _ in range(count):
            (action,) = rng.choices([made for _, made in choices], [share for share, _ in choices])
            text += action(scope)
            if rng.random() < self.dares:
                text += rng.choice([["ZERO", "ZERO", "IDIV"], ["NVLD"], ["DLET"] * 9, ["VALC 2,40"]])
        return text

    def array(self) -> list[str]:
        return call(8, f"LT8 {self.rng.choice(LENGTHS)}")

    def element(self, scope: Scope) -> list[str]:
        index = self.rng.choice([0] * 20 + [4, 20])
        return [f"NAMC {self.rng.choice(scope.arrays)}", f"LT8 {index}", "INDX"]

    def print(self, scope: Scope) -> list[str]:
        return call(9, f"VALC {self.rng.choice(scope.operands)}")

    def store(self, scope: Scope) -> list[str]:
        return [f"LT8 {self.rng.randrange(3)}", f"NAMC {self.rng.choice(scope.operands)}", "STOD"]

    def add(self, scope: Scope) -> list[str]:
        cell = self.rng.choice(scope.operands)
        return [f"VALC {cell}", "ONE", "ADD", f"NAMC {cell}", "STOD"]

    def wait(self, scope: Scope) -> list[str]:
        cell = self.rng.choice(scope.operands)
        reset = ["ZERO", f"NAMC {cell}", "STOD"] if self.rng.random() < 0.4 else []
        return [*call(15, f"NAMC {cell}"), *reset]

    def cause(self, scope: Scope) -> list[str]:
        return call(16, f"NAMC {self.rng.choice(scope.operands)}")

    def await_task(self, scope: Scope) -> list[str]:
        rng = self.rng
        return call(13, rng.choice([f"VALC {scope.number}", f"LT8 {rng.choice([2, 3, 3, 4, 5])}"]))

    def status(self, _: Scope) -> list[str]:
        return call(9, *call(14, f"LT8 {self.rng.randint(1, 6)}"))

    def store_element(self, scope: Scope) -> list[str]:
        value = self.rng.choice([f"LT8 {self.rng.randrange(99)}", f"VALC {scope.own[0]}"])
        return [value, *self.element(scope), "STOD"]

    def print_element(self, scope: Scope) -> list[str]:
        row = call(10, f"NAMC {self.rng.choice(scope.arrays)}", "LOAD")
        return row if self.rng.random() < 0.3 else call(9, *self.element(scope), "LOAD")

    def read(self, _: Scope) -> list[str]:
        return [*call(11), "DLET"]

    def other_length(self, scope: Scope) -> list[str]:
        row = [f"NAMC {self.rng.choice(scope.arrays)}", "LOAD"]
        if self.rng.random() < 0.3:
            return call(17, *row)
        return call(18, *row, f"LT8 {self.rng.choice(LENGTHS)}")

    def parameters(self, scope: Scope) -> list[str]:
        """A number, and a number, a cell or an element."""
        rng = self.rng
        cell = [f"NAMC {rng.choice(scope.own)}", "STFF"]
        return [f"LT8 {rng.randrange(9)}", *rng.choice([["ONE"], cell, cell, self.element(scope)])]

    def process(self, scope: Scope) -> list[str]:
        procedure = self.rng.choice(list(scope.procedures))
        start = call(12, f"NAMC {procedure}", *self.parameters(scope))
        return [*start, f"NAMC {scope.number}", "STOD"] * self.rng.choice([1, 1, 2, 3, 14])

    def call(self, scope: Scope) -> list[str]:
        procedure = self.rng.choice(list(scope.procedures))
        text = ["MKST", f"NAMC {procedure}", *self.parameters(scope), "ENTR"]
        return [*text, "DLET"] if scope.procedures[procedure] else text


def call(number: int, *arguments: str) -> list[str]:
    """The call of an intrinsic."""
    return ["MKST", f"NAMC 0,{number}", *arguments, "ENTR"]


def deck_of_crews(rng: random.Random, *, lengths: bool, jobs: bool) -> bytes:
    """A deck of some jobs, in each of which tasks start tasks."""
    count = rng.randint(1, 4) if jobs else 1
    cards = [f"?STACK {rng.choice([64, 100, 256, 512])}"]
    cards.append(f"?QUANTUM {rng.choice([1, 2, 3, 5, 8, 13, 40, 1000])}")
    if rng.random() < 0.1:
        cards.append(f"?HALT {rng.randint(1, 600)}")
    cards += switch_cards(rng, count)
    for job in range(1, count + 1):
        cards += [f"?JOB CREW{job}", f"?LIMIT {rng.choice([100, 700, 3000, 6000])}", "?ASM"]
        cards += [*Crew(rng, lengths=lengths).cards(), "?DATA", "1 2 3", "?END"]
    return "".join(card + "\n" for card in cards).encode()


def switch_cards(rng: random.Random, jobs: int) -> list[str]:
    """Switches at rising counts, to tasks that may be there."""
    cards = []
    at = rng.randrange(60)
    for _ in range(rng.choice([0, 0, 5, 30, 100])):
        at += rng.choice([1, 1, 2, 3, 7, 20])
        cards.append(f"?SWITCH {at} {rng.randint(1, jobs)}.{rng.choice([1, 2, 2, 3, 4, 5, 9])}")
    return cards
