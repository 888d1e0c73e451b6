"""Decks in which a procedure hands on its own inner procedure, again and again."""

from __future__ import annotations

import random


def deck_of_closures(rng: random.Random) -> bytes:
    """A deck in which a procedure hands on its own inner procedure, again and again.

    A has a count in 3,2 and then parameters, which are procedures or numbers.
    Its inner procedure B counts down and calls A with parameters of its own.
    """
    count = rng.randint(1, 4)
    procedures = rng.random() < 0.5
    outer_cards = ["MPCW A", "LT8 5", "MPCW Z", "MKST", "NAMC 0,9", "MKST", "NAMC 2,2"]
    outer_cards.append(f"LT8 {rng.randint(1, 7)}")
    for _ in range(count):
        number = rng.choice([["ONE"], ["NAMC 2,3", "STFF"], ["LT8 3", "CHSN"], ["ZERO"]])
        outer_cards += ["NAMC 2,4", "STFF"] if procedures else number
    cards = ["?STACK 4000", "?JOB CLOSURES", f"?LIMIT {rng.choice([500, 3000])}", "?ASM"]
    cards += ["SEGMENT MAIN 2", *outer_cards, "ENTR", "ENTR"]
    cards += ["MKST", "NAMC 0,9", "VALC 2,3", "ENTR", "EXIT"]
    cards += ["SEGMENT A 3", *closure_cards(rng, range(3, 3 + count), procedures=procedures)]
    cards += ["SEGMENT B 4", *inner_cards(rng, range(3, 3 + count), procedures=procedures)]
    cards += ["SEGMENT Z 3", "VALC 2,3", "RETN", "?END"]
    return "".join(card + "\n" for card in cards).encode()


def closure_cards(rng: random.Random, parameters: range, *, procedures: bool) -> list[str]:
    """The procedure A: it calls its inner procedure while its count is above 0."""

    def value() -> list[str]:
        """The value of some parameter."""
        return value_cards(rng, rng.choice(parameters), procedures=procedures)

    inner = parameters.stop
    cards = ["MPCW B", "VALC 3,2", "ZERO", "GRTR", "BRTR C", *value(), *value(), "ADD", "RETN"]
    cards.append(f"C: {rng.choice(['NOOP', 'PUSH'])}")
    if rng.random() < 0.3:
        cards += ["MKST", "NAMC 0,9", *value(), "ENTR"]
    return [*cards, *value_cards(rng, inner, procedures=True), "RETN"]


def value_cards(rng: random.Random, cell: int, *, procedures: bool) -> list[str]:
    """What a parameter represents: a call of it, or its value."""
    if procedures and rng.random() < 0.6:
        return ["MKST", f"NAMC 3,{cell}", "ENTR"]
    return [f"VALC 3,{cell}"]


def inner_cards(rng: random.Random, parameters: range, *, procedures: bool) -> list[str]:
    """The procedure B: it counts down and calls A."""
    inner = parameters.stop
    cards = ["VALC 3,2", "ONE", "SUBT", "NAMC 3,2", rng.choice(["STOD", "STON"])]
    if rng.random() < 0.3:
        value = rng.choice([["LT8 9"], ["VALC 3,2"]])
        cell = 2 if procedures else rng.choice(parameters)
        cards += [*value, f"NAMC 3,{cell}", "STOD"]
    cards += ["MKST", "NAMC 2,2", "VALC 3,2"]
    for _ in parameters:
        other = rng.choice(parameters)
        handed = [[f"NAMC 3,{inner}", "STFF"], [f"NAMC 3,{other}", "STFF"], [f"VALC 3,{other}"]]
        cards += rng.choice(handed[:2] if procedures else handed)
    return [*cards, "ENTR", "RETN"]
