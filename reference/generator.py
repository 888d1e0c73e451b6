"""The deck of the command `exercise`: stores into many arrays, then their sum."""

from __future__ import annotations


class Draws:
    """Numbers that a seed gives, one after the other."""

    def __init__(self, seed: int) -> None:
        self.state = seed

    def below(self, bound: int) -> int:
        """The next number, from 0 to bound - 1."""
        self.state = (self.state * 1103515245 + 12345) % (1 << 31)
        return self.state // 65536 % bound


def exercise_deck(seed: int, size: int) -> bytes:
    """The text of the deck: `size` arrays, and four stores for each."""
    draws = Draws(seed)
    lengths = [50 + draws.below(200) for _ in range(size)]
    stores = []
    for _ in range(4 * size):
        array = draws.below(size)
        index = draws.below(lengths[array])
        stores.append((array + 2, index, draws.below(1000)))
    cards = ["?STACK 1024", "?JOB EXERCISE", "?ASM", "SEGMENT MAIN 2"]
    for length in lengths:
        cards += ["MKST", "NAMC 0,8", f"LT16 {length}", "ENTR"]
    for cell, index, value in stores:
        cards += [f"LT16 {value}", f"NAMC 2,{cell}", f"LT16 {index}", "INDX", "STOD"]
    cards += ["MKST", "NAMC 0,9", "ZERO"]
    for cell, index, _ in stores:
        cards += [f"NAMC 2,{cell}", f"LT16 {index}", "NXLV", "ADD"]
    cards += ["ENTR", "EXIT", "?END"]
    return "".join(card + "\n" for card in cards).encode()
