"""The cards of random decks, and broken cards."""

from __future__ import annotations

import random

from author import FIRST_PLACE, GrowingProgram, GrowingSegment
from cards import Deck
from codefile import Codefile, Segment, hexadecimal_cards, write_codefile
from loader import BRANCHES, proc_of_literal
from syllables import OPERATORS, Form, Operator, syllables_left, syllables_of
from words import Place, bits_of_number, couple_of, value_of


def text_of_deck(deck: Deck, programs: list[GrowingProgram], rng: random.Random) -> bytes:
    """The cards of a deck."""
    cards = []
    if deck.stack != 512 or rng.random() < 0.2:
        cards.append(f"?STACK {deck.stack}")
    if deck.quantum != 1000:
        cards.append(f"?QUANTUM {deck.quantum}")
    if deck.halt is not None:
        cards.append(f"?HALT {deck.halt}")
    cards += [f"?SWITCH {switch.count} {switch.job}.{switch.task}" for switch in deck.switches]
    for job, program in zip(deck.jobs, programs):
        cards += [f"?JOB {job.name}", f"?LIMIT {job.limit}"]
        in_hexadecimal = rng.random() < 0.3 or needs_hexadecimal(program)
        cards += body_in_hexadecimal(program) if in_hexadecimal else body(program, rng)
        if job.numbers or rng.random() < 0.2:
            cards.append("?DATA")
            cards += number_cards(job.numbers)
        cards.append("?END")
    return "".join(card + "\n" for card in cards).encode()


def number_cards(numbers: list[int]) -> list[str]:
    """Cards of five numbers each."""
    texts = [str(number) for number in numbers]
    return [" ".join(texts[at : at + 5]) for at in range(0, len(texts), 5)]


def needs_hexadecimal(program: GrowingProgram) -> bool:
    """Whether a bit is named that no card may name."""
    return any(
        operator.name in ("BSET", "BRST") and operator.number > 47
        for segment in program.segments
        for operator, _ in segment.operators.values()
    )


def body_in_hexadecimal(program: GrowingProgram) -> list[str]:
    """The `?HEX` body of a program."""
    version = 2 if any(segment.entries for segment in program.segments) else 1
    file = Codefile(version, [finished(segment) for segment in program.segments], program.rows)
    return ["?HEX", *hexadecimal_cards(write_codefile(file))]


def finished(segment: GrowingSegment) -> Segment:
    """The code of a segment."""
    out = bytearray()
    for operator, _ in segment.operators.values():
        out += syllables_of(operator)
        if OPERATORS[operator.name][1] is Form.LITERAL:
            out += b"\xff" * syllables_left(Place(0, len(out)))
            out += operator.number.to_bytes(6, "big")
    out += b"\xff" * syllables_left(Place(0, len(out)))
    words = [int.from_bytes(out[at : at + 6], "big") for at in range(0, len(out), 6)]
    return Segment(segment.level, words, sorted(segment.entries))


def body(program: GrowingProgram, rng: random.Random) -> list[str]:
    """The `?ASM` body of a program."""
    cards = ["?ASM"]
    for number, segment in enumerate(program.segments, start=1):
        cards += segment_cards(number, segment, program, rng)
    for number, row in enumerate(program.rows, start=1):
        cards.append(f"ROW R{number}")
        texts = [text_of_bits(bits, rng) for bits in row]
        cards += ["NUM " + " ".join(texts[at : at + 4]) for at in range(0, len(texts), 4)]
    return cards


def segment_cards(
    number: int, segment: GrowingSegment, program: GrowingProgram, rng: random.Random
) -> list[str]:
    """The cards of a segment."""
    labels = labels_of(segment)
    cards = [f"SEGMENT S{number} {segment.level}"]
    for place, (operator, _) in segment.operators.items():
        label = f"{labels[place]}: " if place in labels else ""
        operand = operand_of(operator, segment, program, rng)
        comment = " ; so" if rng.random() < 0.02 else ""
        cards.append(f"{label}{operator.name} {operand}".rstrip() + comment)
    entries = [f"ENTRY {labels[place]}" for place in segment.entries]
    rng.shuffle(entries)
    return cards + entries


def labels_of(segment: GrowingSegment) -> dict[Place, str]:
    """Labels for the entries and for the targets of branches."""
    operators = [operator for operator, _ in segment.operators.values()]
    targets = {operator.target for operator in operators if operator.name in BRANCHES}
    return {place: label_of(place) for place in targets | segment.entries}


def label_of(place: Place) -> str:
    """The label of a place."""
    return f"L{place.word}X{place.syllable}"


def operand_of(
    operator: Operator, segment: GrowingSegment, program: GrowingProgram, rng: random.Random
) -> str:
    """The operand of an operator as a card has it."""
    match OPERATORS[operator.name][1]:
        case Form.COUPLE:
            level, displacement = couple_of(operator.number, segment.level)
            row = displacement - 1 - len(program.segments)
            if level == 1 and 1 <= row <= len(program.rows) and rng.random() < 0.5:
                return f"1,R{row}"
            return f"{level},{displacement}"
        case Form.PAIR:
            return f"{operator.number},{operator.second}"
        case Form.BRANCH:
            return label_of(operator.target)
        case Form.LITERAL if operator.name == "MPCW":
            proc = proc_of_literal(operator.number)
            label = "" if proc.place == FIRST_PLACE else f":{label_of(proc.place)}"
            return f"S{proc.segment - 1}{label}"
        case Form.LITERAL:
            return text_of_bits(operator.number, rng)
        case Form.PLAIN:
            return ""
    return str(operator.number)


def text_of_bits(bits: int, rng: random.Random) -> str:
    """A literal as a number if it is one, or else as hexadecimal digits."""
    number = value_of(bits)
    if bits_of_number(number) == bits and rng.random() < 0.8:
        return str(number)
    return f"#{bits:012x}"


# --- Broken decks -------------------------------------------------------------------

SPARE_CARDS = [
    "?STACK 64", "?STACK 63", "?QUANTUM 0", "?HALT 5", "?HALT 05", "?SWITCH 0 1.1",
    "?SWITCH 5 9.1", "?JOB B", "?JOB b", "?LIMIT 10", "?ASM", "?HEX", "?DATA", "?END", "?END 1",
    "?NONE", "EXIT", "ZERO", "ENTRY L0X0", "SEGMENT S1 2", "SEGMENT T 3", "SEGMENT T 32",
    "SEGMENT T 256", "ROW R1", "ROW T", "NUM 1 2", "NUM", "NUM -0", "NUM 549755813888",
    "NUM #80000000000", "LT8 256", "LT8 -1", "LT16 65536", "LT48 #8000000000zz", "BSET 48",
    "ISOL 256,1", "ISOL 1", "VALC 2,0", "VALC 9,1", "VALC 3,99999", "VALC 1,R9", "VALC 2,R1",
    "VALC 1,S1", "NAMC 0,9", "MPCW S1", "MPCW S9", "MPCW R1", "MPCW S2:L0X0", "BRUN L0X0",
    "BRUN NOWHERE", "L0X0: EXIT", "L0X0:EXIT", "l: EXIT", "ADDD", "L0X0:", "; nothing", "12 -3",
    "5 007", "b280", "b28", "zz", "  EXIT", " ?END", "EXIT EXIT", "\x7f", "?", "", "   ",
    "x" * 81, "NVLD",
]  # fmt: skip


def broken(deck: bytes, rng: random.Random) -> bytes:
    """A deck with some changes, of which some are refused."""
    cards = deck.decode().split("\n")
    for _ in range(rng.choice([1, 1, 2, 3])):
        at = rng.randrange(len(cards))
        match rng.randrange(7):
            case 0:
                del cards[at]
            case 1:
                cards.insert(at, cards[rng.randrange(len(cards))])
            case 2 | 3:
                cards.insert(at, rng.choice(SPARE_CARDS))
            case 4:
                cards[at] = rng.choice(SPARE_CARDS)
            case 5:
                cards[at] = with_other_letter(cards[at], rng)
            case _:
                cards[at] += rng.choice(["\r", " ", "\r\r", " 1", " ;", "\t", ",1", " \r"])
        cards = cards or [""]
    end = rng.choice(["", "\n", "\r", " "]) if rng.random() < 0.05 else ""
    return ("\n".join(cards) + end).encode()


def with_other_letter(card: str, rng: random.Random) -> str:
    """The card with one letter changed, dropped or added."""
    letters = list(card)
    at = rng.randrange(len(letters) + 1)
    new = rng.choice(list("0123456789abcdfAELRSX,:;#?- "))
    letters[at : at + rng.randrange(2)] = [new] if rng.random() < 0.8 else []
    return "".join(letters)
