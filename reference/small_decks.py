"""Small decks that ask whether each refusal is the first one, with its lowest reason."""

from __future__ import annotations

import random

from deck_text import SPARE_CARDS
from loader import literal_of_proc
from syllables import OPERATORS, Form
from words import Place, Proc, couple_bits

NAMES = ["A", "B", "R", "EXIT"]
LABELS = ["L", "M", "N"]
LEVELS = ["2", "2", "3", "3", "4", "31", "32", "255", "256", "02", "-1", "x"]
NUMBERS = ["0", "1", "2", "47", "48", "255", "256", "65535", "65536"]
NUMBERS += ["-1", "-0", "007", "+5", "9" * 30]
PLAIN = ["EXIT", "ZERO", "NOOP", "MKST", "ENTR", "RETN", "NVLD"]
CODES = [code for code, _ in OPERATORS.values()]


def small_deck(seed: int) -> tuple[list[str], bytes]:
    """A command and its deck, of one of several kinds."""
    rng = random.Random(f"small {seed}")
    match seed % 4:
        case 0:
            return ["asm"], text_of(assembly_cards(rng))
        case 1:
            return ["check"], text_of(codefile_cards(rng))
        case 2:
            return ["convert"], text_of(codefile_cards(rng)[2:-1])
        case _:
            return ["check"], text_of(deck_cards(rng))


def text_of(cards: list[str]) -> bytes:
    """The text of cards."""
    return "".join(card + "\n" for card in cards).encode()


# --- Assembly -----------------------------------------------------------------------


RIGHT_CARDS = [
    "SEGMENT A 2", "MPCW B:M", "L: LT8 5", "BRTR L", "MPCW B", "NAMC 1,R", "M: EXIT",
    "SEGMENT B 3", "ZERO", "L: VALC 3,2", "M: LT48 -7", "N: EXIT", "BRUN N", "ENTRY M", "ENTRY N",
    "ROW R", "NUM 1 2",
]  # fmt: skip


def assembly_cards(rng: random.Random) -> list[str]:
    """A program with some cards changed, dropped or added."""
    if rng.random() < 0.02:
        return ["SEGMENT A 2", "EXIT", *many_rows(rng)]
    if rng.random() < 0.2:
        return [assembly_card(rng) for _ in range(rng.randint(1, 14))]
    cards = list(RIGHT_CARDS)
    for _ in range(rng.randrange(4)):
        at = rng.randrange(len(cards))
        match rng.randrange(4):
            case 0:
                del cards[at]
            case 1:
                cards[at] = assembly_card(rng)
            case 2:
                other = rng.randrange(len(cards))
                cards[at], cards[other] = cards[other], cards[at]
            case _:
                cards.insert(at, assembly_card(rng))
    return cards


def many_rows(rng: random.Random) -> list[str]:
    """About as many rows as there may be."""
    count = rng.randint(252, 257)
    return [card for number in range(count) for card in (f"ROW R{number}", "NUM 0")]


def assembly_card(rng: random.Random) -> str:
    """A card of assembly, with names and numbers of which some are wrong."""
    match rng.randrange(12):
        case 0 | 1:
            card = f"SEGMENT {rng.choice(NAMES)} {rng.choice(LEVELS)}"
        case 2:
            card = f"ROW {rng.choice(NAMES)}"
        case 3:
            second = rng.choice([*NUMBERS, "#0123456789aB", "#123"])
            card = f"NUM {rng.choice(NUMBERS)} {second}"
        case 4 | 5:
            card = f"ENTRY {rng.choice(LABELS)}"
        case _:
            label = rng.choice([f"{name}: " for name in LABELS] + [""] * 4)
            card = label + operator_card(rng)
    change = rng.randrange(40)
    if change == 0:
        return card + " 1"
    if change == 1:
        return card.rsplit(" ", 1)[0]
    return card + " ; so" if change == 2 else card


def operator_card(rng: random.Random) -> str:
    """An operator with its operand."""
    number = rng.choice(NUMBERS)
    name = rng.choice(NAMES)
    label = rng.choice(LABELS)
    return rng.choice([
        *PLAIN,
        f"LT8 {number}",
        f"LT16 {number}",
        f"LT48 {number}",
        f"BSET {number}",
        f"ISOL {number},{rng.choice(NUMBERS)}",
        f"VALC {rng.randrange(5)},{rng.choice([*NUMBERS[:6], '4095', '8191', '16384'])}",
        f"NAMC 1,{name}",
        f"NAMC {rng.randrange(4)},{name}",
        f"BRUN {label}",
        f"BRTR {label}",
        f"MPCW {name}",
        f"MPCW {name}:{label}",
        f"MPCW {name}:{label}",
        "ADDD",
    ])  # fmt: skip


# --- Codefiles ----------------------------------------------------------------------


def codefile_cards(rng: random.Random) -> list[str]:
    """A job with a codefile whose code is nearly right."""
    data = codefile(rng)
    match rng.randrange(8):
        case 0:
            del data[rng.randrange(len(data)) :]
        case 1:
            data[rng.randrange(len(data))] = rng.randrange(256)
        case 2:
            data.append(rng.randrange(256))
    body = [data[at : at + 20].hex() for at in range(0, len(data), 20)]
    return ["?JOB A", "?HEX", *body, "?END"]


def codefile(rng: random.Random) -> bytearray:
    """The bytes of a codefile of some small segments."""
    version = rng.choice([1, 2])
    segments = rng.choice([0, 1, 1, 2, 2, 3])
    rows = rng.choice([0, 0, 1])
    levels = [rng.choice([2, 2, 2, 3, 3, 31, 32, 1])] if rng.random() < 0.2 else [2]
    levels += [rng.choice([2, 3, 3, 4, 31]) for _ in range(segments - 1)]
    data = bytearray(f"B67CODE{version}".encode())
    data += segments.to_bytes(2, "big") + rows.to_bytes(2, "big")
    entries = [some_entries(rng) if version == 2 else [] for _ in range(segments)]
    for number in range(segments):
        data.append(levels[number])
        if version == 2:
            data.append(len(entries[number]))
            for place in entries[number]:
                data += (place.syllable << 13 | place.word).to_bytes(2, "big")
        words = some_code(rng, levels, number, entries)
        data += len(words).to_bytes(2, "big")
        data += b"".join((3 << 48 | word).to_bytes(8, "big") for word in words)
    for _ in range(rows):
        data += (1).to_bytes(2, "big") + rng.getrandbits(48).to_bytes(8, "big")
    return data


def some_entries(rng: random.Random) -> list[Place]:
    """Entry places, mostly in order."""
    places = [Place(rng.randrange(3), rng.randrange(6)) for _ in range(rng.choice([0, 0, 1, 2]))]
    return sorted(places) if rng.random() < 0.9 else places


def some_code(
    rng: random.Random, levels: list[int], number: int, entries: list[list[Place]]
) -> list[int]:
    """The words of a segment: operators with parameters, which may not fit."""
    out = bytearray()
    for _ in range(rng.randint(1, 7)):
        out += some_operator(rng, levels, number, entries, len(out))
    out += bytes([rng.choice([0xA3, 0xA7, 0xFF, 0xFF, 0xB0])])
    out += bytes([rng.choice([0xFF, 0xFF, 0xB0])]) * (-len(out) % 6)
    return [int.from_bytes(out[at : at + 6], "big") for at in range(0, len(out), 6)]


def some_operator(
    rng: random.Random, levels: list[int], number: int, entries: list[list[Place]], at: int
) -> bytes:
    """The syllables of one operator, at a distance of `at` syllables from the start."""
    code, form = rng.choice(list(OPERATORS.values()))
    if rng.random() < 0.03:
        return bytes([rng.randrange(0x80, 256)])
    match form:
        case Form.PLAIN:
            return bytes([code])
        case Form.COUPLE:
            bits = couple_bits(rng.randrange(4), rng.randrange(20), min(levels[number], 31))
            bits = bits if bits is not None else rng.getrandbits(14)
            return bytes([code | bits >> 8, bits & 0xFF])
        case Form.BYTE:
            return bytes([code, rng.randrange(256)])
        case Form.BRANCH:
            place = rng.choice([rng.randrange(8), rng.randrange(6)]) << 13 | rng.randrange(4)
            return bytes([code]) + place.to_bytes(2, "big")
        case Form.LITERAL:
            filler = b"\xff" * (-(at + 1) % 6)
            return bytes([code]) + filler + some_literal(rng, levels, number, entries)
    return bytes([code]) + rng.getrandbits(16).to_bytes(2, "big")


def some_literal(
    rng: random.Random, levels: list[int], number: int, entries: list[list[Place]]
) -> bytes:
    """A literal word: a procedure, mostly of the next level."""
    deeper = [i for i, level in enumerate(levels) if level == levels[number] + 1]
    named = rng.choice(deeper) if deeper else rng.randrange(len(levels) + 1)
    place = rng.choice([Place(0, 0), *entries[named]]) if named < len(levels) else Place(0, 0)
    bits = literal_of_proc(Proc(named + 2, levels[number] + 1 & 31, place))
    if rng.random() < 0.15:
        bits ^= 1 << rng.randrange(48)
    return bits.to_bytes(6, "big")


# --- Decks --------------------------------------------------------------------------


def deck_cards(rng: random.Random) -> list[str]:
    """A deck of a job or two, with cards that may stand elsewhere or not at all."""
    cards = ["?STACK 100", "?QUANTUM 7", "?HALT 9", "?SWITCH 0 1.1", "?SWITCH 4 1.2"]
    cards = rng.sample(cards, rng.randrange(4))
    for _ in range(rng.choice([1, 1, 2])):
        cards += ["?JOB A", "?LIMIT 10", "?ASM", "SEGMENT A 2", "EXIT", "?DATA", "1 2 3", "?END"]
    for _ in range(rng.randrange(4)):
        at = rng.randrange(len(cards))
        if rng.random() < 0.5:
            del cards[at]
        else:
            cards.insert(at, rng.choice(SPARE_CARDS))
        cards = cards or ["?JOB A"]
    if rng.random() < 0.2:
        cards[rng.randrange(len(cards))] += rng.choice(["\r", " ", " \r", "\r\r", "\t", " x"])
    return cards
