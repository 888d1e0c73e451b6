"""Worked examples: decks, and what the machine must print for them.

    python3 rows.py

runs them all and tells how many passed. Cards of assembly stand on one line,
separated by `/`.
"""

from __future__ import annotations

import sys
from dataclasses import dataclass

from b67ref import USAGE, Backing, Outcome, outcome_of
from words import couple_bits

RUN = "run --core 4096 --backing b"
EXERCISED = ["1.1 695", "1.1 ENDED", "EXERCISE 1 1 45"]
SUM = "?JOB SUM\n?HEX\n423637434f44453100010000020002\n0003ae4009b202b200030380aba3ffff\n?END\n"
BAD = (
    "?JOB BAD\n?HEX\n423637434f44453100010000020003\n"
    "0003beffffffffff00030000000000010003a20001ffffff\n?END\n"
)


@dataclass(frozen=True)
class Example:
    """A command with its deck, the lines that it prints and its status."""

    name: str
    deck: str
    lines: list[str]
    status: int = 0
    words: str = RUN
    sectors: int = 4096


def cards(text: str) -> str:
    """The cards of a text in which `/` separates them."""
    return "".join(card.strip() + "\n" for card in text.split("/"))


def segments(outer: str, **others: str) -> str:
    """Assembly of an outer segment, and of others by name; their first word is the level."""
    parts = ["SEGMENT MAIN 2 / " + outer]
    for name, text in others.items():
        level, code = text.split(" ", 1)
        parts.append(f"SEGMENT {name} {level} / {code}")
    return cards(" / ".join(parts))


def job(program: str, *, run: str = "", limit: str = "", data: str = "", name: str = "A") -> str:
    """A deck of one job. `run` and `limit` are cards before and in it."""
    deck = cards(run) if run else ""
    deck += f"?JOB {name}\n" + (f"?LIMIT {limit}\n" if limit else "")
    deck += "?ASM\n" + program
    return deck + (f"?DATA\n{data}\n" if data else "") + "?END\n"


def hex_job(*words: str, level: str = "02") -> str:
    """A deck of one job whose one segment has these words, without their tags."""
    body = "".join("0003" + word for word in words)
    return hex_cards(f"423637434f44453100010000{level}{len(words):04x}{body}")


def hex_cards(digits: str) -> str:
    """A deck of one job whose codefile has these bytes."""
    body = [digits[at : at + 64] for at in range(0, len(digits), 64)]
    return "\n".join(["?JOB A", "?HEX", *body, "?END"]) + "\n"


def call(number: int, arguments: str = "") -> str:
    """The call of an intrinsic."""
    middle = f" / {arguments}" if arguments else ""
    return f"MKST / NAMC 0,{number}{middle} / ENTR"


def repeated(text: str, times: int) -> str:
    """The same cards several times."""
    return " / ".join([text] * times)


def lines(text: str, label: str = "1.1") -> list[str]:
    """Lines of one task, separated by commas."""
    return [f"{label} {line.strip()}" for line in text.split(",")]


def halted(deck: str, count: int) -> str:
    """The deck with a HALT count."""
    return f"?HALT {count}\n{deck}"


def printing(
    name: str,
    printed: str | list[str],
    outer: str,
    *,
    run: str = "",
    limit: str = "",
    data: str = "",
    **others: str,
) -> Example:
    """A program of an outer segment and of others, and what it prints.

    Lines of task 1.1 are given as one text, separated by commas.
    """
    deck = job(segments(outer, **others), run=run, limit=limit, data=data)
    return Example(name, deck, lines(printed) if isinstance(printed, str) else printed)


def refused(name: str, deck: str, line: str, words: str = RUN) -> Example:
    """A deck that is refused."""
    return Example(name, deck, [line], 2, words)


def in_core(
    name: str, deck: str, core: int, printed: list[str], status: int = 0, sectors: int = 4096
) -> Example:
    """A deck in a core of this size."""
    return Example(name, deck, printed, status, f"run --core {core} --backing b", sectors)


JENSEN = segments(
    "ZERO / MPCW SUM / MPCW SQ / MPCW IREF / MKST / NAMC 0,9 / MKST / NAMC 2,3 / NAMC 2,5 / STFF"
    " / NAMC 2,4 / STFF / ENTR / ENTR / EXIT",
    SUM="3 ZERO / ONE / NAMC 3,2 / STOD / L: VALC 3,2 / LT8 10 / GRTR / BRTR D / VALC 3,4"
    " / VALC 3,3 / ADD / NAMC 3,4 / STOD / VALC 3,2 / ONE / ADD / NAMC 3,2 / STOD / BRUN L"
    " / D: VALC 3,4 / RETN",
    SQ="3 VALC 2,2 / VALC 2,2 / MULT / RETN",
    IREF="3 NAMC 2,2 / STFF / RETN",
)

MANBOY = segments(
    "MPCW A / MKST / NAMC 0,9 / MKST / NAMC 2,2 / LT8 8 / ONE / ONE / CHSN / ONE / CHSN / ONE"
    " / ZERO / ENTR / ENTR / EXIT",
    A="3 MPCW B / VALC 3,2 / ZERO / GRTR / BRTR C / VALC 3,6 / VALC 3,7 / ADD / RETN"
    " / C: MKST / NAMC 3,8 / ENTR / RETN",
    B="4 VALC 3,2 / ONE / SUBT / NAMC 3,2 / STOD / MKST / NAMC 2,2 / VALC 3,2 / NAMC 3,8 / STFF"
    " / NAMC 3,3 / STFF / NAMC 3,4 / STFF / NAMC 3,5 / STFF / NAMC 3,6 / STFF / ENTR / RETN",
)


def eight() -> str:
    """Two tasks that share eight arrays."""
    numbers = range(8)
    outer = ["MPCW CH"]
    outer += [call(8, "LT8 200") for _ in numbers]
    outer += [f"NAMC 2,{3 + j} / LT8 {j} / INDX" for j in numbers]
    outer += [f"LT8 {11 + j} / NAMC 2,{11 + j} / STOD" for j in numbers]
    outer += [call(12, "NAMC 2,2"), call(13, "VALC 2,19"), "MKST / NAMC 0,9 / VALC 2,11"]
    outer += [f"VALC 2,{11 + j} / ADD" for j in numbers[1:]]
    child = [f"NAMC 2,{3 + j} / LT8 {j} / INDX" for j in numbers]
    child += [f"VALC 3,{2 + j} / LT8 100 / ADD / NAMC 3,{2 + j} / STOD" for j in numbers]
    return segments(" / ".join([*outer, "ENTR / EXIT"]), CH="3 " + " / ".join([*child, "EXIT"]))


def leave() -> str:
    """A procedure whose array lives during the call, called three times."""
    calls = "MKST / NAMC 2,2 / ENTR"
    printed = call(9, "NAMC 2,3 / ZERO / NXLV")
    return segments(
        f"MPCW P / {call(8, 'LT8 200')} / {repeated(calls, 3)} / {printed} / EXIT",
        P=f"3 {call(8, 'LT8 200')} / ONE / NAMC 3,2 / ZERO / INDX / STOD"
        " / NAMC 2,3 / ZERO / NXLV / NAMC 3,2 / ZERO / NXLV / ADD"
        " / NAMC 2,3 / ZERO / INDX / STOD / EXIT",
    )


TWO = segments(
    f"{repeated(call(8, 'LT8 200'), 2)} / NAMC 2,2 / LT8 5 / INDX / NAMC 2,3 / LT8 6 / INDX"
    " / LT8 11 / NAMC 2,4 / STOD / LT8 12 / NAMC 2,5 / STOD"
    " / MKST / NAMC 0,9 / VALC 2,4 / VALC 2,5 / ADD / ENTR / EXIT"
)

INCREMENT = segments(
    f"ZERO / MPCW INC / {call(12, 'NAMC 2,3')} / VALC 2,2 / ONE / ADD / NAMC 2,2 / STOD"
    f" / {call(13, 'VALC 2,4')} / {call(9, 'VALC 2,2')} / EXIT",
    INC="3 VALC 2,2 / ONE / ADD / NAMC 2,2 / STOD / EXIT",
)

POPPED = segments(
    f"MPCW C / MPCW P / {call(12, 'NAMC 2,2')} / ZERO / ZERO / ZERO / DLET / DLET / DLET"
    f" / MKST / NAMC 2,3 / ENTR / {call(13, 'VALC 2,4')} / EXIT",
    C=f"3 {call(15, 'NAMC 2,7')} / EXIT",
    P=f"3 ZERO / {call(16, 'NAMC 3,2')} / EXIT",
)

SPIN = "3 L: BRUN L"
GROWING = job(segments(f"{call(8, 'LT8 30')} / {call(18, 'NAMC 2,2 / LOAD / LT8 60')} / EXIT"))
RESIZED = f"{call(8, 'LT8 10')} / NAMC 2,2 / LT8 9 / INDX / LT8 7 / NAMC 2,3 / STOD"
SIXTY_NOOPS = "3 " + repeated("NOOP", 60) + " / EXIT"
TEN_WORDS = ["ae4008b264ab", "ae40095002b2", "63adaba3ffff", *["f" * 12] * 7]


def chain(links: int) -> str:
    """A chain of that many links, the VALC's couple included."""
    names = " / ".join(f"NAMC 2,{n}" for n in range(2, links + 1))
    return segments(f"ZERO / {names} / {call(9, f'VALC 2,{links + 1}')} / EXIT")


def levels() -> str:
    """Thirty levels, each of which enters the next."""
    others = {
        f"S{level}": f"{level} MPCW S{level + 1} / MKST / NAMC {level},2 / ENTR / EXIT"
        for level in range(3, 31)
    }
    others["S31"] = f"31 {call(9, 'LT8 31')} / EXIT"
    return segments("MPCW S3 / MKST / NAMC 2,2 / ENTR / EXIT", **others)


def fifteen_tasks() -> str:
    """A parent that starts as many tasks as may live."""
    return segments(
        f"MPCW C / {repeated(call(12, 'NAMC 2,2'), 15)} / {call(9, 'VALC 2,17')} / EXIT", C=SPIN
    )


ENTRY_CARDS = cards(
    "SEGMENT MAIN 2 / MPCW P:B / MKST / NAMC 2,2 / ENTR / EXIT / SEGMENT P 3 / EXIT"
    " / B: MKST / NAMC 0,9 / ONE / ENTR / EXIT / ENTRY B"
)
ENTRY_BYTES = (
    "423637434f44453200020000020000030003bfffffffffff000300020000c0030003ae5002aba3ff"
    "03012000000200"
    "03a3ae4009b1ab0003a3ffffffffff"
)


EIGHT = job(eight(), run="?STACK 256")
EIGHT_LINES = ["1.2 ENDED", "1.1 916", "1.1 ENDED"]
LEAVE = job(leave(), run="?STACK 256")
TWO_DECK = job(TWO, run="?STACK 256")
SUM_CARDS = cards("SEGMENT MAIN 2 / MKST / NAMC 0,9 / LT8 2 / LT8 3 / ADD / ENTR / EXIT")
SUM_HEX = "423637434f444531000100000200020003ae4009b202b200030380aba3ffff"
CONVERTED = "423637434f44453200010000020000020003ae4009b202b200030380aba3ffff"
SHAPE = ["ae4009b202a2", "{target}aba3ffff"]


def branch_examples() -> list[Example]:
    """A branch to each of the twelve places of a segment."""
    starts = ["0:0", "0:1", "0:3", "0:5", "1:2", "1:3", "1:4", "1:5"]
    examples = []
    for word in range(2):
        for syllable in range(6):
            deck = hex_job(SHAPE[0], SHAPE[1].format(target=f"{syllable << 13 | word:04x}"))
            good = f"{word}:{syllable}" in starts
            printed = "A ADMITTED 1 0" if good else "LOAD 1 REASON 3 SEGMENT 1 AT 0:5"
            name = f"a branch to {word}:{syllable}"
            examples.append(Example(name, deck, [printed], 0 if good else 2, "check"))
    return examples


def short_examples() -> list[Example]:
    """The first bytes of a codefile."""
    examples = []
    for length in range(31):
        body = SUM_HEX[: 2 * length]
        deck = f"?JOB A\n?HEX\n{body}\n?END\n"
        printed = f"CODEFILE 2 REASON 1 BYTE {length}"
        examples.append(Example(f"the first {length} bytes", deck, [printed], 2))
    return examples


NUMBERS = [
    Example("a sum", SUM, lines("5, ENDED")),
    Example("a deck of no bytes", "", []),
    printing(
        "the greatest number",
        "549755813887, 0, INTEGER OVERFLOW",
        f"{call(9, 'LT48 549755813887')} / {call(9, 'ZERO / CHSN')}"
        " / LT48 549755813887 / ONE / ADD / EXIT",
    ),
    printing("an exponent", "EXPONENT", "ZERO / LNOT / ONE / ADD / EXIT"),
    Example("underflow", hex_job("b080ffffffff"), lines("STACK UNDERFLOW")),
    Example("a mark that is pending", hex_job("aea3ffffffff"), lines("MARK PENDING")),
    printing(
        "division and fields",
        "-3, -1, 10, DIVIDE BY ZERO",
        f"{call(9, 'LT8 7 / CHSN / LT8 2 / IDIV')} / {call(9, 'LT8 7 / CHSN / LT8 2 / RDIV')}"
        f" / {call(9, 'LT8 165 / ISOL 7,4')} / ONE / ZERO / IDIV / EXIT",
    ),
    printing(
        "numbers that are read",
        "5, 1, ENDED",
        f"MKST / NAMC 0,9 / {call(11)} / {call(11)} / ADD / ENTR / MKST / NAMC 0,9"
        f" / {call(11)} / LT48 #800000000000 / SAME / ENTR / EXIT",
        data="7 -2",
    ),
    printing("the limit", "LIMIT", "L: BRUN L", limit="5"),
]

REFERENCES = [
    Example("parameters by name", job(JENSEN), lines("385, ENDED")),
    in_core("man or boy", job(MANBOY, run="?STACK 16383"), 32_768, lines("-10, ENDED")),
    printing(
        "an index that is too great",
        "0, INVALID INDEX",
        f"{call(8, 'LT8 100')} / {call(9, 'NAMC 2,2 / LT8 99 / NXLV')}"
        " / NAMC 2,2 / LT8 100 / NXLV / EXIT",
    ),
    printing(
        "references that are returned",
        "7, UPLEVEL",
        "LT8 7 / MPCW P / MPCW Q / MKST / NAMC 0,9 / MKST / NAMC 2,4 / ENTR / LOAD / ENTR"
        " / MKST / NAMC 2,3 / ENTR / EXIT",
        P="3 ONE / NAMC 3,2 / STFF / RETN",
        Q="3 NAMC 2,2 / STFF / RETN",
    ),
    printing("a couple that names a mark", "INVALID ADDRESS", "ZERO / MKST / VALC 2,3 / EXIT"),
    printing(
        "a number that a procedure returns",
        "1, ENDED",
        "MPCW P / MKST / NAMC 0,9 / MKST / NAMC 2,2 / LT8 4 / ENTR / ENTR / EXIT",
        P="3 ONE / RETN",
    ),
    printing("a call of itself", "LOOP", "NAMC 2,2 / MKST / NAMC 2,2 / ENTR / EXIT"),
    printing(
        "a reference to the record that is left",
        "UPLEVEL",
        "MPCW Q / MKST / NAMC 2,2 / ENTR / EXIT",
        Q="3 ONE / NAMC 3,2 / STFF / RETN",
    ),
    printing(
        "a procedure at the wrong level",
        "INVALID OPERAND",
        "MPCW P / MKST / NAMC 2,2 / MPCW P / ENTR / EXIT",
        P="3 MKST / NAMC 3,2 / ENTR / EXIT",
    ),
    printing("a couple of itself", "LOOP", "NAMC 2,2 / VALC 2,2 / EXIT"),
    printing(
        "a row of twelve",
        "0 0 0 0 0 0 0 0 0 0, 5 0, ENDED",
        f"{call(8, 'LT8 12')} / LT8 5 / NAMC 2,2 / LT8 10 / INDX / STOD"
        f" / {call(10, 'NAMC 2,2 / LOAD')} / EXIT",
    ),
    printing("a value on the upper side", "ENDED", "NAMC 2,3 / LT8 5 / STOD / EXIT"),
    printing("a chain before the exchange", "LOOP", "NAMC 2,2 / LT8 5 / STOD / EXIT"),
    printing("an index on the upper side", "INVALID OPERAND", "NAMC 2,3 / LT8 5 / NXLV / EXIT"),
    printing("an index and a chain", "LOOP", "NAMC 2,2 / LT8 5 / INDX / EXIT"),
]

TASKS = [
    Example("two tasks and one cell", job(INCREMENT), ["1.2 ENDED", "1.1 2", "1.1 ENDED"]),
    Example(
        "the same with a switch between reading and storing",
        job(INCREMENT, run="?SWITCH 7 1.2"),
        ["1.2 ENDED", "1.1 1", "1.1 ENDED"],
    ),
    printing(
        "a critical block is left",
        ["1.2 PARENT", "1.1 CRITICAL BLOCK"],
        f"MPCW C / {call(12, 'NAMC 2,2')} / EXIT",
        C=SPIN,
    ),
    printing(
        "a critical mark",
        ["1.2 PARENT", "1.1 CRITICAL BLOCK"],
        f"MPCW C / MKST / NAMC 0,9 / {call(12, 'NAMC 2,2')} / ENTR / EXIT",
        C=SPIN,
    ),
    printing("nobody is ready", "DEADLOCK", f"ZERO / {call(15, 'NAMC 2,2')} / EXIT"),
    Example(
        "two jobs",
        SUM + job(segments("ZERO / LNOT / ONE / ADD / EXIT")),
        ["1.1 5", "1.1 ENDED", "2.1 EXPONENT"],
    ),
    printing("a task that never was", "0, ENDED", f"{call(9, call(14, 'LT8 9'))} / EXIT"),
    printing(
        "an event",
        ["1.2 ENDED", "1.1 1", "1.1 ENDED"],
        f"ZERO / MPCW C / {call(12, 'NAMC 2,3')} / {call(15, 'NAMC 2,2')}"
        f" / {call(9, 'VALC 2,2')} / EXIT",
        C=f"3 {call(16, 'NAMC 2,2')} / EXIT",
    ),
    Example(
        "an event at a cell that was popped",
        job(POPPED, run="?SWITCH 9 1.2"),
        ["1.2 DEADLOCK", "1.1 DEADLOCK"],
    ),
]

TEN_WORDS_DECK = "?STACK 256\n" + hex_job(*TEN_WORDS)

CORE = [
    in_core("a tight core", TEN_WORDS_DECK, 533, lines("0, ENDED")),
    in_core("one word too few", TEN_WORDS_DECK, 532, ["NO CORE 533 532"], 4),
    in_core("eight arrays in a tight core", EIGHT, 910, EIGHT_LINES),
    in_core("eight arrays in a large core", EIGHT, 65_536, EIGHT_LINES),
    in_core("eight arrays, one word too few", EIGHT, 909, ["1.2 ENDED", "NO CORE 910 909"], 4),
    in_core("arrays that live in turn", LEAVE, 631, lines("3, ENDED"), sectors=16),
    in_core("the same, one sector too few", LEAVE, 631, ["BACKING FULL 16 15"], 5, 15),
    in_core("eight arrays, one sector too few", EIGHT, 910, ["BACKING FULL 58 57"], 5, 57),
    in_core("eight arrays, sectors enough", EIGHT, 910, EIGHT_LINES, sectors=58),
    in_core("a halt", halted(EIGHT, 100), 910, ["HALTED 100"], 3),
    in_core(
        "a halt before the last operator",
        halted(EIGHT, 173),
        910,
        ["1.2 ENDED", "1.1 916", "HALTED 173"],
        3,
    ),
    in_core("a halt at the last operator", halted(EIGHT, 174), 910, EIGHT_LINES),
    in_core("two arrays in a tight core", TWO_DECK, 630, lines("23, ENDED")),
    in_core("two arrays, one word too few", TWO_DECK, 629, ["NO CORE 630 629"], 4),
    in_core("two arrays, sectors enough", TWO_DECK, 630, lines("23, ENDED"), sectors=15),
    in_core("two arrays, one sector too few", TWO_DECK, 630, ["BACKING FULL 15 14"], 5, 14),
    in_core(
        "code in turn in the smallest core",
        job(
            segments(
                "MPCW P / MPCW Q / MKST / NAMC 2,2 / ENTR / MKST / NAMC 2,3 / ENTR / EXIT",
                P=SIXTY_NOOPS,
                Q=SIXTY_NOOPS,
            ),
            run="?STACK 64",
        ),
        256,
        lines("ENDED"),
    ),
]

LIMITS = [
    Example("1,024 links", job(chain(1024), run="?STACK 2048"), lines("0, ENDED")),
    Example("1,025 links", job(chain(1025), run="?STACK 2048"), lines("LOOP")),
    Example("thirty levels", job(levels()), lines("31, ENDED")),
    printing("a full stack", "STACK OVERFLOW", "L: ZERO / BRUN L", run="?STACK 64", limit="123"),
    printing("a nearly full stack", "LIMIT", "L: ZERO / BRUN L", run="?STACK 64", limit="122"),
    Example(
        "fifteen tasks",
        job(fifteen_tasks(), run="?STACK 64"),
        ["1.1 0", *[f"1.{n} PARENT" for n in range(2, 16)], "1.1 CRITICAL BLOCK"],
    ),
]

LENGTHS = [
    printing(
        "an element past the new length",
        "INVALID INDEX",
        f"{RESIZED} / {call(18, 'NAMC 2,2 / LOAD / LT8 9')} / VALC 2,3 / EXIT",
    ),
    printing(
        "a longer array",
        "7, ENDED",
        f"{RESIZED} / {call(18, 'NAMC 2,2 / LOAD / LT8 12')}"
        f" / {call(9, 'VALC 2,3 / NAMC 2,2 / LT8 11 / NXLV / ADD')} / EXIT",
    ),
    printing(
        "an array that is given back",
        "0, ENDED",
        f"{RESIZED} / {call(17, 'NAMC 2,2 / LOAD')} / {call(9, 'VALC 2,3')} / EXIT",
    ),
    in_core("an array that grows, sectors enough", GROWING, 4096, lines("ENDED"), sectors=3),
    in_core("the same, one sector too few", GROWING, 4096, ["BACKING FULL 3 2"], 5, 2),
]

REFUSALS = [
    Example("a core that is too small", SUM, [USAGE], 1, "run --core 255 --backing b"),
    refused("a branch into a literal", BAD, "LOAD 1 REASON 3 SEGMENT 1 AT 2:0"),
    refused("a name in lower case", "?JOB a\n", "DECK 1 REASON 4"),
    refused("a deck that ends inside a job", "?JOB A\n", "DECK 1 REASON 13"),
    refused("a deck that is too long", " " * 4_194_305, "DECK 1 REASON 14"),
    refused("a short codefile", SUM.replace("a3ffff\n", "a3ff\n"), "CODEFILE 2 REASON 1 BYTE 30"),
    refused(
        "too many switches",
        "".join(f"?SWITCH {n} 1.1\n" for n in range(100_001)),
        "DECK 100001 REASON 8",
    ),
    refused("nine jobs", SUM * 9, "DECK 41 REASON 9"),
    refused("check of a bad branch", BAD, "LOAD 1 REASON 3 SEGMENT 1 AT 2:0", "check"),
    refused("check of two jobs", SUM + BAD, "LOAD 6 REASON 3 SEGMENT 1 AT 2:0", "check"),
    refused(
        "asm of an unknown operator", SUM_CARDS.replace("ADD\n", "ADDD\n"), "ASM 6 REASON 1", "asm"
    ),
    refused(
        "an entry that moved",
        hex_cards(ENTRY_BYTES.replace("03012000", "03014000")),
        "LOAD 1 REASON 8 SEGMENT 1 AT 0:0",
    ),
]


def assembly(name: str, text: str, line: str) -> Example:
    """Assembly cards that are refused."""
    return refused(name, cards(text), line, "asm")


ASSEMBLY = [
    assembly(
        "a label that a refused card doesn't define",
        "SEGMENT A 2 / BRUN L / L: ADDD",
        "ASM 2 REASON 5",
    ),
    assembly(
        "a label that a refused card defines",
        "SEGMENT A 2 / BRUN L / L: LT8 300",
        "ASM 3 REASON 3",
    ),
    assembly("a segment with a refused card", "SEGMENT A 2 / ADDD", "ASM 2 REASON 1"),
    assembly("a segment without a card", "SEGMENT A 2 / NUM 5", "ASM 1 REASON 7"),
    assembly("a row without a card", "ROW R / EXIT", "ASM 1 REASON 7"),
    assembly("a row's name again", "ROW X / NUM 1 / SEGMENT X 2 / EXIT", "ASM 3 REASON 4"),
    assembly(
        "a row's name in an MPCW",
        "ROW X / NUM 1 / SEGMENT Y 2 / MPCW X / SEGMENT X 2 / EXIT",
        "ASM 4 REASON 5",
    ),
    assembly("an entry at the start", "SEGMENT A 2 / ENTRY M / M: EXIT", "ASM 2 REASON 10"),
    assembly(
        "an entry behind a refused card",
        "SEGMENT A 2 / ENTRY M / ADDD / M: EXIT",
        "ASM 2 REASON 10",
    ),
    assembly(
        "a label that is no entry",
        "SEGMENT A 2 / MPCW P:B / EXIT / SEGMENT P 3 / EXIT / B: EXIT",
        "ASM 2 REASON 11",
    ),
    assembly("a row at another level", "SEGMENT A 2 / VALC 2,R / ROW R / NUM 1", "ASM 2 REASON 2"),
    assembly("a label alone", "SEGMENT A 2 / L:", "ASM 2 REASON 1"),
    assembly("a label without a space", "SEGMENT A 2 / L:ADD", "ASM 2 REASON 1"),
    assembly("minus zero", "SEGMENT A 2 / LT48 -0", "ASM 2 REASON 2"),
    assembly("a couple without a place", "SEGMENT A 2 / NAMC 4,1", "ASM 2 REASON 8"),
    assembly("a number that is too great", "SEGMENT A 2 / BSET 48", "ASM 2 REASON 3"),
    refused("an end with a space in front", "?JOB A\n?ASM\n ?END\n", "DECK 3 REASON 13"),
    refused("a program that isn't there", "?JOB A\n?END\n", "DECK 2 REASON 10"),
    refused("an empty program", "?JOB A\n?ASM\n?END\n", "LOAD 1 REASON 10 SEGMENT 0 AT 0:0"),
    refused("no bytes", "?JOB A\n?HEX\n?END\n", "CODEFILE 2 REASON 1 BYTE 0"),
]

COMMANDS = [
    Example("exercise", "", EXERCISED, words="exercise 1 1 --core 2048"),
    Example("asm", SUM_CARDS, [SUM_HEX], words="asm"),
    Example("check", SUM, ["SUM ADMITTED 1 0"], words="check"),
    Example("convert", f"{SUM_HEX[:30]}\n{SUM_HEX[30:]}\n", [CONVERTED], words="convert"),
    Example("an entry", job(ENTRY_CARDS), lines("1, ENDED")),
    Example("an entry's bytes", ENTRY_CARDS, [ENTRY_BYTES[:64], ENTRY_BYTES[64:]], words="asm"),
]


def agrees(example: Example, outcome: Outcome) -> bool:
    """Whether the outcome is the one wanted, or may stop so with a full backing."""
    if example.status == 5:
        stops = [
            [*outcome.lines[: stop.lines], f"BACKING FULL {stop.sum} {example.sectors}"]
            for stop in outcome.possible_stops
        ]
        return example.lines in stops
    return (outcome.status, outcome.lines) == (example.status, example.lines)


def main() -> int:
    """Runs all examples."""
    examples = NUMBERS + REFERENCES + TASKS + CORE + LIMITS + LENGTHS + REFUSALS
    examples += ASSEMBLY + COMMANDS + branch_examples() + short_examples()
    failed = int(couple_bits(2, 5, 2) != 0x1005)
    for example in examples:
        outcome = outcome_of(
            example.words.split(), example.deck.encode(), Backing(example.sectors)
        )
        if not agrees(example, outcome):
            failed += 1
            print(f"FAILED: {example.name}: status {outcome.status}, {outcome.lines[:20]}")
    print(f"{len(examples) + 1 - failed} passed, {failed} failed")
    return int(failed > 0)


if __name__ == "__main__":
    sys.exit(main())
