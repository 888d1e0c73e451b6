#!/usr/bin/env python3
"""limits.py PROGRAM: decks at a limit and one past it that are too long for the tests, or that need a file of sectors. Prints
each deck that is answered otherwise than the rules say, and how many were tried."""
import os, subprocess, sys, tempfile

OPENS = "?JOB A\n?ASM\nSEGMENT M 2\n"
LOOP = "?ASM\nSEGMENT M 2\nL: BRUN L\n?END\n"


def arrays(many):
    """So many arrays of 65,535 words, each touched as it is made, and then the first one again."""
    make = "MKST\nNAMC 0,8\nLT16 65535\nENTR\n"
    touch = "".join(f"ONE\nNAMC 2,{2 + n}\nZERO\nINDX\nSTOD\n" for n in [*range(many), 0])
    return OPENS + make * many + touch + "EXIT\n?END\n"


def words_of(deck):
    """The words of the first segment, by its operators' syllables. No literals of a word stand in these decks."""
    sizes = {"VALC": 2, "NAMC": 2, "LT8": 2, "LT16": 3, "BRUN": 3, "MPCW": None}
    cards = [card.split()[0] for card in deck.split("SEGMENT ")[1].splitlines()[1:] if card and card[0] != "?"]
    return (sum(sizes.get(card, 1) for card in cards) + 5) // 6


def full_segment(more):
    """A segment of 8,191 words whose last word ends with EXIT; an operator more, or none."""
    return OPENS + "NOOP\n" * (49_145 + more) + "EXIT\n?END\n"


def full_row(more):
    """A data row of 65,535 words, of which the last is printed, and a word more, or none."""
    row = "ROW R\n" + ("NUM" + " 0" * 15 + "\n") * 4_368 + "NUM" + " 0" * 14 + " 7\n" + "NUM 0\n" * more
    return OPENS + "MKST\nNAMC 0,9\nNAMC 1,R\nLT16 65534\nNXLV\nENTR\nEXIT\n" + row + "?END\n"


def recursion():
    """A procedure that calls itself until its stack of 16,383 words is full: three words a call."""
    return "?STACK 16383\n?JOB A\n?ASM\nSEGMENT M 2\nMPCW P\nMKST\nNAMC 2,2\nENTR\nEXIT\nSEGMENT P 3\nMKST\nNAMC 2,2\nENTR\nEXIT\n?END\n"


def entries(many):
    """A segment that begins with EXIT and has so many entries, two cards each from card 5 on."""
    return OPENS + "EXIT\n" + "".join(f"L{n}: EXIT\nENTRY L{n}\n" for n in range(many)) + "?END\n"


many = words_of(arrays(30))
# A file has 65,536 sectors, and an array of 65,535 words takes 2,185.
sum_of_30 = 30 * 2_185 + (many + 29) // 30
need_of_row = 160 + 4 + 512 + 4 + 65_537
ROWS = [
    ("29 arrays of 65,535 words fit a file", 70_000, arrays(29), 0, "1.1 ENDED\n"),
    ("30 don't", 70_000, arrays(30), 5, f"BACKING FULL {sum_of_30} 65536\n"),
    ("a segment of 8,191 words", 160 + 3 + 512 + 8_193, full_segment(0), 0, "1.1 ENDED\n"),
    ("in a word of core less", 160 + 3 + 512 + 8_192, full_segment(0), 4, "NO CORE 8868 8867\n"),
    ("an operator more", 65_536, full_segment(1), 2, "ASM 49150 REASON 7\n"),
    ("a data row of 65,535 words", need_of_row, full_row(0), 0, "1.1 7\n1.1 ENDED\n"),
    ("in a word of core less", need_of_row - 1, full_row(0), 4, f"NO CORE {need_of_row} {need_of_row - 1}\n"),
    ("a word more", 1_048_575, full_row(1), 2, "ASM 4381 REASON 7\n"),
    ("a segment of 255 entries", 4_096, entries(255), 0, "1.1 ENDED\n"),
    ("an entry more", 4_096, entries(256), 2, f"ASM {4 + 2 * 256} REASON 10\n"),
    ("a job of 100,000,000 operators", 4_096, "?JOB A\n?LIMIT 100000000\n" + LOOP, 0, "1.1 LIMIT\n"),
    ("one that halts before the last one", 4_096, "?HALT 99999999\n?JOB A\n?LIMIT 100000000\n" + LOOP, 3, "HALTED 99999999\n"),
    ("one more", 4_096, "?JOB A\n?LIMIT 100000001\n" + LOOP, 2, "DECK 2 REASON 4\n"),
    ("a stack of 16,383 words is full", 32_768, recursion(), 0, "1.1 STACK OVERFLOW\n"),
]


def main():
    if len(sys.argv) != 2 or not os.access(sys.argv[1], os.X_OK) or os.path.isdir(sys.argv[1]):
        sys.exit(print("usage: python3 bench/limits.py PROGRAM", file=sys.stderr) or 2)
    program, wrong = os.path.abspath(sys.argv[1]), 0
    with tempfile.TemporaryDirectory() as folder:
        for name, core, deck, status, lines in ROWS:
            words = [program, "run", "--core", str(core), "--backing", os.path.join(folder, "backing")]
            done = subprocess.run(words, input=deck.encode(), stdout=subprocess.PIPE)
            if (done.returncode, done.stdout.decode()) != (status, lines):
                wrong += 1
                print(f"{name}: status {done.returncode}, not {status}\n{done.stdout.decode()[-200:]}", flush=True)
    print(f"{len(ROWS)} decks, {wrong} wrong")
    sys.exit(wrong > 0)


main()
