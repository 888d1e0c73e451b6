"""Compares the reader of images with a built program and with the reference.

    python3 compare_reader.py PROGRAM [DECK..]

DECK is the name of a folder of decks/; without one all are taken that `run` or `image`
runs. Each is halted by `image` at some counts, in the core that its folder names and in
an ample one. What `reader.py` reads of the image must be what `dump` prints of it; and
the numbers in its arrays, out of core and the backing file, those of the reference's
session after as many operators. Says how many were compared.
"""

from __future__ import annotations

import subprocess
import sys
import tempfile
from collections import Counter
from pathlib import Path

from b67ref import programs_of
from cards import read_deck
from dump import frame_name
from machine import Machine
from reader import Image
from session import Session
from words import Original

DECKS = Path(__file__).resolve().parent.parent / "decks"
COUNTS = (1, 3, 7, 12, 20, 33, 54, 88, 143, 300)
AMPLE_CORE = 65_536
GREATEST_CORE = 1 << 24


def arrays_of(machine: Machine) -> dict[str, list[int]]:
    """All arrays of a session of the reference, by the names of their originals."""
    frames = [job.dictionary for job in machine.jobs]
    frames += [frame for task in machine.live_tasks() for frame in task.frames]
    return {
        f"{frame_name(machine, frame)} {at}": cell.array.numbers[:]
        for frame in frames
        for at, cell in enumerate(frame.cells, start=frame.first_offset)
        if isinstance(cell, Original)
    }


def states_of(text: bytes) -> dict[int, dict[str, list[int]]]:
    """The arrays of a deck's session at each count at which a task lives."""
    deck = read_deck(text)
    session = Session(deck, programs_of(deck), GREATEST_CORE, GREATEST_CORE, lambda line: None)
    states = {}
    for count in COUNTS:
        while session.lives() and session.machine.made < count:
            session.step()
        if not session.lives():
            break
        states[count] = arrays_of(session.machine)
    return states


def command_of(folder: Path) -> list[str] | None:
    """The words of a deck's folder as those of `image`, or None."""
    words = (folder / "args").read_text().split()
    return ["image", *words[1:]] if words[:1] in (["run"], ["image"]) else None


def in_core(words: list[str], core: int) -> list[str]:
    """The words with another size of core."""
    at = words.index("--core") + 1
    return [*words[:at], str(core), *words[at + 1 :]]


def differences(program: Path, words: list[str], deck: bytes, wanted: dict[str, list[int]], room: Path) -> list[str]:
    """What differs of one halted machine. A core or a file that is too small is no difference."""
    halted = subprocess.run([program, *words], input=deck, capture_output=True, cwd=room, check=False)
    if halted.returncode != 3:
        return [] if halted.returncode in (4, 5) else [f"status {halted.returncode}"]
    image = Image(halted.stdout.decode("latin-1"))
    dumped = subprocess.run([program, "dump"], input=halted.stdout, capture_output=True, check=False)
    found = []
    if image.dump().encode() != dumped.stdout:
        found.append("the dump")
    if image.arrays((room / words[words.index("--backing") + 1]).read_bytes()) != wanted:
        found.append("the arrays")
    return found


def compare_deck(program: Path, folder: Path, results: Counter[str]) -> None:
    """Compares all that is asked for on one deck."""
    words = command_of(folder)
    if words is None:
        return
    cards = (folder / "stdin").read_bytes().split(b"\n")
    deck = b"\n".join(card for card in cards if not card.startswith(b"?HALT"))
    for count, arrays in states_of(deck).items():
        for core in (words, in_core(words, AMPLE_CORE)):
            halted = f"?HALT {count}\n".encode() + deck
            with tempfile.TemporaryDirectory() as room:
                found = differences(program, core, halted, arrays, Path(room))
            results["differ" if found else "same"] += 1
            if found:
                print(f"{folder.name} at {count}, {' '.join(core)}: {', '.join(found)}")


def main() -> int:
    """Compares the decks that are named, or all."""
    if len(sys.argv) < 2 or not Path(sys.argv[1]).is_file():
        print("usage: python3 compare_reader.py PROGRAM [DECK..]", file=sys.stderr)
        return 2
    names = sys.argv[2:] or sorted(each.name for each in DECKS.iterdir() if (each / "stdin").is_file())
    for name in names:
        if not (DECKS / name / "args").is_file():
            print(f"{name}: not a folder of decks/", file=sys.stderr)
            return 2
    results: Counter[str] = Counter()
    for name in names:
        compare_deck(Path(sys.argv[1]).resolve(), DECKS / name, results)
    print(f"{results['same']} same, {results['differ']} differ")
    return int(results["differ"] > 0 or not results["same"])


if __name__ == "__main__":
    sys.exit(main())
