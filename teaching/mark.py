#!/usr/bin/env python3
"""usage: mark.py EXERCISE SECRET DECK..

Marks the decks of a class for an exercise of pupils/numbers.py. The name of a file without its end is the pupil's seed, as 4711 of
4711.deck. Each deck is run with the pupil's own numbers, and with hidden ones, which are drawn from the pupil's seed and SECRET, a word
that pupils don't know; each of these in turns of four lengths, in its least core and in the greatest (`b67.mjs mark`, which wants node).
Prints a table with commas: the file, 1 or 0 for its own numbers, 1 or 0 for the hidden ones, and the first that is wrong. A folder
stands for the decks in it. Status 0: all are right; 1: one isn't; 2: the words are wrong.
"""
import csv
import importlib.util
import subprocess
import sys
import tempfile
from pathlib import Path

HERE = Path(__file__).resolve().parent
PLACES = [HERE.parent / "web" / "b67.mjs", HERE.parent / "b67.mjs"]


class Careless(Exception):
    """What is wrong with the words of a call."""


def numbers():
    """The module with the exercises."""
    spec = importlib.util.spec_from_file_location("numbers_of_pupils", HERE / "pupils" / "numbers.py")
    module = importlib.util.module_from_spec(spec)
    spec.loader.exec_module(module)
    return module


def files_of(names):
    """The decks that are named, and those of folders."""
    found = []
    for name in map(Path, names):
        if not name.exists():
            raise Careless(f"{name}: not there")
        found += sorted(name.glob("*.deck")) if name.is_dir() else [name]
    if not found:
        raise Careless("no deck is named, and none is in the folders")
    return found


def marked(deck, exercise, seed, module, room):
    """1 or 0, and what is wrong first, for the numbers of a seed."""
    data, wanted = Path(room) / "data", Path(room) / "lines"
    data.write_text("\n".join(module.told([exercise, seed, "--data"])) + "\n")
    wanted.write_text("\n".join(module.told([exercise, seed, "--lines"])) + "\n")
    place = next((it for it in PLACES if it.is_file()), None)
    if not place:
        raise Careless("b67.mjs isn't there")
    words = ["node", str(place), "mark", str(deck.resolve()), str(wanted), "--data", str(data), "--csv"]
    try:
        done = subprocess.run(words, capture_output=True, text=True, check=False)
    except FileNotFoundError:
        raise Careless("node isn't there: marks are made by b67.mjs, which needs it") from None
    rows = list(csv.reader(done.stdout.splitlines()))
    if len(rows) != 2:
        raise Careless(f"{deck}: {done.stderr.strip() or 'b67.mjs says nothing of it'}")
    return int(rows[1][1]), rows[1][4]


def mark(words):
    """Prints the table; gives whether all are right."""
    if len(words) < 3:
        raise Careless("an exercise, a secret word and decks are wanted")
    exercise, secret, *names = words
    module = numbers()
    if exercise not in module.EXERCISES or exercise in ("turns", "races", "codefile"):
        raise Careless(f"{exercise}: no exercise whose decks are marked")
    table, right = csv.writer(sys.stdout, lineterminator="\n"), True
    table.writerow(["deck", "own numbers", "hidden numbers", "first that is wrong"])
    with tempfile.TemporaryDirectory() as room:
        for deck in files_of(names):
            own, first = marked(deck, exercise, deck.stem, module, room)
            hidden, second = marked(deck, exercise, f"{deck.stem}/{secret}", module, room)
            table.writerow([deck, own, hidden, first or second])
            sys.stdout.flush()
            right = right and own == hidden == 1
    return right


def main(words):
    """Status 0, 1 or 2."""
    try:
        return 0 if mark(words) else 1
    except Careless as problem:
        print(f"mark.py: {problem}\n{__doc__.splitlines()[0]}", file=sys.stderr)
    except OSError as problem:
        print(f"mark.py: {problem}", file=sys.stderr)
        sys.stdout = None
    return 2


if __name__ == "__main__":
    sys.exit(main(sys.argv[1:]))
