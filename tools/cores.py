#!/usr/bin/env python3
"""usage: cores.py [--check]

Fills in the core of each row and each deck that wants an exact one. `# core least`, or `# core least-1` for one word less, stands in a
row of crates/b67_rows/data before its words; a deck has it, without the #, in a file `core` beside its `args`. What is least is found by
the second implementation in reference/, by the first number of NO CORE; and where a run must end so, both its numbers are written, as that
prints them. With --check nothing is written, and the status is 1 if a number is old.
"""
import os
import re
import sys

from rattle_source import TOP, read

sys.path.insert(0, os.path.join(TOP, "reference"))
import b67ref  # noqa: E402
from compare_rows import unescaped, many  # noqa: E402

DATA = "crates/b67_rows/data"
MARK = re.compile(r"(?:# )?core least(?:-(\d+))?$")
RUN = re.compile(r"(^run |--core )(\d+)")
STOP = re.compile(r"NO CORE \d+ \d+$", re.M)
SMALLEST, GREATEST = 256, 1_048_575


def last_line(words, text, core, sectors):
    """How a run in this core ends: its status, and its line of NO CORE."""
    words = [str(core) if before == "--core" else word for before, word in zip(["", *words], words)]
    outcome = b67ref.outcome_of(words, text, b67ref.Backing(sectors))
    stop = STOP.findall(outcome.text())
    return outcome.status, stop[-1] if stop else None


def least_core(words, text, sectors):
    """The least core in which a run doesn't end for want of core."""
    core = SMALLEST
    while core <= GREATEST:
        status, stop = last_line(words, text, core, sectors)
        if status != 4:
            return core
        core = int(stop.split()[2])
    sys.exit(f"no core is large enough for {words}")


def filled(words, text, sectors, mark):
    """The core that a mark wants, and the line of NO CORE there."""
    core = least_core(words, text, sectors) - int(mark.group(1) or 0)
    return str(core), last_line(words, text, core, sectors)[1]


def with_core(lines, core, stop):
    """Lines of a row, or of a deck's words, with this core and this end."""
    lines = [RUN.sub(lambda it: it.group(1) + core, line) if not line.startswith(("<", ">")) else line for line in lines]
    return [STOP.sub(stop, line) if stop and line.startswith("> NO CORE ") else line for line in lines]


def row_filled(lines, texts):
    """A row's lines, filled in where it has a mark; what a text says is kept for later rows."""
    marks = [mark for mark in map(MARK.match, lines) if mark]
    text, sectors, words = "", 4096, []
    for line in lines:
        word, _, rest = line.partition(" ")
        if word == "<":
            text += unescaped(rest) + "\n"
        elif word == "<-":
            text += unescaped(rest)
        elif word == "<*":
            text += many(rest)
        elif word == "<<":
            text += texts[rest]
        elif word == "run":
            words = f"run --core {rest} --backing b".split()
        elif word == "args":
            words = rest.split()
        elif word in ("sectors", "memory"):
            sectors = int(rest)
        elif word in ("file", "served"):
            sectors = 65_536
    if lines[0].startswith("text "):
        texts[lines[0][5:]] = text
    return with_core(lines, *filled(words, text.encode(), sectors, marks[0])) if marks else lines


def rows_filled(text):
    """A file of rows, and how many of them want an exact core."""
    parts = re.split(r"(?m)^(?=(?:row|wrong|words|wrong-words|text|deck|wrong-deck) )", text)
    texts, out = {}, [parts[0]]
    for part in parts[1:]:
        out.append("\n".join(row_filled(part.split("\n"), texts)))
    return "".join(out), sum(bool(MARK.match(line)) for line in text.split("\n"))


def decks():
    """The decks that want an exact core: the file of a deck's words, and these words as they must be."""
    for name in sorted(os.listdir(os.path.join(TOP, DATA, "decks"))):
        folder = f"{DATA}/decks/{name}"
        if os.path.exists(os.path.join(TOP, folder, "core")):
            words = read(f"{folder}/args").split()
            core, _ = filled(words, read(f"{folder}/stdin").encode(), 65_536, MARK.match(read(f"{folder}/core").strip()))
            yield f"{folder}/args", re.sub(r"(--core\n)\d+", lambda it: it.group(1) + core, read(f"{folder}/args"))


def main(arguments):
    if arguments not in ([], ["--check"]):
        print(__doc__.split("\n")[0], file=sys.stderr)
        return 2
    made, wanted = dict(decks()), 0
    wanted = len(made)
    for name in sorted(os.listdir(os.path.join(TOP, DATA))):
        if name.endswith(".rows"):
            made[f"{DATA}/{name}"], exact = rows_filled(read(f"{DATA}/{name}"))
            wanted += exact
    old = [path for path, text in made.items() if text != read(path)]
    for path in old:
        print(f"{path}: {'old: python3 tools/cores.py fills it in again' if arguments else 'changed'}")
        if not arguments:
            with open(os.path.join(TOP, path), "w", encoding="utf-8") as file:
                file.write(made[path])
    print(f"{wanted} rows and decks want an exact core")
    return 1 if old and arguments else 0


if __name__ == "__main__":
    sys.exit(main(sys.argv[1:]))
