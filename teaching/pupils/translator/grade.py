#!/usr/bin/env python3
"""usage: grade.py [--stage N] [--programs FOLDER] [--csv] COMMAND..

Grades a translator from ALGOL 60 to cards. COMMAND runs it, as in `grade.py python3 my.py`; it reads a program from standard input and
prints a deck. The tests are the files of programs/, of the stages 1 to N with --stage N: NAME.alg is a program, and NAME.lines what its
deck must print, in the greatest core and in the least. With --programs those of another folder are taken, as of algol/programs; whatever
has no number before its name is of no stage then. Decks are run by the program b67, or by that which the variable B67 names. Prints the
first difference of each test that fails, and how many passed of each stage; with --csv a line for each test. Status 0: all passed; 1: one
failed; 2: the words are wrong.
"""
import csv
import os
import re
import shutil
import subprocess
import sys
import tempfile
from pathlib import Path

HERE = Path(__file__).resolve().parent
CORE, SECONDS = 1048575, 20


class Careless(Exception):
    """What is wrong with the words of a call."""


def run(deck, core):
    """What a deck prints in a core of so many words."""
    with tempfile.TemporaryDirectory() as room:
        words = [os.environ.get("B67", "b67"), "run", "--core", str(core), "--backing", "b"]
        done = subprocess.run(words, input=deck, capture_output=True, cwd=room, timeout=SECONDS, check=False)
    return done.stdout.decode("latin1")


def in_least_core(deck):
    """The same in the least core that suffices, which NO CORE tells."""
    printed, core = run(deck, 256), 256
    while found := re.search(r"^NO CORE (\d+)", printed, re.M):
        core = int(found[1])
        printed = run(deck, core)
    return printed, core


def differs(printed, wanted):
    """The first line that isn't as it should be, in words; nothing if all are."""
    is_so, should = printed.split("\n"), wanted.split("\n")
    for number in range(max(len(is_so), len(should))):
        line = is_so[number] if number < len(is_so) else ""
        right = should[number] if number < len(should) else ""
        if line != right:
            return f"line {number + 1} is `{line[:60]}`, and should be `{right[:60]}`"
    return ""


def difference(program, command):
    """What is wrong of one program, in words."""
    wanted = program.with_suffix(".lines").read_text()
    try:
        made = subprocess.run(command, input=program.read_bytes(), capture_output=True, timeout=SECONDS, check=False)
        if made.returncode:
            return f"the translator ends with status {made.returncode}: {made.stderr.decode('latin1').strip()[:120]}"
        said = differs(run(made.stdout, CORE), wanted)
        printed, core = ("", 0) if said else in_least_core(made.stdout)
    except subprocess.TimeoutExpired:
        return f"takes more than {SECONDS} seconds"
    except OSError as problem:
        raise Careless(f"{command[0]}: {problem.strerror}") from None
    return said or (differs(printed, wanted) and f"in {core} words {differs(printed, wanted)}")


def stage_of(program):
    """The number before a name; 0 if there is none."""
    found = re.match(r"(\d)-", program.name)
    return int(found[1]) if found else 0


def words_of_call(words):
    """The last stage, the folder, whether a table is wanted, and the command."""
    last, folder, table = 9, HERE / "programs", False
    while words and words[0].startswith("-"):
        name = words.pop(0)
        if name == "--csv":
            table = True
        elif name == "--stage" and words and re.fullmatch("[1-6]", words[0]):
            last = int(words.pop(0))
        elif name == "--programs" and words and Path(words[0]).is_dir():
            folder = Path(words.pop(0))
        else:
            raise Careless(f"{name}: no option, or what stands behind it isn't what it wants")
    if not words:
        raise Careless("a command that runs a translator is missing")
    if not shutil.which(os.environ.get("B67", "b67")):
        raise Careless("b67: no program that can be run; it runs the decks")
    return last, folder, table, words


def grade(words):
    """Makes all tests; gives whether all passed."""
    last, folder, table, command = words_of_call(words)
    programs = [it for it in sorted(folder.glob("*.alg")) if it.with_suffix(".lines").exists() and stage_of(it) <= last]
    if not programs:
        raise Careless(f"{folder}: no program NAME.alg with its NAME.lines is there")
    rows = [[stage_of(it), it.stem, difference(it, command)] for it in programs]
    if table:
        csv.writer(sys.stdout, lineterminator="\n").writerows([["stage", "program", "passed", "difference"], *([s, name, int(not said), said] for s, name, said in rows)])
        return not any(said for _, _, said in rows)
    for _, name, said in rows:
        if said:
            print(f"{name}: {said}")
    for stage in sorted({row[0] for row in rows}):
        its = [row for row in rows if row[0] == stage]
        print(f"{f'stage {stage}' if stage else 'all'}: {sum(not row[2] for row in its)} of {len(its)} programs")
    return not any(said for _, _, said in rows)


def main(words):
    """Status 0, 1 or 2."""
    try:
        right = grade(words)
        sys.stdout.flush()
        return 0 if right else 1
    except Careless as problem:
        print(f"grade.py: {problem}\n{__doc__.splitlines()[0]}", file=sys.stderr)
    except OSError as problem:
        print(f"grade.py: {problem}", file=sys.stderr)
        sys.stdout = None
    return 2


if __name__ == "__main__":
    sys.exit(main(sys.argv[1:]))
