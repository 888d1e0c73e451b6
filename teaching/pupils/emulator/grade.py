#!/usr/bin/env python3
"""usage: grade.py [--stage N] [--seeds FIRST..LAST] [--seconds S] [--csv] COMMAND..

Grades an emulator. COMMAND runs it, as in `grade.py python3 my.py`; it reads a deck from standard input and prints the lines of the
run. The tests are the decks of `decks/`, more.rows, and the rows of crates/b67_rows whose runs have core enough; stages.txt says to which stage
each belongs. --stage N makes those of the stages 1 to N alone. --seeds makes random decks of these numbers besides, of all stages;
what they must print is asked of the program b67, or of that which the variable B67 names. A test may take 10 seconds, or as many as
--seconds says. Prints a line for each stage, the first difference of each test that fails, and the points; with --csv a line for each test.
Status 0: all tests that were made passed; 1: one failed.
"""
import csv
import os
import re
import shutil
import subprocess
import sys
import tempfile
from dataclasses import dataclass, field
from pathlib import Path

HERE = Path(__file__).resolve().parent
TOP = HERE.parents[2]
sys.path.insert(0, str(TOP / "reference"))
CORE = 1048575
SHOWN = 5


class Careless(Exception):
    """What is wrong with the words of a call."""


@dataclass
class Stage:
    """What a stage adds, its tests, and how many of them passed."""

    number: int
    name: str
    points: int = 0
    known: set[str] = field(default_factory=set)
    tests: list["Trial"] = field(default_factory=list)
    passed: int = 0


@dataclass(frozen=True)
class Trial:
    """A deck, and what its run must print."""

    name: str
    deck: bytes
    wanted: str


def stages_of(path):
    """The stages of the file, in their order."""
    stages = []
    for line in path.read_text().splitlines():
        word, _, rest = line.partition(" ")
        if word == "stage":
            number, _, name = rest.partition(" ")
            stages.append(Stage(int(number), name))
        elif word == "points":
            stages[-1].points = int(rest)
        elif word in ("cards", "operators"):
            stages[-1].known.update(rest.split())
        elif word == "intrinsics":
            stages[-1].known.update(f"0,{number}" for number in rest.split())
    return stages


def used_by(deck):
    """The cards, operators and intrinsics of a deck; a second job is known where ?QUANTUM is."""
    used, jobs = set(), 0
    for line in deck.decode("latin1").split("\n"):
        words = re.sub(r"^[A-Z][A-Z0-9]*: ", "", line.split(";")[0].strip()).split()
        if not words:
            continue
        jobs += words[0] == "?JOB"
        if not re.fullmatch(r"-?[0-9]+|[0-9a-f]{2,}", words[0]):
            used.add(words[0])
        if words[0] in ("NAMC", "VALC") and words[1:] and re.fullmatch(r"0,\d+", words[1]):
            used.add(words[1])
    return used | ({"?QUANTUM"} if jobs > 1 else set())


def stage_of(deck, stages):
    """The first stage that knows all of a deck, or none."""
    used, known = used_by(deck), set()
    for stage in stages:
        known |= stage.known
        if used <= known:
            return stage
    return None


def trials():
    """All runs that a machine with core enough ends by itself."""
    from compare_rows import rows_of, words_of

    for folder in sorted((TOP / "decks").iterdir()):
        if (folder / "args").is_file() and (folder / "args").read_text().split()[0] == "run" and not (folder / "then").exists():
            status = (folder / "status").read_text().strip() if (folder / "status").exists() else "0"
            if status in ("0", "3"):
                yield Trial(f"decks/{folder.name}", (folder / "stdin").read_bytes(), (folder / "stdout").read_text())
    for path in [HERE / "more.rows", *sorted((TOP / "crates/b67_rows/data").glob("*.rows"))]:
        for row in rows_of(path):
            plain = set(row["set"]) <= {"args", "pieces", "sectors"} and row["="].get("status", "0") in ("0", "3")
            if row["kind"] == "row" and plain and words_of(row)[:1] == ["run"] and "?JOB" in row["<"]:
                yield Trial(f"{path.stem}: {row['name']}", row["<"].encode(), row[">"])


def random_trials(text):
    """Random decks, with the answers of the program."""
    from author import Features
    from random_decks import deck_of_seed

    program = os.environ.get("B67", "b67")
    if not shutil.which(program):
        raise Careless(f"{program}: no program that can be run: --seeds asks b67 what is right")
    first, last = map(int, text.split(".."))
    for seed in range(first, last + 1):
        deck = deck_of_seed(seed, Features(seed % 2 == 0, seed % 3 == 0, seed % 6 == 0))
        with tempfile.TemporaryDirectory() as room:
            done = subprocess.run([program, "run", "--core", str(CORE), "--backing", "b"], input=deck, capture_output=True, cwd=room, check=False)
        yield Trial(f"seed {seed}", deck, done.stdout.decode("latin1"))


def difference(trial, command, seconds):
    """What is wrong of a run, in words; nothing if all is right."""
    try:
        done = subprocess.run(command, input=trial.deck, capture_output=True, timeout=seconds, check=False)
    except subprocess.TimeoutExpired:
        return f"takes more than {seconds} seconds"
    except OSError as problem:
        raise Careless(f"{command[0]}: {problem.strerror}") from None
    printed, wanted = done.stdout.decode("latin1").split("\n"), trial.wanted.split("\n")
    for number, (line, right) in enumerate(zip(printed + [None] * len(wanted), wanted), 1):
        if line != right:
            said = done.stderr.decode("latin1").strip().split("\n")[-1]
            is_end = f"line {number} is missing" if line in (None, "") else f"line {number} is `{line[:60]}`"
            return f"{is_end}, and should be `{right}`" + (f" ({said[:100]})" if said else "")
    return f"line {len(wanted)} is `{printed[len(wanted) - 1][:60]}`, and nothing more is wanted" if len(printed) > len(wanted) else ""


def sorted_in(stages, last, found):
    """Puts each test into its stage, up to the last; prints how many fit none."""
    for trial in found:
        stage = stage_of(trial.deck, stages)
        if stage and stage.number <= last:
            stage.tests.append(trial)


def words_of_call(words):
    """The options, and the command behind them."""
    options = {"--stage": None, "--seeds": None, "--seconds": "10", "--csv": None}
    while words and words[0].startswith("-"):
        name = words.pop(0)
        if name not in options or (name != "--csv" and not words):
            raise Careless(f"{name}: no option, or one that wants something behind it")
        options[name] = "yes" if name == "--csv" else words.pop(0)
    for name in ("--stage", "--seconds"):
        if options[name] is not None and not re.fullmatch(r"[1-9]\d{0,3}", options[name]):
            raise Careless(f"{options[name]}: {name} wants a number")
    found = re.fullmatch(r"(\d+)\.\.(\d+)", options["--seeds"] or "0..0")
    if not found or int(found[1]) > int(found[2]):
        raise Careless(f"{options['--seeds']}: --seeds wants two numbers, as 0..99")
    if not words:
        raise Careless("a command that runs an emulator is missing")
    if not shutil.which(words[0]):
        raise Careless(f"{words[0]}: no program that can be run")
    return options, words


def report(stages, made):
    """The lines of the stages, and the points."""
    total = 0.0
    for stage in stages:
        if not stage.tests:
            continue
        points = stage.points * stage.passed / len(stage.tests)
        total += points
        print(f"stage {stage.number}, {stage.name}: {stage.passed} of {len(stage.tests)} tests, {points:.1f} of {stage.points} points")
    print(f"{total:.1f} points, by {made} tests")


def grade(words):
    """Makes all tests; gives whether all passed."""
    options, command = words_of_call(words)
    stages = stages_of(HERE / "stages.txt")
    last = int(options["--stage"] or len(stages))
    if last > len(stages):
        raise Careless(f"{last}: the stages are 1 to {len(stages)}")
    sorted_in(stages, last, trials())
    if options["--seeds"]:
        sorted_in(stages, last, random_trials(options["--seeds"]))
    rows, shown = [], 0
    for stage in stages:
        for trial in stage.tests:
            said = difference(trial, command, int(options["--seconds"]))
            stage.passed += not said
            rows.append([stage.number, trial.name, int(not said), said])
            if said and options["--csv"] is None:
                shown += 1
                if shown <= SHOWN * len(stages):
                    print(f"{trial.name}: {said}")
    if options["--csv"]:
        csv.writer(sys.stdout, lineterminator="\n").writerows([["stage", "test", "passed", "difference"], *rows])
    else:
        report(stages, len(rows))
    return all(row[2] for row in rows)


def main(words):
    """Status 0, 1 or 2."""
    try:
        return 0 if grade(words) else 1
    except Careless as problem:
        print(f"grade.py: {problem}\n{__doc__.splitlines()[0]}", file=sys.stderr)
        return 2
    except (BrokenPipeError, OSError) as problem:
        print(f"grade.py: {problem}", file=sys.stderr)
        os._exit(2)


if __name__ == "__main__":
    sys.exit(main(sys.argv[1:]))
