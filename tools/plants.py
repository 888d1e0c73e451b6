#!/usr/bin/env python3
"""usage: plants.py [--table] [--max N] [--minutes N] --into FILE [CRATE..]

Wrong bodies that nobody chose: calls `rt plant` in each crate, or in those that are named, lowest first, with at most N bodies (400) in at
most N minutes (10) each, and keeps in FILE what it says: a line `crate` with the counts and with the sum of the crate's texts, and a
line for each body that is still proved and for each function that any body passes. A crate that stands there with the same sum isn't
tried again, so what was cut off goes on where it was; but one that is named is, if some of its bodies weren't run.

Then it prints a table by crate. An answer to a line is a line of docs/plants.txt, `CRATE FUNCTION: BODY = why that body is right`.
A line without an answer is printed below the table, and the status is 1. --table prints the table alone, of what FILE has.
"""
import os
import re
import subprocess
import sys

sys.dont_write_bytecode = True
import edits  # noqa: E402

TOP = edits.TOP
ANSWERS = f"{TOP}/docs/plants.txt"
COUNTS = ("planted-in", "untested", "no-ensures", "refused", "elsewhere", "same", "proves", "not-judged", "not-source", "not-run")
LAST = re.compile(r"^plants crate=\w+ (.*)$", re.M)
ROW = re.compile(r"^(proves|no-ensures|untested) +(src/\S+?):\d+ (.*)$", re.M)


def crates():
    """The crates of crates.txt, each behind those that it stands on."""
    with open(f"{TOP}/crates.txt", encoding="utf-8") as lines:
        rows = dict((line.partition(":")[0].split()[0], line.partition(":")[2].split()) for line in lines if ":" in line and not line.startswith("#"))
    order = []

    def visit(name):
        if name in rows and name not in order:
            for below in rows[name]:
                visit(below)
            order.append(name)

    for name in rows:
        visit(name)
    return order


class Kept:
    """What FILE has of each crate: its sum, its counts and its lines."""

    def __init__(self, path):
        self.path, self.crates = path, {}
        with open(path, "a+", encoding="utf-8") as lines:
            lines.seek(0)
            for line in lines:
                kind, name, *rest = line.rstrip("\n").split("\t")
                if kind == "crate":
                    self.crates[name] = (rest[0], dict(it.split("=") for it in rest[1].split()), [])
                elif name in self.crates:
                    self.crates[name][2].append((kind, *rest))

    def has(self, name):
        return name in self.crates and self.crates[name][0] == edits.crate_sum(name, TOP)[:16]

    def is_whole(self, name):
        return self.has(name) and self.crates[name][1].get("not-run") == "0"

    def add(self, name, counts, rows):
        total = edits.crate_sum(name, TOP)[:16]
        self.crates[name] = (total, dict(it.split("=") for it in counts.split()), rows)
        with open(self.path, "a", encoding="utf-8") as out:
            out.write("\n".join("\t".join(it) for it in [("crate", name, total, counts), *((kind, name, text) for kind, text in rows)]) + "\n")


def planted(name, options):
    """What `rt plant` says of a crate: its counts, and its lines; None if it said nothing."""
    words = ["rt", "plant", "--jobs", "1", "--max", options["--max"], "--minutes", options["--minutes"]]
    said = subprocess.run(words, cwd=f"{TOP}/crates/{name}", stdin=subprocess.DEVNULL, stdout=subprocess.PIPE, stderr=subprocess.STDOUT, text=True).stdout
    counts = LAST.search(said)
    if not counts:
        return print(f"{name}: {said.rstrip().splitlines()[-1] if said.strip() else 'nothing is said'}", file=sys.stderr)
    return counts.group(1), [(kind, f"{file} {text}") for kind, file, text in ROW.findall(said)]


def answers():
    """The lines that are answered: crate and text without the file."""
    if not os.path.exists(ANSWERS):
        return set()
    with open(ANSWERS, encoding="utf-8") as lines:
        return {line.rpartition(" = ")[0].strip() for line in lines if " = " in line and not line.startswith("#")}


def table(kept):
    """Prints the table and what has no answer; whether all has one."""
    answered, left = answers(), []
    print(f"| crate | {' | '.join(COUNTS)} | unanswered |\n|---|{'---|' * len(COUNTS)}---|")
    for name in (it for it in crates() if it in kept.crates):
        _, counts, rows = kept.crates[name]
        open_rows = [(kind, text) for kind, text in rows if f"{name} {text.partition(' ')[2]}" not in answered]
        left += [(name, *it) for it in open_rows]
        stale = "" if kept.has(name) else ", before a change"
        print(f"| `{name}`{stale} | {' | '.join(counts.get(it, '0').replace('0', '', counts.get(it, '0') == '0') for it in COUNTS)} | {len(open_rows) or ''} |")
    for name, kind, text in left:
        print(f"{kind}: {name} {text}")
    return not left


def main():
    options, words, given = {"--max": "400", "--minutes": "10", "--into": ""}, [], sys.argv[1:]
    while given:
        word = given.pop(0)
        if word in options and given:
            options[word] = given.pop(0)
        else:
            words.append(word)
    names = [it for it in words if it != "--table"]
    numbers = all(options[it].isdecimal() and int(options[it]) for it in ("--max", "--minutes"))
    if not options["--into"] or not numbers or any(it not in crates() for it in names):
        return print(__doc__.splitlines()[0], file=sys.stderr) or 2
    try:
        kept = Kept(options["--into"])
        for name in (it for it in names or crates() if "--table" not in words and not (kept.is_whole(it) if names else kept.has(it))):
            found = planted(name, options)
            if found:
                kept.add(name, *found)
        return 0 if table(kept) else 1
    except (OSError, UnicodeDecodeError, ValueError, IndexError) as error:
        return print(f"plants.py: {options['--into']}: {error}", file=sys.stderr) or 2


if __name__ == "__main__":
    sys.exit(main())
