#!/usr/bin/env python3
"""usage: sh bench/steps.sh PROGRAM | python3 bench/table.py

Puts the figures that steps.sh prints into the column `now` of the first table of bench/README.md, a row for each loop; of a loop in
several cores the first one. Prints what has changed, and ends with status 1 if a loop has no row or a row no figure.
"""
import os
import re
import sys

PAGE = os.path.join(os.path.dirname(os.path.abspath(__file__)), "README.md")
ROW = re.compile(r"\| `([\w-]+)` \| [^|]* \| (\d+) \|")


def main():
    if sys.argv[1:]:
        print(__doc__.split("\n")[0], file=sys.stderr)
        return 2
    figures = {}
    for line in sys.stdin:
        words = line.split()
        if len(words) == 3 and words[2].isdigit() and not words[0].endswith("-total"):
            figures.setdefault(words[0], words[2])
    with open(PAGE, encoding="utf-8") as text:
        lines = text.read().split("\n")
    seen = set()
    for at, line in enumerate(lines):
        found = ROW.match(line)
        if found and found.group(1) in figures:
            name, old = found.groups()
            seen.add(name)
            if figures[name] != old:
                print(f"{name}: {figures[name]} for {old}")
                lines[at] = line[: found.start(2)] + figures[name] + line[found.end(2) :]
        elif found:
            print(f"{found.group(1)}: no figure")
    with open(PAGE, "w", encoding="utf-8") as text:
        text.write("\n".join(lines))
    without = sorted(set(figures) - seen)
    print(f"{len(seen)} figures" + (f"; no row for {' '.join(without)}" if without else ""))
    return 1 if without or any(ROW.match(line) and ROW.match(line).group(1) not in seen for line in lines) else 0


if __name__ == "__main__":
    sys.exit(main())
