#!/usr/bin/env python3
"""usage: heads.py [--check]

Makes the table of crates in docs/ARCHITECTURE.md again, from what each crate says of itself at the head of its src/lib.rt, or of
src/main.rt: the first sentence, or enough of it to say what the crate is, and the first thing that the paragraph `Begin with`
names. The rest of a head is for whoever opens the crate. The rows and their order are those of the page. With --check nothing is
written: it tells which rows are old, which crates have no row or no head, and ends with status 1 if there are any.
"""
import glob
import os
import re
import sys

import rattle_source

TOP = rattle_source.TOP
PAGE = os.path.join(TOP, "docs", "ARCHITECTURE.md")
ROW = re.compile(r"\| `(b67\w*)` \|")
BEGIN = "Begin with "


def first_sentence(text):
    """The first sentence, up to a colon or semicolon if eight words before it already say what a crate is."""
    sentence = re.split(r"(?<=\.) (?=[A-Z`])", text)[0]
    short = re.match(r"(?:\S+ ){7,}?\S*[^\s:;](?=[:;] )", sentence)
    return short.group() + "." if short else sentence


def first_thing(text):
    """A list of things up to its first comma, colon or semicolon outside brackets."""
    return re.match(r"(?:\([^()]*\)|`[^`]*`|[^,:;(`])*", text).group().strip().rstrip(".")


def head(crate):
    """What a crate is, and where to begin: None if it says nothing."""
    said = rattle_source.said(rattle_source.read(rattle_source.root(crate)))
    parts = [part.strip() for part in re.split(r"\n\s*\n", "\n".join(said)) if part.strip()]
    parts = [re.sub(r"\[(`[^`]*`)\]", r"\1", " ".join(part.split())) for part in parts if not part.startswith("- ")]
    begin = [part[len(BEGIN):] for part in parts if part.startswith(BEGIN)]
    return (first_sentence(parts[0]), first_thing(" ".join(begin))) if parts else None


def row(crate, cells):
    return "| " + " | ".join(cell.replace("|", "\\|") for cell in (f"`{crate}`", *cells)) + " |"


def main(arguments):
    if arguments not in ([], ["--check"]):
        print(__doc__.split("\n")[0], file=sys.stderr)
        return 2
    heads = {os.path.basename(folder.rstrip("/")): None for folder in glob.glob(os.path.join(TOP, "crates", "*", ""))}
    heads = {crate: head(crate) for crate in heads}
    with open(PAGE, encoding="utf-8") as text:
        lines = text.read().split("\n")
    first = lines.index("## The crates")
    last = next(at for at in range(first + 1, len(lines)) if lines[at].startswith("## "))
    seen, old = [], []
    for at in range(first, last):
        found = ROW.match(lines[at])
        if not found:
            continue
        crate = found.group(1)
        seen.append(crate)
        new = row(crate, heads[crate]) if heads.get(crate) else lines[at]
        if new != lines[at]:
            old.append(f"{crate}: another row")
        lines[at] = new
    wrong = [f"{crate}: {'twice' if crate in heads else 'no such crate'}" for crate in sorted(set(seen)) if crate not in heads or seen.count(crate) > 1]
    wrong += [f"{crate}: no row" for crate in sorted(heads) if crate not in seen]
    wrong += [f"{crate}: no head" for crate in sorted(heads) if not heads[crate]]
    if not arguments:
        with open(PAGE, "w", encoding="utf-8") as text:
            text.write("\n".join(lines))
    for line in (old if arguments else []) + wrong:
        print(line)
    print(f"{len(seen)} rows, {len(old)} {'old' if arguments else 'changed'}, {len(wrong)} wrong")
    return 1 if wrong or arguments and old else 0


if __name__ == "__main__":
    sys.exit(main(sys.argv[1:]))
