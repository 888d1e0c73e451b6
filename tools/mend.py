#!/usr/bin/env python3
"""usage: mend.py [--apply]

Mends of comments and data under crates/ that wait for the next gate, since an edit there voids what was proved of the crate and of
all above it. They stand in tools/mends.txt, in the form of a must-fail edit: a line `file: PATH`, and then pairs of lines `old: TEXT`
and `new: TEXT`, in which `\\n` stands for the end of a line. Prints each file with the number of its mends, and what can't be applied,
as each old text must stand once in its file; then ends with status 1. With --apply, all are applied, and the file of mends keeps its
first lines alone.
"""
import os
import sys

TOP = os.path.normpath(os.path.join(os.path.dirname(os.path.abspath(__file__)), ".."))
WAITING = os.path.join(TOP, "tools", "mends.txt")


def read(path):
    with open(path, encoding="utf-8") as text:
        return text.read()


def mends(lines):
    """Each mend that waits: its file, the old text, the new one."""
    file = old = None
    for line in lines:
        kind, _, text = line.partition(":")
        text = text.removeprefix(" ").replace("\\n", "\n")
        if kind == "file":
            file, old = text.strip(), None
        elif kind == "old":
            old = text
        elif kind == "new" and file and old:
            yield file, old, text
            old = None


def tried(waiting):
    """The texts of the files with their mends, how many each has, and what can't be applied."""
    texts, counts, flaws = {}, {}, []
    for file, old, new in waiting:
        path = os.path.join(TOP, file)
        if file not in texts and not (file.startswith("crates/") and os.path.isfile(path)):
            flaws.append(f"{file}: no file under crates/")
            continue
        text = texts.setdefault(file, read(path))
        if text.count(old) != 1:
            flaws.append(f"{file}: stands {text.count(old)} times: {old!r}")
            continue
        texts[file] = text.replace(old, new)
        counts[file] = counts.get(file, 0) + 1
    return texts, counts, flaws


def main(arguments):
    if arguments not in ([], ["--apply"]):
        print(__doc__.split("\n")[0], file=sys.stderr)
        return 2
    lines = read(WAITING).split("\n")
    texts, counts, flaws = tried(mends(lines))
    for file, count in counts.items():
        print(f"{file}: {count}")
    for flaw in flaws:
        print(f"can't be applied: {flaw}")
    if arguments and not flaws:
        for file in counts:
            with open(os.path.join(TOP, file), "w", encoding="utf-8") as text:
                text.write(texts[file])
        with open(WAITING, "w", encoding="utf-8") as text:
            text.write("\n".join(line for line in lines if line.startswith("#")) + "\n")
    say = "applied" if arguments and not flaws else "wait for the next gate: python3 tools/mend.py --apply"
    print(f"{sum(counts.values())} mends in {len(counts)} files {say}" if counts else f"{len(flaws)} mends can't be applied" if flaws else "no mend waits")
    return 1 if flaws else 0


if __name__ == "__main__":
    sys.exit(main(sys.argv[1:]))
