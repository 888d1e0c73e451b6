#!/usr/bin/env python3
"""usage: links.py [DOCUMENT..]

Looks at each link of the documents of the repository, or of those that are named: its file must be there, and its heading. So
must each path in backquotes that begins with a folder of the repository, each file that is named there, and each crate. Words in
capitals, as NAME, are places for others. Prints what is broken, and how many links and names there are. Links to other sites are
listed, and not followed.
"""
import glob
import os
import re
import sys

import rattle_source

TOP = rattle_source.TOP
FOLDERS = r"(?:crates|docs|decks|scripts|tools|bench|reference|web|specs|src|proofs)"
# Files that others have: what the toolchain brings, what a crate may have, and what a call makes.
ELSEWHERE = {"b67.html", "b67.js", "b67.c", "b67.wasm", "b67.bc", "main.rt", "lib.rt", "Lib.antt", "rtlib.py"}


def plain_lines(path):
    """The lines that stand in no block of code, with their numbers."""
    inside = False
    with open(path, encoding="utf-8") as text:
        for number, line in enumerate(text, 1):
            if line.startswith("```"):
                inside = not inside
            elif not inside:
                yield number, line.rstrip("\n")


def headings(path):
    """The names by which a document's headings are linked to."""
    names, counts = set(), {}
    for _, line in plain_lines(path):
        found = re.match(r"#+ (.*)", line)
        if found:
            title = re.sub(r"\[([^\]]*)\]\([^)]*\)", r"\1", found.group(1))
            name = re.sub(r"[^\w\- ]", "", re.sub(r"[`*]", "", title).strip().lower()).replace(" ", "-")
            count = counts.get(name, 0)
            counts[name] = count + 1
            names.add(name if count == 0 else f"{name}-{count}")
    return names


def is_there(folder, path):
    places = [os.path.join(TOP, path), os.path.join(folder, path), os.path.join(TOP, "crates", path), os.path.join(TOP, "crates", "*", path)]
    return any(glob.glob(place) or glob.glob(place + ".antt") for place in places)


def flaw_of_link(document, target):
    path, _, heading = target.partition("#")
    file = os.path.normpath(os.path.join(os.path.dirname(document), path)) if path else document
    if not os.path.exists(file):
        return "no file"
    if heading and heading not in headings(file):
        return "no heading"
    return None


def flaw_of_name(document, name, files):
    if re.search(r"(^|[/_])[A-Z]{2,}([/_]|$)", name) or "/out/" in name:
        return None
    if re.match(FOLDERS + r"/[\w./-]+$", name):
        return None if is_there(os.path.dirname(document), name.rstrip("/")) else "no path"
    if re.match(r"b67_\w+/(specs|src|proofs)/[\w./]+$", name):
        return None if is_there(TOP, name) else "no path"
    if re.match(r"[\w-]+\.(antt|rt|py|sh|js|deck|c|svg|edit)$", name):
        return None if name in files or name in ELSEWHERE else "no file"
    if re.match(r"b67_\w+$", name):
        return None if glob.glob(os.path.join(TOP, "crates", name + "*")) or name in identifiers() else "no crate"
    return None


NAMES = set()


def identifiers():
    """Each name in the code, the definitions and the proofs."""
    if not NAMES:
        for crate in rattle_source.crates():
            for folder in ("src", "specs", "proofs"):
                for path in rattle_source.files(crate, folder):
                    NAMES.update(re.findall(r"\w+", rattle_source.read(path)))
    return NAMES


def main(arguments):
    if any(argument.startswith("-") or not os.path.isfile(argument) for argument in arguments):
        print(__doc__.split("\n")[0], file=sys.stderr)
        return 2
    files = set()
    for _, folders, names in os.walk(TOP):
        folders[:] = [folder for folder in folders if folder not in (".git", "out")]
        files.update(names)
    pages = glob.glob(os.path.join(TOP, "*.md")) + glob.glob(os.path.join(TOP, "[!c]*", "**", "*.md"), recursive=True)
    links = named = broken = 0
    for document in [os.path.realpath(page) for page in arguments or sorted(pages)]:
        for number, line in plain_lines(document):
            place = f"{os.path.relpath(document, TOP)}:{number}"
            for target in re.findall(r"\]\(([^)\s]+)\)", line):
                links += 1
                if re.match(r"https?:", target):
                    print(f"{place}: another site: {target}")
                    continue
                flaw = flaw_of_link(document, target)
                if flaw:
                    broken += 1
                    print(f"{place}: {flaw}: {target}")
            for name in re.findall(r"`([^` ]+)`", line):
                named += 1
                flaw = flaw_of_name(document, name, files)
                if flaw:
                    broken += 1
                    print(f"{place}: {flaw}: {name}")
    print(f"{links} links, {named} names, {broken} broken")
    return 1 if broken else 0


if __name__ == "__main__":
    sys.exit(main(sys.argv[1:]))
