#!/usr/bin/env python3
"""usage: sizes.py

Prints how many lines of code with contracts, of definitions, of proofs and of tests each part of the proof has. Comments and
blank lines aren't counted. The tests are the modules under #[cfg(test)] with their proofs, and the crate `b67_surface`.
"""
import os
import re
import sys

import rattle_source

TOP = os.path.join(rattle_source.TOP, "crates")
PARTS = [
    ("model and text formats", r"model|model_text"),
    ("laws of the model", r"law\w*"),
    ("layout and stack", r"layout\w*|stack"),
    ("operators, intrinsics", r"exec\w*|fetch|entry|refer|mcp\w*"),
    ("paging, tasks", r"presence|overlay|task\w*"),
    ("session, job, program", r"session\w*|job\w*|program|recorded|b67"),
    ("promises", r"promises"),
    ("images and dumps", r"image\w*|dump"),
    ("text, loader", r"card|asm\w*|codefile|bind|gen|load\w*"),
    ("words, memory, lemmas", r"word|ctl|arith|syllable|core|area|backing|io|lemmas"),
    ("page", r"web"),
    ("rows", r"rows"),
    ("surface", r"surface"),
]


def sizes_of(crate):
    """The lines of a crate: code, definitions, proofs, tests."""
    tests = rattle_source.test_modules(crate)
    counts = [0, 0, 0, 0]
    for column, folder in enumerate(["src", "specs", "proofs"]):
        for path in rattle_source.files(crate, folder):
            below = os.path.relpath(path, f"crates/{crate}/{folder}")
            is_test = crate == "b67_surface" or folder != "specs" and re.split(r"[/.]", below)[0] in tests
            counts[3 if is_test else column] += rattle_source.counted(rattle_source.read(path))
    return counts


def main(arguments):
    if arguments:
        print(__doc__.split("\n")[0], file=sys.stderr)
        return 2
    crates = sorted(name for name in os.listdir(TOP) if os.path.isdir(os.path.join(TOP, name, "src")))
    print(f"{'code':>7}{'definitions':>13}{'proofs':>9}{'tests':>8}  part")
    whole = [0, 0, 0, 0]
    for part, pattern in PARTS:
        members = [crate for crate in crates if re.fullmatch(pattern, crate.removeprefix("b67_"))]
        rows = [sizes_of(crate) for crate in members]
        sums = [sum(column) for column in zip(*rows)]
        whole = [a + b for a, b in zip(whole, sums)]
        crates = [crate for crate in crates if crate not in members]
        print("{:7}{:13}{:9}{:8}  {}".format(*sums, part))
    print("{:7}{:13}{:9}{:8}  all".format(*whole))
    for crate in crates:
        print(f"of no part: {crate}", file=sys.stderr)
    return 1 if crates else 0


if __name__ == "__main__":
    sys.exit(main(sys.argv[1:]))
