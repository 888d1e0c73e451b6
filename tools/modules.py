#!/usr/bin/env python3
"""usage: modules.py CRATE [COUNT]

Prints where the check of a crate spends its time: the seconds of its dearest modules, 30 or so many, then those of each kind of
module, then those of its dearest functions. It reads what the last check of the crate left in crates/CRATE/out/incremental, which
has a file for each module, written as the module was checked. So first make that folder empty (`rm -rf`, then `mkdir`: without it
`rt` takes what another checkout has kept), and call `rt check --jobs 1` in the crate with nothing beside it; a check with more jobs,
or one that goes on from an earlier one, tells nothing. `Lts` is the borrow checker's part of a function's proof, made from the
function's code alone; `Proof` its goals, `Answers` those that are answered by hand; `lemma` a module of lemmas. A large crate is
checked in waves of functions, and the start of each wave, some five seconds, is counted with its first module.
"""
import collections
import os
import re
import sys

TOP = os.path.realpath(os.path.join(os.path.dirname(os.path.abspath(__file__)), ".."))
USAGE = __doc__.splitlines()[0]


def times_of(folder):
    """Each module of a check with the seconds since the one before it was written."""
    found = []
    for at, _, names in os.walk(folder):
        for name in names:
            if name.endswith(".oantt"):
                found.append((os.stat(f"{at}/{name}").st_mtime_ns, name.removesuffix(".oantt").removesuffix(".decls")))
    found.sort()
    times = collections.Counter()
    for (before, _), (after, name) in zip(found, found[1:]):
        times[name] += (after - before) / 1e9
    return times


def kind_of(name, crate):
    """The kind of a module, and its function if it is of one."""
    part = re.match(rf"Rattle-{crate}-(proofs|specs)\.(.*)", name)
    if not part:
        return "of other crates", None
    if part[1] == "specs":
        return ("contract" if part[2].startswith("contracts") else "definition"), None
    path = part[2].split(".")
    if len(path) == 1 and path[0][0].isupper():
        return "lemma", None
    own = next((at for at, it in enumerate(path) if it in PARTS), len(path))
    return (path[own] if own < len(path) else "function"), ".".join(path[:own])


PARTS = {
    "Answers", "Code", "Given", "Goals", "Invariants", "Kinds", "Layout", "Lts", "Met", "Named", "Paired", "Proof", "Reads",
    "Statement", "Symbol", "TheImpl", "TheLaws", "TheLink", "TheLinks", "Tie", "View",
}


def main():
    words = sys.argv[1:]
    if len(words) not in (1, 2) or not os.path.isdir(f"{TOP}/crates/{words[0]}") or not all(it.isdigit() for it in words[1:]):
        sys.exit(USAGE)
    crate, count = words[0], int(words[1]) if words[1:] else 30
    times = times_of(f"{TOP}/crates/{crate}/out/incremental")
    if not times:
        sys.exit(f"{crate} has no check that was kept: call rt check --jobs 1 in its folder")
    kinds, functions = collections.Counter(), collections.Counter()
    for name, seconds in times.items():
        kind, function = kind_of(name, crate)
        kinds[kind] += seconds
        if function:
            functions[function] += seconds
    for name, seconds in times.most_common(count):
        print(f"{seconds:7.2f} {name}")
    for title, counts in (("kinds", kinds), ("functions", functions)):
        print(f"{title}: " + ", ".join(f"{name} {seconds:.1f}" for name, seconds in counts.most_common(count) if seconds >= 0.05))
    print(f"in all {sum(times.values()):.1f} seconds")


main()
