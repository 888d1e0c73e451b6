#!/usr/bin/env python3
"""usage: signatures.py [--print]

Compares the public calls with their list, docs/signatures.txt. Each line of the list is a crate and a call of it, as a caller sees
it: `b67_word Word::tag(self) -> u8`. The crate b67_surface has a function for each of them, which makes that call and does nothing
else: `word_tag(it: Word) -> u8 { it.tag() }`. So a signature that changes in its crate no longer fits the surface's, and one that
changes there no longer fits the list. Prints each difference and each function of the surface that does more than its call, as a
cast, and then how many signatures are as the list has them. With --print, prints the list that the surface would have. Ends with
status 1 if anything differs.
"""
import os
import re
import sys

import rattle_source

TOP = rattle_source.TOP
LIST = "docs/signatures.txt"
SURFACE = "crates/b67_surface/src"
NAME = re.compile(r"^(\w+)(<.*?>)?\((.*)\)(?: -> (.*))?$", re.S)


def snake(name):
    return re.sub(r"(?<=[a-z])(?=[A-Z])", "_", name).lower()


def call_of(signature, body):
    """The call as its crate has it, by the one call that the body makes: of a type if it begins with the type's name, or with `it`."""
    name, generics, params, answer = NAME.match(signature).groups()
    generics, answer = generics or "", f" -> {answer}" if answer else ""
    method = re.match(r"\s*it\s*\.(\w+)\(", body)
    if method:
        first, _, rest = params.partition(", ")
        kind = re.match(r"it: (&(?:mut )?|)(.*)$", first)
        whole = kind.group(2)
        own = {"": "self", "&": "&self", "&mut ": "&mut self"}[kind.group(1)]
        return whole, f"{whole}::{method.group(1)}{generics}({', '.join(x for x in (own, rest) if x)}){answer}"
    static = re.match(r"\s*([A-Z]\w*)::(\w+)\(", body)
    if static:
        return static.group(1), f"{static.group(1)}::{static.group(2)}{generics}({params}){answer}"
    free = re.match(r"\s*(?:\w+::)*(\w+)\(", body)
    return None, f"{free.group(1) if free else '?'}{generics}({params}){answer}"


def surface(problems):
    """The calls of the surface: crate and call, in the order of its files."""
    calls = []
    for file in sorted(os.listdir(os.path.join(TOP, SURFACE))):
        if file.endswith("_rows.rt") or file in ("lib.rt", "given.rt"):
            continue
        lines, crate = rattle_source.read(f"{SURFACE}/{file}").split("\n"), {}
        for at, line in enumerate(lines, 1):
            crate[at] = line[3:] if re.match(r"// b67_\w+$", line) else crate.get(at - 1)
        for it in rattle_source.functions(lines):
            if not it.head[0].startswith("pub fn "):
                continue
            function, body = it.name, "\n".join(it.body)
            owner, call = call_of(it.signature().removeprefix("fn "), body)
            short = re.match(r"(?:\w+::)?(\w+)", call).group(1)
            wanted = f"{snake(re.sub('<.*', '', owner))}_{short}" if owner else short
            if function != wanted:
                problems.append(f"{SURFACE}/{file}: {function} makes a call of {call.partition('(')[0]}, and would be named {wanted}")
            if re.search(r"\bas\b|;", body):
                problems.append(f"{SURFACE}/{file}: {function} does more than make its call")
            calls.append(f"{crate[it.first]} {call}")
    return calls


def main():
    problems = []
    calls = surface(problems)
    if sys.argv[1:] == ["--print"]:
        print("\n".join(calls))
        return 0
    if sys.argv[1:]:
        print(__doc__.split("\n")[0], file=sys.stderr)
        return 2
    with open(os.path.join(TOP, LIST), encoding="utf-8") as lines:
        wanted = [line.rstrip("\n") for line in lines if line.strip() and not line.startswith("#")]
    for line in wanted:
        if line not in calls:
            problems.append(f"{LIST}: no function of b67_surface shows `{line}`")
    for line in calls:
        if line not in wanted:
            problems.append(f"b67_surface shows `{line}`, which {LIST} hasn't")
    for line in sorted({line for line in wanted if wanted.count(line) > 1}):
        problems.append(f"{LIST}: twice: `{line}`")
    print("\n".join([*problems, f"{sum(line in calls for line in wanted)} of {len(wanted)} signatures are as {LIST} has them"]))
    return 1 if problems else 0


sys.exit(main())
