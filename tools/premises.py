#!/usr/bin/env python3
"""usage: premises.py [--fill|TOP]
       premises.py --of FUNCTION CLAUSE..

A clause whose premises nothing meets says nothing. docs/premises.txt has an entry for each clause with premises of the theorems of
b67_promises and b67_program, and for each law. Its premises, lines that begin with `requires`, `if`, `says` or `states`, are made from the
sources by --fill. What meets them stands in the line `met by` by hand: a test, with the statuses that it wants; a program; another
theorem, through which they are met; or nothing yet, with the reason. This checks that

- each such clause of each function that those crates make public has its entry, and each law, which has no clause, and that the premises
  there are those of the sources;
- a test's body calls the theorem, itself or by a function of its file, in an arm of a choice that its body names; comments and texts
  are no calls. The statuses of the entry are those that the test wants;
- a program's body calls it, or what it calls does;
- a theorem through which a clause is met calls the other one, or, where that is a law, states what the entry names, as the law does; and following these
  one comes to a test or a program.

Prints what is wrong, and of how many clauses the premises are met. Ends with status 1 if something is wrong. TOP is a repository. With --of
it prints the premises of clauses, for pages; FUNCTION is CRATE::NAME. Whether a page's own words for a premise are right no script can say.
"""
import functools
import os
import re
import sys

import trust

HERE = os.path.dirname(os.path.abspath(__file__))
TABLE = "docs/premises.txt"
CRATES = ("b67_promises", "b67_program")
TESTS = ("b67_promises", "b67_surface")
FUNCTION = re.compile(r"^( *)(?:pub(?:\([^)]*\))? )?(?:const )?fn (\w+)", re.M)
VALUES = ("ℕ", "List", "Option", "Exercise", "Prepared", "Bool")
ARM = re.compile(r"^( *)([A-Z]\w*::[A-Z]\w*)(?: \{[^}]*\}|\([^)]*\))? =>", re.M)


def bare(text):
    """A file of code without its comments and texts, line for line."""
    return re.sub(r'b?"(?:[^"\\]|\\.)*"|//[^\n]*', lambda it: '""' if it.group(0)[-1] == '"' else "", text)


class Function:
    """A function of a file: its clauses, its body without comments and texts, and whether it is a test."""

    def __init__(self, crate, path, text, head):
        end = re.compile(rf"^{head.group(1)}\}}", re.M).search(text, head.end())
        whole = text[head.start() : end.end() if end else len(text)]
        opening = re.search(rf"^{head.group(1)}\{{|\{{\}}$|\{{$", whole, re.M)
        self.crate, self.path, self.name = crate, path, head.group(2)
        self.contract, self.body = whole[: opening.start()], bare(whole[opening.start() :])
        self.is_public = whole.startswith("pub fn")
        self.is_test = text[: head.start()].rstrip().endswith("#[test]") or re.search(r"#\[test\]\s*(?:///[^\n]*\s*)*\Z", text[: head.start()]) is not None
        self.is_law = bool(re.match(r"pub fn \w+\(\)", whole))

    def parts(self, word):
        """What the function requires, or ensures: names and texts, each in one line."""
        found = re.findall(rf"^ +{word}\*? ?(\w*) ?\{{(.*?)\}}(?=\s*(?:\Z|\n\s*(?:ensures|requires|//|\{{)))", self.contract, re.S | re.M)
        return [(name, " ".join(text.split())) for name, text in found]

    def clauses(self):
        """The names of the clauses with premises; of a law the empty name."""
        found = self.parts("ensures")
        return [""] if self.is_law and found else [name for name, text in found if "→" in text]

    def premises(self, clause):
        """What a clause asks for, a line each: what the function requires, and what stands before its arrows; or the whole clause, if its arrows stand within it."""
        text = dict(self.parts("ensures"))[clause]
        if self.is_law:
            return [f"states {text}"]
        lines = [f"requires {asked}" for _, asked in self.parts("requires")]
        within = re.fullmatch(r"IfOk result \(λ (\w+)\. (.*)\)", text)
        asked = split(within.group(2) if within else text)[:-1]
        if not asked:
            return [*lines, f"says {text}"]
        lines += [f"if result ≡ Ok {within.group(1)}"] if within else []
        return lines + [f"if {it}" for it in map(premise, asked) if it]


def split(text):
    """What stands between the arrows of a text that stand in no brackets."""
    found, depth = [""], 0
    for sign in text:
        depth += (sign in "({[") - (sign in ")}]")
        if sign == "→" and depth == 0:
            found.append("")
        else:
            found[-1] += sign
    return [it.strip() for it in found]


def premise(part):
    """A part before an arrow as a premise; empty if it only names values."""
    while True:
        binder = re.match(r"\(([^():]+) : ((?:[^()]|\([^()]*(?:\([^()]*\)[^()]*)*\))*)\) ?", part)
        if not binder:
            return part
        kind, part = binder.group(2), part[binder.end() :]
        if kind.split()[0] not in VALUES:
            return kind


def read(top, path):
    with open(os.path.join(top, path), encoding="utf-8") as text:
        return text.read()


def functions(top):
    """The functions of the crates and of the programs, by path."""
    found = {}
    for crate in sorted(set(CRATES + TESTS) | {it for it in os.listdir(f"{top}/crates") if os.path.exists(f"{top}/crates/{it}/src/main.rt")}):
        for file in sorted(os.listdir(f"{top}/crates/{crate}/src")):
            path = f"crates/{crate}/src/{file}"
            text = read(top, path)
            found[path] = [Function(crate, path, text, head) for head in FUNCTION.finditer(text)]
    return found


def theorems(top, code):
    """The functions with a contract that the crates make public, by name."""
    found = {}
    for crate in CRATES:
        text = read(top, f"crates/{crate}/src/lib.rt")
        public = set(re.findall(r"\w+", " ".join(re.findall(r"^pub use (?!b67)(.*?);", text, re.S | re.M))))
        for path, held in code.items():
            if path.startswith(f"crates/{crate}/"):
                found.update({it.name: it for it in held if it.is_public and it.name in public and "ensures" in it.contract})
    return found


class Row:
    """An entry of the list: a theorem, a clause, its premises, and what meets them: kinds, names, statuses."""

    def __init__(self, name, clause, lines):
        met = next((line.removeprefix("met by: ") for line in lines if line.startswith("met by: ")), "")
        self.names, self.clauses, self.premises = [name], [clause], [line for line in lines if not line.startswith("met by: ")]
        self.met = re.findall(r"\b(test|program|through) `(\w+)`(?:, (\d+(?:, \d+)*)|: `(\w+)`)?", met)
        self.lacks, self.has_none = met.startswith("nothing yet"), met.startswith("it has no premise")
        self.said = met


def rows(top):
    """The entries: a line NAME or NAME CLAUSE, and under it lines that are set in."""
    found = []
    for part in re.split(r"\n{2,}", read(top, TABLE)):
        head, *lines = part.strip("\n").split("\n")
        if head and not head.startswith("#"):
            name, _, clause = head.partition(" ")
            found.append(Row(name, clause, [line.strip() for line in lines]))
    return found


def filled(top):
    """The list with the premises of the sources, in the order in which it stands."""
    known = theorems(top, functions(top))
    whole = read(top, TABLE)
    parts = [part for part in re.split(r"\n{2,}", whole) if part.startswith("#")]
    for row in rows(top):
        name, clause = row.names[0], row.clauses[0]
        function = known.get(name)
        made = function.premises(clause) if function and (clause, name) in {(it, name) for it, _ in function.parts("ensures")} else row.premises
        parts.append("\n".join([f"{name} {clause}".strip(), *(f"    {line}" for line in [f"met by: {row.said}", *made])]))
    return "\n\n".join(part.strip("\n") for part in parts) + "\n"


def arms_of(body, names):
    """A body without the arms of choices of which these texts don't name the case."""
    arms = list(ARM.finditer(body))
    for arm, after in reversed(list(zip(arms, [*arms[1:], None]))):
        if not re.search(rf"\b{arm.group(2)}\b", names):
            end = after.start() if after else len(body)
            body = body[: arm.end()] + body[end:] if after else body[: arm.end()]
    return body


def reached(function, held):
    """The text of a function's body and of those of its file that it calls, without arms that it doesn't choose."""
    text, left, seen = "", [function], set()
    while left:
        now = left.pop()
        if now.name not in seen:
            seen.add(now.name)
            body = now.body if now is function else arms_of(now.body, text)
            text += "\n" + body
            left += [it for it in held if re.search(rf"(?<![\w.]){it.name}\(", body)]
    return text


def calls(name, text):
    return re.search(rf"(?<!fn )(?<![\w.]){name}\(", text) is not None


def statuses(text):
    """The statuses that a test wants: tuples and numbers that are compared, and exit codes in their order."""
    found = [it.replace(",", "").split() for it in re.findall(r"\bsame\([^;]*?\((\d+(?:, \d+)*)\)\)?,?\s*\)?;", text)]
    found += [[it] for it in re.findall(r"\bsame\([^;]*, (\d+)\);", text)]
    codes = [it or "0" for it in re.findall(r"ExitCode::(?:SUCCESS|from\((\d+)\))", text)]
    return found + [codes[at:] for at in range(len(codes))] + [[it] for it in codes]


def wrong_test(name, by, wanted, code):
    """What is wrong with a test that is to meet a theorem's premises; empty if nothing."""
    for held in code.values():
        for test in (it for it in held if it.name == by and it.is_test):
            text = reached(test, held)
            if not calls(name, text):
                return f"{name}: the test {by} doesn't call it"
            if wanted and wanted.split(", ") not in statuses(text):
                return f"{name}: the test {by} doesn't want {wanted}"
            return "" if wanted or not re.search(r"\(u8|-> u8|ExitCode", text + name) else ""
    return f"{name}: there is no test {by}"


def wrong_program(name, by, code, known):
    held = code.get(f"crates/{by}/src/main.rt")
    if not held:
        return f"{name}: there is no program {by}"
    text = "".join(it.body for path, those in code.items() if path.startswith(f"crates/{by}/") for it in those)
    return "" if calls(name, text) else f"{name}: the program {by} doesn't call it"


def wrong_through(name, by, stated, known):
    """What is wrong with a theorem through which another's premises are to be met."""
    if by not in known:
        return f"{name}: {by} is no theorem"
    if not known[name].is_law:
        return "" if calls(name, known[by].body) else f"{name}: {by} doesn't call it"
    law = re.search(r"ensures \{ (\w+) \}", known[name].contract)
    own = next((it for it in rests_on(known[name].crate, name) if law and it.name == law.group(1)), None)
    if not stated or not own or not re.search(rf"\b{stated}\b", "\n".join(own.text)):
        return f"{name}: the row doesn't name what the law states"
    return "" if any(it.name == stated for it in rests_on(known[by].crate, by)) else f"{name}: {by} doesn't state {stated}"


@functools.cache
def rests_on(crate, theorem):
    """The definitions that a theorem's statement rests on, as they stand in this repository."""
    return trust.rests_on(f"{crate}::{theorem}", [])[1]


def problems_of(row, clause, code, known):
    """What is wrong with a row's clause."""
    for name in row.names:
        if name not in known:
            yield f"{name} is no theorem of {' or '.join(CRATES)}"
        elif clause not in known[name].clauses() and (clause or known[name].clauses()):
            yield f"{name}: it has no clause {clause or 'without a name'} with premises"
        elif row.has_none and not known[name].is_law:
            yield f"{name} {clause}: it has premises"
        elif not row.met and not row.lacks and not row.has_none:
            yield f"{name} {clause}: nothing is said to meet it"
        elif row.premises != known[name].premises(clause):
            yield f"{name} {clause}: other premises than those of the sources: python3 tools/premises.py --fill"
        else:
            for kind, by, wanted, stated in row.met:
                yield {"test": wrong_test(name, by, wanted, code), "program": wrong_program(name, by, code, known), "through": ""}[kind] or (
                    wrong_through(name, by, stated, known) if kind == "through" else ""
                )


def reaches(met, table, seen=()):
    """Whether one comes from what is said to meet a clause to a test or a program."""
    return any(
        kind != "through" or by not in seen and any(reaches(row.met, table, (*seen, by)) for row in table if by in row.names) for kind, by, _, _ in met
    )


def judged(top):
    """What is wrong, of how many clauses the premises are met, and of how many by nothing yet."""
    code, table = functions(top), rows(top)
    known = theorems(top, code)
    has = {(name, clause) for row in table for name in row.names for clause in row.clauses}
    problems = [f"{name} {clause}: no row".replace(" :", ":") for name, it in known.items() for clause in it.clauses() if (name, clause) not in has]
    met, lacks = 0, 0
    for row in table:
        for clause in row.clauses:
            found = [it for it in problems_of(row, clause, code, known) if it]
            found += [f"{name} {clause}: no test or program meets it" for name in row.names if name in known and not (row.lacks or row.has_none or reaches(row.met, table))]
            problems += found
            met += 0 if found or row.lacks else len(row.names)
            lacks += len(row.names) if row.lacks else 0
    return list(dict.fromkeys(problems)), met, lacks


def print_premises(top, function, *clauses):
    """The premises of clauses of a function; those that several of them have, once."""
    crate, _, name = function.partition("::")
    found = next((it for path, held in functions(top).items() if path.startswith(f"crates/{crate}/") for it in held if it.name == name and it.is_public), None)
    if found is None or not set(clauses) <= {it for it, _ in found.parts("ensures")}:
        print(f"{function} {' '.join(clauses)}: no such clauses", file=sys.stderr)
        return 2
    for clause in clauses:
        print(f"{name}, {clause}:", *found.premises(clause), sep="\n  ")
    return 0


def main():
    sys.setrecursionlimit(10_000)
    arguments, top = sys.argv[1:], os.path.join(HERE, "..")
    if arguments[:1] == ["--of"] and len(arguments) > 2:
        return print_premises(top, *arguments[1:])
    if arguments == ["--fill"]:
        made, old = filled(top), read(top, TABLE)
        with open(os.path.join(top, TABLE), "w", encoding="utf-8") as out:
            out.write(made)
        print(f"{TABLE}: {'as it was' if made == old else 'changed'}")
        return 0
    top = arguments[0] if arguments else top
    if len(arguments) > 1 or top.startswith("-") or not os.path.isfile(os.path.join(top, TABLE)):
        print("\n".join(__doc__.split("\n")[:2]), file=sys.stderr)
        return 2
    problems, met, lacks = judged(top)
    print("\n".join([*problems, f"of {met} clauses the premises are met, of {lacks} by nothing yet"]))
    return 1 if problems else 0


if __name__ == "__main__":
    sys.exit(main())
