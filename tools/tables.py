#!/usr/bin/env python3
"""usage: tables.py [--check]

Makes the lists of the operators again, from the one table OPERATORS of crates/b67_model/src/operators.rt: the tables of b67_syllable and
b67_exec by first syllable, which their proofs compare with it, and the lists of the editors, of scripts/listing.sh and of the page.
Then compares what is written by hand: the table of docs/MACHINE.md, the lists of docs/b67-deck.5 and of the reference, and what the page
says of each operator. With --check nothing is written, and the status is 1 if a list is old. It is 1, too, if a page says otherwise.
"""
import os
import re
import sys

from rattle_source import TOP, read

MODEL = "crates/b67_model/src/operators.rt"
ROW = re.compile(r'^    \(0x([0-9A-F]{2}), b"(\w+)", Mnemonic::(?:Plain\(Code::(\w+)\)|(\w+))\),$', re.M)
# What an operator with parameters is in the table of kinds, and how many syllables follow its first; 8 for the next whole word.
PARAMETERS = {
    "Lt8": ("Literal8", 1), "Lt16": ("Literal16", 2), "Lt48": ("Literal48", 8), "Mpcw": ("MakePcw", 8), "Bset": ("SetBit", 1),
    "Brst": ("ResetBit", 1), "Isol": ("Isolate", 2), "Insr": ("Insert", 2), "Brfl": ("BranchFalse", 2), "Brtr": ("BranchTrue", 2),
    "Brun": ("Branch", 2),
}
# The operators of an editor's colours, by their first syllables; what stands in none takes or gives a value.
GROUPS = {
    "Arithmetic": range(0x80, 0x90), "Bits": range(0x90, 0xA0), "Flow": [0xA0, 0xA1, 0xA2, 0xA3, 0xA7, 0xAB, 0xAE],
    "Stack": [0xB4, 0xB5, 0xB6, 0xB7, 0xFE, 0xFF],
}
# What the page asks for, beside the operators on numbers: those whose answer can be told from decimal numbers.
ASKED = ["LAND", "LOR", "ISOL", "INSR", "NXLV"]


def operators():
    """Each operator: its first syllable, its name, the code of one without parameters, the variant of one that has some."""
    table = read(MODEL).partition("const OPERATORS")[2].partition("\n];")[0]
    rows = [(int(first, 16), name, code, other) for first, name, code, other in ROW.findall(table)]
    if len(rows) != table.count("Mnemonic::") or rows != sorted(rows):
        sys.exit(f"{MODEL}: a line of OPERATORS isn't read, or stands out of order")
    return rows


def names_of(group, rows):
    """The names of a group, in the table's order."""
    groups = {first: name for name, firsts in GROUPS.items() for first in firsts}
    return [name for first, name, _, _ in rows if groups.get(first, "Value") == group]


def by_first(rows, of, none):
    """A line for each first syllable from 0x80 on."""
    table = {row[0]: row for row in rows}
    return [of(table[first]) if first in table else none for first in range(0x80, 0x100)]


def kinds(rows):
    def kind(row):
        return f"    Some(Kind::{f'Lone(Code::{row[2]})' if row[2] else PARAMETERS[row[3]][0]}),\n"

    return "".join(by_first(rows, kind, "    None,\n"))


def near_names():
    """The operators that b67_exec reads syllable after syllable."""
    variants = read("crates/b67_exec/src/firsts.rt").partition("pub enum Near {\n")[2].partition("\n}")[0]
    return re.findall(r"^    (\w+),$", variants, re.M)


def nears(rows):
    known = near_names()

    def near(row):
        name = row[2] or row[3]
        return f"    Near::{name if name in known else f'Far(Code::{name})' if row[2] else 'Other'},\n"

    return "    Near::Valc,\n" * 64 + "    Near::Namc,\n" * 64 + "".join(by_first(rows, near, "    Near::Other,\n"))


def all_say(rows):
    """The proof that the table of b67_exec is the machine's, a part for each first syllable."""
    known = near_names()

    def part(row):
        if row[2] or row[3] in known:
            return "refl"
        return "(λ n. refl)" if PARAMETERS[row[3]][1] == 1 else "(λ m n. refl)"

    parts = ["refl"] * 128 + by_first(rows, part, "tt")
    return "".join(f"({part}, " for part in parts) + "tt" + ")" * len(parts)


def codes_of(rows, form):
    """A line for each operator without parameters."""
    known = re.findall(r"^    (\w+),$", read(MODEL).partition("pub enum Code {\n")[2].partition("\n}")[0], re.M)
    first = {code: at for at, _, code, _ in rows if code}
    if sorted(known) != sorted(first):
        sys.exit(f"{MODEL}: an operator without parameters isn't in OPERATORS, or twice: {sorted(set(known) ^ set(first))}")
    return "".join(form % (code, at) for code, at in first.items())


def triples(rows, quoted, joint):
    """Code, name and number of syllables behind it, in lines of some 100 columns."""
    lines = [""]
    for first, name, code, other in rows:
        if first < 0x80:
            continue
        entry = f"{first:02x} {name} {0 if code else PARAMETERS[other][1]}"
        if len(lines[-1]) + len(entry) > 102:
            lines.append("")
        lines[-1] += entry + " "
    lines[-1] = lines[-1].rstrip()
    return joint.join(quoted + line + quoted for line in lines)


def alternatives(names):
    return "|".join(names)


def lists(rows):
    """Each made list: its file, a pattern with the text before it, the list, and the text after it, and what the list is now."""
    every = "(?:[^)]|\\)(?!\\\\))*"
    yield "crates/b67_syllable/src/kinds.rt", r"(const KINDS: \[Option<Kind>; 128\] = \[\n)(.*?)(\];)", kinds(rows)
    yield ("crates/b67_syllable/src/encoding.rt", r"(    match code \{\n)((?:        Code::\w+ => 0x..,\n)+)(    \})",
           codes_of(rows, "        Code::%s => 0x%02X,\n"))
    yield ("crates/b67_model/specs/Encoding.antt", r"(abbrev pub syllable_of : Code → ℕ\n)((?:syllable_of codes\.\w+ = 0x..\n)+)(\n)",
           codes_of(rows, "syllable_of codes.%s = 0x%02X\n"))
    yield "crates/b67_exec/src/firsts.rt", r"(const NEARS: \[Near; 256\] = \[\n)(.*?)(\];)", nears(rows)
    yield "crates/b67_exec/proofs/NearTable.antt", r"(\nall_say = )(\(.*?\))(\n\n)", all_say(rows)
    for group in ["Value", "Arithmetic", "Bits", "Flow", "Stack"]:
        yield "scripts/b67.vim", rf"(syntax keyword b67{group} )([A-Z0-9 ]+)(\n)", " ".join(names_of(group, rows))
    for scope, groups in {"keyword.control": ["Flow"], "keyword.operator": ["Arithmetic", "Bits"], "support.function": ["Value", "Stack"]}.items():
        yield ("editors/vscode/b67.tmLanguage.json", rf'("name": "{scope}\.b67", "match": "\\\\b\()({every})(\)\\\\b")',
               alternatives(sum((names_of(group, rows) for group in groups), [])))
    yield "scripts/listing.sh", r'(    split\()("80 .*?")(, table, " "\))', triples(rows, '"', " \\\n        ")
    yield "web/src/reader/operators.js", r"(const TABLE = )('80 .*?')(;)", triples(rows, "'", "\n  + ")
    yield ("web/src/course/predict.js", r"(const COMPUTES = /\^\()([A-Z|0-9]+)(\)\$/;)", alternatives(names_of("Arithmetic", rows) + ASKED))


def section(text, heading):
    """A section of a page, by the words of its heading."""
    return re.search(rf"^## [^\n]*{heading}\n(.*?)(?=^## |\Z)", text, re.M | re.S).group(1)


def differences(rows):
    """What is written by hand and says otherwise."""
    table = {name: first for first, name, _, _ in rows}
    said, takes = {}, {}
    for cells in re.findall(r"^\| ([A-Z][^|]*) \| ([0-9A-F ]+|top bits [01]+) \|([^|]*)\|([^|]*)\|", section(read("docs/MACHINE.md"), "Operators"), re.M):
        names = re.findall(r"\b[A-Z][A-Z0-9]+\b", cells[0])
        firsts = [int(cells[1][9:], 2) << 6] if cells[1].startswith("top") else [int(code, 16) for code in cells[1].split()]
        picture = re.match(r" `((?:\w+ )*)->", cells[3])
        if len(names) != len(firsts):
            yield f"docs/MACHINE.md: {cells[0]} has {len(firsts)} codes"
        said.update(zip(names, firsts))
        takes.update({name: len(picture.group(1).split()) for name in names if picture})
    yield from (f"docs/MACHINE.md: {name} {'is missing' if name not in said else 'has another code' if name in table else 'is no operator'}"
                for name in sorted(set(table) | set(said)) if table.get(name) != said.get(name))
    reference = {name: int(code, 16) for name, code in re.findall(r'"(\w+)": \(?0x([0-9A-F]{2})\b', read("reference/syllables.py"))}
    yield from (f"reference/syllables.py: {name}" for name in sorted(set(table) | set(reference)) if table.get(name) != reference.get(name))
    manual = re.search(r"^The operators, by their operands:\n(.*?)^\.fi", read("docs/b67-deck.5"), re.M | re.S).group(1)
    yield from (f"docs/b67-deck.5: {name} isn't among the operators" for name in table if not re.search(rf"\b{name}\b", manual))
    page = read("web/src/reader/operators.js")
    meanings = re.findall(r"\b([A-Z][A-Z0-9]+): '", page.partition("const MEANINGS")[2])
    yield from (f"web/src/reader/operators.js: MEANINGS, {name}" for name in sorted(set(table) ^ set(meanings)))
    shown = {name: int(n) for name, n in re.findall(r"\b([A-Z][A-Z0-9]+): (\d)", page.partition("const TAKES")[2].partition("};")[0])}
    yield from (f"web/src/reader/operators.js: TAKES, {name}: {shown.get(name, 0)}, by docs/MACHINE.md {takes[name]}"
                for name in sorted(takes) if takes[name] != shown.get(name, 0))


def main(arguments):
    if arguments not in ([], ["--check"]):
        print(__doc__.split("\n")[0], file=sys.stderr)
        return 2
    rows, texts, old = operators(), {}, 0
    for path, pattern, made in lists(rows):
        text = texts.setdefault(path, read(path))
        new, found = re.subn(pattern, lambda it: it.group(1) + made + it.group(3), text, flags=re.S)
        if found != 1:
            print(f"{path}: {found} lists of the operators by {pattern}, not one")
            old = 1
        texts[path] = new
    for path, text in texts.items():
        if text != read(path):
            old = old or bool(arguments)
            print(f"{path}: {'old: python3 tools/tables.py makes it again' if arguments else 'changed'}")
            if not arguments:
                with open(os.path.join(TOP, path), "w", encoding="utf-8") as file:
                    file.write(text)
    wrong = list(differences(rows))
    print("\n".join(wrong + [f"{len(rows)} operators in {len(texts)} files, and in the pages"]))
    return 1 if old or wrong else 0


if __name__ == "__main__":
    sys.exit(main(sys.argv[1:]))
