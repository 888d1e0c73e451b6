#!/usr/bin/env python3
"""usage: names.py [DOCUMENT..]

Looks at what documents name: README, CONTRIBUTING and those of docs, bench, reference, scripts, tools and web, or the ones that are given. CHANGES
tells of the past. A name in backquotes that stands with a crate or a file must be declared there: `NAME` of `CRATE`, `NAME`
(`CRATE`), `NAME`, `CRATE`, `FILE`: `NAME`, and in a table the names behind a crate. A file behind a crate must be that crate's.
Each other name with a low line must be declared somewhere. A drawing, a block of code that begins with ```calls, is held against
the code: each function is declared in its crate, and is called in the body of the one that it hangs on. Prints what isn't so.
"""
import glob
import os
import re
import sys

import rattle_source

TOP = rattle_source.TOP
PAGES = ["README.md", "CONTRIBUTING.md", "docs/*.md", "bench/README.md", "reference/README.md", "scripts/README.md", "tools/README.md", "web/README.md"]
QUOTED = r"`([^`]+)`"
NAME = r"[A-Za-z_]\w*(?:::\w+)*(?:-\w+)*"
IS_FILE = re.compile(r"(?:[\w./]*/)?[\w-]+\.(?:rt|antt)$|(?:src|specs|proofs)/\w+$")
# The kit's own names, which nothing here uses.
KIT = {"take_while", "values_d", "inverse_ok"}
FOLDERS = ("src", "specs", "proofs", "must-fail", "more-edits")


class Crate:
    """The names that a crate declares and passes on, those of each of its files and of its edits, and the bodies of its functions."""

    def __init__(self, folder):
        self.files, self.words, self.passed, self.bodies = {}, set(), set(), {}
        for kind in ["src", "specs", "proofs"]:
            for path in glob.glob(os.path.join(folder, kind, "**", "*"), recursive=True):
                if path.endswith((".rt", ".antt")):
                    with open(path, encoding="utf-8") as text:
                        self.read(os.path.relpath(path, folder), text.read())
        for kind in ["must-fail", "more-edits"]:
            edits = glob.glob(os.path.join(folder, kind, "*.edit"))
            self.files[kind] = {os.path.basename(edit)[:-len(".edit")] for edit in edits}

    def read(self, path, text):
        self.files.setdefault(path, set()).update(rattle_source.declared(path, text))
        self.words.update(re.findall(r"[\w-]+", text))
        self.passed |= rattle_source.passed_on(text)
        for it in rattle_source.functions(text.split("\n")) if rattle_source.is_code(path) else []:
            body = [line for line in it.body if not line.lstrip().startswith("//")]
            self.bodies[it.name] = self.bodies.get(it.name, "") + "\n".join(body)

    def declares(self, name):
        return name in self.passed or any(name in names for names in self.files.values())

    def file(self, path):
        """The names of a file of this crate, named as `src/x.rt`, `x.rt`, `specs/X` or `X`; None if there is none."""
        found = [file for file in self.files if file in (path, path + ".antt") or file.endswith(("/" + path, "/" + path + ".antt"))]
        return set().union(*[self.files[file] for file in found]) if found else None

    def has(self, name):
        """Whether there is a file of definitions or proofs of a name."""
        return any(re.search(rf"(^|/){name}\.antt$", file) for file in self.files)


class House:
    """All crates, and what is called by a name anywhere."""

    def __init__(self):
        folders = glob.glob(os.path.join(TOP, "crates", "*", ""))
        self.crates = {os.path.basename(folder.rstrip("/")): Crate(folder) for folder in folders}
        self.all, self.given, self.below = set(), set(), rattle_source.crates()
        for crate in self.crates.values():
            self.all.update(*crate.files.values())
        for path in glob.glob(os.path.join(TOP, "crates", "*", "*", "**", "*"), recursive=True):
            if path.endswith((".rt", ".antt")) and "/out/" not in path:
                with open(path, encoding="utf-8") as text:
                    self.read_given(text.read())
        for path in glob.glob(os.path.join(TOP, "crates", "*", "*", "*.*")):
            self.given.add(os.path.basename(path).rsplit(".", 1)[0])
            if path.endswith(".rows"):
                with open(path, encoding="utf-8") as text:
                    self.given.update(re.findall(r"^row (\w+)", text.read(), re.M))
        self.known = self.all | self.given | KIT

    def read_given(self, text):
        """What the standard library and the kit's crates declare, as far as it is used here; must-fail edits and rows stand in files."""
        self.given.update(re.findall(r"(?:\.|::)(\w+)(?=[(:<])", text))
        for used in re.finditer(r"use (?:Rattle\.)?(?:std|core|alloc|\w+)[^;{\n]*(?:\{([^}]*)\}|(\w+))", text):
            self.given.update(re.findall(r"\w+", used.group(1) or used.group(2)))

    def flaw(self, name, place, used=False):
        """Why a name isn't declared in a place, a crate or a file, or isn't used there at least; None if it is."""
        last = re.split(r"::|\(", name)[-1] if "(" not in name else name.split("(")[0].split("::")[-1]
        if place in self.crates:
            if used and last in self.crates[place].words:
                return None
            return None if self.crates[place].declares(last) else f"{name} isn't declared in {place}"
        path = re.sub(r"^crates/", "", place)
        crate, _, file = path.partition("/")
        within = [self.crates[crate].file(file)] if crate in self.crates else [one.file(path) for one in self.crates.values()]
        within = [names for names in within if names is not None]
        if not within:
            return f"{place}: no such file"
        return None if any(last in names for names in within) else f"{name} isn't declared in {place}"

    def is_below(self, name, crate):
        """Whether a name is declared in a crate or in one that it stands on."""
        return any(one in self.crates and self.crates[one].declares(name) for one in [crate, *self.below.get(crate, [])])

    def is_place(self, name):
        return name in self.crates or bool(IS_FILE.match(name))

    def is_known(self, name):
        return name in self.known or re.search("[A-Z]{2}", name) or any(crate.startswith(name) for crate in self.crates)


def is_name(text):
    return bool(re.fullmatch(NAME + r"(?:\([^()]*\))?", text)) and text[0] != "_" and text not in FOLDERS


def attached(line, house):
    """The names of a line that stand with a place: the name, the place, and whether it need only be used there."""
    place = "(?P<place>[^`]+)"
    forms = [
        rf"(?P<names>`[^`]+`(?:(?:, | and |, and | or )`[^`]+`)*) (?:of|in) `{place}`",
        rf"(?P<names>`[^`]+`) \((?:in )?`{place}`",
        rf"(?P<names>`[^`]+`), (?:of |in )?`{place}`(?=[),.;:]|$)",
        rf"`{place}`: (?P<names>`[^`]+`(?:(?:, | and |, and )`[^`]+`)*)(?! \()",
    ]
    for form in forms:
        for found in re.finditer(form, line):
            if house.is_place(found.group("place")) and not (form == forms[3] and found.group("place") in house.crates):
                for name in re.findall(QUOTED, found.group("names")):
                    if is_name(name) and not house.is_place(name):
                        yield name, found.group("place"), form == forms[1]


def of_row(cells, house):
    """The names of a row of a table that stand behind a crate, and the files. `main` is a program's, which stands on the crate."""
    alone = re.fullmatch(r"`(b67\w*)`", cells[0]) if len(cells) == 3 else None
    if alone and alone.group(1) in house.crates:
        for name in re.findall(QUOTED, cells[1] + cells[2]):
            if IS_FILE.match(name):
                yield None, f"{alone.group(1)}/{name}"
            elif is_name(name) and name != "main" and name not in house.crates and not house.is_below(re.split(r"::|\(", name)[-1] if "(" not in name else name.split("(")[0], alone.group(1)):
                yield name, alone.group(1)
    for cell in cells:
        for part in cell.split(";"):
            quoted = re.findall(QUOTED, part)
            if quoted and quoted[0] in house.crates and part.strip().startswith("`"):
                for name in quoted[1:]:
                    if IS_FILE.match(name):
                        yield None, f"{quoted[0]}/{name}"
                    elif name not in house.crates and is_name(name) and re.match(r"[a-z]", name) and ":" not in part:
                        yield name, quoted[0]
    last = re.findall(r"`(b67\w*)` ([A-Z]\w*(?:, [A-Z]\w*)*)", cells[-1]) if cells else []
    names = re.findall(QUOTED, cells[-2]) if len(cells) > 1 else []
    if last and names and is_name(names[0]) and names[0] not in house.crates:
        yield names[0], [f"{crate}/specs/{file}" for crate, files in last for file in files.split(", ")] + [f"{crate}/proofs/{file}" for crate, files in last for file in files.split(", ")]


def flaws_of_line(line, house, used):
    """What isn't so of a line; where `used`, a crate in brackets behind a name is one that uses it."""
    cells = [cell.strip() for cell in line.strip("|").split("|")] if line.startswith("|") else []
    told = set()
    for name, place, beside in attached(line, house):
        flaw = house.flaw(name, place, used and beside)
        if flaw:
            yield flaw
        told.add(name)
    for crate, files in re.findall(r"`(b67\w*)` ([A-Z][A-Za-z]+(?:, [A-Z][A-Za-z]+)*)(?=[;)|]| \|)", line):
        for file in files.split(", "):
            if crate in house.crates and not house.crates[crate].has(file):
                yield f"{file}: no file of {crate}"
    for name, place in of_row(cells, house):
        if isinstance(place, list):
            if all(house.flaw(name, one) for one in place):
                yield f"{name} isn't declared in {', '.join(sorted({one.split('/')[0] + ' ' + one.split('/')[2] for one in place}))}"
        elif name is None:
            crate, _, file = place.partition("/")
            if house.crates[crate].file(file) is None:
                yield f"{file}: no file of {crate}"
        else:
            flaw = house.flaw(name, place)
            if flaw:
                yield flaw
        told.add(name)
    for name in re.findall(QUOTED, line):
        if name not in told and re.fullmatch(r"[a-z]\w*_[a-z0-9]\w*", name) and not house.is_known(name):
            yield f"{name} isn't declared anywhere"


BRANCH = re.compile(r"^([│├└─ ]*)((?:\w+::)?\w+(?:, (?:\w+::)?\w+)*)(?: \((\w+)\))?(?:  +.*)?$")


def flaws_of_drawing(lines, house):
    """Of each line of a drawing: whether its functions are declared, and called by the one that they hang on."""
    over = []
    for number, line in lines:
        if not line.strip():
            continue
        found = BRANCH.match(line)
        if not found:
            yield number, f"no function: {line.strip()}"
            continue
        depth = len(found.group(1))
        while over and over[-1][0] >= depth:
            over.pop()
        crate = found.group(3) or (over[-1][2] if over else None)
        if crate not in house.crates:
            yield number, f"no crate: {line.strip()}"
            continue
        for name in found.group(2).split(", "):
            last = name.split("::")[-1]
            if last not in house.crates[crate].bodies:
                yield number, f"{name} is no function of {crate}"
            elif over and not re.search(rf"\b{last}\b", house.crates[over[-1][2]].bodies.get(over[-1][1], "")):
                yield number, f"{over[-1][1]} of {over[-1][2]} doesn't call {name}"
        over.append((depth, found.group(2).split(", ")[-1].split("::")[-1], crate))


def read(path):
    """The lines of text, and the drawings: each with the numbers of its lines."""
    plain, drawings, inside = [], [], None
    with open(path, encoding="utf-8") as text:
        for number, line in enumerate(text.read().split("\n"), 1):
            if line.startswith("```"):
                inside = None if inside else line[3:] or "text"
                if inside == "calls":
                    drawings.append([])
            elif inside == "calls":
                drawings[-1].append((number, line))
            elif not inside:
                plain.append((number, line))
    return plain, drawings


def main(arguments):
    if any(argument.startswith("-") or not os.path.isfile(argument) for argument in arguments):
        print(__doc__.split("\n")[0], file=sys.stderr)
        return 2
    house = House()
    wrong = named = drawn = 0
    pages = [os.path.realpath(page) for page in arguments] or [found for page in PAGES for found in sorted(glob.glob(os.path.join(TOP, page)))]
    for page in pages:
        plain, drawings = read(page)
        found = [(number, flaw) for number, line in plain for flaw in flaws_of_line(line, house, page.endswith("PROVING.md"))]
        named += sum(len(re.findall(QUOTED, line)) for _, line in plain)
        for drawing in drawings:
            drawn += len(drawing)
            found += flaws_of_drawing(drawing, house)
        for number, flaw in sorted(found):
            print(f"{os.path.relpath(page, TOP)}:{number}: {flaw}")
        wrong += len(found)
    print(f"{named} names, {drawn} drawn lines, {wrong} wrong")
    return 1 if wrong else 0


if __name__ == "__main__":
    sys.exit(main(sys.argv[1:]))
