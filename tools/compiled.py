#!/usr/bin/env python3
"""usage: compiled.py [--keep FOLDER] [FUNCTION [CLAUSE..]]

Compiles a printed statement by itself. It takes the definitions that tools/trust.py prints for a theorem, and no others, writes
them into crates that are else empty, in a temporary folder, states the theorem over them as a method of a trait, and has the
toolchain's checker accept it all. So nothing that the statement needs is left out of what is printed. Each line that it writes of a
definition is held against the crate's file: it is a line of that file, byte for byte, in its order. The lines that it adds are
those that bring names in, copied from the same file as far as they are used, and the names of modules.

FUNCTION is CRATE::NAME, and without CLAUSE all its clauses are meant. Without arguments `decks`
of run_twice and `ends` of serve_described are compiled. With --keep the crates are written into FOLDER, which must not be there yet, and stay there. Needs
rt; some two minutes of a processor for each statement.
"""
import os
import re
import shutil
import subprocess
import sys
import tempfile

sys.dont_write_bytecode = True
import rattle_source
import scopes
import trust

STATEMENTS = [
    ("b67_promises::run_twice", ["decks"]),
    ("b67_promises::serve_described", ["ends"]),
]
IMPORT = re.compile(r"^[ \t]*(?P<prefix>(?:unfoldable )?(?:pub )?(?:ghost )?use )(?P<module>[^;{\n]+?)(?:(?P<open>\.\{|::\{)(?P<names>[^}]*)\})?(?P<end>;?)$", re.M)


class Wrong(Exception):
    """What is wrong with the statement, in words."""


def read(path):
    with open(path, encoding="utf-8") as text:
        return text.read()


def is_rust(path):
    return path.endswith(".rt")


class Copy:
    """A crate's file, of which some definitions are copied, with the imports that they use."""

    def __init__(self, path):
        self.path, self.blocks, self.passed = path, {}, set()
        self.source = trust.file_at(path)
        self.lines = read(path).split("\n")

    def take(self, block):
        self.blocks[block.first] = block

    def text_of(self, block):
        """The lines of a definition as they stand in the file, and with a derived error what derives it."""
        lines = list(block.text)
        while lines and (not lines[-1].strip() or lines[-1].startswith(("--", "//"))):
            lines.pop()
        first = block.first - 1
        if self.lines[first:first + len(lines)] != lines:
            raise Wrong(f"{self.path}: {block.name} isn't as it stands in the file")
        if any("#[error(" in line for line in lines):
            while self.lines[first - 1].startswith("#[derive("):
                first -= 1
                lines.insert(0, self.lines[first])
        return lines

    def names(self):
        """The names that the definitions use, and those that the file passes on."""
        used = set(self.passed)
        for block in self.blocks.values():
            text = [line for line in self.text_of(block)]
            for line in text:
                line = trust.code_in(block, line)
                used.update(["[]"] if "[]" in line else [])
                for token in (scopes.RUST if is_rust(self.path) else scopes.WORD).findall(line):
                    used.update((token, token.partition(".")[0], trust.STANDS_FOR.get(token, token)))
        return used

    def uses(self, name, used):
        """Whether a name is used that an import brings; of an operator each part is."""
        return name in used or "◌" in name and all(part in used for part in name.split("◌") if part)

    def imports(self):
        """The lines that bring in what is used, each with the names that are used of it."""
        text, used = "\n".join(self.lines), self.names()
        for found in IMPORT.finditer(text):
            if found.group().startswith("    ") or "impl" in found.group():
                continue
            prefix, module, names = found.group("prefix"), found.group("module").strip(), found.group("names")
            if names is None:
                last = module.split(" as ")[-1].strip() if " as " in module else re.split(r"::|\.", module)[-1]
                if self.uses(last, used):
                    yield prefix, module, None, found.group("end")
                continue
            kept = []
            for name in names.replace("\n", " ").split(","):
                name = name.strip()
                if name and self.uses(name.split(" as ")[-1].strip(), used):
                    kept.append(name)
            if kept:
                yield prefix, module, (found.group("open"), kept), found.group("end")


class Statement:
    """The crates in which a statement stands alone."""

    def __init__(self, function, clauses):
        self.function, self.clauses = function, clauses
        self.whole, self.order = trust.rests_on(function, clauses)
        if self.whole is None:
            raise LookupError(function)
        self.block = trust.statement(function, [])[0]
        self.copies = {}
        for block in self.order:
            self.copy(block.path).take(block)
        self.head = [line for line in self.whole.text]
        at = self.head.index("{")
        self.head = self.head[:at]
        self.pass_on()

    def copy(self, path):
        if path not in self.copies:
            self.copies[path] = Copy(path)
        return self.copies[path]

    def heading(self):
        """The file of the function, with what its signature and its clauses use."""
        own = Copy(self.block.path)
        own.take(self.block)
        own.text_of = lambda block: self.head
        return own

    def pass_on(self):
        """Files that pass on a name that another one uses pass it on here too."""
        waiting = list(self.copies.values()) + [self.heading()]
        while waiting:
            one = waiting.pop()
            for _, module, names, _ in list(one.imports()):
                parts = re.split(r"\.|::", module.split(" as ")[0].strip())
                if parts[0] == "Rattle" and parts[1].startswith("b67") and len(parts) > 3 and parts[3] != "declared" and names:
                    path = os.path.join(trust.TOP, parts[1], *parts[2:]) + ".antt"
                    source = trust.file_at(path)
                    for name in names[1]:
                        name = name.split(" as ")[0].strip()
                        if name not in source.blocks and name in source.imports and name not in self.copy(path).passed:
                            self.copy(path).passed.add(name)
                            waiting.append(self.copy(path))

    def crates(self):
        """The crates that are written, with what each stands on, as crates.txt has it."""
        present = {os.path.relpath(path, trust.TOP).split(os.sep)[0] for path in self.copies}
        known, own = rattle_source.crates(with_kit=True), self.function.partition("::")[0]
        rows = [(name, [one for one in below if one in present or not one.startswith("b67")]) for name, below in known.items() if name in present]
        rows.append(("statement", sorted({one for one in known[own] if one in present or not one.startswith("b67")} | ({own} & present))))
        return rows

    def write(self, folder):
        """Writes the crates, and answers how many lines are copied and added."""
        rows = self.crates()
        put(os.path.join(folder, "crates.txt"), [f"{name}: {' '.join(below)}" for name, below in rows])
        copied = added = 0
        for path, copy in sorted(self.copies.items()):
            lines = []
            for prefix, module, names, end in copy.imports():
                lines.append(prefix + module + ("" if names is None else f"{names[0]}{', '.join(names[1])}}}") + end)
            added += len(lines)
            for _, block in sorted(copy.blocks.items()):
                text = copy.text_of(block)
                copied += len(text)
                lines += [""] + text
            put(os.path.join(folder, "crates", os.path.relpath(path, trust.TOP)), lines)
        for name, _ in rows[:-1]:
            self.write_roots(folder, name)
        self.write_statement(folder)
        return copied + len(self.head), added

    def write_roots(self, folder, name):
        """The files that name a crate's modules."""
        own = [path for path in self.copies if path.startswith(os.path.join(trust.TOP, name, ""))]
        modules = sorted(os.path.basename(path)[:-3] for path in own if is_rust(path) and os.path.basename(path) != "lib.rt")
        source = trust.file_at(os.path.join(trust.TOP, name, "src", "lib.rt"))
        lines = ["#![tactic(auto)]"]
        for module in modules:
            lines += ["", f"pub mod {module};"]
            given = sorted(known for known, (place, _) in source.imports.items() if place == module and known in {block.name for path in own if os.path.basename(path) == module + ".rt" for block in self.copies[path].blocks.values()})
            if given:
                lines.append(f"pub use {module}::{{{', '.join(given)}}};")
        put(os.path.join(folder, "crates", name, "src", "lib.rt"), lines)
        specs = sorted(os.path.relpath(path, os.path.join(trust.TOP, name, "specs"))[:-5] for path in own if not is_rust(path))
        order = [line.split()[-1] for line in read(os.path.join(trust.TOP, name, "specs", "Lib.antt")).split("\n") if "mod " in line] if specs else []
        if specs:
            put(os.path.join(folder, "crates", name, "specs", "Lib.antt"), [f"pub mod {one}" for one in order if one in specs])

    def write_statement(self, folder):
        """The theorem, as a method that a type would have to offer: its contract is the function's, line for line."""
        lines = ["//! The statement alone.", "#![tactic(auto)]", ""]
        own = self.function.partition("::")[0]
        for prefix, module, names, end in self.heading().imports():
            module = re.sub(r"^(crate|super|self)\b", own, module)
            lines.append(prefix + module + ("" if names is None else f"{names[0]}{', '.join(names[1])}}}") + end)
        lines += ["", "/// What is proved of the function of this name.", "pub trait Statement {"]
        head = list(self.head)
        head[0] = re.sub(r"^pub (?=fn )", "", head[0])
        head[-1] += ";"
        put(os.path.join(folder, "crates", "statement", "src", "lib.rt"), lines + head + ["}"])


def put(path, lines):
    os.makedirs(os.path.dirname(path), exist_ok=True)
    with open(path, "w", encoding="utf-8") as file:
        file.write("\n".join(lines) + "\n")


def compiled(function, clauses, keep):
    """Whether the checker accepts a statement; prints what it says."""
    statement = Statement(function, clauses)
    if shutil.which("rt") is None:
        raise Wrong("rt isn't on the path")
    title = function + "".join(" " + clause for clause in clauses)
    folder = keep or tempfile.mkdtemp()
    try:
        copied, added = statement.write(folder)
        for name, _ in statement.crates():
            done = subprocess.run(["rt", "check"], cwd=os.path.join(folder, "crates", name), stdout=subprocess.PIPE, stderr=subprocess.STDOUT, stdin=subprocess.DEVNULL)
            if done.returncode:
                print(done.stdout.decode(errors="replace"))
                print(f"{title}: {name} is refused")
                return False
            lib = subprocess.run(["rt", "lib"], cwd=os.path.join(folder, "crates", name), stdout=subprocess.PIPE, stderr=subprocess.STDOUT, stdin=subprocess.DEVNULL)
            if lib.returncode:
                print(lib.stdout.decode(errors="replace"))
                print(f"{title}: {name} isn't built")
                return False
        print(f"{title}: accepted by itself, {copied} lines as they stand in {len(statement.copies) + 1} files, {added} that bring names in, {len(statement.crates())} crates")
        return True
    finally:
        if not keep:
            shutil.rmtree(folder)


def main(arguments):
    sys.setrecursionlimit(10000)
    keep = None
    if arguments[:1] == ["--keep"]:
        if len(arguments) < 3 or os.path.exists(arguments[1]) or not os.path.isdir(os.path.dirname(os.path.abspath(arguments[1]))):
            return None
        keep, arguments = os.path.abspath(arguments[1]), arguments[2:]
    if any(argument.startswith("-") for argument in arguments):
        return None
    try:
        return 0 if all([compiled(function, clauses, keep) for function, clauses in ([(arguments[0], arguments[1:])] if arguments else STATEMENTS)]) else 1
    except LookupError:
        return None
    except Wrong as wrong:
        print(wrong, file=sys.stderr)
        return 1


if __name__ == "__main__":
    status = main(sys.argv[1:])
    if status is None:
        print(__doc__.split("\n")[0], file=sys.stderr)
        status = 2
    sys.exit(status)
