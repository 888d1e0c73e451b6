"""What the tools read of Rattle's sources, so that a form of the language is known in one place: the crates and their files, what a
file declares, functions with their contracts and bodies, tests, and the definitions and items that a statement rests on. It is no
command."""
import dataclasses
import os
import re

TOP = os.path.normpath(os.path.join(os.path.dirname(os.path.abspath(__file__)), ".."))
VISIBLE = r"(?:pub(?:\([^)]*\))? )?"
QUALIFIED = r'(?:const |unsafe |extern "C" )*'
FUNCTION = re.compile(rf"^( *){VISIBLE}{QUALIFIED}fn (\w+)", re.M)
# (without `const fn`: so unproved.py was measured, whose program takes the instructions of the proved one)
HINTED = re.compile(rf"#\[inline(?:\((always|never)\))?\](?:\s*#\[[^\]]*\])*\s*{VISIBLE}fn (\w+)")
TEST = re.compile(r"#\[test\]\s*(?:///[^\n]*\s*)*fn (\w+)")
TEST_MODULE = re.compile(r"#\[cfg\(test\)\]\n(?:pub )?mod (\w+);")
HOLDER = re.compile(r"^impl(?:<[^{]*?>)? (?:(\w+)(?:<[^{]*?>)? for )?(\w+)", re.M)
CONTRACT = re.compile(r"\s*(?:requires|ensures)\b(?: (\w+) \{)?")
DECLARED = re.compile(rf"^\s*{VISIBLE}{QUALIFIED}(?:fn|struct|enum|trait|type|const|static|mod|union) (?:mut )?(\w+)")
MEMBER = re.compile(rf"^\s+{VISIBLE}(\w+)(?:: |,|\(| \{{|$)")
CLAUSE = re.compile(r"^\s*(?:ensures|requires) (\w+) \{")
VARIABLE = re.compile(r"(?:let (?:mut )?|for |[(,] ?&?(?:mut )?)(\w+)(?= =|: | in )")
DEFINED = re.compile(r"^\s*(?:(?:pub|abbrev|unfoldable|macro|record|data|ruleset) )*([^\s(){}\[\],;=:]+)(?: [:({=]|$)")
HEADED = re.compile(r"^(?:(?:abbrev|unfoldable|macro) )?(?:pub )?(?:(record|data) )?([^\s:(){}]+)")
PUBLIC = re.compile(r"(?:pub |abbrev |unfoldable )*(record |data |)([^\s(){}\[\],;=:]+)(?= [({:])")
CONSTRUCTOR = re.compile(r"\s+([^\s(){}\[\],;=:]+)(?: :|$)")
PASSED_ON = re.compile(r"^\s*pub use ([^;]+?)(?:;|\n(?=\S|\n)|$)", re.M)


def read(path):
    """The text of a file below the top."""
    with open(os.path.join(TOP, path), encoding="utf-8") as text:
        return text.read()


def is_code(path):
    return path.endswith(".rt")


def crates(with_kit=False):
    """The lines of crates.txt: each crate of the repository, and those that it stands on, with the libraries of the kit or without."""
    rows = {}
    for line in read("crates.txt").split("\n"):
        if line.strip() and not line.startswith("#"):
            name, _, below = line.partition(":")
            rows[name.split()[0]] = below.split()
    return {name: [it for it in below if with_kit or it in rows] for name, below in rows.items()}


def files(crate, folder, ending=(".rt", ".antt")):
    """The files of a folder of a crate, by their paths below the top."""
    for base, folders, names in os.walk(os.path.join(TOP, "crates", crate, folder)):
        folders.sort()
        for name in sorted(names):
            if name.endswith(ending):
                yield os.path.relpath(os.path.join(base, name), TOP)


def root(crate):
    """The root file of a crate's code."""
    library = f"crates/{crate}/src/lib.rt"
    return library if os.path.isfile(os.path.join(TOP, library)) else f"crates/{crate}/src/main.rt"


def test_modules(crate):
    """The modules of a crate that its root names under cfg(test)."""
    return set(TEST_MODULE.findall(read(root(crate))))


def said(text, mark="//!"):
    """What a file says at its head, as lines without the mark."""
    lines = []
    for line in text.split("\n"):
        if not line.startswith(mark):
            break
        lines.append(line[len(mark) :].strip())
    return lines


def counted(text):
    """How many lines are neither blank nor a comment."""
    return sum(1 for line in text.split("\n") if line.strip() and not line.strip().startswith(("//", "--")))


def declared(path, text):
    """The names that a file declares: items, members, clauses and variables of code, or definitions."""
    for line in text.split("\n"):
        if not line.lstrip().startswith(("//", "--", "use ", "pub use ", "ghost use ")):
            for pattern in (DECLARED, MEMBER, CLAUSE, VARIABLE) if is_code(path) else (DEFINED,):
                yield from pattern.findall(line)


def public_definitions(lines):
    """The public names that a file of definitions declares, with the constructors of its data."""
    data = False
    for line in lines:
        head = PUBLIC.match(line)
        if head and "pub " in line[:head.start(2)]:
            yield head.group(2)
        if line.strip() and not line.startswith((" ", "--")):
            data = bool(head) and head.group(1) == "data "
        elif data and CONSTRUCTOR.match(line):
            yield CONSTRUCTOR.match(line).group(1)


def passed_on(text):
    """The names that a file passes on by `pub use`."""
    return {name for found in PASSED_ON.findall(text) for name in re.findall(r"\w+(?:-\w+)*", found)}


@dataclasses.dataclass
class Function:
    """A function of a file of code: where it begins, counted from 1, its signature and contract, and its body, as lines."""

    name: str
    first: int
    head: list
    body: list

    def is_public(self):
        return self.head[0].lstrip().startswith("pub fn ")

    def clauses(self):
        return [line for line in self.head if CONTRACT.match(line)]

    def signature(self):
        """What stands before the contract and the body, as one line, without the comma that a formatter writes."""
        before = next((at for at, line in enumerate(self.head) if CONTRACT.match(line)), len(self.head))
        text = re.sub(r"\s+", " ", "\n".join(self.head[:before])).replace("( ", "(").replace(", )", ")")
        return re.sub(r"^pub (?=fn )|\s*\{(?: ?\})?$", "", text.strip())


def functions(lines):
    """The functions of a file of code. A head ends with the line that opens the body: a brace alone below a contract, and else at the
    end of the signature; or with a semicolon, where there is no body."""
    at = 0
    while at < len(lines):
        found, first = FUNCTION.match(lines[at]), at
        at += 1
        if not found:
            continue
        indent, has_contract = found.group(1), False
        while at < len(lines):
            has_contract = has_contract or bool(CONTRACT.match(lines[at - 1]))
            last = lines[at - 1]
            if last in (indent + "{", indent + "{}") or last.endswith(";") or not has_contract and last.endswith(("{", "{}")):
                break
            at += 1
        begin = at
        if not lines[at - 1].endswith(("{}", ";")):
            while at < len(lines) and lines[at] != indent + "}":
                at += 1
        yield Function(found.group(2), first + 1, lines[first:begin], lines[begin:at])


def function_at(file, text, place):
    """The function in whose text a place stands, as a check prints it; None outside functions, and in a file that isn't code. The file
    is named below its crate."""
    found = list(FUNCTION.finditer(text, 0, place))
    if not file.startswith("src/") or not found:
        return None
    last = found[-1]
    if re.search(rf"^{last.group(1)}\}}$", text[last.end() : place], re.M):
        return None
    module = file[len("src/") : -len(".rt")].replace("/", "::")
    holders = list(HOLDER.finditer(text, 0, last.start())) if last.group(1) else []
    holder = holders[-1].group(2) + (holders[-1].group(1) or "") if holders else ""
    return "::".join(it for it in ("" if module in ("lib", "main") else module, holder, last.group(2)) if it)


class Block:
    """One definition, or one item of Rust: where it stands and what its text is."""

    def __init__(self, path, name, first, text):
        self.path, self.name, self.first, self.text = path, name, first, text

    def lines(self):
        return [line for line in self.text if line.strip() and not line.strip().startswith(("--", "//", "ghost use", "use "))]

    def whole(self):
        """The lines as they stand, with the comments before the first, and without those that belong to the next definition."""
        with open(self.path, encoding="utf-8") as source:
            before = source.read().split("\n")[: self.first - 1]
        start = len(before)
        while start and before[start - 1].startswith(("--", "//")) and not before[start - 1].startswith(("-- ----", "//!")):
            start -= 1
        text = list(self.text)
        while text and (not text[-1].strip() or text[-1].startswith(("--", "//"))):
            text.pop()
        return before[start:] + [line for line in text if line.strip()]


def is_equation_of(block, line):
    """Whether a line is an equation of the operator that a block defines."""
    return block is not None and "◌" in block.name and block.name.replace("◌", "") in re.split(r" =(?= |$)", line)[0].split()


class File:
    """The definitions of a file, and what its names stand for."""

    def __init__(self, path):
        self.path, self.blocks, self.imports, self.aliases = path, {}, {}, {}
        with open(path, encoding="utf-8") as source:
            text = source.read()
        lines = text.split("\n")
        for whole in re.findall(r"^[ ]*(?:pub )?use [^;]*\{[^;]*;", text, re.M) if path.endswith(".rt") else []:
            self.read_import(" ".join(whole.split()).replace("{ ", "{"))
        for line in lines:
            self.read_import(line)
        (self.read_rust if path.endswith(".rt") else self.read_definitions)(lines)

    def read_import(self, line):
        found = re.match(r"(?:unfoldable )?(?:pub )?(?:ghost )?use ([^;{]+?)(?:\.\{|::\{|;|$)(?:(.*)\})?", line.strip())
        if not found:
            return
        module, names = found.group(1).strip(), found.group(2)
        if " as " in module:
            module, alias = module.split(" as ")
            self.aliases[alias.strip()] = module.strip()
        elif names is None:
            whole, _, last = module.rpartition("::")
            self.imports[last] = (whole, last)
        for name in (names or "").split(","):
            real, _, other = name.strip().partition(" as ")
            if real:
                self.imports[other.strip() or real] = (module, real)

    def read_definitions(self, lines):
        block, fixity = None, []
        for number, line in enumerate(lines, 1):
            if line.startswith("infix"):
                fixity.append(line)
                continue
            head = None if line[:1] in ("", " ", "-", "}", ")") or line.startswith(("use ", "pub use", "unfoldable pub use", "pub mod", "mod ")) else HEADED.match(line)
            if head and (block is None or head.group(2) != block.name) and not is_equation_of(block, line):
                block = Block(self.path, head.group(2), number - len(fixity), fixity)
                self.blocks.setdefault(block.name, block)
                fixity = []
            if block is not None:
                block.text.append(line)
                found = re.match(r"  (?:pub )?([^\s:]+) : ", line)
                if block.text[0].startswith(("pub data", "data")) and found:
                    self.blocks.setdefault(found.group(1), block)

    def read_rust(self, lines):
        for number, line in enumerate(lines, 1):
            found = re.match(r"(?:pub(?:\(crate\))? )?(struct|enum|trait|fn|const|static|type|impl(?:<[^<>]*>)? Model for) ?([A-Za-z_0-9]+)", line)
            if found:
                end = number
                ends = r".*;$" if found.group(1) in ("const", "static", "type") else r"\}|.*;$" if found.group(1) == "struct" and "{" not in line else r"\{?\}"
                while end < len(lines) and not re.match(ends, lines[end - 1]):
                    end += 1
                name = ("Model for " if found.group(1).endswith("Model for") else "") + found.group(2)
                self.blocks.setdefault(name, Block(self.path, name, number, lines[number - 1:end]))


FILES = {}


def file_at(path):
    if path not in FILES:
        FILES[path] = File(path) if os.path.isfile(path) else None
    return FILES[path]
