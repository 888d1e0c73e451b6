#!/usr/bin/env python3
"""usage: shorter.py [--lists] [--answers] [--steps N] CRATE|CRATE/FILE

Makes the proofs of a crate's lemmas shorter, or those of one of its proof files: `grind` stands in the place of a long clause, of
what follows the first lets of one, or of all clauses of a lemma that doesn't call itself. No statement changes. It works where the
libraries below the crate are built, as the gate or `rt lib` left them, on a copy of the crate's text. With --answers it makes the
answers of functions shorter, not the lemmas. Each round is one check:

1. Copies of each lemma stand behind it, each with one text that is tried. What is checked is one small function whose answers
   import every proof file, so no other function is proved. Of what passes within N steps (25000, if not said) the texts with the
   fewest lines win, then those with the fewest names.
2. Each name of a list is left out in turn; then together those that weren't needed.
3. The texts stand in the place of what they replace. Those that are refused there are undone, until none is.
4. Names that the new texts no longer say go from the imports, but in files where that is refused.
5. The whole crate is checked. What is refused is undone, at most three times.

The shorter texts come into the tree only if the whole crate was proved with them. A text has fewer lines than what it replaces, and no line
above 160 columns that is longer than each of those. Lines with a comment among them are left as they are. Prints a line for each
round and for each lemma, the lines of all proofs before and after, and processor minutes. Ends with status 1 if no text came into
the tree.

--lists prints instead which lemmas no other text names, and which state what another lemma states, of any crate. Nothing is tried.
"""
import collections
import functools
import glob
import os
import re
import resource
import sys
import tempfile

sys.dont_write_bytecode = True
import edits

TOP = edits.TOP
WIDTH = 160
WORD = re.compile(r"[^\s(){}\[\],;]+")
ATOM = re.compile(r"\[\]|[^\s(){}\[\],;]+")
USE = re.compile(r"(?:pub )?use (\S+?)(?:\.\{(.*)\}| as (\S+))?\s*$")
COMMON = re.compile(r"(?:pub )?use Rattle\.std\.proofs\.Common\.\{.*\}$")
SIGNATURE = re.compile(r"((?:abbrev |unfoldable |pub )*)(\S+)\s*:(?:\s|$)")
OTHER = re.compile(r"(?:pub )?(use|mod|data|record|ruleset|open|syntax|mutual|infix\w*)\b(?!\s*[:{])\s*(\S*)")
VARIABLE = re.compile(r"[a-z][\w'-]*$")
BOUND = re.compile(r"[({]([\w' -]+?)\s+:\s")
LET = re.compile(r"(?<!\S)(?:let|in)(?!\S)|[()\[\]{}]")
# (words that stand in the place of an argument and are none)
JOINS = {"∙", "≡", "≢", "↦", "=", "∷", "++", "×", "+", "in", "where", "let", "at"}
CONSTANTS = {"true", "false", "zero", "refl", "tt"}


def count(lines):
    """How many lines are neither blank nor a comment."""
    return sum(1 for line in lines if line.strip() and not line.strip().startswith("--"))


def indentation(line):
    return len(line) - len(line.lstrip(" "))


def closing(text, at):
    """The place behind the bracket that closes the one at a place; -1 if none does."""
    depth = 0
    for place in range(at, len(text)):
        depth += (text[place] in "({[") - (text[place] in ")}]")
        if depth == 0:
            return place + 1
    return -1


def atoms(text):
    """The words of a text, brackets with all that stands in them as one, up to a mark that is neither."""
    found, at = [], 0
    while at < len(text):
        word = ATOM.match(text, at)
        end = at + 1 if text[at].isspace() else word.end() if word else closing(text, at) if text[at] in "({" else -1
        if end < 0:
            break
        if not text[at].isspace():
            found.append(text[at:end])
        at = end
    return found


def apart(text, mark):
    """What stands between the marks of a text that no bracket holds."""
    parts, depth, begin = [], 0, 0
    for at, letter in enumerate(text):
        depth += (letter in "({[") - (letter in ")}]")
        if depth == 0 and letter == mark and text[at - 1 : at].isspace() and not text[at + 1 : at + 2].strip():
            parts.append(text[begin:at])
            begin = at + 1
    return [*parts, text[begin:]]


def lets_of(body):
    """The lets with which a body begins, each with its `in`, and what follows them."""
    lets, begin, depth, nested = [], 0, 0, 0
    for found in LET.finditer(body):
        mark = found.group(0)
        depth += (mark in "({[") - (mark in ")}]")
        if mark == "let" and depth == 0:
            if not nested and body[begin : found.start()].strip():
                break
            nested += 1
        elif mark == "in" and depth == 0 and nested:
            nested -= 1
            if not nested:
                lets.append(body[begin : found.end()])
                begin = found.end()
    return lets, body[begin:]


class Block:
    """A part of a proof file, by its lines, of which the last isn't in it: what kind it is, its name, and the lines of its clauses."""

    def __init__(self, kind, name, first, last):
        self.kind, self.name, self.first, self.last, self.head, self.clauses = kind, name, first, last, last, []


def groups_of(lines, first, last):
    """The stretches of lines that begin with the indentation of the first one."""
    groups, base = [], None
    for at in range(first, last):
        if not lines[at].strip():
            continue
        base = indentation(lines[at]) if base is None else base
        if indentation(lines[at]) == base and lines[at].strip()[0] not in "])}":
            groups.append([at, at + 1])
        elif groups:
            groups[-1][1] = at + 1
    return groups


def blocks_of(lines, first, last):
    """The blocks of lines, those inside modules too."""
    blocks, lemma = [], None
    for begin, end in groups_of(lines, first, last):
        text = lines[begin].strip()
        signature, other = SIGNATURE.match(text), OTHER.match(text)
        if text.startswith("--"):
            continue
        if re.match(r"(?:pub )?module\b", text):
            inner = next((at for at in range(begin, end) if lines[at].rstrip().endswith("where")), end - 1) + 1
            blocks, lemma = blocks + blocks_of(lines, inner, end), None
        elif text.startswith("unfolding ") and lemma:
            lemma.last = end
        elif other:
            blocks.append(Block(other.group(1), other.group(2), begin, end))
            lemma = None
        elif signature:
            kind = next((it for it in ("abbrev", "unfoldable") if it in signature.group(1)), "lemma")
            lemma = Block(kind, signature.group(2), begin, end)
            blocks.append(lemma)
        elif lemma:
            lemma.clauses.append((begin, end))
            lemma.last = end
    return blocks


class ProofFile:
    """A proof file: its lines, its blocks, and where the names come from that it imports."""

    def __init__(self, path):
        self.path, self.imports, self.aliases = path, {}, {}
        with open(path, encoding="utf-8") as text:
            self.lines = text.read().rstrip("\n").split("\n")
        self.blocks = blocks_of(self.lines, 0, len(self.lines))
        self.own = {it.name: it.kind for it in self.blocks if it.kind in ("lemma", "abbrev", "unfoldable")}
        for it in self.blocks:
            if it.kind == "use":
                self.read_import(" ".join(line.strip() for line in self.lines[it.first : it.last]))
        self.common = next((at for at, line in enumerate(self.lines) if COMMON.match(line)), None)

    def read_import(self, text):
        found = USE.match(text)
        module, items, alias = found.groups() if found else ("", None, "")
        if items is None:
            self.aliases[alias or module.split(".")[-1]] = module
        for item in (items or "").split(","):
            name, _, other = item.strip().partition(" as ")
            below, _, last = name.rpartition(".")
            self.imports[other or last] = f"{module}.{below}".rstrip(".")

    def is_lemma(self, word):
        """Whether a word names a lemma here: an own one, or one that comes from proofs."""
        if word in self.own:
            return self.own[word] == "lemma"
        module, name = self.imports.get(word, ""), word
        if not module:
            alias, _, name = word.partition(".")
            module = self.aliases.get(alias, "") if name and "." not in name else ""
        if ".proofs" not in module or name == "first_of" or (name[0].isupper() or "◌" in name) and not re.match(r"[A-Z]\w*-\w", name):
            return False
        if module == "Rattle.std.proofs.Common":
            return bool(re.search("[-_]", name))
        return kind_in(module, name) in ("lemma", "")

    def lemmas_in(self, text, without):
        """The lemmas that a text names, but for these words, in their order."""
        return list(dict.fromkeys(it for it in WORD.findall(text) if it not in without and self.is_lemma(it)))

    def knows(self, word, bound):
        return word in bound or word in self.imports or word in self.own or re.match(r"[\d◌]", word) or word in JOINS or word.split(".")[0] in bound

    def with_arith(self):
        """The file's lines, with an import of what `grind` takes."""
        lines = list(self.lines)
        if "arith" not in self.imports:
            lines[self.common] = f"{lines[self.common][:-1]}, arith}}"
        return lines


@functools.cache
def file_at(path):
    return ProofFile(path)


def kind_in(module, name):
    """What kind of block a module's name is; nothing, if the module only passes it on or isn't of the repository."""
    steps = module.split(".")
    path = f"{TOP}/crates/{'/'.join(steps[1:])}.antt"
    return next((it.kind for it in file_at(path).blocks if it.name == name), "") if os.path.isfile(path) else ""


class Clause:
    """A clause of a lemma: its lines, its two sides, and the names that its right side binds."""

    def __init__(self, file, span):
        (self.first, self.last), self.file = span, file
        self.lines = file.lines[self.first : self.last]
        self.left, *right = apart("\n".join(self.lines), "=")
        self.right = "=".join(right)
        self.inner = set(re.findall(r"(?:let|λ)\s+\(?([^\s():.,]+)", self.right))
        self.bound = set(WORD.findall(self.left))

    def calls(self, name):
        """The calls of the lemma itself, each with those of its first arguments that the left side tells."""
        found = []
        for call in re.finditer(rf"(?<![^\s(\[{{]){re.escape(name)}(?=\s)", self.right):
            told = []
            for atom in atoms(self.right[call.end() :].split("\n")[0]):
                if atom in JOINS or any(it in self.inner or not self.file.knows(it, self.bound) for it in WORD.findall(atom)):
                    break
                told.append(atom)
            found += [" ".join([name, *told])] if told else []
        return found


class Try(collections.namedtuple("Try", "file block first last before names")):
    """A text for some lines of a lemma: what stands before the tactic, and the lemmas that it's given."""

    def lines(self, bound=""):
        given = f"({', '.join(['arith', *self.names])})" if self.names else "arith"
        return [it.rstrip() for it in f"{self.before}grind {given}{bound}".split("\n")]

    def gain(self):
        return count(self.file.lines[self.first : self.last]) - count(self.lines())

    def is_fit(self):
        """Whether it's shorter by lines alone, and replaces no comment."""
        old = self.file.lines[self.first : self.last]
        return self.gain() > 0 and max(map(len, self.lines())) <= max(WIDTH, *map(len, old)) and not any("--" in it for it in old)

    def rank(self):
        return self.gain(), -len(self.names)

    def without(self, names):
        return self._replace(names=tuple(it for it in self.names if it not in names))

    def copy(self, name, steps):
        """The lemma with this text, under another name."""
        lines = self.file.lines[self.block.first : self.first] + self.lines(f" steps {steps}") + self.file.lines[self.last : self.block.last]
        start = re.compile(rf"^( {{{indentation(lines[0])}}})(?:pub )?{re.escape(self.block.name)}(?=\s|$)")
        return [start.sub(rf"\g<1>{name}", line) for line in lines]


def tries_of_clause(file, block, clause):
    """A tactic in the place of a clause's right side, or of what follows its first lets."""
    names = file.lemmas_in(clause.right, clause.bound | clause.inner | {block.name})
    full = tuple(dict.fromkeys([*names, *clause.calls(block.name)]))
    left = f"{clause.left.rstrip()} ="
    made = functools.partial(Try, file, block, clause.first, clause.last)
    tries = [made(f"{left} ", given) for given in ((), full)]
    lets, tail = lets_of(clause.right)
    for kept in range(1, len(lets) if not re.search(r"\bwhere\b", clause.right) else 0):
        rest = "".join(lets[kept:]) + tail
        given = tuple(file.lemmas_in(rest, clause.bound | clause.inner | {block.name}))
        begin = re.match(r"\s*", lets[0]).group(0)
        begin = begin if "\n" in begin else f"\n{' ' * (indentation(clause.lines[0]) + 4)}"
        tries.append(made(f"{left}{''.join(lets[:kept]).rstrip()}{begin}", given))
    return tries


def arguments_of(signature):
    """The names of the arguments that a signature asks for, in their order; nothing of one that has none."""
    found = []
    for part in apart(" ".join(signature).partition(" : ")[2], "→")[:-1]:
        groups = [(it, BOUND.match(it)) for it in atoms(part)]
        if groups and all(names for _, names in groups):
            found += [name for it, names in groups if it[0] == "(" for name in names.group(1).split()]
        else:
            found.append("")
    return found


def variables_of(file, block, rows, names):
    """A variable for each argument: one that a clause has there, the signature's, or a letter that is free."""
    asked = arguments_of(file.lines[block.first : block.head])
    used = {it for row in rows for it in row if VARIABLE.match(it)}
    free = [*"hegkutyzqw", *(f"x{number}" for number in range(1, 60))]
    found = []
    for place, column in enumerate(zip(*rows)):
        known = {*found, *names, *file.imports, *file.own, *CONSTANTS}
        said = [it for it in column if VARIABLE.match(it) and it not in known]
        own = [it for it in asked[place : place + 1] if it and it not in known | used]
        found.append((said or own or [it for it in free if it not in known | used])[0])
    return found


def tries_of_cases(file, block, clauses):
    """A tactic in the place of all clauses, if they don't call the lemma."""
    rows = [atoms(it.left)[1:] for it in clauses]
    calls = any(block.name in WORD.findall(it.right) for it in clauses)
    if len(clauses) < 2 or calls or len({len(it) for it in rows}) > 1 or any("{" in it for row in rows for it in row):
        return []
    names = [name for it in clauses for name in file.lemmas_in(it.right, it.bound | it.inner | {block.name})]
    variables = variables_of(file, block, rows, names)
    given = tuple(it for it in dict.fromkeys(names) if it not in variables)
    before = f"{' ' * indentation(clauses[0].lines[0])}{' '.join([block.name, *variables])} = "
    return [Try(file, block, clauses[0].first, clauses[-1].last, before, names) for names in ((), given)]


def tries_of(file):
    """What is tried of a file's lemmas."""
    tries = []
    for block in file.blocks:
        clauses = [Clause(file, it) for it in block.clauses] if block.kind == "lemma" and file.common is not None else []
        if all(it.right for it in clauses):
            tries += [it for clause in clauses if count(clause.lines) > 1 for it in tries_of_clause(file, block, clause)]
            tries += tries_of_cases(file, block, clauses)
    return [it for it in dict.fromkeys(tries) if it.is_fit()]


class Room:
    """A crate on whose proof files texts are tried."""

    def __init__(self, bench, files, steps):
        self.bench, self.files, self.steps, self.sparse = bench, files, steps, set()
        answers = answer_files(bench.folder)
        if not answers:
            sys.exit(print(f"{bench.name}: no function with answers, under which its proof files could be checked", file=sys.stderr) or 2)
        self.answers = os.path.relpath(min(answers, key=os.path.getsize), bench.folder)

    def check(self, texts, whole=False):
        """The errors of a check with these texts, each as its file and line: of the functions whose answers are tried, of a small function and all
        proof files, or of the whole crate."""
        texts, tried = dict(texts), [self.path(it) for it in self.files if is_answers(it.path)]
        if not whole and not tried:
            below = [os.path.relpath(it, f"{self.bench.folder}/proofs")[: -len(".antt")].replace("/", ".") for it in proof_files(self.bench.folder)]
            file = file_at(f"{self.bench.folder}/{self.answers}")
            place = max((it.last for it in file.blocks if it.kind == "use" and not indentation(file.lines[it.first])), default=0)
            modules = (f"Rattle.{self.bench.name}.proofs.{it}" for it in below)
            more_lines = [f"use {it} as Shorter{number}" for number, it in enumerate(modules) if it not in file.aliases.values()]
            texts[self.answers] = "\n".join([*file.lines[:place], *more_lines, *file.lines[place:]]) + "\n"
        functions = ["::".join(it.split("/")[1:-1]) for it in tried or [self.answers]]
        more = [] if whole else ["--allow-holes", *(word for it in functions for word in ("--only", it))]
        said, status = self.bench.check(texts, (), more)
        last = said.rstrip().split("\n")[-1]
        if not (last.startswith("logic=") if whole else re.search(r"^only=[1-9]", said, re.M)):
            sys.exit(print(f"{self.bench.name}: the check told nothing: {last[:200]}", file=sys.stderr) or 1)
        found = [(it.group(1), int(it.group(2))) for it in map(edits.ERROR.match, said.split("\n")) if it and it.group(3).strip().startswith("error")]
        return found or ([("", 0)] if whole and status else [])

    def passed(self, tries):
        """Those of the texts that are proved in a copy of their lemma, by one check of all."""
        texts, spans = {}, {}
        for file in {it.file for it in tries}:
            lines, done, old = [], 0, file.with_arith()
            for number, it in sorted(((number, it) for number, it in enumerate(tries) if it.file is file), key=lambda one: one[1].block.last):
                copy = it.copy(f"zz{number}-{it.block.name}", self.steps)
                lines += [*old[done : it.block.last], "", *copy]
                done, spans[number] = it.block.last, (self.path(file), len(lines) - len(copy) + 1, len(lines))
            texts[self.path(file)] = "\n".join(lines + old[done:]) + "\n"
        errors = self.check(texts) if tries else []
        refused = {(at, line): [number for number, (path, first, last) in spans.items() if path == at and first <= line <= last] for at, line in errors}
        for (at, line), numbers in refused.items():
            if not numbers:
                sys.exit(print(f"{self.bench.name}: it isn't proved as it stands: {at}:{line}", file=sys.stderr) or 1)
        return [it for number, it in enumerate(tries) if not any(number in numbers for numbers in refused.values())]

    def path(self, file):
        return os.path.relpath(file.path, self.bench.folder)

    def written(self, chosen):
        """The texts of the files with what was chosen in the place of what it replaces."""
        texts = {}
        for file in {it.file for it in chosen}:
            mine = sorted((it for it in chosen if it.file is file), key=lambda it: -it.first)
            lines = file.with_arith()
            for it in mine:
                lines[it.first : it.last] = it.lines()
            texts[self.path(file)] = "\n".join(without_imports(file.lines, lines) if self.path(file) in self.sparse else lines) + "\n"
        return texts

    def clear_imports(self, chosen):
        """From here on the imports of files go without the names that their chosen texts don't say, but where that is refused."""
        self.sparse = {self.path(it.file) for it in chosen}
        while self.sparse and (errors := self.check(self.written(chosen))):
            refused = {path for path, _ in errors} & self.sparse or set(self.sparse)
            print(f"imports: {len(self.sparse)} files, {len(refused)} as they were", flush=True)
            self.sparse -= refused

    def suspects(self, chosen, texts, path, line):
        """What of the chosen may be why a line is refused: its own block's, else what that block names, else all."""
        text = texts.get(path)
        if text is None and os.path.isfile(f"{self.bench.folder}/{path}"):
            with open(f"{self.bench.folder}/{path}", encoding="utf-8") as old:
                text = old.read()
        lines = (text or "").split("\n")
        block = next((it for it in blocks_of(lines, 0, len(lines)) if it.first < line <= it.last), Block("", "", 0, 0))
        words = set(WORD.findall("\n".join(lines[block.first : block.last])))
        own = [it for it in chosen if self.path(it.file) == path and it.block.name == block.name]
        return own or [it for it in chosen if it.block.name in words] or chosen

    def settled(self, chosen, whole=False, turns=9):
        """The chosen but for those that are refused where they stand; none if some are still refused after so many checks."""
        for _ in range(turns):
            texts = self.written(chosen)
            errors = self.check(texts, whole) if chosen else []
            undone = {it for path, line in errors for it in self.suspects(chosen, texts, path, line)}
            print(f"{'whole crate' if whole else 'in place'}: {len(chosen)} texts, {len(undone)} undone", flush=True)
            if not errors:
                return chosen
            chosen = [it for it in chosen if it not in undone]
        return []


def without_imports(old, new):
    """The new lines, without the names in their imports that the old lines said and the new ones don't."""

    def said(lines):
        return set(re.findall(r"[\w'◌-]+", "\n".join(re.sub(r"[.()\[\]{},;]", " ", it) for it in lines if not USE.match(it))))

    gone, left = said(old) - said(new), []
    for line in new:
        module, items, alias = found.groups() if (found := USE.match(line)) and line.startswith("use ") else ("", None, "")
        names = [it.strip() for it in (items or "").split(",")]
        kept = [it for it in names if "◌" in it or it.split(" as ")[-1].split(".")[-1] not in gone]
        if module and (not kept or items is None and (alias or module.split(".")[-1]) in gone):
            continue
        left.append(line if len(kept) == len(names) else f"use {module}.{{{', '.join(kept)}}}")
    return left


def is_answers(path):
    return os.path.basename(path) == "Answers.antt"


def answer_files(folder):
    """The files with the answers of the crate's functions."""
    return sorted(glob.glob(f"{folder}/proofs/**/Answers.antt", recursive=True))


def proof_files(folder):
    """The crate's files of lemmas."""
    found = sorted(glob.glob(f"{folder}/proofs/**/*.antt", recursive=True))
    return [it for it in found if os.path.basename(it) not in ("Lib.antt", "Answers.antt", "Invariants.antt")]


def best_of(passed):
    """Of the texts that are proved those that leave the fewest lines of each lemma: one for each clause, or one for all."""
    best, chosen = {}, []
    for it in passed:
        place = it.file, it.block, it.first, it.last
        best[place] = max(it, best.get(place, it), key=Try.rank)
    for lemma in dict.fromkeys(place[:2] for place in best):
        mine = [it for place, it in best.items() if place[:2] == lemma]
        all_of = [it for it in mine if (it.first, it.last) not in it.block.clauses]
        parts = [it for it in mine if it not in all_of]
        chosen += all_of if all_of and all_of[0].gain() >= sum(map(Try.gain, parts)) else parts
    return chosen


def thinned(room, chosen):
    """The chosen without the names that their tactics don't need."""
    single = {it.without([name]): (it, name) for it in chosen for name in it.names if len(it.names) > 1}
    needless = collections.defaultdict(list)
    for it in room.passed(list(single)):
        needless[single[it][0]].append(single[it][1])
    cuts = {}
    for it, names in needless.items():
        for cut in (names, names[: len(names) // 2], names[len(names) // 2 :], names[:1]):
            cuts.setdefault(it.without(cut), it)
    shorter = {}
    for it in room.passed(list(cuts)):
        shorter[cuts[it]] = min(it, shorter.get(cuts[it], it), key=lambda one: len(one.names))
    return [shorter.get(it, it) for it in chosen]


def shortened(room):
    """What can stand in the place of longer texts, of which the whole crate is proved."""
    tries = [it for file in room.files for it in tries_of(file)]
    passed = room.passed(tries)
    chosen = best_of(passed)
    print(f"tried: {len(tries)} texts for {len({it.block for it in tries})} lemmas; {len(passed)} are proved, {len(chosen)} chosen", flush=True)
    chosen = room.settled(thinned(room, chosen))
    room.clear_imports(chosen)
    return room.settled(chosen, whole=True, turns=3)


def statement_of(file, block):
    """What a lemma states, its variables by their order."""
    text = " ".join(" ".join(file.lines[block.first : block.head]).split()).partition(" : ")[2]
    names = [name for group in re.findall(r"[({]([a-z][\w' -]*?)\s*:", text) for name in group.split()]
    for number, name in enumerate(dict.fromkeys(names)):
        text = re.sub(rf"(?<![\w.'-]){re.escape(name)}(?![\w'-])", f"v{number}", text)
    return text


def lists(crate):
    """Prints the lemmas of a crate that no other text names, and those that state what another states."""
    folder, seen, said = f"{TOP}/crates/{crate}", collections.defaultdict(list), collections.Counter()
    for path in glob.glob(f"{TOP}/crates/*/proofs/**/*.antt", recursive=True) + glob.glob(f"{TOP}/crates/*/specs/**/*.antt", recursive=True):
        file = file_at(path)
        for block in file.blocks:
            if block.kind == "lemma" and indentation(file.lines[block.first]) == 0 and "goal." not in file.lines[block.first]:
                seen[statement_of(file, block)].append((os.path.relpath(path, f"{TOP}/crates"), block))
            if block.kind != "use":
                said.update(names_in(file, block))
        said.update(part for word in WORD.findall(between(file)) for part in {word, *word.split(".")})
    for path in glob.glob(f"{TOP}/crates/*/src/**/*.rt", recursive=True) + glob.glob(f"{TOP}/docs/*.md"):
        with open(path, encoding="utf-8") as text:
            said.update(re.findall(r"[\w'-]+", text.read()))
    left = [(file_at(path), block) for path in proof_files(folder) for block in file_at(path).blocks if block.kind in ("lemma", "abbrev")]
    while gone := [(file, block) for file, block in left if said[block.name] <= names_in(file, block)[block.name] and "◌" not in block.name]:
        for file, block in gone:
            print(f"nobody names {os.path.relpath(file.path, folder)} {block.name}, {count(file.lines[block.first : block.last])} lines")
            said.subtract(names_in(file, block))
        left = [it for it in left if it not in gone]
    for places in seen.values():
        if len(places) > 1 and any(path.startswith(f"{crate}/") for path, _ in places):
            print("stated twice: " + ", ".join(f"{path} {block.name}" for path, block in places))


def between(file):
    """What stands in no block of a file, as the arguments of its modules, but for comments."""
    inside = {at for it in file.blocks for at in range(it.first, it.last)}
    return "\n".join(line for at, line in enumerate(file.lines) if at not in inside and not line.strip().startswith("--"))


@functools.cache
def names_in(file, block):
    """How often a block says each name, also as a part of a longer one."""
    words = WORD.findall("\n".join(line for line in file.lines[block.first : block.last] if not line.strip().startswith("--")))
    return collections.Counter(part for it in words for part in {it, *it.split(".")})


def lines_of_proofs(folder, texts):
    """The lines of a crate's proofs, with these texts in the place of its own."""
    found = 0
    for path in glob.glob(f"{folder}/proofs/**/*.antt", recursive=True):
        with open(path, encoding="utf-8") as text:
            found += count(texts.get(os.path.relpath(path, folder), text.read()).split("\n"))
    return found


def shorten(crate, name, steps, files_of):
    """Shortens a crate's proofs, or those of one file, in the tree; the status."""
    folder = f"{TOP}/crates/{crate}"
    files = [file_at(it) for it in files_of(folder) if name in ("", os.path.relpath(it, f"{folder}/proofs")[: -len(".antt")])]
    with tempfile.TemporaryDirectory() as place:
        bench = edits.Bench(edits.kit(), crate, place)
        if bench.lacks:
            return print(f"{crate}: the library of {bench.lacks[0]} isn't built, or is older than its text: call `rt lib` there, or run the gate", file=sys.stderr) or 2
        room = Room(bench, files, steps)
        chosen = shortened(room)
        texts = room.written(chosen)
        before, after = lines_of_proofs(folder, {}), lines_of_proofs(folder, texts)
        for path, text in texts.items():
            with open(f"{folder}/{path}", "w", encoding="utf-8") as out:
                out.write(text)
    for it in chosen:
        print(f"{room.path(it.file)} {it.block.name}: {it.gain()} lines fewer")
    used = resource.getrusage(resource.RUSAGE_CHILDREN)
    print(f"{crate}: {before} lines of proofs, now {after}; {(used.ru_utime + used.ru_stime) / 60:.1f} processor minutes")
    return 0 if chosen else 1


def main(given):
    steps, wants_lists, files_of = 25000, "--lists" in given, answer_files if "--answers" in given else proof_files
    given = [it for it in given if it not in ("--lists", "--answers")]
    if given[:1] == ["--steps"] and re.fullmatch(r"[1-9]\d{0,8}", "".join(given[1:2])):
        steps, given = int(given[1]), given[2:]
    crate, _, name = "".join(given[:1]).partition("/")
    known = [os.path.relpath(it, f"{TOP}/crates/{crate}/proofs")[: -len(".antt")] for it in files_of(f"{TOP}/crates/{crate}")]
    if len(given) != 1 or not re.fullmatch(r"\w+", crate) or not known or name not in ("", *known):
        return print(__doc__.splitlines()[0], file=sys.stderr) or 2
    return lists(crate) or 0 if wants_lists else shorten(crate, name, steps, files_of)


if __name__ == "__main__":
    sys.exit(main(sys.argv[1:]))
