#!/usr/bin/env python3
"""usage: statement.py [--check|--figures|--signs|FILE]

Makes docs/statement.html, or FILE: the statement that one clicks through. It begins with the main theorem of docs/PAPER.md,
program_twice, and holds the contracts of the functions of FUNCTIONS below, in this order, and each definition that they name, down to the
model, as they stand in the sources, and beside each where it stands; last how many lines each theorem has. What a name names is found as tools/trust.py finds it. The page's text and its acts are in tools/statement/page.html,
the usual way in way.txt, a sentence for each clause in clauses.txt, the statuses in statuses.txt, what the page says of fields in
beside.txt, the words of the language and of the standard library in words.txt. The same sources give the same bytes.

A page isn't made if a name of it leads nowhere: each must be a definition that is shown, a word that is built in, or bound where it
stands. With --check nothing is written: the status is 1 if docs/statement.html isn't what the sources give; or, by that file alone, if a
link of it leads nowhere, a line isn't as it stands in its source, or a count isn't that of the lines to which its links lead. With
--figures the lines and names are printed, with --signs the signs that PAPER uses, as words.txt explains them. Whether an explanation there
is right no script can say: it is the one place that gives it.
"""
import collections
import html
import json
import os
import re
import sys

sys.dont_write_bytecode = True
import trust

HERE = os.path.dirname(os.path.abspath(__file__))
PAGE = os.path.join(HERE, "..", "docs", "statement.html")
PARTS = os.path.join(HERE, "statement")
FUNCTIONS = [
    ("b67_promises::program_twice", "same"),
    ("b67_promises::program", "described"),
    ("b67_promises::program_described", "described"),
    ("b67_promises::program_in_memory", "printed"),
    ("b67_promises::run_described", "ends"),
    ("b67_promises::run_twice", "decks"),
    ("b67_promises::run_in_memory_twice", "decks"),
    ("b67_program::serve_in_memory", "served"),
]
# the clauses of each function that the usual way is on
MAIN = {name.partition("::")[2]: [clause] for name, clause in FUNCTIONS}


SIGNS = ["→", "×", "⊎", "≡", "≢", "∷", "++"]


class Wrong(Exception):
    """What is wrong with the page, in words."""


def rows(name):
    """The rows of a table of the page: what stands before the tab and behind it; a line that begins with # says what follows."""
    with open(os.path.join(PARTS, name), encoding="utf-8") as table:
        for line in table.read().split("\n"):
            if line.startswith("# "):
                yield None, line[2:]
            elif line:
                yield tuple(line.split("\t"))


def stem(block):
    return os.path.basename(block.path).rsplit(".", 1)[0]


def where(block):
    return os.path.relpath(block.path, os.path.join(trust.TOP, "..")).replace(os.sep, "/")


def names_of(blocks):
    """A name for each definition, by which a link leads to it: its own, with its file, and its crate, where two have the same."""
    names = {id(block): "" for block in blocks}
    for name in (lambda block: block.name.replace("◌", ""), lambda block: f"@{stem(block)}", lambda block: f"@{trust.crate_of(block)}"):
        count = collections.Counter(names.values())
        for block in blocks:
            if count[names[id(block)]] > 1:
                names[id(block)] += name(block)
    return names


def comment_and_text(block):
    """The comment over a definition, as prose, and its lines as they stand."""
    lines = block.whole()
    count = 0
    while lines[count].startswith(("--", "///", "//")):
        count += 1
    prose = []
    for line in lines[:count]:
        line = re.sub(r"^(-- ?|/// ?|// ?)", "", line)
        if prose and prose[-1] and line:
            prose[-1] += " " + line
        elif line:
            prose.append(line)
        elif prose:
            prose.append("")
    return [part for part in prose if part], lines[count:]


FIELD = re.compile(r"^\s*(?:pub(?:\(crate\))? )?([^\W\d][\w']*) ?: ?", re.M)


def bound_names(block, text):
    """The names that a definition binds, and those of the fields, clauses and cases that it has: they lead nowhere."""
    whole = "\n".join(trust.code_in(block, line) for line in text)
    bound = trust.bound_in(block, text) | set(FIELD.findall(whole)) | {block.name}
    if block.path.endswith(".rt"):
        for group in re.findall(r"<([A-Z][^<>]*)>", whole):
            bound.update(part.split(":")[0].strip() for part in group.split(","))
        bound.update(re.findall(r"(?:ensures|requires|ghost|let mut|let|fn|type|use) ([^\W\d]\w*)", whole))
        bound.update(re.findall(r"[(,] ?(?:mut )?([a-z_]\w*): ", whole))
        bound.update(re.findall(r"^    ([A-Z]\w*)\b", whole, re.M))
        bound.update(re.findall(r"[{,] ([a-z_]\w*): ", whole))
        bound.update(re.findall(r"Ok\((\w+)\)", whole))
        # a variant behind its enum, and the letter before a string of bytes
        bound.update(re.findall(r"\b[A-Z]\w*::([A-Z]\w*)", whole) + re.findall(r'\b(b)"', "\n".join(text)))
        bound.update(re.findall(r"[{;] *([^\W\d][\w']*) = ", whole))
        return bound
    for line in whole.split("\n"):
        # on the left an argument may be given by its name, as {g = g}
        left, *right = re.split(r" =(?= |$)", re.sub(r"\{\w+ = (\w+)\}", r"\1", line), maxsplit=1)
        if right and not re.match(r"\s*(let|record)\b", left):
            bound.update(trust.WORD.findall(left.split("→")[-1]))
        for found in re.findall(r"(?:^|do|\[|\|)\s*(?:let )?([^\s(){}|\[\]]+) ←", line) + re.findall(r"let ([^\s]+)", line):
            bound.add(found)
        for found in re.findall(r"[|\[]([^|\[\]]+)↦", line):
            bound.update(found.split())
        bound.update(re.findall(r"(?:[{;]|^) *([^\W\d][\w']*) = ", line))
    return bound


class Page:
    """What the page shows."""

    def __init__(self):
        self.functions = []
        blocks, seen = [], set()
        for function, main in FUNCTIONS:
            whole, order = trust.rests_on(function, [])
            block = trust.statement(function, [])[0]
            self.functions.append((function, block))
            for found in [block] + list(reversed(order)):
                if id(found) not in seen:
                    seen.add(id(found))
                    blocks.append(found)
        self.blocks = sorted(blocks, key=lambda block: (where(block), block.first))
        self.index = {id(block): number for number, block in enumerate(self.blocks)}
        self.names = names_of(self.blocks)
        self.words = [row for row in rows("words.txt") if row[0] is not None]
        self.word_at = {word: number for number, (word, _) in enumerate(self.words)}
        if len(self.word_at) != len(self.words):
            raise Wrong("words.txt has a word twice")
        self.fields = self.all_fields()
        self.used, self.unknown = set(), []
        self.shown = [self.definition(block) for block in self.blocks]
        if self.unknown:
            raise Wrong("names that lead nowhere:\n" + "\n".join(self.unknown))
        self.by_name = {self.names[id(block)]: number for number, block in enumerate(self.blocks)}
        self.roots = [self.index[id(block)] for _, block in self.functions]
        self.over = self.ways_back()
        self.way = self.usual_way()
        self.clauses = self.clauses_in_words()
        self.statuses = self.statuses_in_words()
        self.beside = self.words_beside()
        self.most = self.lines_at_most()

    def all_fields(self):
        """The fields, the ghosts and the cases that something shown has, and those that are built in."""
        fields = {"old", "new", "now", "items", "0", "1", "2", "3", "bytes", "contents"}
        for block in self.blocks:
            text = "\n".join(trust.code_in(block, line) for line in block.text)
            fields.update(FIELD.findall(text))
            fields.update(re.findall(r"(?:ghost|type) ([^\W\d]\w*)", text))
        return fields

    def imported(self, block, first):
        """Whether a name of a block's file is one that std, the language or a crate of the toolchain brings."""
        module = trust.file_at(block.path).imports.get(first, ("", ""))[0]
        return bool(module) and not re.search(r"\bb67|^(crate|self|super)\b", module)

    def generics(self, text):
        """The types that a function's type parameters are bounded by."""
        found = re.search(r"fn \w+<([^{]*?)>\(", "\n".join(text))
        parts = [part.strip().split(": ") for part in found.group(1).split(",") if part.strip()] if found else []
        return {name: types.split(" + ") for name, types in parts}

    def definition(self, block):
        """A definition as the page has it: its comment, and its lines, each a list of texts and of links."""
        prose, text = comment_and_text(block)
        bound = bound_names(block, text)
        bounds = self.generics(text) if block.path.endswith(".rt") else {}
        lines = [[] for _ in text]
        ends = [0 for _ in text]
        for number, start, token, found in trust.tokens(block, text):
            if text[number].lstrip().startswith(("ghost use", "use ", "pub use")):
                continue
            is_field = re.search(r"\.$|\b[A-Z]::$", text[number][:start]) and token in self.fields
            target = None if is_field else self.target(block, token, found, bound, bounds)
            if target is None:
                continue
            lines[number] += [text[number][ends[number]:start], [token, target]]
            ends[number] = start + len(token)
        for number, line in enumerate(text):
            lines[number].append(line[ends[number]:])
        return {"prose": prose, "text": text, "lines": lines}

    def target(self, block, token, found, bound, bounds):
        """Where a token leads: a definition by its number, a word that is built in by -1 and less, or nowhere."""
        first, _, more = token.partition(".")
        if token == ">>" and block.path.endswith(".rt"):
            return None
        if first in trust.file_at(block.path).aliases and found is None and more:
            first, more = more, ""
        if found is not None and re.match(r"(pub )?fn ", found.text[0]) and found is not block:
            return self.word_of_function(found)
        if first in bounds and more:
            types = [trust.rust_item(trust.crate_of(block), bound) or trust.meaning(block, bound) for bound in bounds[first]]
            found = next((one for one in types if one is not None and re.search(rf"(?:ghost|type) {more}\b", "\n".join(one.text))), found)
        if found is not None and id(found) in self.index and found is not block:
            return self.index[id(found)]
        if found is block or token in (":", "=", ",", "{", "}", ";"):
            return None
        if first not in bound and first in self.word_at:
            self.used.add(first)
            return -1 - self.word_at[first]
        if found is None and first not in bound and not self.imported(block, first) and re.match(r"[\d_]", first):
            return None
        parts = re.split(r"\.|::", more) if more else []
        if first in bound and (block.path.endswith(".rt") or all(part in self.fields for part in parts)):
            return None
        self.unknown.append(f"{where(block)}: {block.name}: {token}")
        return None

    def word_of_function(self, block):
        """A function that a body calls stands among the words, since its contract isn't shown."""
        if block.name not in self.word_at:
            self.word_at[block.name] = len(self.words)
            self.words.append((block.name, f"A function of the program, in {where(block)}, line {block.first}. Its contract isn't on this page; docs/PROVED.md says in words what is proved of `run` and `serve`."))
        self.used.add(block.name)
        return -1 - self.word_at[block.name]

    def links(self, number):
        """The definitions that one names, in its order."""
        seen = []
        for line in self.shown[number]["lines"]:
            for part in line:
                if isinstance(part, list) and part[1] >= 0 and part[1] not in seen:
                    seen.append(part[1])
        return seen

    def ways_back(self):
        """For each definition the one by which it is first reached from the contracts, nearest first."""
        views = {(block.path, block.name.replace("Model for ", "")): number for number, block in enumerate(self.blocks) if block.name.startswith("Model for ")}
        over, queue = {root: None for root in self.roots}, list(self.roots)
        for number in queue:
            # how proofs see a type stands beside it
            view = views.get((self.blocks[number].path, self.blocks[number].name))
            for link in self.links(number) + ([] if view is None else [view]):
                if link not in over:
                    over[link] = number
                    queue.append(link)
        lost = [block.name for number, block in enumerate(self.blocks) if number not in over]
        if lost:
            raise Wrong("these aren't reached: " + ", ".join(lost))
        return [over[number] for number in range(len(self.blocks))]

    def usual_way(self):
        """The stops of the usual way: chapter, or part of the second short way, definition, what to look at, the stop or contract that
        names it, and 0 if it is of the short way, 1 if it lies between its stops, 2 if it is of the second short way."""
        way, chapter, part, before = [], "", "", []
        for name, said in rows("way.txt"):
            if name is None:
                chapter = said
                continue
            if name == "?":
                part = said
                continue
            kind, name = {"+": 1, "?": 2}.get(name[0], 0), name.lstrip("+?")
            if name not in self.by_name:
                raise Wrong(f"way.txt: {name} isn't shown")
            number = self.by_name[name]
            # the last stop that names it, of the short way if it is of that; else the first contract that does
            own = [stop for stop, of in reversed(before) if of == kind == 0]
            over = [stop for stop in own + [stop for stop, _ in reversed(before)] + self.roots if number in self.links(stop)]
            if not over or number in [stop for stop, _ in before]:
                raise Wrong(f"way.txt: {name} isn't named by what comes before it, or comes twice")
            before.append((number, kind))
            way.append([part if kind == 2 else chapter, number, said, over[0], kind])
        return way

    def clauses_in_words(self):
        said = {tuple(name.split(" ")): sentence for name, sentence in rows("clauses.txt") if name is not None}
        for function, block in self.functions:
            own = block.name
            names = [found or "-" for found in re.findall(r"^    ensures (?:([a-z_0-9]+) )?\{", "\n".join(block.text), re.M)]
            if [clause for function, clause in said if function == own] != names:
                raise Wrong(f"clauses.txt: the clauses of {own} are {', '.join(names)}")
        return said

    def statuses_in_words(self):
        """The statuses: number, definitions, last line, meaning. They are those of which the definitions speak, and the definitions those
        of the two main clauses that speak of it, or another one if none does."""
        shown = {name: set(re.findall(r"status ≡ (\d+)", "\n".join(self.shown[number]["text"]))) for name, number in self.by_name.items()}
        said, main = [row for row in rows("statuses.txt") if row[0] is not None], self.main_numbers()
        for status, names, _, _ in said:
            speak = {name for name, found in shown.items() if status in found}
            own = {name for name in speak if self.by_name[name] in main}
            named = set(names.split(" "))
            if not named <= speak or own and named != own:
                raise Wrong(f"statuses.txt: of {status} speak {', '.join(sorted(own or speak))}")
        if {row[0] for row in said} != set().union(*shown.values()):
            raise Wrong("statuses.txt: the definitions speak of other statuses")
        return [[int(status), [self.by_name[name] for name in names.split(" ")], line, meaning] for status, names, line, meaning in said]

    def words_beside(self):
        """What the page says beside a definition: its number, a field or an empty text, and a sentence."""
        beside = []
        for name, said in rows("beside.txt"):
            if name is None:
                continue
            name, _, field = name.partition(".")
            if name not in self.by_name or field and field not in FIELD.findall("\n".join(self.shown[self.by_name[name]]["text"])):
                raise Wrong(f"beside.txt: no {name} {field}")
            beside.append([self.by_name[name], field, said])
        return beside

    def sizes(self):
        """How many lines each theorem of trust.py has with all that it names, as rows of a table."""
        for function, clauses in trust.THEOREMS:
            whole, order = trust.rests_on(function, clauses)
            lines = sum(len(block.lines()) for block in order) + len(whole.lines())
            crate, _, name = function.partition("::")
            yield f"<tr><td>{lines:,}</td><td>{len({block.path for block in order} | {whole.path})}</td><td><code>{name}</code></td><td>{', '.join(clauses) or 'all'}</td><td><code>{crate}</code></td></tr>"

    def lines_at_most(self):
        """Of each clause with all that it names, how many lines."""
        most = {}
        for function, clause in self.clauses:
            crate = next(name for name, block in self.functions if block.name == function)
            whole, order = trust.rests_on(crate, [] if clause == "-" else [clause])
            most[f"{function} {clause}"] = [sum(len(block.lines()) for block in order) + len(whole.lines()), len(order) + 1]
        return most

    def main_numbers(self):
        """The definitions that the two main clauses name, and these clauses' contracts."""
        reached = set()
        for function, main in FUNCTIONS[:2]:
            reached.update(self.index[id(block)] for block in trust.rests_on(function, [main])[1])
        return reached

    def counts(self):
        return [len(block.lines()) for block in self.blocks]

    def way_lines(self):
        """The lines of the two contracts, of these and the short way, of the second short way, and of the contracts and the whole way."""
        counts = self.counts()
        contracts = 0
        for function, main in FUNCTIONS[:2]:
            block, text = trust.statement(function, [main])
            contracts += len(trust.Block(block.path, block.name, block.first, text).lines())
        each = [sum(counts[stop[1]] for stop in self.way if stop[4] == kind) for kind in range(3)]
        return contracts, contracts + each[0], each[2], contracts + sum(each)

    def stops(self, kind):
        return sum(1 for stop in self.way if stop[4] == kind)

    def data(self):
        contracts, on_way, on_second, on_whole = self.way_lines()
        counts, main = self.counts(), self.main_numbers()
        return {
            "definitions": [
                [self.names[id(block)], where(block), block.first, counts[number], self.shown[number]["prose"],
                 [squeezed(line) for line in self.shown[number]["lines"]], self.over[number]]
                for number, block in enumerate(self.blocks)
            ],
            "words": [list(word) for word in self.words],
            "way": self.way,
            "statuses": self.statuses,
            "beside": self.beside,
            "contracts": [
                [self.index[id(block)], [[clause, sentence, self.most[f"{name} {clause}"][0], clause in [main or "-" for main in MAIN[name]]]
                                         for (name, clause), sentence in self.clauses.items() if name == block.name]]
                for _, block in self.functions
            ],
            "contractLines": contracts,
            "main": [int(number in main) for number in range(len(counts))],
            "mainLines": contracts + sum(counts[number] for number in main),
            "wayLines": on_way,
            "secondWayLines": on_second,
            "wholeWayLines": on_whole,
            "allLines": sum(counts),
        }

    def text(self):
        with open(os.path.join(PARTS, "page.html"), encoding="utf-8") as page:
            template = page.read()
        data = self.data()
        shown = json.dumps(data, ensure_ascii=False, separators=(",", ":")).replace("</", "<\\/").replace("],[[", "],\n[[")
        places = {
            "WAY_LINES": f"{data['wayLines']:,}",
            "MAIN_LINES": f"{data['mainLines']:,}",
            "DESCRIBED_LINES": f"{self.most['program described'][0]:,}",
            "SAME_LINES": f"{self.most['program_twice same'][0]:,}",
            "ALL_LINES": f"{data['allLines']:,}",
            "WHOLE_LINES": f"{data['wholeWayLines']:,}",
            "SECOND_LINES": f"{data['secondWayLines']:,}",
            "STOPS": str(self.stops(0)),
            "SECOND_STOPS": str(self.stops(2)),
            "ALL_STOPS": str(len(self.way)),
            "NAMES": f"{len(self.blocks):,}",
        }
        for name, value in places.items():
            template = template.replace("{{" + name + "}}", html.escape(value))
        template = template.replace("{{SIZES}}", "\n".join(self.sizes()))
        lost = [name for name in re.findall(r'href="#([^"]+)"', template) if name not in self.by_name and f'id="{name}"' not in template]
        if lost:
            raise Wrong("page.html: no definition " + ", ".join(lost))
        lost = [block.name for _, block in self.functions if not re.search(rf"^  {block.name}: \"", template, re.M)]
        if lost:
            raise Wrong("page.html: INTRODUCTIONS lacks " + ", ".join(lost))
        if re.search(r"\{\{[A-Z_]+\}\}", template.replace("{{DATA}}", "")):
            raise Wrong("page.html asks for what isn't known")
        return template.replace("{{DATA}}", shown)

    def figures(self):
        contracts, on_way, on_second, on_whole = self.way_lines()
        links = sum(1 for shown in self.shown for line in shown["lines"] for part in line if isinstance(part, list))
        lines = [f"{on_way:6} lines on the short way, with {contracts} of two contracts, in {self.stops(0)} stops", f"{on_second:6} lines on the second short way, of premises, in {self.stops(2)} stops", f"{on_whole:6} lines on the whole usual way, in {len(self.way)} stops"]
        for name, (count, names) in self.most.items():
            lines.append(f"{count:6} lines at most, {names} names: {name}")
        main = self.main_numbers()
        lines.append(f"{contracts + sum(self.counts()[number] for number in main):6} lines at most, {len(main) + 2} names: both main clauses together")
        lines.append(f"{sum(self.counts()):6} lines of {len(self.blocks)} definitions that are shown, {links} links, {len(self.used)} words that are built in")
        return "\n".join(lines)


def squeezed(line):
    """A line without empty texts at its ends; one text alone stands for itself."""
    parts = [part for part in line if part != ""]
    return parts[0] if len(parts) == 1 and isinstance(parts[0], str) else parts


def plain_of(line):
    """The text of a line of the page."""
    return line if isinstance(line, str) else "".join(part if isinstance(part, str) else part[0] for part in line)


def flaws_of(text):
    """What isn't so of a page that was made, by the page and the sources alone."""
    found = json.loads(re.search(r'<script type="application/json" id="data">\n(.*?)\n</script>', text, re.S).group(1).replace("<\\/", "</"))
    definitions, links, counts = found["definitions"], [], []
    for name, file, first, count, _, lines, _ in definitions:
        with open(os.path.join(trust.TOP, "..", file), encoding="utf-8") as source:
            there = [line for line in source.read().split("\n")[first - 1:] if line.strip()]
        shown = [plain_of(line) for line in lines]
        if shown != there[:len(shown)]:
            yield f"{name}: other lines than those of {file}"
        counted = sum(1 for line in shown if not line.strip().startswith(("--", "//", "ghost use", "use ")))
        if counted != count:
            yield f"{name}: {count} lines are said, and {counted} stand there"
        targets = [part[1] for line in lines if not isinstance(line, str) for part in line if not isinstance(part, str)]
        if any(not -len(found["words"]) <= target < len(definitions) for target in targets):
            yield f"{name}: a link that leads nowhere"
        links.append([target for target in targets if target >= 0])
        counts.append(count)
    views = {(file, name.replace("Model for ", "")): number for number, (name, file, *_) in enumerate(definitions) if name.startswith("Model for ")}
    for number, (name, file, *_) in enumerate(definitions):
        links[number] += [views[file, name.split("@")[0]]] if (file, name.split("@")[0]) in views else []
    for number, clauses in found["contracts"]:
        lines = definitions[number][5]
        heads = [at for at, line in enumerate(lines) if plain_of(line).startswith("    ensures ")]
        body = next(at for at, line in enumerate(lines) if plain_of(line) == "{")
        for (clause, _, most, _), head, end in zip(clauses, heads, heads[1:] + [body]):
            own = [line for line in lines[:heads[0]] + lines[head:end] + lines[body:] if not plain_of(line).strip().startswith("//")]
            waiting = [part[1] for line in own if not isinstance(line, str) for part in line if not isinstance(part, str) and part[1] >= 0]
            reached = set()
            while waiting:
                one = waiting.pop()
                if one not in reached:
                    reached.add(one)
                    waiting += links[one]
            reads = len(own) + sum(counts[one] for one in reached)
            if reads != most:
                yield f"{definitions[number][0]} {clause}: {most} lines are said, and its links lead to {reads}"
    second = [stop for stop in found["way"] if stop[4] == 2]
    for name, begun, stops in [("wayLines", found["contractLines"], [stop for stop in found["way"] if not stop[4]]), ("secondWayLines", 0, second), ("wholeWayLines", found["contractLines"], found["way"])]:
        on_way = begun + sum(counts[stop[1]] for stop in stops)
        if on_way != found[name]:
            yield f"the usual way: {found[name]} lines are said, and it has {on_way}"


def main(arguments):
    if len(arguments) > 1 or arguments and (arguments[0].startswith("-") and arguments[0] not in ("--check", "--figures", "--signs")):
        return None
    if arguments == ["--signs"]:
        said = {row[0]: row[1] for row in rows("words.txt") if row[0] is not None}
        print("\n".join(f"{sign:2} {said[sign]}" for sign in SIGNS))
        return 0
    path = arguments[0] if arguments and not arguments[0].startswith("-") else PAGE
    if path != PAGE and not (path.endswith(".html") and os.path.isdir(os.path.dirname(path) or ".")):
        return None
    sys.setrecursionlimit(10000)
    try:
        page = Page()
        text = page.text()
        if arguments == ["--figures"]:
            print(page.figures())
            return 0
        if arguments == ["--check"]:
            with open(PAGE, encoding="utf-8") as made:
                old = made.read()
            flaws = list(flaws_of(old))
            for flaw in flaws:
                print(flaw)
            print(f"docs/statement.html: {'as the sources give it' if old == text else 'old: python3 tools/statement.py makes it again'}, {len(flaws)} wrong")
            return 0 if old == text and not flaws else 1
        with open(path, "w", encoding="utf-8") as made:
            made.write(text)
        print(f"{os.path.basename(path)}: {len(text.encode()):,} bytes, {len(page.blocks):,} definitions")
        return 0
    except Wrong as wrong:
        print(wrong, file=sys.stderr)
        return 1


if __name__ == "__main__":
    status = main(sys.argv[1:])
    if status is None:
        print(__doc__.split("\n")[0], file=sys.stderr)
        status = 2
    sys.exit(status)
