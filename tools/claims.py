#!/usr/bin/env python3
"""usage: claims.py [--planted]

Whether what the pages say of the proofs is so, as far as a script can see it:

- each listing of docs/PAPER.md stands in the file that the line `<!-- from FILE -->` above it names, line for line and whole: an item goes to its
  end, and a clause has what its function requires. Only the head of a record or of a function may leave out words;
- docs/PROVED.md names each clause and law of docs/premises.txt, under its own function, and no clause that a function doesn't have.
  Where two promises change places, each under a function that has a clause of the other's name, no script sees it;
- PAPER's main theorem is the one with which docs/statement.html begins;
- `0 or N` in these pages is what `IsWhole` has; counts of operators, rules, clauses, crates, worked examples, edits and lines are those
  of the sources;
- each commit that a page names is there; a table that lists half of a folder's scripts lists all of them.

Premises beside a sentence, and the signs with what they mean, are printed by scripts, and tools/refill.py holds them. No script can see whether
a sentence in words says what its clause says, or whether an explanation of a sign (tools/statement/words.txt) is right: these are read.
Prints what is wrong, and ends with status 1 if something is. With --planted it puts errors into the pages in memory, one at a time, and says
which of them isn't found.
"""
import functools
import glob
import os
import re
import subprocess
import sys

sys.dont_write_bytecode = True
import premises  # noqa: E402
import refill  # noqa: E402
import statement  # noqa: E402
import trust  # noqa: E402

TOP = os.path.realpath(os.path.join(os.path.dirname(os.path.abspath(__file__)), ".."))
PAPER, PROVED, README = "docs/PAPER.md", "docs/PROVED.md", "README.md"
SAID = [README, PAPER, PROVED, "tools/statement/page.html", "tools/statement/clauses.txt"]
FOLDERS = {"scripts": ("*.sh",), "tools": ("*.sh", "*.py"), "bench": ("*.sh", "*.py")}
NUMBERS = dict(zip("one two three four five six seven eight nine ten eleven twelve thirteen fourteen fifteen sixteen".split(), range(1, 17)))
CALLS = ("call", "calls", "other_call")
HEAD = re.compile(r"\s*(?:pub )?(?:record|data|fn) ")


def read(path):
    with open(os.path.join(TOP, path), encoding="utf-8") as text:
        return text.read()


def pages():
    """The pages, by their paths."""
    found = [path for form in ("*.md", "docs/*.md", "*/README.md", "teaching/*.md") for path in glob.glob(os.path.join(TOP, form))]
    return {path: read(path) for path in sorted({os.path.relpath(it, TOP) for it in found} | set(SAID) | {os.path.relpath(it, TOP) for it in glob.glob(f"{TOP}/docs/paper-*.svg")})}


# ---- listings

SOURCE = re.compile(r"<!-- from (\S+) -->$")


def listings(text):
    """The blocks without a language: the file that the line above names, if it does, and the lines."""
    before, kind, held = "", None, []
    for line in text.split("\n"):
        if line.startswith("```") and kind is None:
            kind, held, above = line[3:], [], SOURCE.match(before)
        elif line.startswith("```"):
            if kind == "":
                yield above and above.group(1), held
            kind = None
        elif kind is not None:
            held.append(line)
        before = line


def words(line):
    return re.findall(r"\w+'?|[^\w\s]", line)


def leaves_out(short, whole):
    """Whether a head is another one without some of its words, of the same kind and name."""
    left = iter(words(whole))
    first = re.match(r"\s*(?:pub )?\w+ (\w+)", short)
    return first is not None and re.match(rf"\s*(?:pub )?\w+ {first.group(1)}\b", whole) is not None and all(word in left for word in words(short))


def required(source, at):
    """Whether a function whose clause stands at a line requires something."""
    while at and not re.match(r"\s*(?:pub(?:\(crate\))? )?(?:const )?fn ", source[at]):
        at -= 1
        if re.match(r" +requires", source[at]):
            return True
    return False


def flaw_of_item(item, source):
    """Why an item of a listing doesn't stand in a source as it is; None if it does."""
    for at in range(len(source) - len(item) + 1):
        if source[at].strip() == item[0].strip() or HEAD.match(item[0]) and leaves_out(item[0], source[at]):
            there = [line.strip() for line in source[at + 1 : at + len(item)]]
            if there != [line.strip() for line in item[1:]]:
                wrong = next(line for line, other in zip(item[1:], there) if line.strip() != other)
                return f"not as it stands in the source: {wrong.strip()[:60]}"
            after = source[at + len(item)] if at + len(item) < len(source) else ""
            if after.strip() and not re.match(r"\s*(?:\{|ensures|//|--)", after):
                return f"it ends before its end: {item[-1].strip()[:60]}"
            if re.match(r"\s*ensures", item[0]) and required(source, at):
                return f"without what the function requires: {item[0].strip()[:60]}"
            return None
    return f"not in the source: {item[0].strip()[:60]}"


def flaws_of_listings(text):
    for path, lines in listings(text):
        if path is None or not os.path.isfile(os.path.join(TOP, path)):
            yield f"{PAPER}: a listing without its source: {lines[0].strip()[:40]}"
            continue
        source = read(path).split("\n")
        for item in "\n".join(lines).split("\n\n"):
            flaw = flaw_of_item(item.split("\n"), source)
            if flaw:
                yield f"{PAPER}: {os.path.basename(path)}: {flaw}"


# ---- promises and their functions


@functools.cache
def clauses():
    """The names of the clauses of each function of the code that has some."""
    found = {}
    for path in glob.glob(f"{TOP}/crates/*/src/*.rt"):
        with open(path, encoding="utf-8") as text:
            for name, contract in re.findall(r"^ *pub fn (\w+)(.*?)^ *\{", text.read(), re.S | re.M):
                found.setdefault(name, set()).update(re.findall(r"^ +ensures (\w+) \{", contract, re.M))
    return found


@functools.cache
def listed():
    return [(row.names[0], row.clauses[0]) for row in premises.rows(TOP)]


def flaws_of_promises(text):
    """Each clause is named under its function; and after the word `clause` stands one that a function of the paragraph has."""
    named, lead = set(), ""
    for part in re.split(r"\n(?:\n|(?=- |\|))", text):
        quoted = re.findall(r"`(\w+)`", part)
        here = [name for name in quoted if name in clauses()]
        lead = here[0] if here and not part.startswith("- ") else lead
        has = {(name, clause) for name in [*here, lead] for clause in clauses().get(name, ())}
        named.update({(name, "") for name in quoted} | {it for it in has if it[1] in quoted})
        for found in re.findall(r"[Cc]lauses? (`\w+`(?:(?:, | and )`\w+`)*)", part):
            for clause in re.findall(r"\w+", found.replace(" and ", " ")):
                if clause not in CALLS and not any(clause == it for _, it in has):
                    yield f"{PROVED}: no function of the paragraph has a clause {clause}"
    for name, clause in listed():
        if (name, clause) not in named:
            yield f"{PROVED}: {name} {clause} isn't named under its function".replace("  ", " ")


# ---- statuses, counts, commits, lists


def whole():
    """The status beside 0 with which a run is whole."""
    return re.search(r"IsWhole status = \(status ≡ 0\) ⊎ \(status ≡ (\d+)\)", read("crates/b67_promises/specs/Paging.antt")).group(1)


def flaws_of_statuses(path, text):
    for found in re.finditer(r"\b0(?: \([^()]*\)|, [^,.;]*,)? or (?:with )?(?:status )?(\d+)\b", text):
        if found.group(1) != whole():
            yield f"{path}: a run is whole with 0 or {whole()}: {found.group(0)[:50]}"


def members(text, kind):
    return len(re.findall(r"^    [A-Z]\w*", re.search(rf"pub enum {kind} \{{\n(.*?)\n\}}", text, re.S).group(1), re.M))


@functools.cache
def counts():
    """What is counted in sentences: a page, a pattern with the number, and the number that is right."""
    operators = read("crates/b67_model/src/operators.rt")
    calls = re.search(r"\ncalls =\n(.*?)\n\n", read("crates/b67_model/specs/Intrinsics.antt"), re.S).group(1)
    rules = {int(it) for it in re.findall(r"\((\d+), ", read("crates/b67_model/specs/Loader.antt"))}
    examples = int(read("crates/b67_rows/stdout").strip().split("\n")[-1].split()[0])
    gate, more = (len(glob.glob(f"{TOP}/crates/*/{it}/*.edit")) for it in ("must-fail", "more-edits"))
    _, met, lacks = premises.judged(TOP)
    return [
        (PAPER, r"has (\w+) operators, \w+ intrinsics", members(operators, "Code") + members(operators, "Op") - 1),
        (PAPER, r"operators, (\w+) intrinsics", calls.count("∷")),
        (PAPER, r"a loader with (\w+) rules", len(rules)),
        (PROVED, r"none of its (\w+) rules", len(rules)),
        (PAPER, r"`run` has (\w+) clauses", len(clauses()["run"])),
        (PAPER, r"crate of (\d+):", len(glob.glob(f"{TOP}/crates/*/"))),
        (PAPER, r"of (\d+) of the \d+ there is none yet", lacks),
        (PAPER, r"of \d+ of the (\d+) there is none yet", met + lacks),
        (PAPER, r"(\d+) edits that make", gate + more),
        (PAPER, r"The gate tries (\d+)", gate),
        (PAPER, r"runs (\d+) worked examples", examples),
    ], examples


@functools.cache
def sizes():
    """The numbers of lines that trust.py and sizes.py print."""
    found = set(re.findall(r"\d+", subprocess.run([sys.executable, f"{TOP}/tools/sizes.py"], stdout=subprocess.PIPE, check=True).stdout.decode()))
    for function, its in trust.THEOREMS:
        block, order = trust.rests_on(function, its)
        found.add(str(sum(len(it.lines()) for it in order) + len(block.lines())))
    return found


def flaws_of_counts(texts):
    known, examples = counts()
    for path, form, right in known:
        found = re.findall(form, texts[path])
        if not found:
            yield f"{path}: the sentence isn't there: {form}"
        for said in found:
            if NUMBERS.get(said, said) not in (right, str(right)):
                yield f"{path}: {right} and not {said}: {form}"
    for path, text in texts.items():
        for said in re.findall(r"\b\d+ (?:of|out of) (?:the |its )?(\d{3}) (?:worked )?(?:rows|examples)|\b(?:all |the )?(\d{3}) worked (?:rows|examples)|runs \d+ of the (\d{3}),", text):
            if max(said) != str(examples) and int(max(said)) > 600:
                yield f"{path}: there are {examples} worked examples, and not {max(said)}"
    for path in (PROVED, PAPER, *(it for it in texts if it.endswith(".svg"))):
        for said in re.findall(r"(?<![\d,])(\d[\d,]*) lines\b", texts[path]):
            if said.replace(",", "") not in sizes() and int(said.replace(",", "")) > 30:
                yield f"{path}: no script prints {said} lines"


@functools.cache
def is_commit(name):
    return subprocess.run(["git", "-C", TOP, "cat-file", "-e", f"{name}^{{commit}}"], stderr=subprocess.DEVNULL).returncode == 0


def has_history():
    """Whether the whole history is there."""
    said = subprocess.run(["git", "-C", TOP, "rev-parse", "--is-shallow-repository"], stdout=subprocess.PIPE, stderr=subprocess.DEVNULL)
    return said.stdout.decode().strip() == "false"


def flaws_of_page(path, text):
    for name in re.findall(r"`([0-9a-f]{8})`", text) if has_history() else []:
        if re.search(r"\d", name) and re.search(r"[a-f]", name) and path in (PAPER, PROVED, "docs/TESTED.md") and not is_commit(name):
            yield f"{path}: no commit {name}"
    for table in re.findall(r"(?:^\|.*\n)+", text, re.M):
        for folder, forms in FOLDERS.items():
            all_of_it = {os.path.basename(it) for form in forms for it in glob.glob(f"{TOP}/{folder}/{form}")}
            missing = {name for name in all_of_it if not re.search(rf"(?<![\w-]){re.escape(name)}", table)}
            if missing and len(missing) * 2 <= len(all_of_it):
                yield f"{path}: a table lists most scripts of {folder}, but not {', '.join(sorted(missing))}"


def flaws(texts, changed=None):
    """What is wrong with the pages, or only what may be if one of them has changed."""
    yield from flaws_of_listings(texts[PAPER])
    yield from flaws_of_promises(texts[PROVED])
    main = re.search(r"\*\*The main theorem\*\*, `(\w+)`", texts[PAPER])
    if not main or not statement.FUNCTIONS[0][0].endswith("::" + main.group(1)):
        yield f"{PAPER}: the main theorem isn't the one with which the statement begins, {statement.FUNCTIONS[0][0]}"
    for path in SAID:
        yield from flaws_of_statuses(path, texts[path])
    yield from flaws_of_counts(texts)
    for path, text in texts.items():
        if changed in (None, path):
            yield from flaws_of_page(path, text)


# ---- planted errors

# What each is, the page, a text that stands there once, the text in its place, and what is to be said of it. The last ones are refill's.
ERRORS = [
    ("a promise under another theorem", PROVED, r"`run_apart`, clause `jobs`", "`run_twice`, clause `jobs`", "has a clause jobs"),
    ("a promise under another that has such a clause", PROVED, r"`run_apart_in_turns`, clause `one_task`", "`run_under_switches`, clause `one_task`", "run_apart_in_turns one_task isn't named"),
    ("a law that is left out", PROVED, r" \(law `decks_have_some`\)", "", "decks_have_some isn't named"),
    ("twelve rules", PAPER, r"a loader with eleven rules", "a loader with twelve rules", "11 and not twelve"),
    ("worked examples", PAPER, r"runs 679 worked", "runs 769 worked", "679 and not 769"),
    ("a status in the headline", PAPER, r"0 \(all tasks ended\) or 3 \(", "0 (all tasks ended) or 4 (", "whole with 0 or 3"),
    ("a status in what is proved", PROVED, r"0 \(every task ended\) or 3 \(", "0 (every task ended) or 4 (", "whole with 0 or 3"),
    ("a premise of the printed theorem", PAPER, r"(?<=→ \(text : List ℕ\) → )AsksForRun words → ", "", "PAPER.md: shipped.rt: not in the source"),
    ("a line of the printed theorem", PAPER, r"\n        → input\.new\.given\.bytes.*", "", "not as it stands"),
    ("a field of a printed definition", PAPER, r"\n  pub cut' : .*", "", "it ends before its end"),
    ("a premise that a contract requires", PAPER, r"\n    requires \{ RunsSome cpu\.old \}", "", "not as it stands"),
    ("a script left out of a list", "tools/README.md", r"(?m)^\| `mend\.py` .*\n", "", "but not mend.py"),
    ("a commit that isn't there", PAPER, r"8f2737f4", "8f2737f5", "no commit 8f2737f5"),
    ("a number of lines", PAPER, r"has 169 lines", "has 196 lines", "no script prints 196 lines"),
    ("a number of lines in a figure", "docs/paper-tower.svg", r"2,867 lines", "2,876 lines", "no script prints 2,876 lines"),
    ("another main theorem", PAPER, r"\*\*The main theorem\*\*, `program_twice`", "**The main theorem**, `run_twice`", "the main theorem isn't"),
    ("a clause that isn't there", PROVED, r"`program`, clause `described`", "`program`, clause `describes`", "has a clause describes"),
    ("the number of crates", PAPER, r"one crate of 46:", "one crate of 64:", "46 and not 64"),
    ("a false explanation of a sign", PAPER, r"(?m)^≡  Equals", "≡  Is at most", "old block"),
    ("a premise beside a sentence", PAPER, r"\n  if IsRunCommand core words\.now", "", "old block"),
]


def flaws_of_blocks(path, text):
    """The blocks that a script prints, by refill.py."""
    return [f"{path}: old block"] if refill.BLOCK.sub(printed, text) != text else []


@functools.cache
def said_by(command):
    return subprocess.run([sys.executable, *command.split()[1:]], cwd=TOP, stdout=subprocess.PIPE, check=True).stdout.decode()


def printed(found):
    return found.group(1) + said_by(found.group(2)) + "```"


def planted(texts):
    missed = 0
    for what, path, old, new, wanted in ERRORS:
        changed, count = re.subn(old, new, texts[path], count=0 if wanted != "old block" else 1)
        found = flaws_of_blocks(path, changed) if wanted == "old block" else list(flaws({**texts, path: changed}, path))
        if not count or not any(wanted in it for it in found):
            missed += 1
            print(f"{what}: the text stands {count} times, and {wanted!r} isn't said, but", *found, sep="\n    ", flush=True)
    print(f"{len(ERRORS)} errors, {missed} not found")
    return 1 if missed else 0


def main(arguments):
    if arguments not in ([], ["--planted"]):
        print(__doc__.split("\n")[0], file=sys.stderr)
        return 2
    sys.setrecursionlimit(10_000)
    texts = pages()
    found = list(dict.fromkeys(flaws(texts)))
    if arguments and not found:
        return planted(texts)
    print("\n".join([*found, f"{len(list(listings(texts[PAPER])))} listings, {len(listed())} clauses, {len(found)} wrong"]))
    return 1 if found else 0


if __name__ == "__main__":
    sys.exit(main(sys.argv[1:]))
