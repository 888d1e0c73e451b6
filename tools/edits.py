#!/usr/bin/env python3
"""usage: edits.py [--applies] [--gate] [--jobs N] [--into FILE] [CRATE|CRATE/EDIT..]

Tries the edits of crates/CRATE/more-edits, or one edit of these or of must-fail by its name, many in one check: edits of one crate
that stand in different functions are applied together, only these functions are checked, and each is judged by its own contract,
over the contracts of what it calls. Of which that tells nothing is tried alone. Without a name, all are tried. It works where the
libraries below a crate are built, as the gate or `rt lib` left them in crates/*/out, and changes nothing there: a crate's text is
copied. A crate whose own library isn't built of its text is checked first as it stands. Each check of a crate goes on from what
those before it proved.

Prints a line for each edit:

    refused            a goal of its function is open for which no answer is written, though all answers still fit. The reason is that goal
    refused by search  an answer that is written no longer fits. It was taken out: `search` proves the goal of the code as it stands, and
                       not of the edit
    not told           an answer no longer fits, and without it `search` proves the goal of neither; or an invariant or a helper of the answers doesn't
                       fit. That doesn't show that the contract excludes the edit
    for a name         a proof file misses what the edit took away or named anew, and no more is known
    accepted           its function is proved, with its answers or without those that no longer fit
    doesn't apply      an old text doesn't stand once in its file
    not tried          its check told nothing

Then a line for each crate. Ends with status 1 if an edit was accepted, doesn't apply or wasn't tried. --applies only looks whether
each edit applies. --gate tries those of must-fail, too. --jobs N tries so many crates side by side. --into FILE writes the lines to FILE, too. Of an edit that stands there, tried over the
same texts, the line is taken from there: so what was cut off goes on where it was, and one night serves all.
"""
import collections
import concurrent.futures
import functools
import hashlib
import importlib.machinery
import importlib.util
import os
import re
import shutil
import subprocess
import sys
import tempfile
import time

import rattle_source

TOP = os.path.realpath(rattle_source.TOP)
ONLY_CALLS = re.compile(r"[\w ]+: it calls `")
VERDICT = re.compile(r"^fn \w+?::(\S+): (.*)$", re.M)
ERROR = re.compile(r"^(?:note: )?(?:\./)?(\S+?):(\d+):\d+:(.*)$")
MISSES = re.compile(r"has no field|is not in scope|has no `")
# the goals of which a verdict says that no tactic proved them
OPEN = re.compile(r"did not prove (`[^`]+`(?:, `[^`]+`)*)")
FALSE = re.compile(r"^note: `([^`]+)` of (\S+) may be false: (.*?)(?:: help: .*)?$", re.M)
KINDS = ("refused", "refused by search", "not told", "for a name", "accepted", "doesn't apply", "not tried")
# how often answers that don't fit are taken out: without the first ones the check comes to others
ROUNDS = 4


class Edit:
    """One edit: its pairs of texts, and the functions by which it is judged, as a check prints them: those in which a text stands, or, of a
    file of definitions, those that name it; None where there are none."""

    def __init__(self, path):
        parts = path.split("/")
        self.path, self.crate, self.name = path, parts[-3], parts[-1][: -len(".edit")]
        self.pairs, self.functions, self.why, file, old = [], set(), "", "", None
        with open(path, encoding="utf-8") as lines:
            for line in lines.read().split("\n"):
                if line.startswith("file: "):
                    file = line[len("file: ") :].strip()
                elif line.startswith("old: "):
                    old = line[len("old: ") :]
                elif line.startswith("new:") and old:
                    self.pairs.append((file, old, line[len("new:") :].removeprefix(" ")))
                    old = None
        if not self.pairs:
            self.why = "it has no pair of texts"

    def apply(self, texts, folder):
        """The texts with the edit in them, by file; None if an old text doesn't stand once in its file."""
        texts = dict(texts)
        for file, old, new in self.pairs:
            if file not in texts:
                if not os.path.isfile(os.path.join(folder, file)):
                    self.why = self.why or f"{file} isn't there"
                    return None
                with open(os.path.join(folder, file), encoding="utf-8") as text:
                    texts[file] = text.read()
            count = texts[file].count(old)
            if count != 1:
                self.why = self.why or f"a text stands {count} times in {file}"
                return None
            self.functions |= functions_over(folder, file) or {rattle_source.function_at(file, texts[file], texts[file].index(old))}
            texts[file] = texts[file].replace(old, new)
        return texts


@functools.cache
def functions_over(folder, file):
    """The functions of the files of a crate's code that name a file of definitions, or one that names it."""
    texts = {}
    for at, _, names in (it for part in ("src", "specs") for it in os.walk(f"{folder}/{part}")):
        for name in names:
            with open(f"{at}/{name}", encoding="utf-8") as text:
                texts[os.path.relpath(f"{at}/{name}", folder)] = text.read()
    named, left = set(), [file] if file.startswith("specs/") else []
    while left:
        module = left.pop()[: -len(".antt")].replace("/", ".")
        more = {it for it in texts if it not in named and re.search(rf"\b{os.path.basename(folder)}\.{module}\b", texts[it])}
        named |= more
        left += [it for it in more if it.startswith("specs/")]
    return {rattle_source.function_at(it, texts[it], found.end()) for it in named if it.startswith("src/") for found in rattle_source.FUNCTION.finditer(texts[it])}


def edits_of(words, gate=False):
    """The edits that the words name, by crate; with those of the gate."""
    found = collections.OrderedDict()
    if not words:
        words = sorted(it for it in os.listdir(f"{TOP}/crates") if os.path.isdir(f"{TOP}/crates/{it}/more-edits") or gate and os.path.isdir(f"{TOP}/crates/{it}/must-fail"))
    for word in words:
        crate, _, name = word.partition("/")
        folders = [f"{TOP}/crates/{crate}/more-edits"] + ([f"{TOP}/crates/{crate}/must-fail"] if name or gate else [])
        paths = [f"{folder}/{it}" for folder in folders if os.path.isdir(folder) for it in sorted(os.listdir(folder)) if it.endswith(".edit") and name in ("", it[: -len(".edit")])]
        if not paths:
            sys.exit(print(f"{word}: no such edit\n{__doc__.splitlines()[0]}", file=sys.stderr) or 2)
        found.setdefault(crate, []).extend(Edit(path) for path in paths)
    return found


def batches_of(edits, folder):
    """Edits together that are judged by different functions; one of which no function tells alone."""
    batches = []
    for edit in edits:
        for together, functions, texts in batches:
            applied = None if None in edit.functions | functions or edit.functions & functions else edit.apply(texts, folder)
            if applied:
                together.append(edit)
                functions.update(edit.functions)
                texts.update(applied)
                break
        else:
            batches.append(([edit], set(edit.functions), edit.apply({}, folder)))
    return [it[0] for it in batches]


def kit():
    """The kit's own module, which says how a crate is checked."""
    sys.dont_write_bytecode = True
    loader = importlib.machinery.SourceFileLoader("rtlib", os.path.join(os.path.dirname(os.path.realpath(shutil.which("rt"))), "rtlib.py"))
    rtlib = importlib.util.module_from_spec(importlib.util.spec_from_loader("rtlib", loader))
    sys.modules["rtlib"] = rtlib
    loader.exec_module(rtlib)
    # (it sums a crate's files each time it is asked)
    rtlib.Crate.stamp = functools.cache(rtlib.Crate.stamp)
    return rtlib


def is_built(crate):
    """Whether a crate's library is there, and of its text: by its stamp, or, if a gate has left none, since it is newer."""
    if not os.path.isdir(crate.rlib):
        return False
    if os.path.exists(os.path.join(os.path.dirname(crate.rlib), "stamp")):
        return crate.is_built()
    texts = [f"{at}/{name}" for at, _, names in os.walk(crate.folder) if "/out" not in at for name in names if name.endswith((".rt", ".antt"))]
    return max(map(os.path.getmtime, texts)) <= os.path.getmtime(crate.rlib) + 1


class Bench:
    """A crate that is checked with edits in it."""

    def __init__(self, rtlib, name, room):
        self.rtlib, self.name, self.folder, self.room = rtlib, name, f"{TOP}/crates/{name}", f"{room}/{name}"
        self.crate = rtlib.Crate(self.folder, TOP, {})
        self.lacks = [it.name for it in self.crate.below() if not is_built(it)]
        self.standing = {}
        os.makedirs(self.room)
        if os.path.isdir(f"{self.folder}/out/incremental"):
            shutil.copytree(f"{self.folder}/out/incremental", f"{self.room}/kept", symlinks=True)

    def check(self, texts, functions, more=()):
        """What a check of these functions of the crate with these texts, and more words, prints, and its status; without functions, of all."""
        at = f"{self.room}/texts"
        for part in self.rtlib.PARTS:
            if os.path.isdir(f"{self.folder}/{part}"):
                shutil.copytree(f"{self.folder}/{part}", f"{at}/{part}")
        for file, text in texts.items():
            with open(f"{at}/{file}", "w", encoding="utf-8") as out:
                out.write(text)
        words = [self.rtlib.RATTLE, "check", *self.crate.words(["--jobs", "1"], keeps=False), "--incremental", f"{self.room}/kept", *more]
        words += [word for it in sorted(functions) for word in ("--only", it)]
        ran = subprocess.run(words, cwd=at, stdin=subprocess.DEVNULL, stdout=subprocess.PIPE, stderr=subprocess.STDOUT, errors="replace")
        shutil.rmtree(at)
        return ran.stdout, ran.returncode

    def try_together(self, edits):
        """What each of these edits came to, tried in one check: its kind and the reason, or what the check said of each of its functions, if that
        tells nothing yet; None of one of which the check told nothing at all."""
        texts, functions = {}, set()
        for edit in edits:
            texts = edit.apply(texts, self.folder)
            functions |= edit.functions
        said, status = self.check(texts, self.functions_for(texts, functions))
        if not VERDICT.search(said) or re.search(r"\berror\[[\w-]+\]", said):
            return dict.fromkeys(edits)
        return {edit: self.judged(self.told_by(said, texts, edit.functions), edit, status) for edit in edits}

    @staticmethod
    def functions_for(texts, functions):
        """The functions to be checked: none, for all of the crate, if an edited text stands outside of functions, or not in code alone."""
        return functions if all(it.startswith(("src/", "proofs/")) for it in texts) and None not in functions else ()

    def told_by(self, said, texts, functions):
        """What a check said of each of these functions; of each that isn't proved, if an edited text stands outside of functions."""
        verdicts = dict(VERDICT.findall(said))
        wanted = functions if None not in functions else {it for it, verdict in verdicts.items() if verdict != "proved"}
        return [Told(it, verdicts[it], said, self.text_of(texts, Told.answers_of(it))) for it in sorted(wanted) if it in verdicts]

    def text_of(self, texts, file):
        """A file's text, edited or as it stands; empty if it isn't there."""
        if file in texts or not os.path.isfile(f"{self.folder}/{file}"):
            return texts.get(file, "")
        with open(f"{self.folder}/{file}", encoding="utf-8") as text:
            return text.read()

    def judged(self, told, edit, status):
        """What an edit came to by what a check said of its functions."""
        if not told:
            return ("accepted", "") if None in edit.functions and status == 0 else None
        if all(it.is_proved for it in told):
            return "accepted", ""
        # (what is said of a function alone because it calls one that isn't proved is nothing of its own)
        own = [it for it in told if not it.is_proved and not ONLY_CALLS.match(it.verdict)]
        for it in own:
            if it.open and not it.missed:
                return "refused", it.reason()
        return own or None

    def without_answers(self, edit, told):
        """What an edit comes to without the answers that no longer fit, by `search`. Without them the code as it stands is tried, too."""
        texts, missed, gone = edit.apply({}, self.folder), False, {}
        for _ in range(ROUNDS):
            if any(it.elsewhere for it in told):
                return "not told", next(it.elsewhere for it in told if it.elsewhere)
            missed = missed or any(it.missed for it in told)
            for it in told:
                gone.setdefault(it.function, set()).update(it.unfit, it.missed)
            taken = self.taken_out(gone)
            said, status = self.check({**texts, **taken}, self.functions_for(texts, edit.functions))
            told = [it for it in self.told_by(said, {**texts, **taken}, edit.functions) if not ONLY_CALLS.match(it.verdict)]
            if told and all(it.is_proved for it in told):
                return "accepted", "with other answers"
            told = [it for it in told if not it.is_proved]
            if not any(it.unfit or it.missed for it in told):
                break
        return self.told_by_search([it for it in told if it.open], gone, missed, edit)

    def told_by_search(self, told, gone, missed, edit):
        """What goals that are open without answers tell: something only if `search` proves them of the code as it stands."""
        if not told:
            return "not told", "without the answers that don't fit its check told nothing"
        control = {it.function: it for it in self.standing_without(gone, {it.function for it in told}, edit)}
        for it in told:
            stands = control.get(it.function)
            if stands and (stands.is_proved or not missed and set(it.open) - set(stands.open)):
                goal = next((goal for goal in it.open if goal not in stands.open), it.open[0])
                return "refused by search", it.reason(goal)
        return ("for a name" if missed else "not told"), f"`{told[0].open[0]}` of {told[0].function}: without its answer search proves it of neither"

    def standing_without(self, gone, functions, edit):
        """What a check says of the code as it stands without these answers."""
        key = tuple(sorted((it, tuple(sorted(gone[it]))) for it in gone))
        if key not in self.standing:
            taken = self.taken_out(gone)
            said, _ = self.check(taken, self.functions_for(taken, set(gone)))
            self.standing[key] = self.told_by(said, taken, set(gone))
        return [it for it in self.standing[key] if it.function in functions]

    def taken_out(self, gone):
        """The files of answers of these functions without these of their answers, and without those that name one of these."""
        return {Told.answers_of(function): without(self.text_of({}, Told.answers_of(function)), names) for function, names in gone.items() if names}


class Told:
    """What a check said of a function: its verdict, the goals that are open, and of its answers those that don't fit (by name, with the
    error), those that miss a name, and what else of its proof doesn't fit."""

    def __init__(self, function, verdict, said, answers):
        self.function, self.verdict, self.is_proved = function, verdict, verdict == "proved"
        goals = OPEN.search(verdict)
        self.open = re.findall(r"`([^`]+)`", goals.group(1)) if goals else []
        self.false = {goal: why for goal, file, why in FALSE.findall(said) if file == self.answers_of(function)}
        self.unfit, self.missed, self.elsewhere = {}, {}, ""
        folder = os.path.dirname(self.answers_of(function))
        for file, line, text in (it.groups() for it in map(ERROR.match, said.split("\n")) if it and ": error" in it.group(0)):
            if file == self.answers_of(function):
                name = block_at(answers, int(line))
                (self.missed if MISSES.search(text) else self.unfit).setdefault(name, text.strip()[:200])
            elif os.path.dirname(file) == folder:
                self.elsewhere = self.elsewhere or f"{os.path.basename(file)} of {function}: {text.strip()[:80]}"
        if not (self.is_proved or self.open or self.unfit or self.missed or self.elsewhere):
            self.elsewhere = f"{function}: {verdict[:100]}"

    @staticmethod
    def answers_of(function):
        return f"proofs/{function.replace('::', '/')}/Answers.antt"

    def reason(self, goal=None):
        goal = goal or next((it for it in self.open if it in self.false), self.open[0])
        return f"`{goal}` of {self.function}" + (f" is false: {self.false[goal]}" if goal in self.false else "")[:160]


def blocks_of(text):
    """The definitions of a file of answers: each name with the lines from its head to the next one's, counted from 1. The lines before the
    first one have the name None."""
    name, first = None, 1
    lines = text.split("\n")
    for at, line in enumerate(lines, start=1):
        head = re.match(r"(?:pub |abbrev |unfoldable )*([^\s():]+) :(?: |$)", line)
        if head and head.group(1) != name:
            yield name, first, at - 1
            name, first = head.group(1), at
    yield name, first, len(lines)


def block_at(text, line):
    return next((name for name, first, last in blocks_of(text) if first <= line <= last), None)


def without(text, names):
    """A file of answers without these, and without those that name one of them."""
    gone, lines = set(names), text.split("\n")
    parts = {name: "\n".join(lines[first - 1 : last]) for name, first, last in blocks_of(text)}
    while True:
        more = {name for name, part in parts.items() if name and name not in gone and any(it and re.search(rf"(?<![\w.'-]){re.escape(it)}(?![\w'-])", part) for it in gone)}
        if not more:
            return "\n".join(part for name, part in parts.items() if name not in gone) + "\n"
        gone |= more


def tried(bench, edits, tell):
    """Tries a crate's edits; those of which a check of several told nothing, or no more than that a proof doesn't fit, are tried alone."""
    if not is_built(bench.crate):
        said, status = bench.check({}, ())
        if status:
            return [tell(edit, "not tried", f"the crate isn't proved as it stands: {said.rstrip().splitlines()[-1][:80]}") for edit in edits]
    results = []
    for batch in batches_of(edits, bench.folder):
        found = bench.try_together(batch)
        for edit in batch:
            came = found[edit]
            if len(batch) > 1 and not isinstance(came, tuple):
                came = bench.try_together([edit])[edit]
            if isinstance(came, list):
                came = bench.without_answers(edit, came)
            results.append(tell(edit, *(came or ("not tried", "its check told nothing of the function"))))
    return results


class Lines:
    """The lines of edits that were tried, in a file that is written as they come, and what stands there from an earlier run."""

    def __init__(self, path):
        self.path, self.earlier = path, {}
        if path:
            with open(path, "a+", encoding="utf-8") as lines:
                lines.seek(0)
                self.earlier = {tuple(it[:2]): it[2:] for it in (line.rstrip("\n").split("\t") for line in lines) if len(it) == 4}

    def of(self, edit):
        """The kind and the reason of an edit that was tried over the same texts; None if there is none."""
        return self.earlier.get((f"{edit.crate}/{edit.name}", sum_of(edit)))

    def add(self, edit, kind, why):
        if self.path and self.of(edit) is None and kind != "not tried":
            with open(self.path, "a", encoding="utf-8") as out:
                out.write("\t".join((f"{edit.crate}/{edit.name}", sum_of(edit), kind, " ".join(why.split()))) + "\n")


@functools.cache
def crate_sum(name, top):
    """The sum of the texts of a crate and of all below it."""
    with open(f"{top}/crates.txt", encoding="utf-8") as lines:
        below = next((line.partition(":")[2].split() for line in lines if line.split(":")[0].split()[:1] == [name]), None)
    if below is None:
        return ""
    texts = hashlib.sha256("".join(crate_sum(it, top) for it in below).encode())
    for part in ("src", "specs", "proofs"):
        for at, folders, names in os.walk(f"{top}/crates/{name}/{part}"):
            folders.sort()
            for it in sorted(names):
                with open(f"{at}/{it}", "rb") as text:
                    texts.update(it.encode() + text.read())
    return texts.hexdigest()


def sum_of(edit):
    """The sum of all that an edit is tried over, and of its own text."""
    with open(edit.path, "rb") as text:
        return hashlib.sha256(crate_sum(edit.crate, TOP).encode() + text.read()).hexdigest()[:16]


def main():
    words, options = [], {"--jobs": "1", "--into": ""}
    given = sys.argv[1:]
    while given:
        word = given.pop(0)
        if word in options and given:
            options[word] = given.pop(0)
        elif word.startswith("-") and word not in ("--applies", "--gate"):
            return print(__doc__.splitlines()[0], file=sys.stderr) or 2
        else:
            words.append(word)
    applies, into = "--applies" in words, options["--into"]
    if not options["--jobs"].isdecimal() or int(options["--jobs"]) == 0 or into and (os.path.isdir(into) or not os.path.isdir(os.path.dirname(into) or ".")):
        return print(__doc__.splitlines()[0], file=sys.stderr) or 2
    found = edits_of([it for it in words if not it.startswith("-")], "--gate" in words)
    try:
        lines = Lines(into)
    except (OSError, UnicodeDecodeError) as error:
        return print(f"{into}: {error}", file=sys.stderr) or 2

    def tell(edit, kind, why):
        print(f"{edit.crate + '/' + edit.name:<60} {kind:<18}  {why}".rstrip(), flush=True)
        lines.add(edit, kind, why)
        return kind

    def one(crate):
        began = time.time()
        edits = found[crate]
        fit = [it for it in edits if it.apply({}, f"{TOP}/crates/{crate}") is not None]
        results = [tell(edit, "doesn't apply", edit.why) for edit in edits if edit not in fit]
        left = [it for it in fit if lines.of(it) is None]
        results += [tell(edit, *lines.of(edit)) for edit in fit if edit not in left]
        if left and not applies:
            bench = Bench(rtlib, crate, room)
            if bench.lacks:
                results += [tell(edit, "not tried", f"the library of {bench.lacks[0]} isn't built, or is older than its text") for edit in left]
            else:
                results += tried(bench, left, tell)
            shutil.rmtree(bench.room)
        return crate, len(edits), collections.Counter(results), time.time() - began

    rtlib = None if applies else kit()
    with tempfile.TemporaryDirectory() as room, concurrent.futures.ThreadPoolExecutor(int(options["--jobs"])) as pool:
        try:
            table = list(pool.map(one, found))
        except OSError as error:
            return print(f"edits.py: {error}", file=sys.stderr) or 2
    print(f"\n| crate | edits | {' | '.join(KINDS)} | seconds |\n|---|---|{'---|' * len(KINDS)}---|")
    for crate, number, count, seconds in table:
        print(f"| `{crate}` | {number} | {' | '.join(str(count[it] or '') for it in KINDS)} | {seconds:.0f} |")
    total = sum((count for _, _, count, _ in table), collections.Counter())
    print(f"| **all** | {sum(number for _, number, _, _ in table)} | {' | '.join(str(total[it] or '') for it in KINDS)} | |")
    return 1 if any(total[it] for it in ("accepted", "doesn't apply", "not tried")) else 0


if __name__ == "__main__":
    sys.exit(main())
