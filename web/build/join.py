"""Puts the page's parts into one file: `python3 web/build/join.py MODULE OUT.html`, called by tools/web.sh. MODULE is a WebAssembly
module, or a page, of which the module is taken: `python3 web/build/join.py web/b67.html web/b67.html` joins the page anew after
an edit of web/src or of a document, without the kit. With --check in the place of OUT.html nothing is written, and the status is 1
if MODULE, a page, isn't what its module and the sources give.

Nine lines of page.html are placeholders. Each is replaced by a text, and nothing else is changed:
- @STYLE@: page.css;
- @DECKS@: for each deck of decks/, and of teaching/decks/, that is run, a line `#DECK NAME CORE`, a line `#ABOUT` with the first line of its README, and its cards;
  then so the programs in ALGOL 60 that ALGOL names, as `algol-NAME`;
- @MESSAGES@: the headings and the rows of tables of docs/MESSAGES.md;
- @OPERATORS@: the tables of operators and intrinsics of docs/MACHINE.md, sections 11 and 12;
- @GLOSSARY@: the rows of tables of docs/GLOSSARY.md;
- @PROVED@: the section "The page" of docs/PROVED.md;
- @VERSION@: the version that CITATION.cff has;
- @MODULE@: the module, in base64;
- @SCRIPT@: the modules, from start.js on, as esbuild joins them into one script."""

import base64
import pathlib
import re
import shutil
import subprocess
import sys

WEB = pathlib.Path(__file__).resolve().parent.parent
SOURCES = WEB / "src"
TOP = WEB.parent
ESBUILD = "0.17.0"  # the version of Debian 12; another one may give other bytes
ABOUT = {"ten": "An array of 100 words: how few words of core will do?"}  # in place of a README's line that names a file or tells an answer
# programs in ALGOL 60 of algol/programs that stand in the list of decks, and what they show
ALGOL = {
    "sum": "A sum over the elements of an array: the term is called by name.",
    "manboy": "Man or Boy, with k = 10: each B must find the k of its own A.",
    "jensen2": "Jensen's device: a sum of sums, and a sum whose variable is an element.",
    "swap": "swap(i, A[i]) by name does not swap.",
    "order": "What is worked out first: subscripts on the left, then the value.",
    "ackermann": "Ackermann's function: deep recursion.",
    "quicksort": "Quicksort of the numbers that read gives.",
    "sieve": "Primes: an array whose bounds are worked out.",
    "queens": "Eight queens: 92 ways.",
    "matrix": "Arrays of two dimensions, also by value.",
    "threelevels": "Procedures as parameters, through three levels.",
    "leave": "Go tos out of procedures, labels and switches as parameters.",
    "calculator": "An interpreter of arithmetic: each line of $TEXT is worked out.",
    "pl0": "A translator and an interpreter of PL/0, which pages in its least core.",
    "producer": "A producer and a consumer: two tasks that wait and cause.",
    "dining": "Five philosophers, who wait for ever.",
    "bank": "Two tasks that move money, one at a time.",
}
OPTIONS = ["--bundle", "--format=iife", "--charset=utf8", "--target=es2022", "--log-level=error"]


def stop(why, status=1):
    sys.exit(print(f"join.py: {why}", file=sys.stderr) or status)


def styles():
    return (SOURCES / "page/page.css").read_text(encoding="utf-8")


def decks():
    """The decks whose first word is `run`, in the order of their names; those of the term come last."""
    parts = []
    for folder in [*sorted((TOP / "decks").iterdir()), *sorted((TOP / "teaching/decks").iterdir())]:
        words = (folder / "args").read_text(encoding="utf-8").split() if (folder / "args").is_file() else []
        if words[:2] == ["run", "--core"]:
            about = ABOUT.get(folder.name) or (folder / "README").read_text(encoding="utf-8").split("\n")[0]
            cards = (folder / "stdin").read_text(encoding="utf-8")
            parts.append(f"#DECK {folder.name} {words[2]}\n#ABOUT {about}\n{cards}" + "\n" * (not cards.endswith("\n")))
    for name, about in ALGOL.items():
        parts.append(f"#DECK algol-{name} 4096\n#ABOUT {about}\n" + (TOP / f"algol/programs/{name}.alg").read_text(encoding="utf-8"))
    return "".join(parts)


def messages():
    lines = (TOP / "docs/MESSAGES.md").read_text(encoding="utf-8").splitlines(keepends=True)
    return "".join(line for line in lines if line.startswith(("## ", "|")))


def section(path, heading):
    """What stands under a heading, up to the next one."""
    text = (TOP / path).read_text(encoding="utf-8")
    found = re.search(rf"^{re.escape(heading)}\n(.*?)(?=^#|\Z)", text, re.M | re.S) or stop(f"{path}: no heading {heading!r}")
    return found[1]


def rows(text, columns):
    """The rows of tables of so many columns, without their heads."""
    found = [line for line in text.splitlines() if line.startswith("|") and line.count("|") == columns + 1]
    return "".join(f"{line}\n" for line, after in zip(found, found[1:] + [""]) if not line.startswith("|--") and not after.startswith("|--"))


def operators():
    machine = "docs/MACHINE.md"
    return rows(section(machine, "## 11. Operators"), 5) + rows(section(machine, "## 12. Intrinsics"), 4)


def glossary():
    text = (TOP / "docs/GLOSSARY.md").read_text(encoding="utf-8")
    return rows(text, 3) + rows(text, 2)


def proved():
    """Without links and backquotes."""
    return re.sub(r"\[([^\]]*)\]\([^)]*\)|`", lambda found: found[1] or "", section("docs/PROVED.md", "### The page"))


def version():
    return re.search(r"^version: (\S+)", (TOP / "CITATION.cff").read_text(encoding="utf-8"), re.M)[1]


def script():
    """The modules from start.js on as one script, joined by esbuild: a module that is imported nowhere isn't in it."""
    esbuild = shutil.which("esbuild") or stop("esbuild isn't on the path (Debian: apt-get install esbuild)", 2)
    version = subprocess.run([esbuild, "--version"], capture_output=True, text=True, check=True).stdout.strip()
    if version != ESBUILD:
        print(f"join.py: esbuild {version}; the page in the repository was joined by {ESBUILD}, so its bytes may differ", file=sys.stderr)
    made = subprocess.run([esbuild, "page/start.js", *OPTIONS], cwd=SOURCES, capture_output=True, text=True)
    if made.returncode:
        stop(made.stderr.strip())
    return made.stdout


def module(path):
    """The module in base64: of a file of WebAssembly, or of a page."""
    if path.suffix != ".html":
        return base64.b64encode(path.read_bytes()).decode()
    found = re.search(r"^AGFzb[A-Za-z0-9+/]+=*$", path.read_text(encoding="utf-8"), re.M) or stop(f"{path}: no module in it")
    return found[0]


def put(page, mark, text):
    """The page with the text in place of the line that is the mark."""
    if page.count(f"\n{mark}\n") != 1:
        stop(f"web/src/page/page.html: {mark} must stand once, alone on its line")
    if found := re.search(r"</(?:script|style)|<!--", text, re.I):
        stop(f"what is put in place of {mark} holds {found[0]}")
    before, after = page.split(f"\n{mark}\n")
    return f"{before}\n{text.rstrip(chr(10))}\n{after}"


def main():
    if len(sys.argv) != 3:
        sys.exit(print("usage: python3 web/build/join.py MODULE OUT.html, or PAGE.html --check", file=sys.stderr) or 2)
    given, out = pathlib.Path(sys.argv[1]), sys.argv[2]
    if not given.is_file():
        stop(f"{given}: no such file", 2)
    page = (SOURCES / "page/page.html").read_text(encoding="utf-8")
    texts = {"@STYLE@": styles(), "@DECKS@": decks(), "@MESSAGES@": messages(), "@OPERATORS@": operators(),
             "@GLOSSARY@": glossary(), "@PROVED@": proved(), "@VERSION@": version(), "@SCRIPT@": script(), "@MODULE@": module(given)}
    for mark, text in texts.items():
        page = put(page, mark, text)
    if out != "--check":
        pathlib.Path(out).write_text(page, encoding="utf-8", newline="\n")
    elif page != given.read_text(encoding="utf-8"):
        stop(f"{given} is old: python3 web/build/join.py {given} {given} joins it anew")
    else:
        print(f"{given}: as its module and the sources give it")


if __name__ == "__main__":
    main()
