#!/usr/bin/env python3
"""usage: slides.py [--check]

Makes slides.html of slides.txt. A line that begins with # begins a week, with = a slide, with - a sentence; the other lines are pictures,
and each is made by the machine itself, so that it stays true: `stacks DECK COUNT CORE` draws the stacks (scripts/draw.sh), `map` what lies
in core (scripts/core-map.sh), `listing DECK FROM TO` lines of its listing, `run DECK CORE` what it prints, `curve FROM TO STEP DECK..` the
sectors that are read over core (`b67.mjs paging`), `stages FILE` the stages of a project. With --check it only says whether slides.html is
what it would make. The program is b67, or that which the variable B67 names. Status 0, 1 if slides.html is another, 2 if something is missing.
"""
import html
import os
import re
import subprocess
import sys
import tempfile
from pathlib import Path

HERE = Path(__file__).resolve().parent
TOP = HERE.parent
COLOURS = ["#1f5fa8", "#b4521e"]
STYLE = """body { margin: 0; font: 26px/1.35 system-ui, sans-serif; color: #1b1b1b; background: #fff }
section { box-sizing: border-box; min-height: 100vh; padding: 4vh 5vw; page-break-after: always; border-bottom: 1px solid #ccc }
section.week { display: flex; align-items: center; background: #f3efe6 }
h1 { font-size: 54px; margin: 0 } h2 { font-size: 38px; margin: 0 0 .4em } li { margin: .15em 0 }
code { font-family: ui-monospace, monospace; font-size: .9em } pre { font: 20px/1.3 ui-monospace, monospace; background: #f6f6f6; padding: .6em; overflow-x: auto }
figure { margin: .6em 0 } figure svg { max-width: 90vw; max-height: 60vh; height: auto } figcaption { font-size: 16px; color: #555 }
@media print { section { border: 0 } }"""
SCRIPT = """const all = [...document.querySelectorAll('section')];
addEventListener('keydown', ({key}) => {
  const by = {ArrowRight: 1, PageDown: 1, ArrowLeft: -1, PageUp: -1}[key], now = all.findIndex(it => it.getBoundingClientRect().bottom > 10);
  if (by) all[Math.max(0, Math.min(all.length - 1, now + by))].scrollIntoView();
});"""


class Missing(Exception):
    """What isn't there, or didn't come to an end."""


def called(words, text=None, good=(0,)):
    """What a command prints."""
    try:
        done = subprocess.run(words, input=text, capture_output=True, text=True, cwd=TOP, check=False)
    except OSError as problem:
        raise Missing(f"{words[0]}: {problem.strerror}") from None
    if done.returncode not in good:
        raise Missing(f"{' '.join(words)}: status {done.returncode}, {done.stderr.strip() or done.stdout.strip()[-200:]}")
    return done.stdout


def program():
    """The built program."""
    return os.environ.get("B67", "b67")


def deck(name):
    """The text of a deck of this repository."""
    file = TOP / name / "stdin"
    if not file.is_file():
        raise Missing(f"{name}: no deck")
    return file.read_text()


def image(name, count, core):
    """The image of a deck after so many operators, in a file of that room."""
    with tempfile.TemporaryDirectory() as room:
        return called([program(), "image", "--core", core, "--backing", f"{room}/b"], f"?HALT {count}\n{deck(name)}", (3,))


def stacks(name, count, core):
    """The stacks of a moment."""
    drawn = called(["sh", "scripts/draw.sh"], called([program(), "dump"], image(name, count, core)))
    return f"<figure>{drawn[drawn.index('<svg'):]}<figcaption><code>{html.escape(name)}</code> after {count} operators</figcaption></figure>"


def core_map(name, count, core):
    """What lies in core at a moment."""
    with tempfile.NamedTemporaryFile("w", suffix=".image") as file:
        file.write(image(name, count, core))
        file.flush()
        return f"<pre>{html.escape(called(['sh', 'scripts/core-map.sh', file.name]))}</pre>"


def listing(name, first, last):
    """Lines of a deck's listing."""
    lines = called(["sh", "scripts/listing.sh", f"{name}/stdin"]).splitlines()[int(first) - 1 : int(last)]
    return "<pre>" + html.escape("\n".join(lines)) + "</pre>"


def run(name, core):
    """What a deck prints."""
    with tempfile.TemporaryDirectory() as room:
        lines = called([program(), "run", "--core", core, "--backing", f"{room}/b"], deck(name), (0, 3, 4))
    return f"<pre>{html.escape(lines)}</pre><figcaption><code>{html.escape(name)}</code> in {core} words of core</figcaption>"


def stages(name):
    """The stages of a project, and what each adds."""
    lines = [line for line in (HERE / name).read_text().splitlines() if re.match("stage|operators|intrinsics", line)]
    return "<pre>" + html.escape("\n".join(line[:110] for line in lines)) + "</pre>"


def read_over(name, cores):
    """The sectors that a deck reads in each core; none where core is too small."""
    rows = [line.split() for line in called(["node", "web/b67.mjs", "paging", f"{name}/stdin", *map(str, cores)]).splitlines()[1:]]
    return {int(row[0]): int(row[3]) for row in rows if row[5:6] != ["NO"]}


def curve(first, last, step, *names):
    """Sectors read over core, a line for each deck."""
    cores = range(int(first), int(last) + 1, int(step))
    curves = [read_over(name, cores) for name in names]
    most = max(max(points.values()) for points in curves)
    across = lambda core: 60 + 820 * (core - cores[0]) / (cores[-1] - cores[0])  # noqa: E731
    up = lambda many: 360 - 330 * many / most  # noqa: E731
    parts = [f'<text x="0" y="40" font-size="16">{most}</text><text x="20" y="364" font-size="16">0</text>',
             '<path d="M60 20V360H890" fill="none" stroke="#777"/>']
    parts += [f'<text x="{across(core):.0f}" y="384" font-size="16" text-anchor="middle">{core}</text>' for core in cores[::5]]
    for points, colour, name in zip(curves, COLOURS, names):
        way = " ".join(f"{across(core):.0f},{up(many):.0f}" for core, many in points.items())
        parts.append(f'<polyline points="{way}" fill="none" stroke="{colour}" stroke-width="3"/>')
        parts.append(f'<text x="620" y="{60 + 28 * names.index(name)}" style="font-size:20px;fill:{colour}">{html.escape(name.split("/")[-1])}</text>')
    return f'<figure><svg viewBox="0 0 900 400" width="900" height="400">{"".join(parts)}</svg><figcaption>Sectors read, over the words of core</figcaption></figure>'


PICTURES = {"stacks": stacks, "map": core_map, "listing": listing, "run": run, "stages": stages, "curve": curve}


def marked(text):
    """A sentence, with its code."""
    return re.sub(r"`([^`]*)`", r"<code>\1</code>", html.escape(text))


def slide(lines):
    """One slide of its lines."""
    title, sentences, pictures = lines[0][2:], [], []
    for line in lines[1:]:
        kind, *rest = line.split()
        if kind == "-":
            sentences.append(f"<li>{marked(line[2:])}</li>")
        elif kind in PICTURES:
            pictures.append(PICTURES[kind](*rest))
        else:
            raise Missing(f"slides.txt: {line}: neither a sentence nor a picture")
    return f"<section><h2>{marked(title)}</h2><ul>{''.join(sentences)}</ul>{''.join(pictures)}</section>"


def made(text):
    """The whole page."""
    title, *lines = text.strip().split("\n")
    parts, group = [f"<section class='week'><h1>{marked(title)}</h1></section>"], []
    for line in [*lines, "= "]:
        if line.startswith(("# ", "= ")) and group:
            parts.append(slide(group))
            group = []
        if line.startswith("# "):
            parts.append(f"<section class='week'><h1>{marked(line[2:])}</h1></section>")
        elif line.strip():
            group.append(line)
    head = f'<!DOCTYPE html>\n<html lang="en"><head><meta charset="utf-8"><title>{html.escape(title)}</title><style>{STYLE}</style></head><body>\n'
    parts = [part.replace("<section", f'<section id="s{number}"', 1) for number, part in enumerate(parts, 1)]
    return head + "\n".join(parts) + f"\n<script>{SCRIPT}</script></body></html>\n"


def main(words):
    """Status 0, 1 or 2."""
    if words not in ([], ["--check"]):
        print(f"slides.py: no such word: {' '.join(words)}\n{__doc__.splitlines()[0]}", file=sys.stderr)
        return 2
    try:
        page, file = made((HERE / "slides.txt").read_text()), HERE / "slides.html"
        if not words:
            file.write_text(page)
        elif not file.is_file() or file.read_text() != page:
            print("slides.html isn't what slides.py makes")
            return 1
        return 0
    except (Missing, OSError) as problem:
        print(f"slides.py: {problem}", file=sys.stderr)
        return 2


if __name__ == "__main__":
    sys.exit(main(sys.argv[1:]))
