"""The page in three files, for a server whose policy allows no script and no style within a page: `python3 web/build/apart.py PAGE FOLDER`.

FOLDER gets b67.html, b67.js and b67.css. They run under `default-src 'none'; script-src 'self' 'wasm-unsafe-eval'; style-src 'self';
worker-src 'self'`, fetch nothing else, and do what the page does: the machine's module stays in b67.html, as text."""

import pathlib
import re
import sys

PARTS = [
    ("b67.css", re.compile(r"<style>\n(.*?)</style>", re.S), '<link rel="stylesheet" href="b67.css">'),
    ("b67.js", re.compile(r'<script id="script">\n(.*?)</script>', re.S), '<script id="script" src="b67.js"></script>'),
]


def stop(why):
    sys.exit(print(f"apart.py: {why}", file=sys.stderr) or 2)


def main():
    if len(sys.argv) != 3:
        stop("usage: python3 web/build/apart.py PAGE FOLDER")
    page, folder = map(pathlib.Path, sys.argv[1:])
    if not page.is_file() or not folder.is_dir():
        stop(f"{page} must be a page, and {folder} a folder")
    html = page.read_text(encoding="utf-8")
    for name, part, instead in PARTS:
        found = part.findall(html)
        if len(found) != 1:
            stop(f"{page} is no page of the machine: it has no part for {name}")
        (folder / name).write_text(found[0], encoding="utf-8", newline="\n")
        html = part.sub(lambda _, instead=instead: instead, html)
    (folder / "b67.html").write_text(html, encoding="utf-8", newline="\n")


if __name__ == "__main__":
    main()
