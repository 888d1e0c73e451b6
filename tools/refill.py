#!/usr/bin/env python3
"""usage: refill.py [--check]

Makes again the blocks of docs/PROVED.md and docs/PAPER.md that scripts print (trust.py, sizes.py, premises.py, statement.py --signs):
what stands after such a command becomes what it prints now. Numbers in sentences are left; tools/check-docs.sh says which of them are old. With --check
nothing is written, and the status is 1 if a block is old.
"""
import os
import re
import subprocess
import sys

TOP = os.path.normpath(os.path.join(os.path.dirname(os.path.abspath(__file__)), ".."))
BLOCK = re.compile(r"(```console\n\$ (python3 tools/(?:trust|sizes|premises|statement|plants)\.py[^\n]*)\n)(?:(?!```)[^\n]*\n)*```")


def printed(found):
    """The block with what its command prints."""
    made = subprocess.run(found.group(2).split(), cwd=TOP, stdout=subprocess.PIPE, check=True)
    return found.group(1) + made.stdout.decode() + "```"


def main(arguments):
    if arguments not in ([], ["--check"]):
        print(__doc__.split("\n")[0], file=sys.stderr)
        return 2
    old_pages = 0
    for page in ["docs/PROVED.md", "docs/PAPER.md"]:
        path = os.path.join(TOP, page)
        with open(path, encoding="utf-8") as text:
            old = text.read()
        new = BLOCK.sub(printed, old)
        if arguments:
            old_pages += new != old
            print(f"{page}: {'old: python3 tools/refill.py makes its blocks again' if new != old else 'as the scripts print it'}")
            continue
        with open(path, "w", encoding="utf-8") as text:
            text.write(new)
        print(f"{page}: {'changed' if new != old else 'as it was'}")
    return 1 if old_pages else 0


if __name__ == "__main__":
    sys.exit(main(sys.argv[1:]))
