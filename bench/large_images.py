"""Large and hostile images: how long `dump` takes over each, and how much memory, beside the bytes of its text.

    python3 bench/large_images.py PROGRAM [MOST SECTORS]

Times are those of a processor, so they don't depend on what else runs. Each kind is tried in sizes that double; the time
should double with the text, and the memory should stay below four times the text. MOST SECTORS, 131,072 if it isn't given,
is the size of the greatest image of sectors alone; the limit of an image is 1,048,575. Nothing is proved here.
"""

from __future__ import annotations

import os
import subprocess
import sys
import tempfile
from pathlib import Path

sys.path.insert(0, str(Path(__file__).resolve().parent.parent / "reference"))
from images import GREATEST_IMAGE, Image, read_image, text_of  # noqa: E402

CORE = 1_048_575

# A small process that starts the program, since the memory of the one that starts it counts too.
WATCHER = """
import os, sys
child = os.fork()
if child == 0:
    os.execv(sys.argv[1], sys.argv[1:])
_, status, used = os.wait4(child, 0)
print(os.waitstatus_to_exitcode(status), used.ru_utime + used.ru_stime, used.ru_maxrss, file=sys.stderr)
"""

# What segment P does, of level 3, whose first cell is an argument. The outer block has P in 2,2 and a number in 2,3.
CHILD = {
    # each record has a reference to the cell of the record below it
    "references": "MKST\nNAMC 2,2\nNAMC 3,2\nSTFF\nENTR\nEXIT\n",
    # each record has a present array of one word, a copy of its element, and a copy of the array of the record below it
    "arrays": "MKST\nNAMC 0,8\nONE\nENTR\nONE\nNAMC 3,3\nZERO\nINDX\nSTOD\nNAMC 3,3\nZERO\nINDX\nMKST\nNAMC 2,2\nNAMC 3,3\nLOAD\nENTR\nEXIT\n",
    # numbers alone
    "operands": "L: ONE\nBRUN L\n",
    # references to a cell of the parent, on whose stack many records lie above it
    "far references": "L: NAMC 2,3\nSTFF\nBRUN L\n",
}
KINDS = (("references", 1.6, 1.0), ("far references", 2.6, 1.0), ("references high up", 2.6, 1.0), ("operands", 1.9, 1.0), ("arrays", 3.4, 1.7))
DEEPER = "SEGMENT Q 3\n" + "NOOP\n" * 6 + "MKST\nNAMC 2,4\nONE\nENTR\nEXIT\n"  # the parent's own records, in 2,4


# The outer block goes down so many records, and starts its children in the last, to which all their references lead.
HIGH = """\
SEGMENT MAIN 2
MPCW R
MKST
NAMC 2,2
LT16 {depth}
ENTR
EXIT
SEGMENT R 3
VALC 3,2
ZERO
GRTR
BRTR D
MPCW C
{starts}L: BRUN L
D: MKST
NAMC 2,2
VALC 3,2
ONE
SUBT
ENTR
EXIT
SEGMENT C 4
L: NAMC 3,2
STFF
BRUN L
"""


def deck_of(kind: str, stack: int, count: int, jobs: int, children: int) -> bytes:
    """A deck of so many jobs and tasks, with a program of 255 segments and rows, that halts at a count."""
    rows = "".join(f"ROW R{n}\nNUM 1\n" for n in range(252))
    call = "MKST\nNAMC 0,12\nNAMC 2,2\nONE\nENTR\n" * children
    if kind == "references high up":
        program = HIGH.format(depth=stack * 3 // 10, starts=call.replace("2,2", "3,3")) + rows
        return deck_with(program, stack, count, jobs)
    last = "MKST\nNAMC 2,4\nONE\nENTR\nEXIT\n" if kind.startswith("far") else "L: BRUN L\n"
    program = f"SEGMENT MAIN 2\nMPCW P\nONE\nMPCW Q\n{call}{last}SEGMENT P 3\n{CHILD[kind]}{DEEPER}{rows}"
    return deck_with(program, stack, count, jobs)


def full_stacks(kind: str, turns: float, room: float, stack: int) -> tuple[bytes, int]:
    """A deck of 120 tasks that halts when their stacks are nearly full, and the words of core that it wants."""
    count = 120 * (40 + int(turns * stack * 9 // 10)) + (24 * stack if "high" in kind else 0)
    return deck_of(kind, stack, count, 8, 14), 160 + 8 * 1_100 + int(120 * stack * room)


def deck_with(program: str, stack: int, count: int, jobs: int) -> bytes:
    """A deck of so many jobs of one program, that halts at a count."""
    cards = f"?HALT {count}\n?STACK {stack}\n?QUANTUM 500\n"
    for job in range(jobs):
        cards += f"?JOB J{job}\n?LIMIT 100000000\n?ASM\n{program}?END\n"
    return cards.encode()


class Measured:
    """A program, and the folder in which it runs."""

    def __init__(self, program: Path, folder: Path) -> None:
        self.program = program
        self.folder = folder

    def run(self, words: list[str], text: bytes) -> tuple[int, bytes, float, float]:
        """The status, what was printed, the seconds of a processor and the MB of memory."""
        (self.folder / "in").write_bytes(text)
        with open(self.folder / "in", "rb") as source, open(self.folder / "out", "wb") as sink:
            said = subprocess.run(
                [sys.executable, "-S", "-c", WATCHER, self.program, *words],
                stdin=source, stdout=sink, stderr=subprocess.PIPE, cwd=self.folder, check=True,
            ).stderr.split()  # fmt: skip
        return int(said[0]), (self.folder / "out").read_bytes(), float(said[1]), int(said[2]) / 1000

    def image(self, deck: bytes, core: int) -> bytes:
        """The text of the image that a deck prints."""
        status, printed, _, _ = self.run(["image", "--core", str(core), "--backing", "b"], deck)
        begin, end = printed.find(b"?IMAGE\n"), printed.rfind(b"?END\n")
        if status != 3 or begin < 0:
            sys.exit(f"image: status {status}, {printed[-100:]!r}")
        return printed[begin : end + 5]

    def show(self, what: str, text: bytes) -> None:
        """Prints a line of the table."""
        status, printed, took, memory = self.run(["dump"], text)
        last = printed[-60:].decode("latin-1").splitlines()[-1] if status else f"{len(printed)} bytes"
        size = len(text) / 1e6
        print(f"{what:40} {size:7.2f} {took:8.3f} {took / size:8.3f} {memory:7.1f} {memory / size:6.1f}  {last}", flush=True)


def spread(text: bytes, width: int) -> bytes:
    """The image on cards of so many digits."""
    digits = text.replace(b"?IMAGE\n", b"").replace(b"?END\n", b"").replace(b"\n", b"")
    cards = [digits[i : i + width] for i in range(0, len(digits), width)]
    return b"?IMAGE\n" + b"\n".join(cards) + b"\n?END\n"


def with_links(image: Image, sectors: int) -> bytes:
    """The image over so many sectors, or as many as are in use. Those that aren't are free."""
    used = max((n for n, link in enumerate(image.links, start=1) if link), default=1)
    image.links = image.links[:used] + [0] * (sectors - used)
    return text_of(image)


def few(text: bytes) -> bytes:
    """An image without the free sectors at its end."""
    return with_links(read_image(text, None), 0)


def main() -> int:
    """Measures all kinds."""
    if not 2 <= len(sys.argv) <= 3 or not os.access(sys.argv[1], os.X_OK) or os.path.isdir(sys.argv[1]):
        print("usage: python3 bench/large_images.py PROGRAM [MOST SECTORS]", file=sys.stderr)
        return 2
    most = sys.argv[2] if len(sys.argv) > 2 else "131072"
    if not most.isdecimal() or not 16_384 <= int(most) <= CORE:
        print(f"{most}: a number of sectors from 16384 to {CORE}", file=sys.stderr)
        return 2
    with tempfile.TemporaryDirectory() as folder:
        measured = Measured(Path(sys.argv[1]).resolve(), Path(folder))
        print(f"{'image':40} {'MB':>7} {'seconds':>8} {'s / MB':>8} {'MB used':>7} {'times':>6}  dump")
        least = read_image(measured.image(deck_of("operands", 64, 40, 1, 0), 4_096), None)
        sectors = 16_384
        while sectors <= int(most):
            measured.show(f"{sectors} sectors, nearly all free", with_links(least, sectors))
            sectors = min(2 * sectors, int(most)) if sectors < int(most) else sectors + 1
        # how many operators fill a word of a stack, and how much core it takes
        for kind, turns, room in KINDS:
            for stack in (600, 1_250, 2_500, 5_000):
                deck, core = full_stacks(kind, turns, room, stack)
                measured.show(f"{kind}, 120 stacks of {stack}", few(measured.image(deck, core)))
        job = least.jobs[0]
        room = GREATEST_IMAGE - 10_000 - len(with_links(least, 2_000))
        for part in (4, 2, 1):
            job.numbers = [7] * (room // part // 65 * 4)
            job.next_number = 0
            measured.show("numbers for READ", text_of(least))
        measured.show("the same, a byte on each card", spread(with_links(least, 2_000), 2)[:GREATEST_IMAGE])
        for part in (4, 2, 1):
            measured.show("empty cards", b"?IMAGE\n" + b"\n" * (GREATEST_IMAGE // part - 7))
        measured.show("a byte too many", b"?IMAGE\n" + b"\n" * (GREATEST_IMAGE - 6))
    return 0


if __name__ == "__main__":
    sys.exit(main())
