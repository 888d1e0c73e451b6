#!/usr/bin/env python3
"""stack.py PROGRAM: how much of the host's stack b67 takes, in two ways.

By its machine code: the bytes of the deepest chain of calls from `main`, and the functions that call themselves, each as often as KNOWN
says. A function that calls itself and isn't in KNOWN, or a call through a pointer, is a failure: then no bound is known. The code of the
C library isn't counted.

By `ulimit -s`: for each command the least stack, in kB, with which its answers over hostile decks and images are those that it gives
with 8 MB. That's within some kB, since the system lets a stack begin where it likes.

Ends with status 1 if the chain and what is left for the C library, or one of the runs, needs more than BOUND kB. It wants objdump.
"""

import bisect
import collections
import os
import pathlib
import re
import resource
import shutil
import subprocess
import sys
import tempfile

sys.dont_write_bytecode = True
import hostile  # noqa: E402
import large_images  # noqa: E402

BOUND = 512
# what the C library and the loader may take of it
LIBRARY = 64
USUAL = 8_192
# How deep a function that calls itself goes: a number has at most 12 digits, and a tree of all labels of a deck has some nine levels.
KNOWN = {"b67_dump::lines::with_hex": 12, "std_collections::btree::node::Node::destroy": 16}
DECK = 131_072


class Code:
    """The functions of a program: by address the bytes that each takes of the stack, and what it calls."""

    def __init__(self, program):
        text = subprocess.run(["objdump", "-d", "--no-show-raw-insn", program], stdout=subprocess.PIPE, text=True, check=True).stdout
        self.names = {int(at, 16): name for at, name in re.findall(r"^([0-9a-f]+) <(.+)>:$", text, re.M)}
        lines = [(int(at, 16), line.strip()) for at, line in re.findall(r"^ +([0-9a-f]+):\t(.*)$", text, re.M)]
        self.starts = self.found_starts(lines)
        bodies = collections.defaultdict(list)
        for at, line in lines:
            bodies[self.function_of(at)].append(line)
        self.frames = {at: frame_of(body) for at, body in bodies.items()}
        self.calls = {at: self.called(at, body) for at, body in bodies.items()}
        self.pointers = [self.name(at) for at, body in bodies.items() if any(re.match(r"call +\*", line) for line in body)]

    def found_starts(self, lines):
        """Where functions begin: a symbol stands there, or it is called, or it follows the bytes between two functions."""
        starts, before = set(self.names), ""
        for at, line in lines:
            called = re.match(r"call +([0-9a-f]+) <", line)
            if called:
                starts.add(int(called.group(1), 16))
            if before == "int3" and line != "int3" and at % 16 == 0:
                starts.add(at)
            before = line
        return sorted(starts)

    def function_of(self, at):
        return self.starts[bisect.bisect_right(self.starts, at) - 1]

    def called(self, function, body):
        """What a function calls, and where it jumps to in another one."""
        targets = [(kind, int(at, 16)) for line in body for kind, at in re.findall(r"^(call|j\w+) +([0-9a-f]+) <", line)]
        return {at if kind == "call" else self.function_of(at) for kind, at in targets if kind == "call" or self.function_of(at) != function}

    def name(self, at):
        return re.sub(r"::<#\w+>$", "", self.names.get(at, f"the function at {at:#x}"))

    def circles(self):
        """The functions from which one comes back to themselves, but for those of KNOWN that only call themselves."""
        return [at for at in self.frames if at in self.reached(self.calls[at]) and not (self.name(at) in KNOWN and at not in self.reached(self.calls[at] - {at}))]

    def reached(self, targets):
        left, seen = list(targets), set()
        while left:
            at = left.pop()
            if at in self.frames and at not in seen:
                seen.add(at)
                left += self.calls[at]
        return seen

    def deepest(self, at, known):
        """The bytes of the deepest chain of calls from a function, and its functions."""
        if at not in known:
            below = [self.deepest(it, known) for it in self.calls[at] if it in self.frames and it != at]
            size, chain = max(below, default=(0, []))
            own = self.frames[at] * KNOWN.get(self.name(at), 1)
            known[at] = (own + size, [f"{self.name(at)} {own}", *chain])
        return known[at]


def frame_of(body):
    """The bytes that a function takes: its return address, the registers that it keeps, and its room, which it gives back at its end."""
    kept = sum(line.startswith("push ") for line in body[:12])
    rooms = [int(room, 16) for line in body for room in re.findall(r"^add +\$0x([0-9a-f]+),%rsp", line)]
    taken = [int(room, 16) for line in body[:40] for room in re.findall(r"^sub +\$0x([0-9a-f]+),%rsp", line)]
    return 8 + 8 * kept + max([*rooms, sum(taken)])


def by_code(program):
    """Prints what the machine code says; whether a bound follows from it."""
    code = Code(program)
    main = next((at for at, name in code.names.items() if name == "main"), None)
    if main is None:
        return print("the program has no symbol `main`: strip none") or False
    within = code.reached({main})
    circles = [code.name(at) for at in code.circles() if at in within]
    pointers = [name for name in code.pointers if name in {code.name(at) for at in within}]
    for name in circles:
        print(f"{name} comes back to itself, and no bound is known")
    for name in pointers:
        print(f"{name} calls through a pointer")
    if circles or pointers:
        return False
    size, chain = code.deepest(main, {})
    print(f"by the machine code: {size} bytes at most from `main`, in {', '.join(it for it in chain if not it.endswith(' 16'))}")
    return size <= (BOUND - LIBRARY) * 1024


class Runs:
    """A program in a folder of its own, run with a bound on the stack."""

    def __init__(self, program, folder):
        self.program, self.folder = program, folder

    def answer(self, words, text, kilobytes, backing=None):
        """The status and what was printed, over a copy of a backing."""
        if backing:
            shutil.copyfile(backing, os.path.join(self.folder, "b"))

        def bounded():
            resource.setrlimit(resource.RLIMIT_STACK, (kilobytes * 1024, kilobytes * 1024))
            resource.setrlimit(resource.RLIMIT_CORE, (0, 0))

        try:
            with open(os.path.join(self.folder, "in"), "wb") as out:
                out.write(text)
            with open(os.path.join(self.folder, "in"), "rb") as source:
                done = subprocess.run([self.program, *words], stdin=source, stdout=subprocess.PIPE, stderr=subprocess.DEVNULL, preexec_fn=bounded, env={}, cwd=self.folder)
        except (OSError, subprocess.SubprocessError):
            return None
        return done.returncode, done.stdout

    def least(self, words, texts):
        """The least stack with which each text gets the answer that it gets with the usual one."""
        found = 4
        for text, backing in texts:
            wanted = self.answer(words, text, USUAL, backing)
            low, high = found - 4, found
            while high < USUAL and self.answer(words, text, high, backing) != wanted:
                low, high = high, 2 * high
            while high - low > 4:
                middle = (low + high) // 8 * 4
                low, high = (low, middle) if self.answer(words, text, middle, backing) == wanted else (middle, high)
            found = high
        return found


def body_of(deck, card):
    """The cards of a deck's first job behind this card, up to its end."""
    return deck.split(card + "\n", 1)[1].split("?END\n", 1)[0] if card + "\n" in deck else ""


def cases(runs):
    """Of each command its words and the texts that it is to read, each with a copy of its backing, if it has one."""
    decks = [deck(DECK) for _, _, deck in hostile.DECKS]
    many = dict((name, deck) for name, _, deck in hostile.DECKS)["255 segments"](DECK)
    run = ["--core", "262144", "--backing", "b"]
    measured = large_images.Measured(pathlib.Path(runs.program), pathlib.Path(runs.folder))
    stacks, images = [], []
    for kind in large_images.KINDS:
        deck, core = large_images.full_stacks(*kind, 600)
        stacks.append((deck, None))
        backing = os.path.join(runs.folder, f"backing of {kind[0]}")
        images.append((measured.image(deck, core), backing))
        os.rename(os.path.join(runs.folder, "b"), backing)
    texts = [(deck.encode(), None) for deck in decks]
    bodies = {card: [(body.encode(), None) for body in (body_of(deck, card) for deck in decks) if body] for card in ("?ASM", "?HEX")}
    pairs = [f"{n}={n}" for n in range(1, 256)]
    return [
        ("run", ["run", *run], texts + stacks),
        ("image", ["image", *run], stacks),
        ("resume", ["resume", "--backing", "b"], images),
        ("dump", ["dump"], images),
        ("check", ["check"], texts),
        ("asm", ["asm"], bodies["?ASM"]),
        ("convert", ["convert"], bodies["?HEX"]),
        ("bind", ["bind", *pairs], [(2 * many.encode(), None), *texts]),
        ("exercise", ["exercise", "7", "500", "--core", "1048575"], [(b"", None)]),
    ]


def main():
    if len(sys.argv) != 2 or not os.access(sys.argv[1], os.X_OK) or os.path.isdir(sys.argv[1]) or not shutil.which("objdump"):
        sys.exit(print("usage: python3 bench/stack.py PROGRAM    (it wants objdump)", file=sys.stderr) or 2)
    program = os.path.abspath(sys.argv[1])
    holds = by_code(program)
    print("| command | texts | kB |\n|---|---|---|")
    with tempfile.TemporaryDirectory() as folder:
        runs = Runs(program, folder)
        for name, words, texts in cases(runs):
            least = runs.least(words, texts)
            holds = holds and least <= BOUND
            print(f"| {name} | {len(texts)} | {least} |", flush=True)
    print(f"{'within' if holds else 'NOT WITHIN'} {BOUND} kB")
    sys.exit(0 if holds else 1)


if __name__ == "__main__":
    main()
