#!/usr/bin/env python3
"""hostile.py PROGRAM: decks of half the greatest size and of all of it, 4,194,304 bytes, that are meant to be slow to answer.
For each deck it prints the seconds of processor time at both sizes, the least of three runs, how often the one goes into
the other, the status and the last line. A time that is linear in the deck's bytes gives 2."""
import os, resource, subprocess, sys, tempfile

FULL = 4_194_304


def filled(head, card, tail, size):
    """Cards one after the other, as many as fit: card(n) is the text of the nth."""
    parts, length, n = [head], len(head) + len(tail), 0
    while True:
        more = card(n)
        if length + len(more) > size:
            return "".join(parts) + tail
        parts.append(more)
        length += len(more)
        n += 1


def segments(each, many, level=lambda s: 2 if s == 0 else 3):
    """Cards of segments, each of so many operators: each(s, i) is the card of operator i of segment s."""
    def card(n):
        s, i = divmod(n, many)
        return (f"SEGMENT S{s} {level(s)}\n" if i == 0 else "") + each(s, i)
    return card


def hexadecimal(word, size):
    """A codefile of full segments, each of one word over and over, as cards of 80 digits."""
    words = (size * 40 // 81 - 200) // 8
    full, rest = divmod(words, 8191)
    counts = [8191] * full + [rest] * (rest > 0)
    text = "423637434f444531" + f"{len(counts):04x}0000"
    for i, count in enumerate(counts):
        text += f"{2 if i == 0 else 3:02x}{count:04x}" + f"0003{word}" * count
    return "?JOB A\n?HEX\n" + "".join(text[i : i + 80] + "\n" for i in range(0, len(text), 80)) + "?END\n"


ASM, END = "?JOB A\n?LIMIT 1\n?ASM\n", "?END\n"
DECKS = [
    ("spaces", "run", lambda size: " " * size),
    ("empty cards", "run", lambda size: "\n" * size),
    ("one long card", "run", lambda size: "X" * size),
    ("empty cards, and a wrong one", "run", lambda size: "\n" * (size - 1) + "X"),
    ("100,000 switches in long cards", "run",
        lambda size: "".join(f"?SWITCH{' ' * (size // 100_000 - 18)}{n:>6} 1.1\n" for n in range(100_000)) + "?JOB A\n?HEX\n?END\n"),
    ("switches past the last one", "run", lambda size: filled("", lambda n: f"?SWITCH {n} 1.1\n", "", size)),
    ("eight jobs", "run", lambda size: filled("", lambda n: filled("?JOB A\n?LIMIT 1\n?ASM\nSEGMENT M 2\nEXIT\n", lambda i: ";\n", END, size // 8), "", size)),
    ("numbers for READ", "run", lambda size: filled(ASM + "SEGMENT M 2\nEXIT\n?DATA\n", lambda n: "0 " * 40 + "\n", END, size)),
    ("hexadecimal cards, NVLD alone", "run", lambda size: hexadecimal("ffffffffffff", size)),
    ("hexadecimal cards, branches", "run", lambda size: hexadecimal("a20000a20000", size)),
    ("hexadecimal cards, literals alone", "run", lambda size: hexadecimal("beffffffffff", size)),
    ("hexadecimal cards, zeros", "run", lambda size: filled("?JOB A\n?HEX\n", lambda n: "0" * 80 + "\n", END, size)),
    ("comments", "check", lambda size: filled(ASM, lambda n: ";" * 80 + "\n", "SEGMENT M 2\nEXIT\n" + END, size)),
    ("operators of a syllable", "run", lambda size: filled(ASM, segments(lambda s, i: "NVLD\n", 49_146), END, size)),
    ("operators past a segment", "run", lambda size: filled(ASM + "SEGMENT M 2\n", lambda n: "NVLD\n", END, size)),
    ("labels, and a branch to each", "run",
        lambda size: filled(ASM, segments(lambda s, i: f"L{i}: BRUN L{i // 2}\n", 16_382), END, size)),
    ("labels past a segment", "run", lambda size: filled(ASM + "SEGMENT M 2\n", lambda n: f"L{n}: BRUN L{n}\n", END, size)),
    ("labels that no card defines", "run", lambda size: filled(ASM, segments(lambda s, i: f"BRUN L{i}\n", 16_382), END, size)),
    ("one label over and over", "run", lambda size: filled(ASM + "SEGMENT M 2\n", lambda n: "L: NVLD\n", END, size)),
    ("long labels that differ at the end", "run",
        lambda size: filled(ASM, segments(lambda s, i: f"AAAAAAAAAAA{i:05}: NVLD\n", 49_146), END, size)),
    ("entries", "check", lambda size: filled(ASM, segments(lambda s, i: f"L{i}: NVLD\nENTRY L{i}\n" if 0 < i < 256 else "NVLD\n", 49_146), END, size)),
    ("entries past a segment", "check", lambda size: filled(ASM + "SEGMENT M 2\nNVLD\n", lambda n: f"L{n}: NVLD\nENTRY L{n}\n", END, size)),
    ("procedures by name", "run",
        lambda size: filled(ASM, segments(lambda s, i: "MPCW S1\n" if s != 1 and i < 4_094 else "NVLD\n", 4_095, lambda s: 3 if s == 1 else 2), "NVLD\n" + END, size)),
    ("255 segments", "run", lambda size: filled(ASM, segments(lambda s, i: "NVLD\n", size // 255 // 5 - 3), END, size - 2_000)),
    ("segments past the last one", "run", lambda size: filled(ASM, lambda n: f"SEGMENT S{n} 2\nNVLD\n", END, size)),
    ("data rows", "run",
        lambda size: filled(ASM + "SEGMENT M 2\nEXIT\n", lambda n: (f"ROW R{n // 4_369}\n" if n % 4_369 == 0 else "") + "NUM" + " 0" * 15 + "\n", END, size)),
    ("a data row past its length", "run", lambda size: filled(ASM + "SEGMENT M 2\nEXIT\nROW R\n", lambda n: "NUM" + " 0" * 38 + "\n", END, size)),
]


def answer(program, command, deck, folder):
    """The processor time, the status and the last line."""
    path = os.path.join(folder, "deck")
    with open(path, "w") as out:
        out.write(deck)
    words = [program, command] + (["--core", "1048575", "--backing", os.path.join(folder, "backing")] if command == "run" else [])
    seconds = []
    for _ in range(3):
        before = resource.getrusage(resource.RUSAGE_CHILDREN)
        with open(path) as source:
            done = subprocess.run(words, stdin=source, stdout=subprocess.PIPE)
        after = resource.getrusage(resource.RUSAGE_CHILDREN)
        seconds.append(after.ru_utime + after.ru_stime - before.ru_utime - before.ru_stime)
    lines = done.stdout.decode().splitlines() or [""]
    return min(seconds), done.returncode, lines[-1]


def main():
    if len(sys.argv) != 2 or not os.access(sys.argv[1], os.X_OK) or os.path.isdir(sys.argv[1]):
        sys.exit(print("usage: python3 bench/hostile.py PROGRAM", file=sys.stderr) or 2)
    program = os.path.abspath(sys.argv[1])
    print("| deck | half | whole | times | status | last line |\n|---|---|---|---|---|---|")
    with tempfile.TemporaryDirectory() as folder:
        for name, command, deck in DECKS:
            half, _, _ = answer(program, command, deck(FULL // 2), folder)
            whole, status, line = answer(program, command, deck(FULL), folder)
            print(f"| {name} | {half:.3f} s | {whole:.3f} s | {whole / half:.1f} | {status} | `{line}` |", flush=True)


if __name__ == "__main__":
    main()
