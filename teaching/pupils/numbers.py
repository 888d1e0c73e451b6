#!/usr/bin/env python3
"""usage: numbers.py EXERCISE SEED [--lines | --data | --lines-of FILE]

The numbers of an exercise for one pupil. SEED is any text, such as a number of matriculation: the same text gives the same numbers,
with each Python. Prints the cards ?DATA and the numbers, which stand before ?END in the pupil's deck; with --data the numbers alone,
as `b67.mjs mark --data` takes them; with --lines the lines that a right deck prints of them. --lines-of works the lines out of other
numbers, those of a file or of `-`. Without any words the exercises are listed. No line comes from the machine: each is worked out here.
Status 2: the words are wrong.
"""
import hashlib
import sys
from math import comb, gcd

GREATEST = 549755813887


class Careless(Exception):
    """What is wrong with the words of a call."""


class Drawn:
    """Numbers drawn from a text, the same on each computer."""

    def __init__(self, *texts):
        self.text, self.count = "/".join(texts), 0

    def one(self, low, high):
        """A number from low to high, both included."""
        self.count += 1
        digest = hashlib.sha256(f"{self.text}/{self.count}".encode()).digest()
        return low + int.from_bytes(digest[:8], "big") % (high - low + 1)

    def some(self, many, low, high):
        """So many of them."""
        return [self.one(low, high) for _ in range(many)]


def pairs(numbers):
    """The numbers two by two."""
    return list(zip(numbers[::2], numbers[1::2]))


def quotient(a, b):
    """As IDIV has it: toward zero."""
    return abs(a) // abs(b) * (1 if (a < 0) == (b < 0) else -1)


def remainder(a, b):
    """As RDIV has it: with the sign of a."""
    return a - b * quotient(a, b)


def ended(numbers):
    """The lines of task 1.1 that print these and end."""
    return [f"1.1 {number}" for number in numbers] + ["1.1 ENDED"]


def steps_to_one(number):
    """How often a number is halved, or tripled and 1 added, until it is 1."""
    steps = 0
    while number != 1:
        number, steps = number // 2 if number % 2 == 0 else 3 * number + 1, steps + 1
    return steps


def counted(numbers):
    """How often each of 0 to 9 is there, as PRINTROW prints them."""
    return ["1.1 " + " ".join(str(numbers.count(digit)) for digit in range(10)), "1.1 ENDED"]


def sums_by_name(numbers):
    """For each n the sum of i × i, and that of i × i × i, over 1 to n."""
    return ended(sum(i**power for i in range(1, n + 1)) for n in numbers for power in (2, 3))


def inner_product(numbers):
    """The first number says how long both lists behind it are."""
    n = numbers[0]
    return ended([sum(a * b for a, b in zip(numbers[1 : n + 1], numbers[n + 1 :]))])


def squared_by_a_child(numbers):
    """What the child 1.2 prints, and the two ends."""
    return [f"1.2 {number * number}" for number in numbers] + ["1.2 ENDED", "1.1 ENDED"]


def shared_sum(numbers):
    """The sum of the numbers, of which each of three tasks adds up a part."""
    return [f"1.{task} ENDED" for task in (2, 3, 4)] + ended([sum(numbers)])


def turns(numbers):
    """The ends of three jobs of the deck `turns`, whose first number is the quantum; behind each the operators made until then."""
    quantum, left = numbers[0], [8 * n + 4 for n in numbers[1:4]]
    made, ends = 0, []
    while any(left):
        for job in range(3):
            part = min(quantum, left[job])
            left[job] -= part
            made += part
            if part and not left[job]:
                ends.append(f"{job + 1}.1 ENDED after {made}")
    return ends


def by_hand(numbers):
    """The codefile of a deck that prints a + b, a - b or a × b, in hexadecimal, and the line."""
    a, b, which = numbers
    code = ["ae", "4009", f"b2{a:02x}", f"b2{b:02x}", ("80", "81", "82")[which], "ab", "a3"]
    digits = "".join(code)
    words = [digits[at : at + 12].ljust(12, "f") for at in range(0, len(digits), 12)]
    return [f"423637434f44453100010000020{len(words):03x}", "".join("0003" + word for word in words), f"1.1 {(a + b, a - b, a * b)[which]}", "1.1 ENDED"]


def races(numbers):
    """What can stand in the cell after two tasks have added to it without care: each sum on its own, and both."""
    begins, first, second = numbers
    return [str(end) for end in sorted({begins + first, begins + second, begins + first + second})]


# An exercise: what its numbers are, and the lines that they give.
EXERCISES = {
    "expression": (lambda d: [d.one(2, 99), d.one(2, 99), d.one(100, 199), d.one(2, 99)],
                   lambda n: ended([(n[0] + n[1]) * (n[2] - n[3]), quotient(n[2], n[1]), remainder(n[2], n[1])])),
    "binomial": (lambda d: [it for k in d.some(4, 0, 6) for it in (k + d.one(0, 6), k)], lambda n: ended(comb(a, b) for a, b in pairs(n))),
    "digits": (lambda d: [0, *d.some(4, 1, GREATEST)], lambda n: ended(sum(map(int, str(it))) for it in n)),
    "gcd": (lambda d: [0, d.one(1, 99), *[d.one(1, 40) * factor for factor in d.some(4, 2, 999) for _ in range(2)]], lambda n: ended(gcd(a, b) for a, b in pairs(n))),
    "larger": (lambda d: d.some(10, -999, 999), lambda n: ended(max(pair) for pair in pairs(n))),
    "backwards": (lambda d: d.some(d.one(5, 20), -99, 999), lambda n: ended(reversed(n))),
    "collatz": (lambda d: d.some(4, 2, 60), lambda n: ended(map(steps_to_one, n))),
    "sums": (lambda d: d.some(3, 1, 30), sums_by_name),
    "swap": (lambda d: d.some(3, -99, 99), lambda n: ended(sorted(n))),
    "histogram": (lambda d: d.some(d.one(20, 40), 0, 12), counted),
    "product": (lambda d: (lambda n: [n, *d.some(2 * n, -20, 20)])(d.one(5, 12)), inner_product),
    "parts": (lambda d: d.some(12, -99, 999), shared_sum),
    "turns": (lambda d: [d.one(5, 25), *d.some(3, 2, 9)], turns),
    "races": (lambda d: [d.one(100, 200), d.one(1, 49), -d.one(50, 99)], races),
    "pipeline": (lambda d: d.some(d.one(4, 8), -99, 99), squared_by_a_child),
    "codefile": (lambda d: [d.one(100, 200), d.one(2, 99), d.one(0, 2)], by_hand),
}


def numbers_of(file):
    """The numbers of a file, one or more in a line."""
    try:
        text = sys.stdin.read() if file == "-" else open(file, encoding="ascii").read()
        return [int(word) for word in text.split()]
    except (OSError, ValueError) as problem:
        raise Careless(f"{file}: {problem}") from None


def told(words):
    """The lines that a call prints."""
    if not words:
        return sorted(EXERCISES)
    if words[0] not in EXERCISES:
        raise Careless(f"{words[0]}: no exercise; they are {', '.join(sorted(EXERCISES))}")
    makes, works_out = EXERCISES[words[0]]
    if len(words) == 3 and words[1] == "--lines-of":
        return works_out(numbers_of(words[2]))
    if len(words) not in (2, 3) or words[1].startswith("-") or not words[1] or words[2:] not in ([], ["--lines"], ["--data"]):
        raise Careless("an exercise and a seed are wanted")
    drawn = makes(Drawn(words[0], words[1]))
    if words[2:] == ["--lines"]:
        return works_out(drawn)
    data = [" ".join(map(str, drawn[at : at + 8])) for at in range(0, len(drawn), 8)]
    return data if words[2:] else ["?DATA", *data]


def main(words):
    """Status 0 or 2."""
    try:
        print("\n".join(told(words)), flush=True)
        return 0
    except Careless as problem:
        print(f"numbers.py: {problem}\n{__doc__.splitlines()[0]}", file=sys.stderr)
    except (IndexError, ValueError, ZeroDivisionError):
        print("numbers.py: these aren't the numbers of that exercise", file=sys.stderr)
    except OSError as problem:
        print(f"numbers.py: {problem}", file=sys.stderr)
        sys.stdout = None
    return 2


if __name__ == "__main__":
    sys.exit(main(sys.argv[1:]))
