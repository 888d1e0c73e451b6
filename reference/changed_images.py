"""Compares how a built program judges changed images with the reference.

    python3 changed_images.py PROGRAM --seeds 0..10 [--every N] [--cut] [--resume]
        [--long] [--time] [--keep FOLDER]

Each deck is halted at a random count. Its machine is laid out as an image three
times: by the reference with nothing present, and with all; and by `image` of the
program in the deck's least core. Each number of these is changed, to its neighbours, to its edges, bit by bit; so are
things that several numbers tell together, and the text's cards. `dump` must
answer each as the reference does. Of all changes one in N is tried.

`--cut` also cuts the smallest image short at every byte. `--resume` gives some
changed images to `resume`, over the backing that belongs to them: where the
reference finds a session in order behind one, the lines must be its lines.
`--long` tries 67,108,864 bytes and one more, and `--time` larger and larger
images: the time of `dump` must grow no faster than they do.
Images that are judged differently are kept.
"""

from __future__ import annotations

import argparse
import random
import sys
import tempfile
import time
from collections import Counter
from collections.abc import Callable, Iterator
from dataclasses import dataclass, field, replace
from pathlib import Path

from b67ref import FILE_SECTORS, SECTOR_BYTES, Outcome, programs_of, run_session
from cards import RefusedError, read_deck
from compare_images import (
    LEAST_CORE,
    Halted,
    Program,
    range_of_seeds,
    session_at,
    wanted_dump,
    with_halt,
)
from dump import judged
from images import GREATEST_IMAGE, HEADER, Image, Octets, items_of, read_image
from images import spelled, text_of, text_of_bytes
from layout import image_of_session
from random_decks import add_features, deck_of_seed, features_of
from resume import is_sound, sectors_of_file, session_from
from session import Session

MOST_WORDS = 4_000  # of a core whose image is changed
MOST_OPERATORS = 50_000  # of a session that goes on from a changed image
WORD_BITS = (0, 13, 14, 18, 19, 20, 35, 36, 39, 40, 43, 44, 45, 46, 47, 48, 49, 50, 51, 63)
EDGES = (
    0, 1, 2, 7, 8, 15, 16, 63, 64, 120, 254, 255, 256, 16_383, 16_384, 65_535, 1_000_000, 1_000_001,
    100_000_000, 100_000_001, 800_000_000, 800_000_001, (1 << 39) - 1, 1 << 39, -(1 << 39),
)  # fmt: skip

Change = tuple[str, bytes]


# --- Changes of one number --------------------------------------------------------------


class Recorder(Octets):
    """Notes where each number stands."""

    def __init__(self, data: bytes) -> None:
        super().__init__(data)
        self.noted: list[tuple[int, int]] = []

    def take(self, count: int) -> bytes:
        """The next bytes."""
        self.noted.append((self.at, count))
        return super().take(count)

    def numbers(self, size: int, count: int) -> list[int]:
        """So many numbers of one size."""
        return [self.number(size) for _ in range(count)]


def others(number: int, size: int, is_word: bool) -> set[int]:
    """Other numbers in the place of one."""
    near = {number - 1, number + 1, number + 2, -1}
    near |= {number ^ 1 << bit for bit in WORD_BITS} if is_word else set(EDGES)
    return {each % (1 << 8 * size) for each in near} - {number}


def numbers_changed(data: bytes) -> Iterator[Change]:
    """The bytes with one number changed. Of words that are 0 the first eight are changed."""
    recorder = Recorder(data)
    words = len(items_of(recorder).core)
    core_begins, core_ends = len(HEADER) + 4, len(HEADER) + 4 + 8 * words
    zeros = 0
    for at, size in recorder.noted:
        number = int.from_bytes(data[at : at + size], "big")
        is_word = core_begins <= at < core_ends
        zeros += number == 0 and size > 1
        if number == 0 and size > 1 and is_word and zeros > 8:
            continue
        for other in others(number, size, is_word):
            changed = data[:at] + other.to_bytes(size, "big") + data[at + size :]
            yield f"byte {at} of {size}: {number:#x} to {other:#x}", text_of_bytes(changed)


# --- Changes of several numbers, and of the text -------------------------------------------


def with_tasks(image: Image, change: Callable[[list], None]) -> Image:
    """An image whose task rows are changed."""
    tasks = [replace(task) for task in image.tasks]
    change(tasks)
    return replace(image, tasks=tasks)


def moved_down(image: Image) -> Image:
    """One slot fewer, and the words above the slots where they then belong."""
    size = image.registers["stack_size"]
    core = list(image.core)
    core[image.low - size : image.low] = [0] * size
    registers = image.registers | {"peak": image.registers["peak"] - 1}
    return replace(image, core=core, registers=registers, low=image.low - size)


def with_vector(image: Image, slot: int, other: int) -> Image:
    """The first task in the slot of another, in the stack vector too."""
    core = list(image.core)
    core[32 + other], core[32 + slot] = core[32 + slot], 0
    moved = with_tasks(image, lambda tasks: setattr(tasks[0], "slot", other))
    return replace(moved, core=core)


def several_changed(image: Image) -> Iterator[tuple[str, Image]]:
    """Images in which several numbers are changed together."""
    used = [n for n, link in enumerate(image.links) if link]
    for n in used[:12]:
        for other in {*used[:12], n + 1, n + 2, len(image.links)}:
            links = list(image.links)
            links[n] = (other + 1) % (len(image.links) + 1)
            yield f"the link of sector {n + 1} to {links[n]}", replace(image, links=links)
    yield "one sector fewer", replace(image, links=image.links[:-1])
    yield "a sector more", replace(image, links=[*image.links, 0])
    yield "a chain of nobody", replace(image, links=[*image.links, len(image.links) + 1])
    if image.registers["peak"] > 0:
        yield "a peak too low", moved_down(image)
    slots = {task.slot for task in image.tasks}
    for n, task in enumerate(image.tasks):
        yield f"task row {n} left out", with_tasks(image, lambda tasks, n=n: tasks.pop(n))
        yield f"task row {n} twice", with_tasks(image, lambda tasks, n=n: tasks.append(tasks[n]))
        yield f"task row {n} last", with_tasks(image, lambda tasks, n=n: tasks.append(tasks.pop(n)))
        for other in slots - {task.slot}:
            change = lambda tasks, n=n, other=other: setattr(tasks[n], "slot", other)
            yield f"task row {n} in slot {other}", with_tasks(image, change)
            change = lambda tasks, n=n, other=other: setattr(tasks[n], "parent", other)
            yield f"task row {n} under slot {other}", with_tasks(image, change)
    if image.tasks:
        for other in {*slots, image.registers["peak"]} - {image.tasks[0].slot}:
            yield f"task 0 moved to slot {other}", with_vector(image, image.tasks[0].slot, other)
    for at, word in enumerate(image.core):
        if word >> 48 == 5:
            yield from descriptors_changed(image, at)


def descriptors_changed(image: Image, at: int) -> Iterator[tuple[str, Image]]:
    """Images in which a descriptor names what another one names, or what isn't there."""
    word = image.core[at]
    named = {other & 0xFFFFF for other in image.core if other >> 48 == 5} | {at, at + 1, image.low}
    for address in sorted(named)[:12]:
        core = list(image.core)
        core[at] = word >> 20 << 20 | address
        yield f"the descriptor at {at} names {address}", replace(image, core=core)


def texts_changed(text: bytes) -> Iterator[Change]:
    """Texts whose cards are changed."""
    cards = text.splitlines()
    upper = text.replace(b"?IMAGE", b"?image").upper()
    yield "upper case", upper
    yield "spaces behind, CR and LF", b"".join(card + b"  \r\n" for card in cards)
    yield "CR before spaces", b"".join(card + b"\r  \n" for card in cards)
    yield "empty cards", b"\n\n".join(cards) + b"\n\n"
    yield "no LF at the end", text[:-1]
    yield "cards before", b"1.1 5\n?END\nx\ty\xff\n\n" + text
    yield "cards behind", text + b"?IMAGE\n?JOB\nx\xff"
    yield "the image twice", text + text
    yield "a second ?IMAGE", b"?IMAGE\n" + text
    yield "no ?IMAGE", text.replace(b"?IMAGE\n", b"")
    yield "no ?END", text.replace(b"?END\n", b"")
    yield "a space before ?IMAGE", b" " + text
    yield "nothing", b""
    yield "?IMAGE alone", b"?IMAGE\n"
    yield "?IMAGE and ?END", b"?IMAGE\n?END\n"
    for n in (1, 2, len(cards) // 2, len(cards) - 2):
        for what, card in (
            ("one digit less", cards[n][:-1]),
            ("a digit more", cards[n] + b"0"),
            ("a byte more", cards[n] + b"00"),
            ("g", b"g" + cards[n][1:]),
            ("a space within", cards[n][:2] + b" " + cards[n][3:]),
            ("?", b"?END X"),
            ("?END", b"?END"),
            ("a card more", cards[n] + b"\n" + cards[n]),
            ("a card less", b""),
            ("two cards in one", cards[n] + cards[n]),
            ("one byte a card", b"\n".join(cards[n][i : i + 2] for i in range(0, len(cards[n]), 2))),
        ):
            yield f"card {n}: {what}", b"\n".join([*cards[:n], card, *cards[n + 1 :], b""])


def changes_of(image: Image) -> Iterator[Change]:
    """All changes of an image."""
    yield from numbers_changed(spelled(image))
    for what, changed in several_changed(image):
        yield what, text_of(changed)
    yield from texts_changed(text_of(image))


# --- The comparison ---------------------------------------------------------------------


@dataclass
class Judgement(Program):
    """A program under test, and how its answers compare."""

    counts: Counter[str] = field(default_factory=Counter)

    def note(self, name: str, what: str, text: bytes, same: bool, more: str = "") -> None:
        """Counts an answer, and keeps what differs."""
        self.counts["same" if same else "different"] += 1
        if not same:
            self.keep.mkdir(parents=True, exist_ok=True)
            path = self.keep / f"{name}-{self.counts['different']}.image"
            path.write_bytes(text)
            print(f"{path}: {what}{more}", flush=True)

    def dump(self, name: str, what: str, text: bytes) -> None:
        """Compares the dump of a text."""
        wanted, answer = wanted_dump(text), self.run(["dump"], text)
        self.counts["refused" if wanted[0] else "sound"] += 1
        more = f": {shown(answer)}, the reference has {shown(wanted)}"
        self.note(name, what, text, answer == wanted, more)

    def resume(self, name: str, what: str, text: bytes, held: bytes) -> None:
        """Compares what `resume` prints over a backing that holds these bytes."""
        with open(self.folder / "c", "wb") as file:
            file.write(held)
            file.truncate(FILE_SECTORS * SECTOR_BYTES)
        answer = self.run(["resume", "--backing", "c"], text)
        wanted, is_known = wanted_lines(text, held)
        if is_known:
            same = answer == wanted
        else:  # no session in order, or a long run: how it ends is all that is promised
            same = answer[0] in (0, 4, 5, 6) and answer[1].startswith(wanted[1])
        self.counts["resumed" if is_known else "resumed, not compared to the end"] += 1
        more = f": {shown(answer)}, the reference has {shown(wanted)}"
        self.note(name, what, text, same, more)


def shown(answer: tuple[int, bytes]) -> str:
    """A status, and the last line."""
    lines = answer[1].decode("latin-1").splitlines()
    return f"status {answer[0]}, {len(lines)} lines, {lines[-1] if lines else ''}"


def wanted_lines(text: bytes, held: bytes) -> tuple[tuple[int, bytes], bool]:
    """What `resume` must do by the reference, and whether that is all of it."""
    outcome = Outcome()
    try:
        session = session_from(judged(text, FILE_SECTORS), sectors_of_file(held), outcome.lines.append)
    except RefusedError as refused:
        return (2, f"{refused}\n".encode()), True
    if not is_sound(session):
        return (0, b""), False
    session.halt = session.machine.made + MOST_OPERATORS
    run_session(session, outcome)
    if outcome.status == 3:
        outcome.lines.pop()
    return (outcome.status, outcome.text().encode()), outcome.status != 3


# --- Images to change --------------------------------------------------------------------


def few_links(image: Image) -> Image:
    """The image over a device that has one sector more than are in use."""
    used = max((n for n, link in enumerate(image.links, start=1) if link), default=0)
    return replace(image, links=image.links[: used + 1])


def laid_out(
    deck: bytes, count: int, core: int, sectors: int, *, is_present: bool = False
) -> tuple[Image, bytes]:
    """The reference's image of a deck at a count, and what its backing holds."""
    cards = read_deck(with_halt(deck, count))
    session = Session(cards, programs_of(cards), 1 << 24, 1 << 24, lambda _: None)
    session.run()
    names = [job.name for job in cards.jobs]
    return image_of_session(session, names, core, sectors, is_present=is_present)


def halted_at_random(seed: int, options: argparse.Namespace) -> tuple[bytes, Halted, int] | None:
    """The deck of a seed at a random count, and the least core of its whole run."""
    deck = deck_of_seed(seed, features_of(options), breaks=False)
    try:
        whole = session_at(deck, None)
    except RefusedError:
        return None
    count = random.Random(seed).randrange(1, max(whole.machine.made, 1) + 1)
    halted = session_at(deck, count)
    if halted is None or whole.need > MOST_WORDS:
        return None
    return deck, halted, max(whole.need, LEAST_CORE)


def judge_seed(judgement: Judgement, seed: int, options: argparse.Namespace) -> bytes | None:
    """Compares the changed images of a seed. Answers the text of one that isn't changed."""
    found = halted_at_random(seed, options)
    if found is None:
        return None
    deck, halted, core = found
    rng = random.Random(seed)
    count = halted.machine.made
    image, _ = laid_out(deck, count, core, FILE_SECTORS)
    image = few_links(image)
    full, _ = laid_out(deck, count, core + 200, FILE_SECTORS, is_present=True)
    bases = [(f"{seed}-laid", image), (f"{seed}-present", few_links(full))]
    _, printed = judgement.run(["image", "--core", str(core), "--backing", "b"], with_halt(deck, count))
    try:
        bases.append((f"{seed}-printed", few_links(read_image(printed, None))))
    except RefusedError as refused:
        judgement.note(f"{seed}-printed", f"image: {refused}", printed, False)
    for name, base in bases:
        judgement.dump(name, "not changed", text_of(base))
        for what, text in changes_of(base):
            if rng.randrange(options.every) == 0:
                judgement.dump(name, what, text)
    if options.resume:
        resume_seed(judgement, seed, deck, count, core, options)
    return text_of(image)


def resume_seed(
    judgement: Judgement, seed: int, deck: bytes, count: int, core: int, options: argparse.Namespace
) -> None:
    """Gives the image of a seed, and some that are changed, to `resume`."""
    image, held = laid_out(deck, count, core, FILE_SECTORS, is_present=seed % 2 == 0)
    judgement.resume(f"{seed}-resumed", "not changed", text_of(image), held)
    rng = random.Random(seed)
    for what, text in numbers_changed(spelled(few_links(image))):
        changed = read_all(text) if rng.randrange(options.every * 20) == 0 else None
        if changed is not None:
            text = text_of(replace(changed, links=image.links))
            judgement.resume(f"{seed}-resumed", what, text, held)


def read_all(text: bytes) -> Image | None:
    """The image of a text, if its numbers can be read."""
    try:
        return read_image(text, None)
    except RefusedError:
        return None


# --- Long images, and the time they take ---------------------------------------------------


def judge_long(judgement: Judgement, text: bytes) -> None:
    """The greatest image, and one byte more, with cards before the image and behind it."""
    card = b"x" * 79 + b"\n"
    for more in (0, 1):
        room = GREATEST_IMAGE + more - len(text)
        filling = card * (room // len(card)) + b"y" * (room % len(card))
        judgement.dump("long", f"{GREATEST_IMAGE + more} bytes, cards behind", text + filling)
        filling = b"y" * (room % len(card)) + b"\n" + card * (room // len(card))
        judgement.dump("long", f"{GREATEST_IMAGE + more} bytes, cards before", filling[1:] + text)


DEEP = """\
?JOB {name}
?ASM
SEGMENT MAIN 2
MPCW P
MKST
NAMC 2,2
ENTR
EXIT
SEGMENT P 3 ; each record has a reference to the first one
NAMC 2,2
STFF
MKST
NAMC 2,2
ENTR
EXIT
?END
"""


def deep_image(jobs: int, stack: int) -> bytes:
    """The text of an image with so many stacks that are nearly full."""
    turn = 5 * ((stack - 16) // 3)  # operators, five for a record of three words
    cards = [f"?STACK {stack}\n?QUANTUM {turn}\n", *(DEEP.format(name=f"DEEP{n}") for n in range(jobs))]
    image, _ = laid_out("".join(cards).encode(), jobs * turn, 160 + jobs * (4 + stack), 100)
    return text_of(image)


def wide_image(jobs: int, arrays: int) -> bytes:
    """The text of an image with so many present arrays in the one record of each job."""
    one = "MKST\nNAMC 0,8\nONE\nENTR\nNAMC 2,{at}\nZERO\nINDX\n"
    body = "".join(one.format(at=2 * n + 2) for n in range(arrays))
    cards = f"?STACK 16000\n?QUANTUM {7 * arrays}\n"
    for job in range(jobs):
        cards += f"?JOB WIDE{job}\n?ASM\nSEGMENT MAIN 2\n{body}EXIT\n?END\n"
    core = 160 + jobs * (16_003 + 6 * arrays)
    image, _ = laid_out(cards.encode(), jobs * 7 * arrays, core, 16_000, is_present=True)
    return text_of(image)


def seconds_of(call: Callable[[], object]) -> float:
    """How long a call takes."""
    begun = time.monotonic()
    call()
    return time.monotonic() - begun


def judge_time(judgement: Judgement) -> None:
    """Prints the time of larger and larger images, which must grow as their parts do.

    A half more is allowed, since each call has a part of its own.
    """
    print("image                       bytes  seconds")
    for make, what, cases in (
        (deep_image, "words of a stack", ((1, 4_000), (1, 8_000), (1, 16_000))),
        (deep_image, "words of a stack", ((2, 16_000), (4, 16_000), (8, 16_000))),
        (wide_image, "arrays", ((1, 500), (1, 1_000), (1, 2_000))),
        (wide_image, "arrays", ((2, 1_000), (4, 1_000), (8, 1_000))),
    ):
        costs = []
        for jobs, size in cases:
            text = make(jobs, size)
            took = min(seconds_of(lambda: judgement.run(["dump"], text)) for _ in range(3))
            costs.append(took / (jobs * size))
            print(f"{jobs} x {size:6} {what:16} {len(text):8} {took:8.3f}", flush=True)
        judgement.note("time", "grows faster than the image", text, costs[-1] <= 1.5 * costs[0])


# --- The command ----------------------------------------------------------------------


def main() -> int:
    """Compares a range of seeds."""
    parser = argparse.ArgumentParser(description="Compares how images are judged.")
    parser.add_argument("program", type=Path)
    parser.add_argument("--seeds", required=True, help="A..B, B not included")
    parser.add_argument("--every", type=int, default=1, help="one change in N is tried")
    parser.add_argument("--cut", action="store_true", help="an image that ends at every byte")
    parser.add_argument("--resume", action="store_true", help="the command resume too")
    parser.add_argument("--long", action="store_true", help="67,108,864 bytes and one more")
    parser.add_argument("--time", action="store_true", help="larger and larger images")
    parser.add_argument("--keep", type=Path, default=Path("differences"))
    add_features(parser)
    options = parser.parse_args()
    if not options.program.is_file():
        parser.error(f"{options.program}: not a program")
    if options.every < 1:
        parser.error(f"{options.every}: not a number from 1")
    seeds = range_of_seeds(parser, options.seeds)
    with tempfile.TemporaryDirectory() as folder:
        judgement = Judgement(options.program.resolve(), Path(folder), options.keep)
        texts = [judge_seed(judgement, seed, options) for seed in seeds]
        smallest = min(filter(None, texts), key=len, default=None)
        if options.cut and smallest is not None:
            for end in range(len(smallest)):
                judgement.dump("cut", f"cut at byte {end}", smallest[:end])
        if options.long and smallest is not None:
            judge_long(judgement, smallest)
        if options.time:
            judge_time(judgement)
    print(", ".join(f"{count} {what}" for what, count in sorted(judgement.counts.items())))
    return int(judgement.counts["different"] > 0)


if __name__ == "__main__":
    sys.exit(main())
