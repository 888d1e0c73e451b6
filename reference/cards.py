"""The cards of a deck, and the deck that they denote."""

from __future__ import annotations

import re
from collections.abc import Callable
from dataclasses import dataclass, field
from enum import Enum, auto

from words import GREATEST_NUMBER

GREATEST_DECK = 4_194_304
LONGEST_CARD = 80
NAME = re.compile(r"[A-Z][A-Z0-9]{0,15}")
NATURAL = re.compile(r"0|[1-9][0-9]*")
WHOLE = re.compile(r"0|-?[1-9][0-9]*")
HEXADECIMAL = re.compile(r"([0-9A-Fa-f]{2})+")


class RefusedError(Exception):
    """An input is refused. The text is the line to print."""


def deck_refusal(card: int, reason: int) -> RefusedError:
    """The refusal of a card of the deck."""
    return RefusedError(f"DECK {card} REASON {reason}")


@dataclass(frozen=True)
class Card:
    """A line of the deck, without the spaces at its end."""

    number: int
    text: str


@dataclass(frozen=True)
class Switch:
    """At this count of operators the named task is to run."""

    count: int
    job: int
    task: int


@dataclass
class Job:
    """A job of the deck. Exactly one of `assembly` and `code` is its program."""

    name: str
    card: int
    limit: int = 1_000_000
    body_card: int = 0
    assembly: list[Card] | None = None
    code: bytearray | None = None
    numbers: list[int] = field(default_factory=list)


@dataclass
class Deck:
    """A deck with its run cards and its jobs."""

    stack: int = 512
    quantum: int = 1000
    halt: int | None = None
    switches: list[Switch] = field(default_factory=list)
    jobs: list[Job] = field(default_factory=list)


def lines_of(deck: bytes) -> list[bytes]:
    """The lines of a deck, without what is dropped at their ends."""
    pieces = deck.split(b"\n")
    last = pieces.pop()
    return [piece.removesuffix(b"\r").rstrip(b" ") for piece in pieces] + [last.rstrip(b" ")]


def cards_of(deck: bytes) -> list[tuple[Card, int | None]]:
    """The cards that aren't ignored, each with its reason 1 or 2, if it has one.

    A deck that is too long is refused with reason 14.
    """
    if len(deck) > GREATEST_DECK:
        raise deck_refusal(deck.count(b"\n", 0, GREATEST_DECK) + 1, 14)
    cards = []
    for number, line in enumerate(lines_of(deck), start=1):
        if not line:
            continue
        reason = None
        if len(line) > LONGEST_CARD:
            reason = 1
        elif any(not 0x20 <= byte <= 0x7E for byte in line):
            reason = 2
        cards.append((Card(number, line.decode("latin-1")), reason))
    return cards


def read_cards(deck: bytes) -> list[Card]:
    """The plain cards of a deck. Reasons 1, 2 and 14 are looked for."""
    cards = cards_of(deck)
    for card, reason in cards:
        if reason is not None:
            raise deck_refusal(card.number, reason)
    return [card for card, _ in cards]


def words_of(text: str) -> list[str]:
    """The words of a card: what spaces separate."""
    return [word for word in text.split(" ") if word]


def natural(text: str, least: int, greatest: int) -> int | None:
    """A number of this range, or None if it is malformed or out of range."""
    if NATURAL.fullmatch(text) is None or not least <= int(text) <= greatest:
        return None
    return int(text)


def whole_number(text: str) -> int | None:
    """A whole number with sign, or None if it is malformed or too great."""
    if WHOLE.fullmatch(text) is None or abs(int(text)) > GREATEST_NUMBER:
        return None
    return int(text)


class State(Enum):
    """What the reader of a deck has met last."""

    RUN_CARDS = auto()
    JOB = auto()
    LIMIT = auto()
    ASSEMBLY = auto()
    CODE = auto()
    NUMBERS = auto()
    BETWEEN_JOBS = auto()


class CardError(Exception):
    """The card that is being read is refused with this reason."""

    def __init__(self, reason: int) -> None:
        super().__init__(reason)
        self.reason = reason


class DeckReader:
    """Reads a deck, card by card. The checks of a card are in the order of their reasons."""

    def __init__(self) -> None:
        self.deck = Deck()
        self.state = State.RUN_CARDS
        self.run_cards_seen: set[str] = set()
        self.card = Card(0, "")

    def read(self, card: Card) -> None:
        """Takes the next card that isn't ignored."""
        self.card = card
        if not card.text.startswith("?"):
            self.read_plain()
            return
        name, *parameters = words_of(card.text)
        reader = self.reader_of(name)
        if reader is None:
            raise CardError(3)
        reader(parameters)

    def reader_of(self, name: str) -> Callable[[list[str]], None] | None:
        """What reads the card of this name."""
        return {
            "?STACK": self.read_stack,
            "?QUANTUM": self.read_quantum,
            "?HALT": self.read_halt,
            "?SWITCH": self.read_switch,
            "?JOB": self.read_job,
            "?LIMIT": self.read_limit,
            "?ASM": self.read_asm,
            "?HEX": self.read_hex,
            "?DATA": self.read_data,
            "?END": self.read_end,
        }.get(name)

    @property
    def job(self) -> Job:
        """The job that is being read."""
        return self.deck.jobs[-1]

    @property
    def inside_job(self) -> bool:
        """Whether a job is begun and not ended."""
        return self.state not in (State.RUN_CARDS, State.BETWEEN_JOBS)

    def read_plain(self) -> None:
        """A card of a body."""
        text = self.card.text
        match self.state:
            case State.ASSEMBLY:
                self.job.assembly.append(self.card)
            case State.CODE:
                if HEXADECIMAL.fullmatch(text) is None:
                    raise CardError(11)
                self.job.code += bytes.fromhex(text)
            case State.NUMBERS:
                numbers = [whole_number(word) for word in words_of(text)]
                if None in numbers:
                    raise CardError(12)
                self.job.numbers += numbers
            case _:
                raise CardError(5)

    def only_number(self, parameters: list[str], least: int, greatest: int) -> int:
        """The one parameter of a card, a number of this range."""
        number = natural(parameters[0], least, greatest) if len(parameters) == 1 else None
        if number is None:
            raise CardError(4)
        return number

    def no_parameter(self, parameters: list[str]) -> None:
        """The card must have no parameter."""
        if parameters:
            raise CardError(4)

    def run_card(self, name: str) -> None:
        """A run card stands before the jobs, and all but switches stand once."""
        if self.state is not State.RUN_CARDS:
            raise CardError(5)
        if name in self.run_cards_seen:
            raise CardError(6)
        self.run_cards_seen.add(name)

    def read_stack(self, parameters: list[str]) -> None:
        """The stack size of the run."""
        number = self.only_number(parameters, 64, 16_383)
        self.run_card("?STACK")
        self.deck.stack = number

    def read_quantum(self, parameters: list[str]) -> None:
        """How many operators a turn has."""
        number = self.only_number(parameters, 1, 1_000_000)
        self.run_card("?QUANTUM")
        self.deck.quantum = number

    def read_halt(self, parameters: list[str]) -> None:
        """After how many operators the run halts."""
        number = self.only_number(parameters, 1, 800_000_000)
        self.run_card("?HALT")
        self.deck.halt = number

    def read_switch(self, parameters: list[str]) -> None:
        """A count of operators, and the task to switch to."""
        if len(parameters) != 2:
            raise CardError(4)
        job_text, _, task_text = parameters[1].partition(".")
        count = natural(parameters[0], 0, 800_000_000)
        job = natural(job_text, 1, 8)
        task = natural(task_text, 1, 100_000_000)
        if count is None or job is None or task is None:
            raise CardError(4)
        if self.state is not State.RUN_CARDS:
            raise CardError(5)
        switches = self.deck.switches
        if switches and count <= switches[-1].count:
            raise CardError(7)
        if len(switches) == 100_000:
            raise CardError(8)
        switches.append(Switch(count, job, task))

    def read_job(self, parameters: list[str]) -> None:
        """A job begins."""
        if len(parameters) != 1 or NAME.fullmatch(parameters[0]) is None:
            raise CardError(4)
        if self.inside_job:
            raise CardError(5)
        if len(self.deck.jobs) == 8:
            raise CardError(9)
        self.deck.jobs.append(Job(parameters[0], self.card.number))
        self.state = State.JOB

    def read_limit(self, parameters: list[str]) -> None:
        """How many operators the job may make."""
        number = self.only_number(parameters, 1, 100_000_000)
        if self.state is not State.JOB:
            raise CardError(5)
        self.job.limit = number
        self.state = State.LIMIT

    def read_asm(self, parameters: list[str]) -> None:
        """Cards of assembly follow."""
        self.begin_program(parameters, State.ASSEMBLY)
        self.job.assembly = []

    def read_hex(self, parameters: list[str]) -> None:
        """Cards of hexadecimal digits follow."""
        self.begin_program(parameters, State.CODE)
        self.job.code = bytearray()

    def begin_program(self, parameters: list[str], state: State) -> None:
        """The one program of a job."""
        self.no_parameter(parameters)
        if self.state not in (State.JOB, State.LIMIT):
            raise CardError(5)
        self.job.body_card = self.card.number
        self.state = state

    def read_data(self, parameters: list[str]) -> None:
        """Cards of numbers follow."""
        self.no_parameter(parameters)
        if self.state in (State.JOB, State.LIMIT):
            raise CardError(10)
        if self.state not in (State.ASSEMBLY, State.CODE):
            raise CardError(5)
        self.state = State.NUMBERS

    def read_end(self, parameters: list[str]) -> None:
        """The job ends."""
        self.no_parameter(parameters)
        if self.state in (State.JOB, State.LIMIT):
            raise CardError(10)
        if not self.inside_job:
            raise CardError(5)
        self.state = State.BETWEEN_JOBS


def read_deck(text: bytes) -> Deck:
    """The deck that a text denotes. The first card that breaks a reason is refused."""
    reader = DeckReader()
    for card, reason in cards_of(text):
        if reason is not None:
            raise deck_refusal(card.number, reason)
        try:
            reader.read(card)
        except CardError as refused:
            raise deck_refusal(card.number, refused.reason) from None
    if reader.inside_job:
        raise deck_refusal(reader.card.number, 13)
    return reader.deck
