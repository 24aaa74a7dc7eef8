"""Blocks, as the commands answer, latest, few and profile print them.

Texts are decoded as UTF-8 with surrogate escapes, so that a name of any bytes can be looked for in the region.
"""

import datetime
import functools
import re
from collections.abc import Callable
from dataclasses import dataclass, field
from typing import BinaryIO

from .faults import Fault, shown

LETTERS = ("foot", "bike", "car", "tram", "metro", "rail", "bus", "ferry", "cable", "lift", "funicular", "trolley",
           "monorail", "other")
ROADS = "foot:", "bike:", "car:"
NODE = re.compile(r"(?:foot|bike|car|switch):-?[0-9]{1,18}|stop:[^ ]+")
CLOCK = re.compile(r"([0-9]{8}) ([0-9]{2,9}):([0-5][0-9]):([0-5][0-9])\.([0-9]{3})")


@dataclass(frozen=True, slots=True)
class Clock:
    """A clock text: a date YYYYMMDD and milliseconds since the base of that day."""

    date: str
    ms: int

    def __str__(self) -> str:
        return f"{self.date} {self.hms()}.{self.ms % 1000:03}"

    def hms(self) -> str:
        """The time in whole seconds, HH:MM:SS."""
        seconds = self.ms // 1000
        return f"{seconds // 3600:02}:{seconds // 60 % 60:02}:{seconds % 60:02}"


@dataclass(frozen=True, slots=True)
class Step:
    """A step line. `node` and `clock` are None where the line has none; `letter`, `date` and `name` are a ride's."""

    kind: str
    line: int
    node: str | None = None
    clock: Clock | None = None
    letter: str = ""
    date: str = ""
    name: str = ""


@dataclass
class Journey:
    """A journey of a block, with the lines that `latest`, `few` and `profile` put before it; `line` is where it begins."""

    line: int
    arrive: Clock
    word: list[str]
    start_line: int
    start: str
    start_clock: Clock
    steps: list[Step]
    depart: Clock | None = None
    boardings: int | None = None


@dataclass
class Block:
    """The block of one query line: journeys, or a refusal (the words after `refused`), or neither for `no journey`.

    `stopped` is the limit on labels at which the search was given up, if it was; `without` is how many milliseconds it takes
    without a ride, where `profile` says so."""

    number: int
    query: str
    journeys: list[Journey] = field(default_factory=list)
    refusal: str | None = None
    stopped: int | None = None
    without: int | None = None


class Lines:
    """The lines of a file with their numbers, one of them in view."""

    def __init__(self, file: BinaryIO, name: str) -> None:
        self.name, self.number, self.text = name, 0, ""
        self._file = file
        self.ended = False
        self.advance()

    def advance(self) -> None:
        """Goes on to the next line; behind the last one the text is empty."""
        raw = self._file.readline()
        self.number += 1
        self.ended = not raw
        if raw and not raw.endswith(b"\n"):
            raise self.fault("the line has no line feed, so the file was cut short")
        self.text = raw[:-1].decode("utf-8", "surrogateescape")

    def fault(self, why: str) -> Fault:
        return Fault(self.name, self.number, why)

    def after(self, word: str) -> str | None:
        """What follows the word and a space, where the line begins so."""
        return self.text[len(word) + 1:] if self.text.startswith(word + " ") else None

    def expect(self, word: str) -> str:
        rest = self.after(word)
        if rest is None:
            found = "the end of the file" if self.ended else f"“{shown(self.text)[:60]}”"
            raise self.fault(f"a line “{word} ..” is due here, not {found}")
        return rest


def read_blocks(file: BinaryIO, name: str, wanted: Callable[[int], bool]) -> list[Block]:
    """The blocks of the file whose numbers are wanted. A first line `valid` and a last line `settled S` are passed over."""
    lines, number = Lines(file, name), 0
    blocks: list[Block] = []
    if lines.text == "valid":
        lines.advance()
    while not lines.ended and lines.after("settled") is None:
        number += 1
        block = _block(lines, number)
        if wanted(number):
            blocks.append(block)
    if not lines.ended:
        lines.advance()
    if not lines.ended:
        raise lines.fault("nothing may follow the line “settled ..”")
    return blocks


def _block(lines: Lines, number: int) -> Block:
    block = Block(number, lines.expect("query"))
    lines.advance()
    if lines.text == "no journey":
        lines.advance()
    elif lines.after("refused") is not None:
        block.refusal = lines.after("refused")
        lines.advance()
    elif lines.after("stopped") is not None:
        block.stopped = _number(lines, "stopped")
    else:
        block.without = _number(lines, "without")
        if block.without is None:
            block.journeys.append(_journey(lines))
        while lines.text != "end" and not lines.ended:
            block.journeys.append(_journey(lines))
    if lines.text != "end":
        raise lines.fault("a line “end” is due here")
    lines.advance()
    return block


def _number(lines: Lines, word: str) -> int | None:
    """The number behind the word, where the line begins with it."""
    number = lines.after(word)
    if number is None:
        return None
    if not re.fullmatch("[0-9]{1,18}", number):
        raise lines.fault(f"“{word}” wants a number")
    lines.advance()
    return int(number)


def _journey(lines: Lines) -> Journey:
    line, depart = lines.number, None
    boardings = _number(lines, "boardings")
    if (clock := lines.after("depart")) is not None:
        depart = _clock(lines, clock)
        lines.advance()
    arrive = _clock(lines, lines.expect("arrive"))
    lines.advance()
    word = [] if lines.text == "word" else lines.expect("word").split(" ")
    if any(letter not in LETTERS for letter in word):
        raise lines.fault("the word has a letter that is none")
    lines.advance()
    start, _, clock = lines.expect("from").partition(" ")
    journey = Journey(line, arrive, word, lines.number, _node(lines, start), _clock(lines, clock), [], depart, boardings)
    lines.advance()
    node = start
    while (step := _step(lines, node)) is not None:
        journey.steps.append(step)
        node = step.node or node
        lines.advance()
    return journey


def _step(lines: Lines, node: str) -> Step | None:
    """The step that the line spells, or None where it is no step line."""
    kind, _, rest = lines.text.partition(" ")
    if lines.text == "stand":
        if not node.startswith(ROADS):
            raise lines.fault("a stand is at a road node, and the line before leads to none")
        return Step("stand", lines.number)
    if kind == "wait":
        return Step("wait", lines.number, clock=_clock(lines, rest))
    if kind in ("road", "link"):
        there, _, clock = rest.partition(" ")
        if kind == "road" and not (node.startswith(ROADS) and there.startswith(ROADS)):
            raise lines.fault("a road leads from a road node to another")
        return Step(kind, lines.number, _node(lines, there), _clock(lines, clock))
    if kind == "ride":
        words = rest.split(" ")
        if len(words) != 6 or words[0] not in LETTERS[3:]:
            raise lines.fault("this is no ride")
        letter, date, stop, day, time, name = words
        if not (node.startswith("stop:") and stop.startswith("stop:")):
            raise lines.fault("a ride leads from a stop to a stop")
        _clock(lines, f"{date} 00:00:00.000")
        return Step("ride", lines.number, _node(lines, stop), _clock(lines, f"{day} {time}"), letter, date, name)
    return None


@functools.lru_cache
def _is_date(text: str) -> bool:
    try:
        datetime.date(int(text[:4]), int(text[4:6]), int(text[6:]))
    except ValueError:
        return False
    return True


def _clock(lines: Lines, text: str) -> Clock:
    match = CLOCK.fullmatch(text)
    if not match:
        raise lines.fault(f"“{shown(text)[:40]}” is no clock text")
    date, hours, minutes, seconds, ms = match.groups()
    if not _is_date(date):
        raise lines.fault(f"“{date}” is no date")
    return Clock(date, ((int(hours) * 60 + int(minutes)) * 60 + int(seconds)) * 1000 + int(ms))


def _node(lines: Lines, text: str) -> str:
    if not NODE.fullmatch(text):
        raise lines.fault(f"“{shown(text)[:40]}” is no node")
    return text
