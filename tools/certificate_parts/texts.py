"""The text of a certificate of any kind: docs/FORMATS.md, "Certificates" and "Late certificates"."""

import enum
import re
from dataclasses import dataclass
from typing import NamedTuple

from certificate_parts.faults import BadLine

NUMBER, TIME = "(0|[1-9][0-9]{0,9})", "(0|[1-9][0-9]{0,29})"
HEAD = re.compile("modeplan (certificate|late) 1")
QUERY = re.compile("query (.*)", re.S)
GRAPH = re.compile("graph (plain|phases)")
ARRIVE, DEPART, NONE = re.compile(f"arrive {TIME}"), re.compile(f"depart {TIME}"), re.compile("none")
START = re.compile(f"start {NUMBER} {TIME}")
WAIT = re.compile(f"(wait) {TIME}")
STEP = re.compile(f"(road) {NUMBER}|(link) {NUMBER}|(stand)|(ride) {NUMBER} {NUMBER} {NUMBER} {NUMBER}")
COUNT = re.compile("labels (0|[1-9][0-9]{0,19})")
LABEL = re.compile(f"{NUMBER} {NUMBER} {TIME}")
END = re.compile("end")


class Kind(enum.Enum):
    """What the labels are of: the nodes of the network, those of a hierarchy's phases, or those of the network back in time."""

    PLAIN = "plain"
    PHASES = "phases"
    LATE = "late"


class Step(NamedTuple):
    """A step: `wait` with its time, `road` and `link` with a node, `stand`, or `ride` with trip, day, board and alight."""

    kind: str
    numbers: tuple[int, ...] = ()


class Label(NamedTuple):
    """The node is reached in the state at the time; in a late certificate the time is mirrored."""

    node: int
    state: int
    at: int


@dataclass
class Journey:
    """Where and when it starts, its steps, and when it arrives, where that is claimed; a late certificate claims no arrival."""

    start: int
    at: int
    arrival: int | None
    steps: list[Step]


@dataclass(frozen=True)
class Certificate:
    """What a certificate claims. The journey is None where it claims that there is none."""

    kind: Kind
    query: str  # a character for each byte
    journey: Journey | None
    labels: list[Label]


def read_certificate(content: bytes) -> Certificate:
    """What the bytes spell; BadLine where they spell nothing."""
    lines = _Lines(content)
    late = lines.take(HEAD)[1] == "late"
    query = lines.take(QUERY)[1]
    kind = Kind.LATE if late else Kind(lines.take(GRAPH)[1])
    journey = _read_late(lines) if late else _read_usual(lines)
    count = _read_steps(lines, journey) if journey is not None else lines.take(COUNT)
    labels = [_label_of(lines, lines.take(LABEL)) for _ in range(lines.below(64, count[1]))]
    lines.take(END)
    lines.finish()
    return Certificate(kind, query, journey, labels)


def _read_usual(lines: "_Lines") -> Journey | None:
    result = lines.take(ARRIVE, NONE)
    if result.re is NONE:
        return None
    start = lines.take(START)
    return Journey(lines.below(32, start[1]), int(start[2]), int(result[1]), [])


def _read_late(lines: "_Lines") -> Journey | None:
    """The line of the start repeats the time of the departure."""
    result = lines.take(DEPART, NONE)
    if result.re is NONE:
        return None
    start = lines.take(START)
    if start[2] != result[1]:
        raise BadLine(lines.at)
    return Journey(lines.below(32, start[1]), int(start[2]), None, [])


def _read_steps(lines: "_Lines", journey: Journey) -> re.Match[str]:
    """Reads the steps, up to the line that counts the labels."""
    while True:
        found = lines.take(COUNT, STEP, WAIT)
        if found.re is COUNT:
            return found
        kind, *numbers = (group for group in found.groups() if group is not None)
        bits = 128 if found.re is WAIT else 32
        journey.steps.append(Step(kind, tuple(lines.below(bits, number) for number in numbers)))


def _label_of(lines: "_Lines", found: re.Match[str]) -> Label:
    return Label(lines.below(32, found[1]), lines.below(32, found[2]), int(found[3]))


class _Lines:
    """The lines of a text, taken one after the other."""

    def __init__(self, content: bytes) -> None:
        self._pieces = content.decode("latin-1").split("\n")
        self.at = 0  # how many were taken

    def take(self, *forms: re.Pattern[str]) -> re.Match[str]:
        """The next line, which must be ended and have one of these forms."""
        self.at += 1
        if self.at < len(self._pieces):
            for form in forms:
                found = form.fullmatch(self._pieces[self.at - 1])
                if found:
                    return found
        raise BadLine(self.at)

    def below(self, bits: int, digits: str) -> int:
        """A number of the line that was taken last, which must be below 2^bits."""
        number = int(digits)
        if number >> bits:
            raise BadLine(self.at)
        return number

    def finish(self) -> None:
        """Nothing may follow."""
        if self._pieces[self.at:] != [""]:
            raise BadLine(self.at + 1)
