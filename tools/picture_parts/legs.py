"""Journeys as a traveller reads them: leg by leg, with waits and changes between."""

import math
from dataclasses import dataclass, field

from .blocks import LETTERS, Block, Clock, Journey, Step
from .faults import Fault
from .names import Names
from .queries import nodes_of, query_of
from .region import Call, Days, RideWish, Survey

METRES_PER_UNIT = 0.011132  # of latitude: 10^-7 degree
LINK, WAIT = "link", "wait"


@dataclass
class Leg:
    """A part of a journey.

    `kind` is a letter, `link` or `wait`; `path` the nodes that it goes along (one for a wait, and for a leg of no
    length); `calls` a ride's calls, the first and the last too.
    """

    kind: str
    path: list[str]
    depart: Clock
    arrive: Clock
    name: str = ""
    calls: list[Call] = field(default_factory=list)

    @property
    def letter(self) -> str | None:
        return self.kind if self.kind in LETTERS else None


@dataclass
class Wishes:
    """What blocks want of a region: nodes with a line that names each, rides, ways (kind, from, to, ms) by line, and the nodes
    that the ends of queries without a journey may stand for, which need not be there."""

    nodes: dict[str, int] = field(default_factory=dict)
    ends: set[str] = field(default_factory=set)
    rides: set[RideWish] = field(default_factory=set)
    ways: dict[tuple[str, str, str, int], int] = field(default_factory=dict)


class Reader:
    """Reads journeys against a region's days."""

    def __init__(self, file: str, days: Days) -> None:
        self._file, self._days = file, days

    def wishes(self, blocks: list[Block]) -> Wishes:
        """All that the journeys of the blocks want of the region."""
        wishes = Wishes(rides=self.rides(blocks))
        for block in blocks:
            if not block.journeys and (query := query_of(block)) is not None:
                wishes.ends.update(nodes_of(query.start) + nodes_of(query.end))
            for journey in block.journeys:
                wishes.nodes.setdefault(journey.start, journey.start_line)
                for node, clock, step in self._steps(journey):
                    self._wish(wishes, node, clock, step)
        return wishes

    def _wish(self, wishes: Wishes, node: str, clock: Clock, step: Step) -> None:
        if step.node is None or step.clock is None:
            return
        wishes.nodes.setdefault(step.node, step.line)
        if step.kind != "ride":
            ms = self._moment(step.clock, step.line) - self._moment(clock, step.line)
            wishes.ways.setdefault((step.kind, node, step.node, ms), step.line)

    def rides(self, blocks: list[Block]) -> set[RideWish]:
        """The rides that the journeys of the blocks tell of."""
        return {self.ride_wish(node, clock, step) for block in blocks for journey in block.journeys
                for node, clock, step in self._steps(journey) if step.kind == "ride"}

    def ride_wish(self, node: str, clock: Clock, step: Step) -> RideWish:
        """The ride that a step from the node at the clock tells of."""
        assert step.node is not None and step.clock is not None
        return RideWish(step.letter, step.name, step.date, node, step.node, self._moment(clock, step.line),
                        self._moment(step.clock, step.line), step.line)

    def _moment(self, clock: Clock, line: int) -> int:
        try:
            return self._days.moment(clock)
        except (ValueError, OverflowError):
            raise Fault(self._file, line, f"“{clock.date}” is no date") from None

    def _steps(self, journey: Journey):
        """The steps, each with the node and the clock before it."""
        node, clock = journey.start, journey.start_clock
        for step in journey.steps:
            yield node, clock, step
            node, clock = step.node or node, step.clock or clock
        if clock != journey.arrive:
            raise Fault(self._file, journey.line, "the journey does not end when it is said to arrive")

    def legs(self, journey: Journey, found: Survey) -> list[Leg]:
        """The journey's legs, waits and changes, in order. Streets of one mode are one leg, and so are links in a row."""
        legs: list[Leg] = []
        for node, clock, step in self._steps(journey):
            if step.kind == "ride":
                calls = found.rides[self.ride_wish(node, clock, step)]
                depart = self._days.clock(calls[0].depart, min(step.date, clock.date))
                if depart != clock:
                    legs.append(Leg(WAIT, [node], clock, depart))
                legs.append(Leg(step.letter, [call.stop for call in calls], depart, step.clock, step.name, calls))
            elif step.kind == "wait":
                legs.append(Leg(WAIT, [node], clock, step.clock))
            elif step.kind == "stand":
                legs.append(Leg(mode_of(node), [node], clock, clock))
            else:
                kind = LINK if step.kind == "link" else mode_of(step.node)
                if legs and legs[-1].kind == kind and len(legs[-1].path) > 1:
                    legs[-1].path.append(step.node)
                    legs[-1].arrive = step.clock
                else:
                    legs.append(Leg(kind, [node, step.node], clock, step.clock))
        return legs


@dataclass
class Known:
    """What is known of the region where journeys are drawn, and what people call its nodes and trips."""

    reader: Reader
    days: Days
    found: Survey
    names: Names


def mode_of(node: str) -> str:
    """The layer of a road node; `stop` and `switch` for the others."""
    return node.partition(":")[0]


def metres(leg: Leg, found: Survey) -> float:
    """How long the leg is along its nodes, as the crow flies between each two."""
    places = [found.place(node) for node in leg.path]
    return sum(between(a, b) for a, b in zip(places, places[1:]))


def between(a: tuple[int, int], b: tuple[int, int]) -> float:
    """Metres between two places, by the formula for lengths with the width of a whole degree of latitude."""
    degree = abs(a[0] + b[0]) // 20_000_000
    turn = abs(a[1] - b[1])
    east = min(turn, 3_600_000_000 - turn) * math.cos(math.radians(degree))
    return METRES_PER_UNIT * math.hypot(a[0] - b[0], east)


def minutes(leg: Leg, days: Days) -> float:
    """How many minutes the leg takes."""
    return (days.moment(leg.arrive) - days.moment(leg.depart)) / 60_000
