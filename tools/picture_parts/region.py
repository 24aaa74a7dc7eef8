"""What of a region journeys use: places and rides, and nothing else of the timetable."""

import datetime
import functools
from array import array
from dataclasses import dataclass, field

from region_reader import Region, noon

from .blocks import Clock

LEAD_DAYS = 7
PLACES = ("node", "stop", "switch")


class Days:
    """The region's days: when a clock text is, in milliseconds of the region clock."""

    def __init__(self, region: Region) -> None:
        self._first, self._rule = region.first, region.rule
        self._last = f"{region.first + datetime.timedelta(region.count - 1):%Y%m%d}"
        self._bases: dict[str, int] = {}

    def number(self, date: str) -> int:
        """The day number of the date: seven lead days stand before the first one."""
        return (_date(date) - self._first).days + LEAD_DAYS

    def moment(self, clock: Clock) -> int:
        """The clock text's time, counted from a moment that is the same for all."""
        return self.base(clock.date) + clock.ms

    def clock(self, moment: int, date: str) -> Clock:
        """The clock text of a moment that is not before the date's base: that of the greatest day that has begun."""
        while date < self._last and self.base(after := _next(date)) <= moment:
            date = after
        return Clock(date, moment - self.base(date))

    def base(self, date: str) -> int:
        """When the day begins: twelve hours before its noon, which a zone rule may move."""
        if date not in self._bases:
            self._bases[date] = noon(_date(date), self._rule) - 43_200_000
        return self._bases[date]


@functools.lru_cache
def _next(date: str) -> str:
    return (_date(date) + datetime.timedelta(1)).strftime("%Y%m%d")


@functools.lru_cache
def _date(text: str) -> datetime.date:
    return datetime.date(int(text[:4]), int(text[4:6]), int(text[6:]))


@dataclass(frozen=True)
class RideWish:
    """A ride that a block tells of: what is looked for in the timetable. Times are moments."""

    letter: str
    name: str
    date: str
    board: str
    alight: str
    ready: int
    arrive: int
    line: int


@dataclass(frozen=True)
class Call:
    """A call of a ride: the stop's node and the times of arrival and departure, as moments."""

    stop: str
    arrive: int
    depart: int


@dataclass
class Survey:
    """What was found of the journeys' nodes and rides, and the places of all nodes by number."""

    lats: array = field(default_factory=lambda: array("i"))
    lons: array = field(default_factory=lambda: array("i"))
    numbers: dict[str, int] = field(default_factory=dict)
    rides: dict[RideWish, list[Call]] = field(default_factory=dict)
    first_stop: int = 0

    def place(self, node: str) -> tuple[int, int]:
        """Latitude and longitude in 10^-7 degree."""
        number = self.numbers[node]
        return self.lats[number], self.lons[number]


def survey(region: Region, days: Days, nodes: set[str], wishes: set[RideWish]) -> Survey:
    """Goes through the region once, and keeps the places, the nodes that are named and the rides that are looked for."""
    wanted, found = {_raw(node) for node in nodes}, Survey()
    stops: list[bytes] = []
    rides = Rides(days, found, stops, wishes)
    for record in region.records({*PLACES, "trip"}):
        if record[0] == "trip":
            rides.take(*record[1:])
        else:
            _take_node(region, record, wanted, found, stops)
    found.rides = rides.best_rides()
    return found


def _raw(node: str) -> bytes:
    return node.encode("utf-8", "surrogateescape")


def _take_node(region: Region, record: tuple, wanted: set[bytes], found: Survey, stops: list[bytes]) -> None:
    kind, *names, lat, lon = record
    if kind == "stop":
        key = b"stop:" + names[0]
        stops.append(key)
    else:
        key = b"%s:%d" % ((names[0] if kind == "node" else kind).encode(), names[-1])
        found.first_stop += kind == "node"
    if key in wanted:
        found.numbers[key.decode("utf-8", "surrogateescape")] = len(found.lats)
    try:
        found.lats.append(lat)
        found.lons.append(lon)
    except OverflowError:
        raise region.bad(f"{lat}, {lon} is no place in units of 10^-7 degree") from None


class Rides:
    """The search for rides among the trips as they pass by."""

    def __init__(self, days: Days, found: Survey, stops: list[bytes], wishes: set[RideWish]) -> None:
        self._days, self._survey, self._stops = days, found, stops
        self._best: dict[RideWish, tuple[tuple[bool, int], list[Call]]] = {}
        self._by_trip: dict[tuple[str, bytes], list[RideWish]] = {}
        for wish in wishes:
            self._by_trip.setdefault((wish.letter, _raw(wish.name)), []).append(wish)

    def take(self, letter: str, day_set: int, name: bytes, calls) -> None:
        """A trip, whose calls are read only where a ride of this letter and name is looked for."""
        for wish in self._by_trip.get((letter, name), ()):
            if day_set >> max(0, self._days.number(wish.date)) & 1:
                self._try(wish, [(self._stops[stop], arrive * 1000, depart * 1000, flags)
                                 for stop, arrive, depart, flags in calls() if stop < len(self._stops)])

    def _try(self, wish: RideWish, calls: list[tuple[bytes, int, int, int]]) -> None:
        """Keeps the trip's ride that the wish may mean: one that leaves at once, or else the one that leaves last."""
        base = self._days.base(wish.date)
        board, alight = _raw(wish.board), _raw(wish.alight)
        for i, (stop, _, depart, flags) in enumerate(calls):
            if stop != board or not flags & 1 or base + depart < wish.ready:
                continue
            for j in range(i + 1, len(calls)):
                if calls[j][0] == alight and calls[j][3] & 2 and base + calls[j][1] == wish.arrive:
                    rank = (base + depart == wish.ready, base + depart)
                    if wish not in self._best or rank > self._best[wish][0]:
                        self._best[wish] = rank, [self._call(base, call) for call in calls[i:j + 1]]
                    break

    def _call(self, base: int, call: tuple[bytes, int, int, int]) -> Call:
        return Call(call[0].decode("utf-8", "surrogateescape"), base + call[1], base + call[2])

    def found(self) -> dict[RideWish, list[Call]]:
        """The rides that were found."""
        return {wish: calls for wish, (_, calls) in self._best.items()}

    def best_rides(self) -> dict[RideWish, list[Call]]:
        """The rides that were found; the places of the stops between are kept with the other nodes'."""
        rides = self.found()
        needed = {_raw(call.stop) for calls in rides.values() for call in calls}
        for number, stop in enumerate(self._stops):
            if stop in needed:
                self._survey.numbers[stop.decode("utf-8", "surrogateescape")] = self._survey.first_stop + number
        return rides
