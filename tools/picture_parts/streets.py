"""The streets around journeys: those near them whole, those further away thinned, and the rest left out."""

import math
from collections.abc import Iterable

from region_reader import Region

from .region import Survey

CELL = 25_000  # 10^-7 degree of latitude: a cell is some 280 m high
NEAR, FAR = 2, 1  # how much of the streets in a cell is kept
NEAR_CELLS, FAR_CELLS = 1, 9  # how many cells around a journey are near, and how many are far
NEAR_LIMIT, FAR_LIMIT = 60_000, 25_000  # how many streets are kept at most
FIRST_RASTER, FAR_RASTER = 500, 10_000  # 5 m and 110 m: to which raster corners are moved where streets are thinned
LONGEST_CHAIN = 150

Point = tuple[int, int]


class Neighbourhood:
    """Which cells of the map are near a journey, and which are far."""

    def __init__(self, lines: Iterable[list[Point]]) -> None:
        points = [line for line in lines if line]
        first = points[0][0] if points else (0, 0)
        self._width = max(1, round(CELL / max(0.05, math.cos(math.radians(first[0] / 1e7)))))
        touched = {cell for line in points for cell in self._along(line)}
        self._zones: dict[Point, int] = {}
        self._grow(touched, FAR_CELLS, FAR)
        self._grow(touched, NEAR_CELLS, NEAR)

    def _along(self, line: list[Point]) -> Iterable[Point]:
        yield self._cell(*line[0])
        for (lat1, lon1), (lat2, lon2) in zip(line, line[1:]):
            steps = max(abs(lat2 - lat1) // CELL, abs(lon2 - lon1) // self._width) + 1
            for k in range(steps + 1):
                yield self._cell(lat1 + (lat2 - lat1) * k // steps, lon1 + (lon2 - lon1) * k // steps)

    def _cell(self, lat: int, lon: int) -> Point:
        return lat // CELL, lon // self._width

    def _grow(self, touched: set[Point], cells: int, zone: int) -> None:
        around = range(-cells, cells + 1)
        rows = {(row + d, column) for row, column in touched for d in around}
        self._zones.update(((row, column + d), zone) for row, column in rows for d in around)

    def zone(self, lat: int, lon: int) -> int:
        """NEAR, FAR, or 0 where the place is left out."""
        return self._zones.get((lat // CELL, lon // self._width), 0)


class Thinned:
    """A set of streets that stays below a limit: when it is full, corners are moved to a raster twice as coarse."""

    def __init__(self, limit: int, raster: int) -> None:
        self._limit, self._raster = limit, raster
        self.is_whole = True  # no corner was moved
        self._streets: set[tuple[Point, Point]] = set()

    def add(self, a: Point, b: Point) -> None:
        """Takes a street in, in whichever direction it goes."""
        self._put(a, b)
        while len(self._streets) > self._limit:
            self.is_whole = False
            self._raster = max(FIRST_RASTER, 2 * self._raster)
            kept, self._streets = self._streets, set()
            for street in kept:
                self._put(*street)

    def _put(self, a: Point, b: Point) -> None:
        if self._raster > 1:
            a, b = self._moved(a), self._moved(b)
        if a != b:
            self._streets.add((a, b) if a < b else (b, a))

    def _moved(self, point: Point) -> Point:
        half = self._raster // 2
        lat, lon = point
        return (lat + half) // self._raster * self._raster, (lon + half) // self._raster * self._raster

    def chains(self) -> list[list[Point]]:
        """The streets strung together to lines, those that begin near each other one after another."""
        beside: dict[Point, set[Point]] = {}
        for a, b in sorted(self._streets):
            beside.setdefault(a, set()).add(b)
            beside.setdefault(b, set()).add(a)
        chains = []
        for start in beside:
            while beside[start]:
                chains.append(_chain(beside, start))
        return sorted(chains, key=lambda chain: (chain[0][0] // (8 * CELL), chain[0][1] // (8 * CELL)))


def _chain(beside: dict[Point, set[Point]], start: Point) -> list[Point]:
    chain = [start]
    while beside[chain[-1]] and len(chain) < LONGEST_CHAIN:
        here = chain[-1]
        there = min(beside[here], key=lambda point: _turn(chain, point))
        beside[here].discard(there)
        beside[there].discard(here)
        chain.append(there)
    return chain


def _turn(chain: list[Point], point: Point) -> tuple[float, Point]:
    """How far one turns towards the point, from 0 for straight on; the point itself decides between equals."""
    if len(chain) < 2:
        return 0, point
    (a, b), (c, d) = chain[-2:]
    ahead, aside = (c - a, d - b), (point[0] - c, point[1] - d)
    return -(ahead[0] * aside[0] + ahead[1] * aside[1]) / math.hypot(*aside) / math.hypot(*ahead), point


def read_streets(region: Region, found: Survey, near: Neighbourhood, wanted: dict[tuple[str, int, int, int], int]) \
        -> tuple[Thinned, Thinned]:
    """The near and the far streets of the region. Of the ways in `wanted`, by node numbers, what is found is taken out."""
    zones = bytes(near.zone(lat, lon) for lat, lon in zip(found.lats, found.lons))
    starts = {start for _, start, _, _ in wanted}
    close, far = Thinned(NEAR_LIMIT, 1), Thinned(FAR_LIMIT, FAR_RASTER)
    for kind, a, b, ms in region.records({"arc", "link"}):
        if not (0 <= a < len(zones) and 0 <= b < len(zones)):
            raise region.bad(f"this is no line “{kind} FROM TO MS” of nodes of the region: {a}, {b}, {ms}")
        if a in starts:
            wanted.pop(("road" if kind == "arc" else "link", a, b, ms), None)
        if kind == "arc" and (zone := zones[a] | zones[b]):
            (close if zone & NEAR else far).add((found.lats[a], found.lons[a]), (found.lats[b], found.lons[b]))
    return close, far
