"""Streets by how soon one is there: each has the time of the destination that is nearest to its middle."""

import bisect
import math
import statistics
from collections.abc import Iterable, Iterator
from dataclasses import dataclass

MINUTES = tuple(range(5, 61, 5))  # each band is what is reached within so many minutes, and not within those before
REACH = 1.5  # how many times the space between destinations a street may be away from the nearest of them

Place = tuple[int, int]
Chain = list[int]  # latitude and longitude of the first point in 10^-7 degree, and then what each point is further on


@dataclass(frozen=True)
class Destination:
    """A place, and how many milliseconds it takes to be there, if one is."""

    place: Place
    ms: int | None

    @property
    def band(self) -> int | None:
        """The number of its band in MINUTES, if it is in one."""
        if self.ms is None:
            return None
        number = bisect.bisect_left(MINUTES, self.ms / 60_000)
        return number if number < len(MINUTES) else None


class Nearest:
    """Finds the destination that is nearest to a place."""

    def __init__(self, destinations: list[Destination]) -> None:
        lats = [destination.place[0] for destination in destinations]
        self._wide = max(0.01, math.cos(math.radians((min(lats) + max(lats)) / 2e7)))
        self._destinations = destinations
        self._fill(self._coarse())
        self._fill(REACH * self._space())

    def _at(self, place: Place) -> tuple[float, float]:
        return place[0], place[1] * self._wide

    def _coarse(self) -> float:
        """A first guess at the space between destinations."""
        count = len(self._destinations)
        high, wide = (max(axis) - min(axis) for axis in zip(*(self._at(destination.place) for destination in self._destinations)))
        return 2 * max(1.0, math.sqrt(high * wide / count), high / count, wide / count)

    def _fill(self, size: float) -> None:
        self._size = size
        self._cells: dict[tuple[int, int], list[Destination]] = {}
        for destination in self._destinations:
            self._cells.setdefault(self._cell(destination.place), []).append(destination)

    def _cell(self, place: Place) -> tuple[int, int]:
        x, y = self._at(place)
        return int(x // self._size), int(y // self._size)

    def _around(self, place: Place) -> Iterator[tuple[float, Destination]]:
        row, column = self._cell(place)
        here = self._at(place)
        for cell in ((row + d, column + e) for d in (-1, 0, 1) for e in (-1, 0, 1)):
            for destination in self._cells.get(cell, ()):
                yield math.dist(here, self._at(destination.place)), destination

    def _space(self) -> float:
        """How far destinations lie apart, as most do."""
        gaps = [min((gap for gap, other in self._around(one.place) if other.place != one.place), default=self._size)
                for one in self._destinations[:2_000]]
        return max(1.0, statistics.median(gaps))

    def of(self, place: Place) -> Destination | None:
        """The nearest destination, if one is near enough."""
        gap, found = min(self._around(place), key=lambda pair: pair[0], default=(math.inf, None))
        return found if gap <= self._size else None


def bands(chains: Iterable[Chain], destinations: list[Destination]) -> list[list[Chain]]:
    """The streets of each band of MINUTES."""
    found: list[list[Chain]] = [[] for _ in MINUTES]
    if destinations:
        nearest = Nearest(destinations)
        for chain in chains:
            _part(chain, nearest, found)
    return found


def _part(chain: Chain, nearest: Nearest, found: list[list[Chain]]) -> None:
    """Cuts a chain where its band changes."""
    lat, lon = chain[:2]
    before: int | None = None
    for north, east in zip(chain[2::2], chain[3::2]):
        destination = nearest.of((lat + north // 2, lon + east // 2))
        band = destination.band if destination else None
        if band is not None:
            if band != before:
                found[band].append([lat, lon])
            found[band][-1] += (north, east)
        before, lat, lon = band, lat + north, lon + east
