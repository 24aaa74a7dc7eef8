"""The streets of a region for the map: all of it thinned, and cell by cell as they are."""

import functools
from array import array

from picture_parts.streets import Point, Thinned

MOST = 60_000  # streets that the map of the whole region has
MOST_OF_CELL = 40_000
CELL = 100_000  # 10^-7 degree: a cell is some 1.1 km high


class Streets:
    """Streets by the numbers of their ends."""

    def __init__(self, lats: array, lons: array) -> None:
        self._lats, self._lons = lats, lons
        self._cells: dict[tuple[int, int], array] = {}
        self._whole = Thinned(MOST, 1)
        self.is_whole, self.overview = True, list[list[int]]()
        self.chains = functools.lru_cache(maxsize=256)(self._chains)

    def add(self, start: int, end: int) -> None:
        """Takes an arc in; both ways of a street are one."""
        self._whole.add(self._place(start), self._place(end))
        key = self.cell(self._lats[start], self._lons[start])
        self._cells.setdefault(key, array("I")).extend((start, end))

    def _place(self, number: int) -> Point:
        return self._lats[number], self._lons[number]

    @staticmethod
    def cell(lat: int, lon: int) -> tuple[int, int]:
        """The cell of a place."""
        return lat // CELL, lon // CELL

    def end(self) -> None:
        """All streets are in: the map of the whole region is made."""
        self.is_whole = self._whole.is_whole
        self.overview = [_steps(chain) for chain in self._whole.chains()]
        del self._whole
        if self.is_whole:
            self._cells.clear()

    def _chains(self, row: int, column: int) -> list[list[int]]:
        """The streets that begin in a cell."""
        ends = self._cells.get((row, column), array("I"))
        streets = Thinned(MOST_OF_CELL, 1)
        for start, end in zip(ends[::2], ends[1::2]):
            streets.add(self._place(start), self._place(end))
        return [_steps(chain) for chain in streets.chains()]


def _steps(chain: list[Point]) -> list[int]:
    """A chain as numbers: the latitude and longitude of its first point, and then what each point is further on."""
    flat, (lat, lon) = list(chain[0]), chain[0]
    for next_lat, next_lon in chain[1:]:
        flat += (next_lat - lat, next_lon - lon)
        lat, lon = next_lat, next_lon
    return flat
