"""Finding places of a region by what people call them, or by where they are."""

import heapq
import math

from picture_parts.faults import shown
from picture_parts.legs import between
from picture_parts.names import Names

from .atlas import Atlas
from .problems import Problem

UNIT = 10_000_000  # of a place, in a degree


class Places:
    """The stops of a region with their names, which are read once."""

    def __init__(self, atlas: Atlas, names: Names) -> None:
        self._atlas = atlas
        self._stops = [raw.decode("utf-8", "surrogateescape") for raw in atlas.numbers.stops]
        self._names = [names.stop(name) for name in self._stops]
        self._folded = [name.casefold() for name in self._names]

    def __len__(self) -> int:
        return len(self._stops)

    def stop(self, number: int) -> dict:
        """A stop, with the text by which a query line names it."""
        lat, lon = self._place(number)
        return {"endpoint": "s" + shown(self._stops[number]), "name": self._names[number], "lat": lat / UNIT, "lon": lon / UNIT}

    def _place(self, number: int) -> tuple[int, int]:
        node = self._atlas.first_stop + number
        return self._atlas.lats[node], self._atlas.lons[node]

    def near(self, lat: float, lon: float, most: int) -> list[dict]:
        """The nearest stops, the nearest first, with how many metres it is to each."""
        here = round(lat * UNIT), round(lon * UNIT)
        far = ((between(here, self._place(number)), number) for number in range(len(self._stops)))
        return [{**self.stop(number), "metres": round(metres)} for metres, number in heapq.nsmallest(most, far)]

    def named(self, text: str, most: int) -> list[dict]:
        """The stops with this text in their names or ids: those first that begin with it."""
        part = text.casefold()
        ranks = ((not name.startswith(part), name, number) for number, name in enumerate(self._folded)
                 if part in name or part in self._stops[number].casefold())
        return [self.stop(number) for *_, number in heapq.nsmallest(most, ranks)]


def place_of(text: str) -> tuple[float, float]:
    """Latitude and longitude in degrees, as `48.0005,11.0`."""
    try:
        lat, lon = map(float, text.split(","))
    except ValueError:
        raise Problem(400, "near is a place, LAT,LON in degrees, such as 48.0005,11.0") from None
    if not (math.isfinite(lat) and math.isfinite(lon) and abs(lat) <= 90 and abs(lon) <= 180):
        raise Problem(400, "near is a place, with a latitude up to 90 and a longitude up to 180 degrees")
    return lat, lon


def count_of(text: str | None) -> int:
    """How many places are asked for."""
    if not text:
        return 10
    if not text.isascii() or not text.isdecimal() or not 1 <= int(text[:9]) <= 100:
        raise Problem(400, "most is a number from 1 to 100")
    return int(text)
