"""How far one gets: a table of times to places on a grid, and the streets by how soon one is there."""

from collections.abc import AsyncIterable

from isochrone_parts.bands import MINUTES, Destination, bands
from isochrone_parts.grid import Place, endpoint, grid
from isochrone_parts.tables import destinations
from picture_parts.queries import place_of

from .asked import WHAT, parameters
from .atlas import Atlas
from .matrix import Table
from .problems import Problem

SQUARES = 1_500  # about as many as there are where no width is given
NARROWEST, WIDEST = 50, 100_000  # metres that the squares of a grid are wide


class Reach:
    """What a request asks: from where, when and how, and over which grid."""

    def __init__(self, query: str, atlas: Atlas, cells: int) -> None:
        found = parameters(query, ("from", "date", "time", "expr", "metres"), ("metres",))
        self._atlas, self._origin = atlas, found["from"]
        self.metres = _metres(found.get("metres")) or self._usual()
        roads = atlas.first_stop
        places = grid(atlas.lats[:roads], atlas.lons[:roads], self.metres)
        if len(places) > cells:
            raise Problem(413, f"a grid of {self.metres} metres has {len(places)} places here, and a table has at most {cells} cells")
        if not places:
            raise Problem(404, "the region has no streets")
        self._places = {endpoint(place): place for place in places}
        self.table = Table([self._origin], list(self._places), (found["date"], found["time"], found["expr"]))

    def _usual(self) -> int:
        """A width with which there are some SQUARES of them."""
        south, west, north, east = self._atlas.box()
        area = (north - south) * (east - west) * 0.011132 ** 2 * 0.7
        return max(100, min(WIDEST, round((area / SQUARES) ** 0.5)))

    async def rows(self, pieces: AsyncIterable[bytes]) -> list[bytes]:
        """All rows of the table."""
        whole = b"".join([piece async for piece in pieces])
        return whole.splitlines(keepends=True)

    def refused(self, rows: list[bytes]) -> str | None:
        """The refusal of the question, if it is the same for all places."""
        values = {row.rstrip(b"\n").rpartition(b"\t")[2] for row in rows}
        value = values.pop().decode() if len(values) == 1 else ""
        return value.removeprefix("refused ") if value.startswith("refused ") else None

    def told(self, rows: list[bytes]) -> dict:
        """The bands, each with its streets."""
        found = destinations(rows, self._origin, "the table", self._place)
        reached = sum(destination.ms is not None for destination in found)
        return {"kind": "reach", "origin": self._place_of_origin(), "metres": self.metres, "places": len(found), "reached": reached,
                "bands": self._bands(found)}

    def _place_of_origin(self) -> dict | None:
        """Where the origin is, if it has a place."""
        place = place_of(self._origin, self._atlas.survey(set()))
        return place and {"lat": place[0] / 1e7, "lon": place[1] / 1e7}

    def _place(self, text: str) -> Place | None:
        return self._places.get(text)

    def _bands(self, found: list[Destination]) -> list[dict]:
        streets = bands(self._atlas.streets.overview, found)
        return [{"minutes": minutes, "streets": chains} for minutes, chains in zip(MINUTES, streets)]


def _metres(text: str | None) -> int | None:
    """How wide the squares are, if that is said."""
    if not text:
        return None
    if not (text.isascii() and text.isdecimal() and NARROWEST <= int(text[:7]) <= WIDEST):
        raise Problem(400, f"metres is {WHAT['metres']}")
    return int(text)
