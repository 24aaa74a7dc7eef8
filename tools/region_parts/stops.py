"""The stops of a feed, and which stop stands for a station."""

import math
from dataclasses import dataclass, field

from .faults import quoted
from .forms import degrees_of
from .report import Report
from .sources import Feed

TABLE = "stops.txt"
STATION = "1"
METRES_PER_DEGREE = 111_320


@dataclass
class StopRow:
    """A row of stops.txt: a stop, or something else that may have stops as children. Degrees are as the planner reads them."""

    row: int
    name: str
    lat: str | None
    lon: str | None
    kind: str
    parent: str


@dataclass
class Stops:
    """The stops by id, and for each station its first child; a station without a child is a stop where a trip calls at it."""

    rows: dict[str, StopRow] = field(default_factory=dict)
    children: dict[str, str] = field(default_factory=dict)

    def is_stop(self, ident: str) -> bool:
        return ident in self.rows and self.rows[ident].kind == ""

    def called(self, ident: str) -> str | None:
        """The stop at which a call with this stop_id is, or None where there is none."""
        if self.is_stop(ident):
            return ident
        station = self.rows.get(ident)
        if station is None or station.kind != STATION:
            return None
        if ident not in self.children and station.lat is not None and station.lon is not None:
            station.kind = ""
            return ident
        return self.children.get(ident)

    def metres(self, a: str, b: str) -> float:
        """How far two stops are apart, along the great circle."""
        (lat1, lon1), (lat2, lon2) = (self._radians(ident) for ident in (a, b))
        half = math.sin((lat2 - lat1) / 2) ** 2 + math.cos(lat1) * math.cos(lat2) * math.sin((lon2 - lon1) / 2) ** 2
        return 2 * math.degrees(math.asin(min(1.0, math.sqrt(half)))) * METRES_PER_DEGREE

    def _radians(self, ident: str) -> tuple[float, float]:
        row = self.rows[ident]
        return math.radians(float(row.lat or 0)), math.radians(float(row.lon or 0))


def read_stops(feed: Feed, report: Report) -> Stops:
    """The stops and stations; rows without a place, without an id, or with one that an earlier row has are dropped."""
    stops = Stops()
    columns = ("stop_id", "stop_lat", "stop_lon"), ("location_type", "parent_station", "stop_name")
    for number, (ident, lat, lon, kind, parent, name) in feed.rows(TABLE, *columns):
        kind = "" if kind == "0" else kind
        row = StopRow(number, name, degrees_of(lat, 90), degrees_of(lon, 180), kind, parent)
        place = feed.place(TABLE, number)
        if not ident or ident in stops.rows:
            report.drop("rows with the id of an earlier row, or without one", f"{place}: stop_id {quoted(ident)}")
        elif kind == "" and (row.lat is None or row.lon is None):
            report.drop("stops without a place",
                        f"{place}: stop {quoted(ident)} at {quoted(lat)}, {quoted(lon)}; degrees are as 52.5163")
        else:
            stops.rows[ident] = row
    for ident, row in stops.rows.items():
        if row.kind == "" and row.parent:
            stops.children.setdefault(row.parent, ident)
    return stops
