"""The names of a region's stops, trips and streets, in a small SQLite file beside it."""

import os
import pathlib
import sqlite3

TABLES = """
CREATE TABLE stops (id TEXT PRIMARY KEY, name TEXT NOT NULL, lat REAL NOT NULL, lon REAL NOT NULL) WITHOUT ROWID;
CREATE TABLE trips (id TEXT PRIMARY KEY, route TEXT NOT NULL, headsign TEXT NOT NULL) WITHOUT ROWID;
CREATE TABLE streets (node INTEGER NOT NULL, name TEXT NOT NULL, PRIMARY KEY (node, name)) WITHOUT ROWID;
"""


class Names:
    """Takes names down; ids of stops and trips are as in the region, and nodes are those of the map."""

    def __init__(self) -> None:
        self._stops: dict[str, tuple[str, float, float]] = {}
        self._trips: dict[str, tuple[str, str]] = {}
        self._streets: dict[int, dict[str, None]] = {}

    def add_stop(self, ident: str, name: str, lat: float, lon: float) -> None:
        self._stops[ident] = name, lat, lon

    def add_trip(self, ident: str, route: str, headsign: str) -> None:
        self._trips[ident] = route, headsign

    def add_street(self, node: int, name: str) -> None:
        """A street that the node lies on; at a corner there are several."""
        self._streets.setdefault(node, {})[name] = None

    def write(self, path: pathlib.Path) -> None:
        """Writes the file whole, or not at all."""
        part = path.with_name(path.name + ".part")
        part.unlink(missing_ok=True)
        try:
            base = sqlite3.connect(os.path.abspath(part))
            with base:
                base.executescript(TABLES)
                base.executemany("INSERT INTO stops VALUES (?, ?, ?, ?)", ((ident, *row) for ident, row in self._stops.items()))
                base.executemany("INSERT INTO trips VALUES (?, ?, ?)", ((ident, *row) for ident, row in self._trips.items()))
                base.executemany("INSERT INTO streets VALUES (?, ?)",
                                 ((node, name) for node, names in self._streets.items() for name in names))
            base.close()
            part.replace(path)
        finally:
            part.unlink(missing_ok=True)
