"""Names of stops, trips and streets, from the SQLite file that tools/make-region leaves beside a region."""

import pathlib
import re
import sqlite3
import urllib.parse

from .faults import Fault, shown

MOST_STREETS = 3  # that are told of a corner
NONE = "this is no file of names, as tools/make-region writes it"
TABLES = {"stops": "id", "trips": "id", "streets": "node"}


def plain_name(name: str) -> str:
    """A name of the region as people write it: `%20%` is a space."""
    def character(match: re.Match[str]) -> str:
        number = int(match[1], 16)
        return chr(number) if number < 0x110000 and not 0xD800 <= number < 0xE000 else match[0]
    return shown(re.sub(r"%([0-9a-fA-F]{1,6})%", character, name))


class Names:
    """What people call nodes and trips: by the file, or else by their names in the region."""

    def __init__(self, path: str | None) -> None:
        self._path = path
        self._base: sqlite3.Connection | None = None
        self._seen: dict[tuple[str, object], list[tuple]] = {}
        if path is not None:
            self._open(path)

    def _open(self, path: str) -> None:
        uri = "file:" + urllib.parse.quote(str(pathlib.Path(path).absolute())) + "?mode=ro&immutable=1"
        try:
            base = self._base = sqlite3.connect(uri, uri=True)
            kinds = dict(base.execute("SELECT name, type FROM sqlite_schema"))
        except (sqlite3.Error, ValueError) as error:
            raise Fault(path, None, f"{NONE}: {error}") from error
        if any(kinds.get(name) != "table" for name in TABLES):
            raise Fault(path, None, f"{NONE}: it has not the tables {', '.join(TABLES)}")

    def _rows(self, table: str, columns: str, key: object) -> list[tuple]:
        """The rows of a table with this key; few, whatever the file holds."""
        if self._base is None:
            return []
        if (table, key) not in self._seen:
            try:
                call = f"SELECT {columns} FROM {table} WHERE {TABLES[table]} = ? LIMIT {MOST_STREETS}"
                self._seen[table, key] = self._base.execute(call, (key,)).fetchall()
            except UnicodeError:
                self._seen[table, key] = []
            except (sqlite3.Error, OverflowError) as error:
                raise Fault(self._path or "", None, f"the names can't be read: {error}") from error
        return self._seen[table, key]

    def stop(self, name: str) -> str:
        """A stop, by its name in the region."""
        rows = self._rows("stops", "name", name)
        return shown(str(rows[0][0])) if rows and rows[0][0] else plain_name(name)

    def trip(self, name: str) -> str:
        """A trip: its route and where it goes."""
        route, headsign = self.route(name)
        return " to ".join(part for part in (route, headsign) if part) if route else headsign or plain_name(name)

    def route(self, name: str) -> tuple[str | None, str | None]:
        """A trip's route and headsign."""
        rows = self._rows("trips", "route, headsign", name)
        route, headsign = (shown(str(text)) if text else None for text in (rows[0] if rows else (None, None)))
        return route, headsign

    def node(self, node: str) -> str:
        """A node of the region as a traveller is told of it: a stop by its name, a corner by its streets."""
        kind, _, name = node.partition(":")
        if kind == "stop":
            return self.stop(name)
        if kind == "switch":
            return f"switch {name}"
        streets = [shown(str(street)) for street, in self._rows("streets", "name", int(name))]
        return " / ".join(streets) or f"corner {name}"
