"""The tables of a feed that is made ready, written row by row."""

import csv
import pathlib
from collections.abc import Callable
from contextlib import ExitStack

from .forms import WEEKDAYS

COLUMNS = {
    "agency.txt": ("agency_timezone",),
    "stops.txt": ("stop_id", "stop_lat", "stop_lon"),
    "routes.txt": ("route_id", "route_type"),
    "calendar.txt": ("service_id", *WEEKDAYS, "start_date", "end_date"),
    "calendar_dates.txt": ("service_id", "date", "exception_type"),
    "trips.txt": ("trip_id", "route_id", "service_id"),
    "frequencies.txt": ("trip_id", "start_time", "end_time", "headway_secs", "exact_times"),
    "stop_times.txt": ("trip_id", "stop_id", "stop_sequence", "arrival_time", "departure_time", "pickup_type", "drop_off_type"),
}


class Tables:
    """Writers of all tables of a folder, each with its header."""

    def __init__(self, folder: pathlib.Path) -> None:
        self._folder = folder
        self._rows: dict[str, Callable[[tuple[object, ...]], object]] = {}

    def __enter__(self) -> "Tables":
        self._folder.mkdir(exist_ok=True)
        self._files = ExitStack()
        for name, columns in COLUMNS.items():
            file = self._files.enter_context(open(self._folder / name, "w", encoding="utf-8", newline=""))
            self._rows[name] = csv.writer(file, lineterminator="\n").writerow
            self._rows[name](columns)
        return self

    def __exit__(self, *raised: object) -> None:
        self._files.close()

    def write(self, name: str, *fields: object) -> None:
        """A row of the table, in the order of its columns."""
        self._rows[name](fields)
