"""The tables of a feed, in a folder or a zip file, row by row."""

import csv
import io
import lzma
import os
import pathlib
import shutil
import stat
import struct
import zipfile
import zlib
from collections.abc import Iterator
from typing import BinaryIO

from .faults import Stop, quoted, shown
from .report import Report

TABLES = ("agency.txt", "stops.txt", "routes.txt", "calendar.txt", "calendar_dates.txt", "trips.txt", "frequencies.txt",
          "stop_times.txt")
MOST_BYTES = 1 << 30  # of one table: as many as the planner reads
# of a read, in a zip file or not
FAULTS = OSError, EOFError, RuntimeError, NotImplementedError, ValueError, zipfile.BadZipFile, zlib.error, lzma.LZMAError, struct.error
IDS = {"stop_id", "parent_station", "route_id", "service_id", "trip_id"}  # taken as they stand; from others spaces are dropped

Row = tuple[int, list[str]]


class Limited(io.RawIOBase):
    """The bytes of a table, at most so many."""

    def __init__(self, file: BinaryIO, name: str) -> None:
        self._file, self._name, self._left = file, name, MOST_BYTES

    def readable(self) -> bool:
        return True

    def readinto(self, buffer) -> int:
        try:
            piece = self._file.read(len(buffer))
        except FAULTS as error:
            raise Stop(f"{self._name} can't be read: {shown(str(error))}") from error
        self._left -= len(piece)
        if self._left < 0:
            raise Stop(f"{self._name} has more than {MOST_BYTES:,} bytes, which the planner does not read; take a smaller feed")
        buffer[:len(piece)] = piece
        return len(piece)

    def close(self) -> None:
        self._file.close()
        super().close()


class Feed:
    """A feed: its tables by name. `label` stands before the names of its files in what people are told."""

    def __init__(self, path: str, prefix: str, label: str) -> None:
        self.path, self.prefix, self.label = path, prefix, label
        self._zip: zipfile.ZipFile | None = None
        self._folder = ""
        if not os.path.isdir(path):
            self._open_zip()

    def _open_zip(self) -> None:
        if not os.path.isfile(self.path):
            raise Stop(f"{shown(self.path)}: there is no such feed; it is a zip file of GTFS tables, or a folder of them")
        try:
            self._zip = zipfile.ZipFile(self.path)
        except FAULTS as error:
            raise Stop(f"{shown(self.path)} is no zip file and no folder: {shown(str(error))}") from error
        folders = {name.removesuffix("stop_times.txt") for name in self._zip.namelist()
                   if name.rpartition("/")[2] == "stop_times.txt" and not name.startswith("__MACOSX/")}
        if len(folders) != 1:
            raise Stop(f"{shown(self.path)} has {len(folders)} files stop_times.txt, and one feed has one; unpack it, and name a "
                       "folder of it")
        self._folder = folders.pop()

    def named(self, table: str) -> str:
        """A table as people are told of it."""
        return self.label + table

    def place(self, table: str, row: int) -> str:
        return f"{self.label}{table}, row {row}"

    def has(self, table: str, report: Report) -> bool:
        """Whether the table is there, and not empty."""
        if not self._is_there(table):
            return False
        with self.open(table) as file:
            if not file.peek(1):
                report.change("empty tables, taken as not there", self.named(table))
                return False
        return True

    def _is_there(self, table: str) -> bool:
        if self._zip is not None:
            return self._folder + table in self._zip.namelist()
        return os.path.lexists(os.path.join(self.path, table))

    def open(self, table: str) -> io.BufferedReader:
        """The bytes of the table. A link in a zip file, and what is no file in a folder, is not followed."""
        try:
            if self._zip is None:
                path = os.path.join(self.path, table)
                if os.path.exists(path) and not os.path.isfile(path):
                    raise Stop(f"{self.named(table)} is no file")
                file: BinaryIO = open(path, "rb")
            else:
                info = self._zip.getinfo(self._folder + table)
                if stat.S_ISLNK(info.external_attr >> 16):
                    raise Stop(f"{self.named(table)} is a link; pack the table itself into {shown(self.path)}")
                file = self._zip.open(info)  # type: ignore[assignment]
        except KeyError as error:
            raise Stop(f"{self.named(table)} is not there; each feed has it") from error
        except FAULTS as error:
            raise Stop(f"{self.named(table)} can't be read: {shown(str(getattr(error, 'strerror', None) or error))}") from error
        return io.BufferedReader(Limited(file, self.named(table)), 1 << 16)

    def rows(self, table: str, required: tuple[str, ...], others: tuple[str, ...] = ()) -> Iterator[Row]:
        """The rows of a table with their numbers, the header being row 1: the fields of these columns, in their order.

        A field that is not there is empty. Of a column that stands twice the first counts; spaces around its name are dropped.
        """
        with self.open(table) as file, io.TextIOWrapper(file, "utf-8-sig", newline="") as text:
            try:
                lines = (fields for fields in csv.reader(text) if fields)
                names = [name.strip() for name in next(lines, [])]
                for name in required:
                    if name not in names:
                        raise Stop(f"{self.named(table)} has no column {name}")
                places = [names.index(name) if name in names else len(names) for name in required + others]
                strips = [name not in IDS for name in required + others]
                for number, fields in enumerate(lines, 2):
                    count = len(fields)
                    yield number, [(fields[at].strip(" ") if strip else fields[at]) if at < count and at < len(names) else ""
                                   for at, strip in zip(places, strips)]
            except UnicodeDecodeError as error:
                raise Stop(f"{self.named(table)} is no UTF-8: write it anew, as by iconv -f latin1 -t utf-8") from error
            except csv.Error as error:
                raise Stop(f"{self.named(table)} can't be read: {shown(str(error))}") from error

    def copy_to(self, folder: pathlib.Path) -> None:
        """Writes the tables that are there into the folder, byte for byte."""
        folder.mkdir(exist_ok=True)
        for table in TABLES:
            if self._is_there(table):
                with self.open(table) as file, open(folder / table, "wb") as copy:
                    shutil.copyfileobj(file, copy)

    def zones(self) -> Iterator[tuple[int, str]]:
        """The zones of agency.txt, each with its row."""
        for row, (zone,) in self.rows("agency.txt", ("agency_timezone",)):
            yield row, zone


def feeds_of(paths: list[str]) -> list[Feed]:
    """The feeds of these paths; of several feeds the ids get the prefixes 1:, 2: and so on."""
    if len(paths) == 1:
        return [Feed(paths[0], "", "")]
    return [Feed(path, f"{number}:", f"{shown(path)}: ") for number, path in enumerate(paths, 1)]


def zone_of(feeds: list[Feed]) -> str | None:
    """The zone that all agencies name, or None where none names one."""
    found: tuple[str, str] | None = None
    for feed in feeds:
        for row, zone in feed.zones():
            if found is not None and zone and zone != found[0]:
                raise Stop(f"{feed.place('agency.txt', row)}: the zone {quoted(zone)} is not that of {found[1]}, {quoted(found[0])}; "
                           "a region has one zone: make a region of each, or give the one rule of both by --zone")
            if zone and found is None:
                found = zone, feed.place("agency.txt", row)
    return found[0] if found else None
