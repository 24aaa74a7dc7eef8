"""Reads regions in both formats, record by record, and without all of it in memory. docs/FORMATS.md says what they hold.

    region = Region(path)                  # its head: format, first, count, rule
    for record in region.records({"node", "trip"}): ..

Records come in the order of the file, those of the kinds that are asked for, as tuples that begin with the kind:

    ("node", MODE, ID, LAT, LON)           MODE is "foot", "bike" or "car"; places are in 10^-7 degree
    ("stop", NAME, LAT, LON)               NAME is bytes
    ("switch", ID, LAT, LON)
    ("arc", FROM, TO, MS), ("link", FROM, TO, MS)
    ("trip", LETTER, DAYS, NAME, CALLS)    LETTER is its name, DAYS a number with a bit for each day, NAME bytes; CALLS() answers
                                           the calls as (STOP, ARR, DEP, FLAGS), read when it is called

Their order, and that each can be read, is looked at; the rules between them are for modeplan to check.
"""

import datetime
import functools
import io
import os
import re
import struct
import zoneinfo
from collections.abc import Callable, Iterator
from typing import BinaryIO

LETTERS = ("foot", "bike", "car", "tram", "metro", "rail", "bus", "ferry", "cable", "lift", "funicular", "trolley", "monorail",
           "other")
MODES = LETTERS[:3]
KINDS = ("node", "stop", "switch", "arc", "link", "trip")
HEAD = b"modeplan region 1\n"
MAGICS = (b"MPREGN02", b"MPREGZ02")
PIECE = 1 << 16  # records that are read at a time
DUE = "a line “days YYYYMMDD N” or “days YYYYMMDD N RULE” is due here"

Call = tuple[int, int, int, int]
Record = tuple


class BadRegion(Exception):
    """A file that is no region: which, where (a line from 1, or a byte from 0), and why."""

    def __init__(self, path: str, place: str | None, why: str) -> None:
        super().__init__(": ".join(part for part in (path, place, why) if part is not None))


@functools.cache
def zone(rule: str) -> datetime.tzinfo:
    """The zone of a POSIX rule; ValueError where the text is none. No file is looked for: the rule is all that is read."""
    if not re.fullmatch("[!-~]{1,64}", rule):
        raise ValueError("a rule is 1 to 64 printable bytes")
    head = b"TZif2" + bytes(15) + struct.pack(">6I", 0, 0, 0, 0, 1, 4) + struct.pack(">iBB", 0, 0, 0) + b"UTC\0"
    return zoneinfo.ZoneInfo.from_file(io.BytesIO(head + head + b"\n" + rule.encode("ascii") + b"\n"))


def noon(day: datetime.date, rule: str | None) -> int:
    """Noon of the day, in milliseconds, counted from a moment that is the same for all days of a rule."""
    there = zone(rule) if rule is not None else datetime.timezone.utc
    return int(datetime.datetime(day.year, day.month, day.day, 12, tzinfo=there).timestamp()) * 1000


class Region:
    """A region file, of which the head is read."""

    format: int  # 1 or 2
    first: datetime.date
    count: int
    rule: str | None

    def __init__(self, path: str) -> None:
        self.path = path
        self._counts: tuple[int, ...] = ()
        if os.path.exists(path) and not os.path.isfile(path):
            raise BadRegion(path, None, "this is no file; a region is read more than once, so a pipe can't be one")
        with self._open() as file:
            magic = file.read(8)
            self.format = 2 if magic in MAGICS else 1
            if self.format == 2:
                self._take_days(*self._binary_head(file, magic))
            else:
                file.seek(0)
                self._take_days(*self._text_head(file))
            self._start = file.tell()

    def _open(self) -> BinaryIO:
        try:
            return open(self.path, "rb")
        except (OSError, ValueError) as error:
            raise BadRegion(self.path, None, getattr(error, "strerror", None) or str(error)) from error

    def _text_head(self, file: BinaryIO) -> tuple[str, str, str | None]:
        if file.readline(len(HEAD)) != HEAD:
            raise BadRegion(self.path, "line 1", "this is no region, which begins with the line “modeplan region 1” or with MPREG")
        words = file.readline(200).decode("ascii", "replace").rstrip("\n").split(" ")
        if len(words) not in (3, 4) or words[0] != "days":
            raise BadRegion(self.path, "line 2", DUE)
        return words[1], words[2], words[3] if len(words) == 4 else None

    def _binary_head(self, file: BinaryIO, magic: bytes) -> tuple[str, str, str | None]:
        head = file.read(32)
        if len(head) < 32:
            raise BadRegion(self.path, "byte 0", "the head is cut short")
        date, count, *counts = struct.unpack(">8I", head)
        self._counts = tuple(counts)
        rule = None
        if magic == MAGICS[1]:
            length = int.from_bytes(file.read(4), "big")
            rule = file.read(min(length, 65)).decode("ascii", "replace")
        return str(date), str(count), rule

    def _take_days(self, date: str, count: str, rule: str | None) -> None:
        """The days, as the head says them."""
        try:
            self.first = datetime.datetime.strptime(date, "%Y%m%d").date()
            self.count, self.rule = int(count), rule
            if len(date) != 8 or not 1 <= self.count <= 60:
                raise ValueError
            noon(self.first, rule)
        except (ValueError, OverflowError, UnicodeError):
            place = "byte 0" if self.format == 2 else "line 2"
            said = " ".join((date, count) if rule is None else (date, count, rule))
            raise BadRegion(self.path, place, f"there are no such days as “{said[:90]}”; {DUE}") from None

    def records(self, kinds: set[str]) -> Iterator[Record]:
        """The records of these kinds, in the order of the file. The file is read to its end."""
        with self._open() as file:
            file.seek(self._start)
            self._reader: _Bytes | _Text = _Bytes(self.path, file, self._counts) if self.format == 2 else _Text(self.path, file)
            yield from self._reader.records(kinds)

    def bad(self, why: str) -> BadRegion:
        """What is wrong with the record that came last."""
        return self._reader.bad(why)


class _Text:
    """The lines of format 1 behind the head."""

    def __init__(self, path: str, file: BinaryIO) -> None:
        self._path, self._file, self._at = path, file, 2

    def bad(self, why: str) -> BadRegion:
        return BadRegion(self._path, f"line {self._at}", why)

    def records(self, kinds: set[str]) -> Iterator[Record]:
        ranks = {kind.encode(): rank for rank, kind in enumerate((*KINDS, "end"))}
        readers = {kind.encode(): getattr(self, f"_{kind}") for kind in kinds | {"trip"}}
        before = 0
        for line in self._file:
            self._at += 1
            word = line[:-1].partition(b" ")[0]
            rank = ranks.get(word, -1)
            if rank < before or before == 6 or not line.endswith(b"\n"):
                raise self.bad("the line may not stand there")
            before = rank
            if word in readers:
                try:
                    record = readers[word](line[:-1].split(b" "))
                except (ValueError, IndexError):
                    raise self.bad(f"this is no line “{word.decode()} ..” of a region") from None
                if record[0] in kinds:
                    yield record
        if before != 6:
            self._at += 1
            raise self.bad("the text ends before its line “end”")

    def _node(self, words: list[bytes]) -> Record:
        _, mode, ident, lat, lon = words
        return "node", MODES[MODES.index(mode.decode("ascii"))], int(ident), int(lat), int(lon)

    def _stop(self, words: list[bytes]) -> Record:
        _, name, lat, lon = words
        return "stop", name, int(lat), int(lon)

    def _switch(self, words: list[bytes]) -> Record:
        _, ident, lat, lon = words
        return "switch", int(ident), int(lat), int(lon)

    def _arc(self, words: list[bytes]) -> Record:
        _, start, end, ms = words
        return "arc", int(start), int(end), int(ms)

    def _link(self, words: list[bytes]) -> Record:
        return "link", *self._arc(words)[1:]

    def _trip(self, words: list[bytes]) -> Record:
        _, letter, days, count, name = words
        lines = [self._call_line() for _ in range(int(count))]
        place = self._at - len(lines) + 1

        def calls() -> list[Call]:
            return [_call_of(self._path, place + k, line) for k, line in enumerate(lines)]
        return "trip", LETTERS[LETTERS.index(letter.decode("ascii"), 3)], int(days, 16), name, calls

    def _call_line(self) -> bytes:
        line = self._file.readline()
        self._at += 1
        if not line.startswith(b"call ") or not line.endswith(b"\n"):
            raise self.bad("a line “call ..” is due here")
        return line


def _call_of(path: str, at: int, line: bytes) -> Call:
    try:
        _, stop, arrive, depart, flags = line[:-1].split(b" ")
        return int(stop), int(arrive), int(depart), int(flags)
    except ValueError:
        raise BadRegion(path, f"line {at}", "this is no line “call ..” of a region") from None


class _Bytes:
    """The records of format 2 behind the head."""

    NODE, NAME, PLACE = struct.Struct(">Bqii"), struct.Struct(">I"), struct.Struct(">ii")
    SWITCH, ARC, TRIP, CALL = struct.Struct(">qii"), struct.Struct(">III"), struct.Struct(">B16sII"), struct.Struct(">IIIB")

    def __init__(self, path: str, file: BinaryIO, counts: tuple[int, ...]) -> None:
        self._path, self._file, self._counts = path, file, dict(zip(KINDS, counts))
        self._at, self._size = file.tell(), os.fstat(file.fileno()).st_size

    def bad(self, why: str) -> BadRegion:
        return BadRegion(self._path, f"byte {self._at}", why)

    def _take(self, count: int) -> bytes:
        """So many bytes of a record; no room is taken for more than the file has."""
        piece = self._file.read(count) if count < PIECE or count <= self._size - self._file.tell() else b""
        if len(piece) < count:
            raise self.bad("the record is cut short")
        return piece

    def records(self, kinds: set[str]) -> Iterator[Record]:
        readers: dict[str, Callable[[], Iterator[Record]]] = {
            "node": self._nodes, "stop": self._stops, "switch": lambda: self._alike("switch", self.SWITCH),
            "arc": lambda: self._alike("arc", self.ARC), "link": lambda: self._alike("link", self.ARC), "trip": self._trips}
        for kind, reader in readers.items():
            for record in reader():
                if kind in kinds:
                    yield record
        if self._file.read(1):
            raise self.bad("nothing may follow the last record")

    def _alike(self, kind: str, form: struct.Struct) -> Iterator[Record]:
        """The records of a kind that all have one length."""
        left = self._counts[kind]
        while left:
            piece = self._file.read(min(left, PIECE) * form.size)
            whole = len(piece) // form.size
            for fields in form.iter_unpack(piece[:whole * form.size]):
                yield kind, *fields
                self._at += form.size
            if whole < min(left, PIECE):
                raise self.bad("the record is cut short")
            left -= whole

    def _nodes(self) -> Iterator[Record]:
        for _, mode, *fields in self._alike("node", self.NODE):
            if mode > 2:
                raise self.bad("a node's mode is 0, 1 or 2")
            yield "node", MODES[mode], *fields

    def _stops(self) -> Iterator[Record]:
        for _ in range(self._counts["stop"]):
            head = self._take(4)
            name = self._take(*self.NAME.unpack(head))
            yield "stop", name, *self.PLACE.unpack(self._take(8))
            self._at += 12 + len(name)

    def _trips(self) -> Iterator[Record]:
        for _ in range(self._counts["trip"]):
            letter, days, count, length = self.TRIP.unpack(self._take(self.TRIP.size))
            if not 3 <= letter < len(LETTERS):
                raise self.bad("a trip's letter is 3 to 13")
            name = self._take(length)
            raw = self._take(count * self.CALL.size)
            yield "trip", LETTERS[letter], int.from_bytes(days, "big"), name, functools.partial(_calls_of, raw)
            self._at += self.TRIP.size + length + len(raw)


def _calls_of(raw: bytes) -> list[Call]:
    return [(stop, arrive, depart, flags) for stop, arrive, depart, flags in _Bytes.CALL.iter_unpack(raw)]
