"""A region in memory: where its nodes are, its trips for rides that are told, and its streets for the map."""

import bisect
import functools
from array import array
from collections.abc import Iterator, Mapping
from typing import cast

from picture_parts.region import Call, Days, Rides, RideWish, Survey
from region_reader import MODES, Region

from .problems import NoStart
from .streets import Streets

KEPT = 1 << 16  # nodes whose numbers are kept when they were found


class Numbers(Mapping):
    """The numbers of nodes by their names, as `foot:17`: found in lists that the region keeps in order."""

    def __init__(self) -> None:
        self.ids, self.modes = array("q"), bytearray()
        self.stops: list[bytes] = []
        self.switches = array("q")
        self._kept = functools.lru_cache(maxsize=KEPT)(self._find)

    def add(self, record: tuple) -> None:
        """The next node of the region."""
        kind, *names, _, _ = record
        if kind == "node":
            self.modes.append(MODES.index(names[0]))
            self.ids.append(names[1])
        elif kind == "stop":
            self.stops.append(names[0])
        else:
            self.switches.append(names[0])

    def _find(self, node: str) -> int | None:
        kind, _, name = node.partition(":")
        if kind == "stop":
            raw = name.encode("utf-8", "surrogateescape")
            at = bisect.bisect_left(self.stops, raw)
            return len(self.ids) + at if self.stops[at:at + 1] == [raw] else None
        try:
            ident = int(name)
            return self._switch(ident) if kind == "switch" else self._road(MODES.index(kind), ident)
        except (ValueError, OverflowError):
            return None

    def _switch(self, ident: int) -> int | None:
        at = bisect.bisect_left(self.switches, ident)
        found = at < len(self.switches) and self.switches[at] == ident
        return len(self.ids) + len(self.stops) + at if found else None

    def _road(self, mode: int, ident: int) -> int | None:
        at = bisect.bisect_left(self.ids, ident)
        while at < len(self.ids) and self.ids[at] == ident and self.modes[at] != mode:
            at += 1
        return at if at < len(self.ids) and self.ids[at] == ident else None

    def __getitem__(self, node: str) -> int:
        number = self._kept(node)
        if number is None:
            raise KeyError(node)
        return number

    def __iter__(self) -> Iterator[str]:
        yield from (f"{MODES[mode]}:{ident}" for mode, ident in zip(self.modes, self.ids))
        yield from ("stop:" + name.decode("utf-8", "surrogateescape") for name in self.stops)
        yield from (f"switch:{ident}" for ident in self.switches)

    def __len__(self) -> int:
        return len(self.ids) + len(self.stops) + len(self.switches)


class Trips:
    """The trips by their letters and names, with their calls in flat lists."""

    def __init__(self) -> None:
        self._named: dict[tuple[str, bytes], list[tuple[int, int, int]]] = {}
        self._stops, self._arrivals, self._departures, self._flags = array("I"), array("I"), array("I"), bytearray()

    def __len__(self) -> int:
        return sum(map(len, self._named.values()))

    def add(self, letter: str, days: int, name: bytes, calls) -> None:
        """The next trip of the region."""
        first = len(self._flags)
        for stop, arrive, depart, flags in calls():
            self._stops.append(stop)
            self._arrivals.append(arrive)
            self._departures.append(depart)
            self._flags.append(flags)
        self._named.setdefault((letter, name), []).append((days, first, len(self._flags)))

    def rides(self, wishes: set[RideWish], rides: Rides) -> dict[RideWish, list[Call]]:
        """The rides that are looked for, as far as there are such."""
        for wish in wishes:
            name = wish.name.encode("utf-8", "surrogateescape")
            for days, first, end in self._named.get((wish.letter, name), ()):
                rides.take(wish.letter, days, name, lambda first=first, end=end: self._calls(first, end))
        return rides.found()

    def _calls(self, first: int, end: int) -> list[tuple[int, int, int, int]]:
        return list(zip(self._stops[first:end], self._arrivals[first:end], self._departures[first:end], self._flags[first:end]))


class Atlas:
    """All of a region that the service tells of, read in one go."""

    def __init__(self, region: Region) -> None:
        self.days = Days(region)
        self.first, self.count, self.rule = region.first, region.count, region.rule
        self.numbers, self.trips = Numbers(), Trips()
        self.lats, self.lons = array("i"), array("i")
        self.streets = Streets(self.lats, self.lons)
        for record in region.records({"node", "stop", "switch", "arc", "trip"}):
            try:
                self._take(record)
            except (OverflowError, IndexError, ValueError) as error:
                raise region.bad(f"no region has such a record: {error}") from None
        if not self.lats:
            raise NoStart("the region has no nodes, so there is nothing to travel between")
        self.streets.end()
        self.stop_keys = [b"stop:" + name for name in self.numbers.stops]

    def _take(self, record: tuple) -> None:
        if record[0] == "arc":
            self.streets.add(record[1], record[2])
        elif record[0] == "trip":
            self.trips.add(*record[1:])
        else:
            self.numbers.add(record)
            self.lats.append(record[-2])
            self.lons.append(record[-1])

    @property
    def first_stop(self) -> int:
        """The number of the first stop."""
        return len(self.numbers.ids)

    def survey(self, wishes: set[RideWish]) -> Survey:
        """What `picture` wants to know of a region, with the rides that are looked for."""
        found = Survey(self.lats, self.lons, cast(dict[str, int], self.numbers), {}, self.first_stop)
        found.rides = self.trips.rides(wishes, Rides(self.days, found, self.stop_keys, wishes))
        return found

    def box(self) -> tuple[int, int, int, int]:
        """South, west, north and east of the streets, in 10^-7 degree; of all nodes, where there are no streets."""
        roads = self.first_stop or len(self.lats)
        lats, lons = self.lats[:roads], self.lons[:roads]
        return min(lats), min(lons), max(lats), max(lons)
