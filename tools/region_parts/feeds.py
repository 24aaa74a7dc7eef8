"""Makes feeds ready: what the planner would refuse or not see is mended or dropped, and told."""

import datetime
import pathlib
from collections.abc import Iterator
from contextlib import suppress

from .calendars import Service, read_services
from .calls import TABLE, Call, filled, goes_back, in_order, read_calls
from .faults import Stop, quoted, shown
from .forms import clock_of, name_of
from .names import Names
from .report import Report
from .sources import Feed, feeds_of, zone_of
from .stops import Stops, read_stops
from .tables import Tables
from .trips import TRIPS, Headway, Route, Trip, read_headways, read_routes, read_trips


class ServiceSpan:
    """From when to when the feeds have service."""

    def __init__(self) -> None:
        self.first, self.last = datetime.date.max, datetime.date.min

    def add(self, feed: Feed, services: list[Service], report: Report) -> None:
        """Takes the services of the trips of a feed in."""
        spans = [span for span in (service.span() for service in services) if span is not None]
        if not spans:
            report.fact(f"{feed.label or 'the feed '}has no day on which a trip runs")
            return
        first, last = min(start for start, _ in spans), max(end for _, end in spans)
        report.fact(f"{feed.label or 'the feed '}has service from {first:%Y%m%d} to {last:%Y%m%d}")
        self.first, self.last = min(self.first, first), max(self.last, last)

    def demand(self, date: datetime.date) -> None:
        """Refuses a first date on which no trip can run."""
        if self.first > self.last:
            raise Stop("no trip of the feed runs on any day; OUT.report lists what was dropped, and --as-it-is leaves all as it is")
        if not self.first <= date <= self.last:
            raise Stop(f"the feed has service from {self.first:%Y%m%d} to {self.last:%Y%m%d}, and not on {date:%Y%m%d}; take a first "
                       "date between them", 2)


def prepare(paths: list[str], folder: pathlib.Path, zone: bool, names: Names, report: Report) -> tuple[ServiceSpan, str | None]:
    """Writes one feed of these into the folder. Answers from when to when it has service, and its zone, if that is asked for."""
    span, feeds = ServiceSpan(), feeds_of(paths)
    name = zone_of(feeds) if zone else None
    with Tables(folder) as tables:
        tables.write("agency.txt", name or "UTC")
        for feed in feeds:
            if feed.prefix:
                report.fact(f"the ids of {shown(feed.path)} begin with {feed.prefix}")
            Preparation(feed, tables, names, report).run(span)
    return span, name


def copy_as_it_is(path: str, folder: pathlib.Path, zone: bool, names: Names) -> str | None:
    """Writes the tables of the feed into the folder, byte for byte. Answers the zone of its agencies, if that is asked for."""
    feed = Feed(path, "", "")
    feed.copy_to(folder)
    name = zone_of([feed]) if zone else None
    with suppress(Stop):  # what the planner refuses it says itself
        _take_names(feed, names)
    return name


def _take_names(feed: Feed, names: Names) -> None:
    """The names of the stops and trips of a feed."""
    unseen = Report()
    stops, services, routes = read_stops(feed, unseen), read_services(feed, unseen), read_routes(feed, unseen)
    for ident, row in stops.rows.items():
        if stops.is_stop(ident):
            names.add_stop(name_of(ident), row.name, float(row.lat or 0), float(row.lon or 0))
    for ident, trip in read_trips(feed, routes, services, unseen).items():
        names.add_trip(name_of(ident), routes[trip.route].name, trip.headsign)


class Preparation:
    """One feed on its way into the tables."""

    def __init__(self, feed: Feed, tables: Tables, names: Names, report: Report) -> None:
        self._feed, self._tables, self._names, self._report = feed, tables, names, report

    def run(self, span: ServiceSpan) -> None:
        """Reads the feed whole, and writes what is kept."""
        feed, report = self._feed, self._report
        stops, services, routes = read_stops(feed, report), read_services(feed, report), read_routes(feed, report)
        trips = read_trips(feed, routes, services, report)
        headways = read_headways(feed, trips, report)
        calls = dict(self._whole(read_calls(feed, stops, trips, report), trips, stops))
        trips = {ident: trip for ident, trip in trips.items() if ident in calls}
        used = {trip.service: services[trip.service] for trip in trips.values()}
        span.add(feed, list(used.values()), report)
        self._write_stops(stops)
        self._write_services(used)
        self._write_trips(trips, routes, [headway for headway in headways if headway.trip in trips])
        self._write_calls(calls)

    def _whole(self, calls: dict[str, list[Call]], trips: dict[str, Trip], stops: Stops) -> Iterator[tuple[str, list[Call]]]:
        """The trips whose calls can be run, with their calls in order and a time at each."""
        for ident, rows in calls.items():
            kept = filled(self._feed, ident, in_order(self._feed, ident, rows, self._report), stops, self._report)
            place = f"{self._feed.place(TRIPS, trips[ident].row)}: trip {quoted(ident)}"
            if len(kept) < 2:
                self._report.drop("trips with fewer than two calls", place)
            elif (back := goes_back(kept)) is not None:
                self._report.drop("trips that go back in time", f"{place}: at {self._feed.place(TABLE, back.row)}, it is there "
                                  f"at {clock_of(back.arrive or 0)} and leaves at {clock_of(back.depart or 0)}")
            else:
                yield ident, kept

    def _write_stops(self, stops: Stops) -> None:
        for ident, row in stops.rows.items():
            if stops.is_stop(ident) and row.lat is not None and row.lon is not None:
                self._tables.write("stops.txt", self._feed.prefix + ident, row.lat, row.lon)
                self._names.add_stop(name_of(self._feed.prefix + ident), row.name, float(row.lat), float(row.lon))

    def _write_services(self, services: dict[str, Service]) -> None:
        for ident, service in services.items():
            ident = self._feed.prefix + ident
            if service.start <= service.end:
                self._tables.write("calendar.txt", ident, *service.days, f"{service.start:%Y%m%d}", f"{service.end:%Y%m%d}")
            for date, added in service.dates.items():
                self._tables.write("calendar_dates.txt", ident, f"{date:%Y%m%d}", 1 if added else 2)

    def _write_trips(self, trips: dict[str, Trip], routes: dict[str, Route], headways: list[Headway]) -> None:
        prefix = self._feed.prefix
        for ident in dict.fromkeys(trip.route for trip in trips.values()):
            self._tables.write("routes.txt", prefix + ident, routes[ident].kind)
        for ident, trip in trips.items():
            self._tables.write("trips.txt", prefix + ident, prefix + trip.route, prefix + trip.service)
            self._names.add_trip(name_of(prefix + ident), routes[trip.route].name, trip.headsign)
        for headway in headways:
            self._tables.write("frequencies.txt", prefix + headway.trip, *headway.fields)

    def _write_calls(self, calls: dict[str, list[Call]]) -> None:
        prefix = self._feed.prefix
        for ident, rows in calls.items():
            for call in rows:
                self._tables.write("stop_times.txt", prefix + ident, prefix + call.stop, call.sequence, clock_of(call.arrive or 0),
                                   clock_of(call.depart or 0), call.pickup, call.drop_off)
