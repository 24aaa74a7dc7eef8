"""The routes, trips and headways of a feed."""

from dataclasses import dataclass

from .calendars import Services
from .faults import quoted
from .forms import number_of, seconds_of
from .report import Report
from .route_types import OTHER, basic_type
from .sources import Feed

ROUTES, TRIPS, HEADWAYS = "routes.txt", "trips.txt", "frequencies.txt"
DOUBLED = "rows with the id of an earlier row, or without one"


@dataclass
class Route:
    """A route: its basic type, and its name as people know it."""

    kind: int
    name: str


@dataclass
class Trip:
    """A trip: its row, its route and service by id, and its headsign."""

    row: int
    route: str
    service: str
    headsign: str


@dataclass
class Headway:
    """A row of frequencies.txt, as it stands."""

    trip: str
    fields: list[str]


def read_routes(feed: Feed, report: Report) -> dict[str, Route]:
    """The routes, by their basic types; one whose type can't be read is of the letter `other`."""
    routes: dict[str, Route] = {}
    others = ("route_short_name", "route_long_name")
    for row, (ident, kind, short, long) in feed.rows(ROUTES, ("route_id", "route_type"), others):
        place = f"{feed.place(ROUTES, row)}: route_id {quoted(ident)}"
        if not ident or ident in routes:
            report.drop(DOUBLED, place)
            continue
        number = number_of(kind)
        basic = OTHER if number is None else basic_type(number)
        if number is None:
            report.change("route types that can't be read, taken as other", f"{place}: route_type {quoted(kind)}")
        elif basic != number:
            report.change("extended route types, taken as basic ones", f"{place}: {kind} is {basic}")
        routes[ident] = Route(basic, short or long)
    return routes


def read_trips(feed: Feed, routes: dict[str, Route], services: Services, report: Report) -> dict[str, Trip]:
    """The trips of routes and services that are there."""
    trips: dict[str, Trip] = {}
    columns = ("trip_id", "route_id", "service_id"), ("trip_headsign",)
    for row, (ident, route, service, headsign) in feed.rows(TRIPS, *columns):
        place = feed.place(TRIPS, row)
        if not ident or ident in trips:
            report.drop(DOUBLED, f"{place}: trip_id {quoted(ident)}")
        elif route not in routes:
            report.drop("trips of a route that is not there", f"{place}: trip {quoted(ident)} of route {quoted(route)}")
        elif service not in services:
            report.drop("trips of a service that is not there", f"{place}: trip {quoted(ident)} of service {quoted(service)}")
        else:
            trips[ident] = Trip(row, route, service, headsign)
    return trips


def read_headways(feed: Feed, trips: dict[str, Trip], report: Report) -> list[Headway]:
    """The headways of the trips. A trip with one that can't be read is dropped: it would run as if it had none."""
    headways: list[Headway] = []
    columns = ("trip_id", "start_time", "end_time", "headway_secs"), ("exact_times",)
    for row, (trip, *fields) in feed.rows(HEADWAYS, *columns) if feed.has(HEADWAYS, report) else ():
        place = feed.place(HEADWAYS, row)
        start, end, headway, exact = fields
        if trip not in trips:
            report.drop("rows of a trip that is not there", f"{place}: trip {quoted(trip)}")
        elif seconds_of(start) is None or seconds_of(end) is None or not number_of(headway) or exact not in ("", "0", "1"):
            report.drop("trips with a headway that can't be read", f"{place}: trip {quoted(trip)}: "
                        f"{', '.join(map(quoted, fields))}; times are as 08:00:00, headway_secs is a number from 1 on, "
                        "and exact_times 0 or 1")
            del trips[trip]
        else:
            headways.append(Headway(trip, fields))
    return [headway for headway in headways if headway.trip in trips]
