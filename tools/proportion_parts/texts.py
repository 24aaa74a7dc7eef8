"""Regions, hierarchies, maps and feeds of any size, as docs/FORMATS.md, docs/MAKE_A_REGION.md have them."""

import struct
from collections.abc import Iterable

HEAD = "modeplan region 1\n"
DAY = "80"  # the set of days that has the first date alone
LAT, LON = 480_000_000, 110_000_000


def region(nodes: int, arcs: Iterable[tuple[int, int, int]], stops: int = 0, links: Iterable[tuple[int, int, int]] = (),
           trips: Iterable[tuple[str, list[tuple[int, int]]]] = (), days: int = 1) -> str:
    """A region of foot nodes in a row, arcs, stops, links, and trips of a letter and calls (stop, second)."""
    lines = [HEAD, f"days 20240701 {days}\n"]
    lines += [f"node foot {node + 1} {LAT + 10 * node} {LON}\n" for node in range(nodes)]
    lines += [f"stop s{stop:07} {LAT + 10 * stop} {LON + 100}\n" for stop in range(stops)]
    lines += [f"arc {start} {end} {ms}\n" for start, end, ms in sorted(arcs)]
    lines += [f"link {start} {end} {ms}\n" for start, end, ms in sorted(links)]
    for number, (letter, calls) in enumerate(trips):
        lines.append(f"trip {letter} {every(days)} {len(calls)} t{number}\n")
        lines += [f"call {stop} {second} {second} 3\n" for stop, second in calls]
    return "".join(lines) + "end\n"


def every(days: int) -> str:
    """The set of all days of a region from its first date on."""
    return f"{((1 << days) - 1) << 7:x}"


def hierarchy(order: list[int], entries: Iterable[tuple[int, int, int]]) -> bytes:
    """A hierarchy file of an order and of entries (from, to, weight) without a middle."""
    rows = sorted(entries)
    head = b"MPHIER01" + struct.pack(">QQQ", len(order), len(rows), 0)
    body = [struct.pack(">I", node) for node in order]
    return head + b"".join(body + [struct.pack(">IIQI", start, end, weight, 2**32 - 1) for start, end, weight in rows])


def both_ways(pairs: Iterable[tuple[int, int]], ms: int = 1000) -> list[tuple[int, int, int]]:
    """Arcs each way between the nodes of each pair."""
    return [arc for start, end in pairs for arc in ((start, end, ms), (end, start, ms))]


def grid(side: int) -> list[tuple[int, int]]:
    """The pairs of neighbours on a grid of so many rows and columns."""
    across = [(row * side + column, row * side + column + 1) for row in range(side) for column in range(side - 1)]
    return across + [(row * side + column, row * side + column + side) for row in range(side - 1) for column in range(side)]


def opl(nodes: int, ways: Iterable[list[int]], apart: int = 10) -> str:
    """A map of nodes, so many units of 10^-7 degree apart, and of footways."""
    lines = [f"n{node + 1} x11.{node * apart:07} y48.0\n" for node in range(nodes)]
    for number, way in enumerate(ways):
        lines.append(f"w{number + 1} Thighway=footway N" + ",".join(f"n{node + 1}" for node in way) + "\n")
    return "".join(lines)


def feed(stops: int, rows: Iterable[tuple[int, int, int]], headway: int = 0, apart: int = 10) -> dict[str, str]:
    """The tables of a feed with one trip, that calls at rows (stop, second, sequence); with a headway it runs each so many
    seconds for a day."""
    at = lambda second: f"{second // 3600:02}:{second // 60 % 60:02}:{second % 60:02}"  # noqa: E731
    tables = {
        "agency.txt": "agency_id,agency_name,agency_url,agency_timezone\na,A,http://a,Europe/Berlin\n",
        "routes.txt": "route_id,agency_id,route_short_name,route_type\nr,a,1,3\n",
        "calendar.txt": "service_id,monday,tuesday,wednesday,thursday,friday,saturday,sunday,start_date,end_date\n"
                        "w,1,1,1,1,1,1,1,20240101,20241231\n",
        "trips.txt": "route_id,service_id,trip_id\nr,w,t\n",
        "stops.txt": "stop_id,stop_name,stop_lat,stop_lon\n"
                     + "".join(f"s{stop},S,48.0,11.{stop * apart:07}\n" for stop in range(stops)),
        "stop_times.txt": "trip_id,arrival_time,departure_time,stop_id,stop_sequence\n"
                          + "".join(f"t,{at(second)},{at(second)},s{stop},{row}\n" for stop, second, row in rows),
    }
    if headway:
        tables["frequencies.txt"] = ("trip_id,start_time,end_time,headway_secs,exact_times\n"
                                     f"t,00:00:00,24:00:00,{headway},1\n")
    return tables
