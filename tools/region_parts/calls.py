"""The calls of trips: rows that are none are dropped, and times between others are filled in."""

from typing import NamedTuple

from .faults import quoted
from .forms import number_of, seconds_of
from .report import Report
from .sources import Feed
from .stops import Stops
from .trips import Trip

TABLE = "stop_times.txt"
REQUIRED = ("trip_id", "stop_id", "stop_sequence", "arrival_time", "departure_time")
WINDOWS = ("start_pickup_drop_off_window", "end_pickup_drop_off_window", "location_group_id", "location_id")
OTHERS = ("pickup_type", "drop_off_type", "shape_dist_traveled", *WINDOWS)


class Call(NamedTuple):
    """A call, by the row that says it: times in seconds, and how far along its shape, where that is said."""

    row: int
    sequence: int
    stop: str
    arrive: int | None
    depart: int | None
    pickup: str
    drop_off: str
    along: float | None

    @property
    def is_timed(self) -> bool:
        return self.arrive is not None


def read_calls(feed: Feed, stops: Stops, trips: dict[str, Trip], report: Report) -> dict[str, list[Call]]:
    """The calls of each trip in the order of the rows, those of trips, stops and sequence numbers that are there."""
    calls: dict[str, list[Call]] = {trip: [] for trip in trips}
    known: dict[str, str] = {}
    for row, (trip, stop, sequence, arrive, depart, *others) in feed.rows(TABLE, REQUIRED, OTHERS):
        place = feed.place(TABLE, row)
        if trip not in calls:
            report.drop("rows of a trip that is not there, or was dropped", f"{place}: trip {quoted(trip)}")
        elif not stop or any(others[3:]):
            report.drop("rows without a stop or with a window of time (demand-responsive)", f"{place}: trip {quoted(trip)}")
        elif (at := known.get(stop) or stops.called(stop)) is None:
            report.drop("rows of a stop that is not there, or was dropped", f"{place}: trip {quoted(trip)}, stop {quoted(stop)}")
        elif number_of(sequence) is None:
            report.drop("rows that can't be read", f"{place}: trip {quoted(trip)}: stop_sequence {quoted(sequence)} is no number")
        else:
            if at != stop:
                report.change("calls at a station, taken as at its first stop", f"{place}: {quoted(stop)} is {quoted(at)}")
            known[stop] = at
            times, types = _times(feed, row, (arrive, depart), report), _types(feed, row, others[:2], report)
            calls[trip].append(Call(row, int(sequence), at, *times, *types, _along(others[2])))
    return calls


def _times(feed: Feed, row: int, clocks: tuple[str, str], report: Report) -> tuple[int | None, int | None]:
    """Both times of a call; where one is said it is both, and one that can't be read is not said."""
    for text in clocks:
        if text and seconds_of(text) is None:
            report.change("times that can't be read, taken as not said",
                          f"{feed.place(TABLE, row)}: {quoted(text)}; a time is as 08:00:00")
    arrive, depart = map(seconds_of, clocks)
    return (depart if arrive is None else arrive), (arrive if depart is None else depart)


def _types(feed: Feed, row: int, types: list[str], report: Report) -> tuple[str, str]:
    """Who may board and alight; a type that is none is as none said."""
    for kind in types:
        if kind not in ("", "0", "1", "2", "3"):
            report.change("pickup and drop-off types that are none, taken as not said",
                          f"{feed.place(TABLE, row)}: {quoted(kind)}; 0 to 3")
    pickup, drop_off = (kind if kind in ("0", "1", "2", "3") else "" for kind in types)
    return pickup, drop_off


def _along(text: str) -> float | None:
    try:
        return float(text) if text else None
    except ValueError:
        return None


def in_order(feed: Feed, trip: str, calls: list[Call], report: Report) -> list[Call]:
    """The calls by their sequence numbers; of two with the same one the earlier row counts."""
    kept: list[Call] = []
    for call in sorted(calls, key=lambda call: (call.sequence, call.row)):
        if kept and kept[-1].sequence == call.sequence:
            report.drop("rows with the id of an earlier row, or without one",
                        f"{feed.place(TABLE, call.row)}: trip {quoted(trip)}, stop_sequence {call.sequence}")
        else:
            kept.append(call)
    return kept


def filled(feed: Feed, trip: str, calls: list[Call], stops: Stops, report: Report) -> list[Call]:
    """The calls with a time each: those between two with times get theirs by distance; before and behind all they are dropped."""
    timed = [k for k, call in enumerate(calls) if call.is_timed]
    if len(timed) == len(calls):
        return calls
    first, last = (timed[0], timed[-1]) if timed else (len(calls), len(calls) - 1)
    for call in calls[:first] + calls[last + 1:]:
        report.drop("calls without a time before the first or behind the last one with one",
                    f"{feed.place(TABLE, call.row)}: trip {quoted(trip)}, stop {quoted(call.stop)}")
    done = calls[first:first + 1] if timed else []
    for start, end in zip(timed, timed[1:]):
        done += _between(calls[start:end + 1], stops) + [calls[end]]
        for call in calls[start + 1:end]:
            report.change("calls without a time, filled in by distance", f"{feed.place(TABLE, call.row)}: trip {quoted(trip)}")
    return done


def _between(calls: list[Call], stops: Stops) -> list[Call]:
    """The calls between the first and the last of these, with their times: whole seconds, in the measure of the way."""
    lengths = _lengths(calls, stops)
    whole = sum(lengths)
    if whole <= 0:
        lengths, whole = [1.0] * len(lengths), float(len(lengths))
    start, end = calls[0].depart or 0, calls[-1].arrive or 0
    done, gone = [], 0.0
    for call, length in zip(calls[1:-1], lengths):
        gone += length
        time = start + int((end - start) * min(1.0, gone / whole))
        done.append(call._replace(arrive=time, depart=time))
    return done


def _lengths(calls: list[Call], stops: Stops) -> list[float]:
    """How long the way is from each call to the next: by shape distances where all have one, else along the great circle."""
    alongs = [call.along for call in calls]
    if all(along is not None for along in alongs):
        steps = [b - a for a, b in zip(alongs, alongs[1:])]  # type: ignore[operator]
        if all(0 <= step < float("inf") for step in steps):
            return steps
    return [stops.metres(a.stop, b.stop) for a, b in zip(calls, calls[1:])]


def goes_back(calls: list[Call]) -> Call | None:
    """The first call that is before the one before it, or departs before it arrives."""
    now = 0
    for call in calls:
        if (call.arrive or 0) < now or (call.depart or 0) < (call.arrive or 0):
            return call
        now = call.depart or 0
    return None
