"""The services of a feed: on which dates they run."""

import datetime
from dataclasses import dataclass, field

from .faults import quoted
from .forms import WEEKDAYS, date_of
from .report import Report
from .sources import Feed

DAY = datetime.timedelta(1)
SPANS, DATES = "calendar.txt", "calendar_dates.txt"


@dataclass
class Service:
    """The weekdays on which a service runs from one date to another, and what is added and removed."""

    days: str = "0000000"
    start: datetime.date = datetime.date.max
    end: datetime.date = datetime.date.min
    dates: dict[datetime.date, bool] = field(default_factory=dict)

    def runs(self, date: datetime.date) -> bool:
        return self.dates.get(date, self.start <= date <= self.end and self.days[date.weekday()] == "1")

    def span(self) -> tuple[datetime.date, datetime.date] | None:
        """The first and the last date on which the service runs, or None where there is none."""
        found = [date for date, added in self.dates.items() if added]
        if "1" in self.days and self.start <= self.end:
            found += self._first(self.start, DAY, self.end) + self._first(self.end, -DAY, self.start)
        return (min(found), max(found)) if found else None

    def _first(self, date: datetime.date, step: datetime.timedelta, last: datetime.date) -> list[datetime.date]:
        """The first date from here on, a step after the other, on which it runs by its weekdays."""
        while not self.runs(date):
            if date == last:
                return []
            date += step
        return [date]


Services = dict[str, Service]


def read_services(feed: Feed, report: Report) -> Services:
    """The services of both calendar files; an empty file is as one that is not there."""
    services: Services = {}
    if feed.has(SPANS, report):
        _read_spans(feed, services, report)
    if feed.has(DATES, report):
        _read_dates(feed, services, report)
    return services


def _read_spans(feed: Feed, services: Services, report: Report) -> None:
    for number, (ident, *days, start, end) in feed.rows(SPANS, ("service_id", *WEEKDAYS, "start_date", "end_date")):
        place = feed.place(SPANS, number)
        first, last = date_of(start), date_of(end)
        if not ident or ident in services:
            report.drop("rows with the id of an earlier row, or without one", f"{place}: service_id {quoted(ident)}")
        elif not all(day in ("0", "1") for day in days) or first is None or last is None:
            report.drop("rows that can't be read",
                        f"{place}: service {quoted(ident)}; weekdays are 0 or 1, and dates as 20240701")
        else:
            services[ident] = Service("".join(days), first, last)


def _read_dates(feed: Feed, services: Services, report: Report) -> None:
    for number, (ident, date, kind) in feed.rows(DATES, ("service_id", "date", "exception_type")):
        place = feed.place(DATES, number)
        day = date_of(date)
        if not ident or day is None or kind not in ("1", "2"):
            report.drop("rows that can't be read", f"{place}: service {quoted(ident)}, date {quoted(date)}, exception_type "
                        f"{quoted(kind)}; a date is as 20240701, and the type 1 or 2")
        elif day in services.setdefault(ident, Service()).dates:
            report.drop("rows with the id of an earlier row, or without one", f"{place}: service_id {quoted(ident)} on {date}")
        else:
            services[ident].dates[day] = kind == "1"
