"""Zone rules: docs/FORMATS.md, "Dates, days and the clock". A rule is read as POSIX has it, and nothing else is looked at: no file."""

import datetime
import re
from dataclasses import dataclass

DAY = 86400
EPOCH = datetime.date(1970, 1, 1)
NAME, OFFSET = "(?:[A-Za-z]{3,30}|<[A-Za-z0-9+-]{3,30}>)", r"[+-]?[0-9]{1,2}(?::[0-9]{2}(?::[0-9]{2})?)?"
TIME, WHEN = r"[+-]?[0-9]{1,3}(?::[0-9]{2}(?::[0-9]{2})?)?", r"J[0-9]{1,3}|[0-9]{1,3}|M[0-9]{1,2}\.[0-9]\.[0-9]"
RULE = re.compile(f"{NAME}({OFFSET})(?:{NAME}({OFFSET})?,({WHEN})(?:/({TIME}))?,({WHEN})(?:/({TIME}))?)?")


class BadRule(Exception):
    """The text is no zone rule."""


@dataclass(frozen=True)
class Change:
    """When a zone's clock changes in each year: on which day, and how many seconds behind its midnight by the clock until then."""

    day: str
    seconds: int

    def at(self, year: int) -> int:
        """In seconds since 1970 by the clock until then."""
        return (_day_of(self.day, year) - EPOCH).days * DAY + self.seconds


@dataclass(frozen=True)
class Zone:
    """How many seconds a zone is ahead of UTC: in winter, and in summer, if it has one, between two changes."""

    winter: int
    summer: int | None = None
    begins: Change | None = None
    ends: Change | None = None

    def noon(self, day: datetime.date) -> int:
        """When it is noon on that day by the zone's clock, in seconds since 1970. Where it is noon twice, the first time counts; and
        where the clock leaps over noon, when it would have been."""
        clock = (day - EPOCH).days * DAY + DAY // 2
        if self.summer is None:
            return clock - self.winter
        ahead = sorted({self.winter, self.summer}, reverse=True)
        noons = [clock - seconds for seconds in ahead if self._ahead(clock - seconds, day.year) == seconds]
        return noons[0] if noons else clock - self._ahead(clock - ahead[0], day.year)

    def _ahead(self, moment: int, year: int) -> int:
        """By the last change before a moment about noon of a day of the year."""
        assert self.summer is not None and self.begins is not None and self.ends is not None
        changes = [(self.begins.at(near) - self.winter, 1, self.summer) for near in range(year - 1, year + 2)]
        changes += [(self.ends.at(near) - self.summer, 0, self.winter) for near in range(year - 1, year + 2)]
        return max((change for change in changes if change[0] <= moment))[2]


def read_zone(rule: str) -> Zone:
    """What a rule says; BadRule where it says nothing."""
    found = RULE.fullmatch(rule)
    if not found or len(rule) > 64:
        raise BadRule
    winter = -_seconds(found[1], 24)
    if not found[3]:
        return Zone(winter)
    summer = -_seconds(found[2], 24) if found[2] else winter + 3600
    changes = [Change(day, _seconds(time or "2", 167)) for day, time in ((found[3], found[4]), (found[5], found[6]))]
    for change in changes:
        _demand_day(change.day)
    return Zone(winter, summer, *changes)


def _seconds(text: str, most: int) -> int:
    """[+-]H[:MM[:SS]], of at most so many whole hours."""
    hours, minutes, seconds = ([int(part) for part in text.lstrip("+-").split(":")] + [0, 0])[:3]
    if hours > most or minutes > 59 or seconds > 59:
        raise BadRule
    return ((hours * 60 + minutes) * 60 + seconds) * (-1 if text[0] == "-" else 1)


def _demand_day(text: str) -> None:
    """Jn with n from 1 to 365; n from 0 to 365; or Mm.w.d with a month, a week from 1 to 5 and a weekday from 0."""
    numbers = [int(number) for number in re.findall("[0-9]+", text)]
    month = text[0] == "M" and 1 <= numbers[0] <= 12 and 1 <= numbers[1] <= 5 and numbers[2] <= 6
    if not month and not (text[0] != "M" and (text[0] == "J") <= numbers[0] <= 365):
        raise BadRule


def _day_of(text: str, year: int) -> datetime.date:
    """The day of a year. In `Jn` 29 February is never counted; the fifth week is the last."""
    numbers = [int(number) for number in re.findall("[0-9]+", text)]
    if text[0] != "M":
        leaps = datetime.date(year, 3, 1) - datetime.date(year, 2, 28) == datetime.timedelta(2)
        counted = numbers[0] - 1 + (leaps and numbers[0] > 59) if text[0] == "J" else numbers[0]
        return datetime.date(year, 1, 1) + datetime.timedelta(counted)
    month, week, weekday = numbers
    first = datetime.date(year, month, 1)
    days = [first + datetime.timedelta((weekday - first.isoweekday()) % 7 + 7 * number) for number in range(5)]
    return [day for day in days if day.month == month][:week][-1]
