"""The forms of fields, as docs/MAKE_A_REGION.md has them."""

import datetime
import re

WEEKDAYS = ("monday", "tuesday", "wednesday", "thursday", "friday", "saturday", "sunday")
TIME = re.compile(r"([0-9]{1,3}):([0-5][0-9]):([0-5][0-9])")
LATEST = 168 * 3600 - 1
NUMBER = re.compile(r"[0-9]{1,9}")
DEGREES = re.compile(r"-?[0-9]{1,3}(\.[0-9]{1,18})?")
LOOSE = re.compile(r"[+-]?([0-9]{1,20}(\.[0-9]*)?|\.[0-9]+)([eE][+-]?[0-9]{1,2})?")


def seconds_of(text: str) -> int | None:
    """A time in seconds, or None where it is none."""
    match = TIME.fullmatch(text)
    if match is None:
        return None
    hours, minutes, seconds = map(int, match.groups())
    time = (hours * 60 + minutes) * 60 + seconds
    return time if time <= LATEST else None


def clock_of(seconds: int) -> str:
    """A time as a feed has it."""
    return f"{seconds // 3600:02}:{seconds // 60 % 60:02}:{seconds % 60:02}"


def number_of(text: str) -> int | None:
    """A number of one to nine digits, or None."""
    return int(text) if NUMBER.fullmatch(text) else None


def date_of(text: str) -> datetime.date | None:
    """The civil date of eight digits, or None."""
    if not re.fullmatch("[0-9]{8}", text):
        return None
    try:
        return datetime.date(int(text[:4]), int(text[4:6]), int(text[6:]))
    except ValueError:
        return None


def degrees_of(text: str, most: int) -> str | None:
    """Degrees of at most this size as the planner reads them, or None; a sign + and an exponent are taken too."""
    if not LOOSE.fullmatch(text) or abs(float(text)) > most:
        return None
    return text if DEGREES.fullmatch(text) else f"{float(text):.7f}"


def name_of(ident: str) -> str:
    """The name of an id in a region: U+0000 to U+0020, % and U+007F are written as their code between two %."""
    return re.sub("[\x00-\x20%\x7f]", lambda match: f"%{ord(match[0]):x}%", ident)
