"""What refusals of a query line mean, and to which parameter of a request each belongs."""

from .bounds import MOST_PLACES

REASONS = {
    "shape": (None, "a query is FROM TO DATE TIME EXPRESSION with one space between them, where FROM and TO are n and an id, "
                    "s and a stop's name, or @LAT,LON, also behind foot, bike or car"),
    "clock": ("time", "DATE is a date of 8 digits, such as 20240304, and TIME is HH:MM:SS or HH:MM:SS.mmm"),
    "range": ("date", "DATE is none of the region's days"),
    "from": ("from", "the region has no such FROM"),
    "to": ("to", "the region has no such TO"),
    "far from": ("from", "the place is too far from the region's nodes; the number is how far, in millimetres"),
    "far to": ("to", "the place is too far from the region's nodes; the number is how far, in millimetres"),
    "long": ("expr", "it has so many bytes, and an expression has at most 4096"),
    "deep": ("expr", "at this byte of it, counted from 0, a parenthesis opens more than 64 deep"),
    "syntax": ("expr", "no expression goes on like this at this byte of it, counted from 0"),
    "large": ("expr", f"it has so many places for letters, and an expression has at most {MOST_PLACES}"),
}
UNREADABLE = "the expression can't be read; docs/EXPRESSIONS.md tells what it may be"
STOPPED = ("the search has more labels than one may have here, so it was not found out whether there is a journey; an expression that "
           "allows less, or places nearer to each other, take a smaller search")


def refusal(words: str, most_places: int | None = None) -> dict:
    """The fault, as the planner writes it; what is wrong, and what would be right; the parameter; and the number, if it has one.

    `most_places` is the service's own limit on the places of an expression, if it has one."""
    kind, _, number = words.rpartition(" ")
    if not number.isdecimal():
        kind, number = words, ""
    parameter, reason = REASONS.get(kind, (None, "the planner refuses this"))
    if kind == "large" and most_places is not None:
        reason = reason.replace(str(MOST_PLACES), f"{most_places} here")
    told = {"fault": words, "parameter": parameter, "reason": f"{UNREADABLE}: {reason}" if parameter == "expr" else reason}
    return {**told, "number": int(number)} if number else told
