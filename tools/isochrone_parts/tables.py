"""The rows of a table of times, as `modeplan matrix` writes them."""

from collections.abc import Callable, Iterable

from picture_parts.faults import Fault, shown

from .bands import Destination, Place


def destinations(rows: Iterable[bytes], origin: str, name: str, place_of: Callable[[str], Place | None]) -> list[Destination]:
    """The destinations of the rows from this origin. A fault names the line of the file."""
    found: list[Destination] = []
    for number, row in enumerate(rows, 1):
        fields = row.decode("utf-8", "surrogateescape").rstrip("\n").split("\t")
        if len(fields) != 3 or not row.endswith(b"\n"):
            raise Fault(name, number, "this is no row FROM, TO and a value with tabulators between, as `modeplan matrix` writes it")
        start, end, value = fields
        if start != origin:
            continue
        if value.startswith("refused ") and not value.startswith(("refused to", "refused far to")):
            raise Fault(name, number, f"the planner refused this, with “{shown(value)}”")
        found.append(_destination(end, value, number, name, place_of))
    if not found:
        raise Fault(name, None, f"no row is from {shown(origin)}")
    return found


def _destination(end: str, value: str, number: int, name: str, place_of: Callable[[str], Place | None]) -> Destination:
    place = place_of(end)
    if place is None:
        raise Fault(name, number, f"the region has no place {shown(end)}")
    if value.isascii() and value.isdecimal() and len(value) < 16:
        return Destination(place, int(value))
    if value == "none" or value.startswith("refused "):
        return Destination(place, None)
    raise Fault(name, number, f"“{shown(value)[:40]}” is neither a number of milliseconds, nor none, nor a refusal")
