"""Query lines: docs/FORMATS.md, "Queries"."""

import datetime
import re
from dataclasses import dataclass

from certificate_parts.expressions import BadExpression, Positions, read_expression
from certificate_parts.faults import Invalid
from certificate_parts.lengths import Place, length
from certificate_parts.network import LEAD_DAYS, Network
from region_reader import MODES

FAULTS = ("shape", "clock", "range", "from", "to", "long", "deep", "syntax", "large", "far")
NEAR = 2_000_000  # millimetres from a place to the node that it stands for
CLOCK = re.compile(r"([01][0-9]|2[0-3]):([0-5][0-9]):([0-5][0-9])(?:\.([0-9]{3}))?")


@dataclass(frozen=True)
class Node:
    """`n` and the id of an OSM node."""

    id: int


@dataclass(frozen=True)
class Stop:
    """`s` and the name of a stop."""

    name: str


@dataclass(frozen=True)
class Near:
    """`@` and a place; and the number of the mode whose name stands before them, or None."""

    place: Place
    mode: int | None


@dataclass(frozen=True)
class Query:
    """The copies of both endpoints, by number; the departure, or in a late certificate the deadline; and the expression."""

    origins: list[int]
    targets: list[int]
    moment: int
    positions: Positions


def refused(fault: str) -> Invalid:
    """Clause 1 fails, by this fault."""
    return Invalid(1, 1 + FAULTS.index(fault))


def read_query(network: Network, line: str) -> Query:
    """What a line asks; clause 1 fails where it asks nothing."""
    fields = line.split(" ", 4)
    if len(fields) < 5 or "" in fields[:4]:
        raise refused("shape")
    origin, target = _endpoint_of(fields[0]), _endpoint_of(fields[1])
    if origin is None or target is None:
        raise refused("shape")
    moment = _moment_of(network, fields[2], fields[3])
    origins, targets = _copies(network, origin, "from"), _copies(network, target, "to")
    try:
        return Query(origins, targets, moment, Positions(read_expression(fields[4])))
    except BadExpression as fault:
        raise refused(str(fault)) from None


def _endpoint_of(word: str) -> Node | Stop | Near | None:
    mark, rest = word[0], word[1:]
    if mark == "n" and re.fullmatch("0|-?[1-9][0-9]{0,17}", rest):
        return Node(int(rest))
    if mark == "s" and rest:
        return Stop(rest)
    name, at, rest = word.partition("@")
    if at and rest.count(",") == 1 and name in ("", *MODES):
        lat, lon = (_degrees(part, most) for part, most in zip(rest.split(","), (90, 180)))
        return Near((lat, lon), MODES.index(name) if name else None) if lat is not None and lon is not None else None
    return None


def _degrees(text: str, most: int) -> int | None:
    """In 10^-7 degree, of at most so many degrees."""
    found = re.fullmatch(r"(-?)([0-9]{1,3})(?:\.([0-9]{1,18}))?", text)
    if not found:
        return None
    units = int(found[2] + ((found[3] or "") + "0000000")[:7])
    return None if units > most * 10_000_000 else -units if found[1] else units


def _moment_of(network: Network, date: str, clock: str) -> int:
    day, time = _date_of(date), CLOCK.fullmatch(clock)
    if day is None or not time:
        raise refused("clock")
    number = (day - network.first).days + LEAD_DAYS
    if not LEAD_DAYS <= number < len(network.bases):
        raise refused("range")
    hours, minutes, seconds, ms = (int(part or 0) for part in time.groups())
    return network.bases[number] + ((hours * 60 + minutes) * 60 + seconds) * 1000 + ms


def _date_of(text: str) -> datetime.date | None:
    try:
        return datetime.date(int(text[:4]), int(text[4:6]), int(text[6:])) if re.fullmatch("[0-9]{8}", text) else None
    except ValueError:
        return None


def _copies(network: Network, endpoint: Node | Stop | Near, unknown: str) -> list[int]:
    """The nodes that an endpoint stands for, in the order of their numbers."""
    if isinstance(endpoint, Near):
        nodes = [node for node, mode in enumerate(network.modes) if endpoint.mode in (None, mode)]
        if not nodes:
            raise refused(unknown)
        mm, ident, nearest = min((length(endpoint.place, network.places[node]), network.ids[node], node) for node in nodes)
        if mm > NEAR:
            raise refused("far")
        if endpoint.mode is not None:
            return [nearest]
        endpoint = Node(ident)
    if isinstance(endpoint, Stop):
        found = [len(network.modes) + place for place, name in enumerate(network.stops) if name == endpoint.name]
    else:
        found = [node for node, ident in enumerate(network.ids) if ident == endpoint.id]
    if not found:
        raise refused(unknown)
    return found
