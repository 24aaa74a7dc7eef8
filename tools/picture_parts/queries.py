"""Query lines: what they ask, as far as it can be read, and where their ends are."""

import re
from dataclasses import dataclass

from .blocks import Block
from .region import Survey

LINE = re.compile(r"([^ ]+) ([^ ]+) ([0-9]{8}) ([0-9]{2}:[0-9]{2}:[0-9]{2}(?:\.[0-9]{3})?) (.*)", re.DOTALL)
PLACE = re.compile(r"(?:foot|bike|car)?@(-?[0-9]{1,3}(?:\.[0-9]{1,18})?),(-?[0-9]{1,3}(?:\.[0-9]{1,18})?)")
NODE = re.compile(r"n(-?[0-9]{1,18})")

Place = tuple[int, int]


@dataclass(frozen=True)
class Query:
    """A query line whose fields are what they should be."""

    start: str
    end: str
    when: str
    expression: str


def query_of(block: Block) -> Query | None:
    """What the block's line asks, or None where it is no query line: then only the line itself is shown."""
    match = LINE.fullmatch(block.query)
    if match is None or block.refusal in ("shape", "clock"):
        return None
    start, end, date, time, expression = match.groups()
    return Query(start, end, f"{date} {time}", expression)


def nodes_of(endpoint: str) -> list[str]:
    """The nodes that an endpoint may stand for; a place stands for none."""
    if match := NODE.fullmatch(endpoint):
        return [f"{mode}:{match[1]}" for mode in ("foot", "bike", "car")]
    return [f"stop:{endpoint[1:]}"] if endpoint.startswith("s") and endpoint != "s" else []


def place_of(endpoint: str, found: Survey) -> Place | None:
    """Where an endpoint is, in 10^-7 degree, if the region has it or the line says it."""
    if match := PLACE.fullmatch(endpoint):
        lat, lon = (round(float(text) * 10_000_000) for text in match.groups())
        return (lat, lon) if abs(lat) <= 900_000_000 and abs(lon) <= 1_800_000_000 else None
    return next((found.place(node) for node in nodes_of(endpoint) if node in found.numbers), None)


def ends_of(block: Block, found: Survey) -> list[tuple[str, str, Place]]:
    """The ends of a query that have a place: A or B, the endpoint, and where it is."""
    query = query_of(block)
    ends = (("A", query.start), ("B", query.end)) if query else ()
    return [(letter, end, place) for letter, end in ends if (place := place_of(end, found)) is not None]
