"""Journeys as GeoJSON (RFC 7946): a feature for each leg, change and wait."""

import json
from collections.abc import Iterator

from .blocks import Block, Journey
from .faults import shown
from .legs import LINK, WAIT, Known, Leg, metres, minutes
from .names import plain_name
from .region import Survey


def lines_of(blocks: list[Block], known: Known) -> Iterator[str]:
    """The text, line by line; each feature is a line of its own."""
    yield '{"type": "FeatureCollection", "features": ['
    mark = ""
    for block in blocks:
        for journey in block.journeys:
            for number, leg in enumerate(known.reader.legs(journey, known.found), 1):
                yield mark + json.dumps(_feature(block, journey, number, leg, known), ensure_ascii=False)
                mark = ","
    yield "]}"


def _feature(block: Block, journey: Journey, number: int, leg: Leg, known: Known) -> dict:
    kind = leg.kind if leg.kind in (LINK, WAIT) else "leg"
    route, headsign = known.names.route(leg.name) if leg.name else (None, None)
    properties = {
        "query": block.number, "line": shown(block.query), "boardings": journey.boardings, "part": number,
        "kind": kind, "letter": leg.letter, "name": plain_name(leg.name) or None,
        "route": route, "headsign": headsign,
        "from": shown(leg.path[0]), "to": shown(leg.path[-1]),
        "from_name": known.names.node(leg.path[0]), "to_name": known.names.node(leg.path[-1]),
        "depart": str(leg.depart), "arrive": str(leg.arrive),
        "minutes": round(minutes(leg, known.days), 3), "metres": round(metres(leg, known.found)),
    }
    return {"type": "Feature", "geometry": _geometry(leg, known.found), "properties": properties}


def _geometry(leg: Leg, found: Survey) -> dict:
    """A line along the leg's nodes, or a point where it goes nowhere; degrees, longitude first."""
    points = [[lon / 1e7, lat / 1e7] for lat, lon in map(found.place, leg.path)]
    if len(points) == 1:
        return {"type": "Point", "coordinates": points[0]}
    return {"type": "LineString", "coordinates": points}
