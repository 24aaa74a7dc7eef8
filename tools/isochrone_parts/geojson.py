"""Isochrones as GeoJSON (RFC 7946): a feature for the streets of each band, and one for each destination."""

import json
from collections.abc import Iterator

from picture_parts.faults import shown

from .bands import MINUTES, Chain, Destination


def lines_of(origin: str, destinations: list[Destination], streets: list[list[Chain]]) -> Iterator[str]:
    """The text, line by line; each feature is a line of its own."""
    yield '{"type": "FeatureCollection", "features": [\n'
    features = [_band(origin, minutes, chains) for minutes, chains in zip(MINUTES, streets) if chains]
    features += [_destination(origin, destination) for destination in destinations]
    yield ",\n".join(json.dumps(feature) for feature in features)
    yield "\n]}\n"


def _band(origin: str, minutes: int, chains: list[Chain]) -> dict:
    properties = {"kind": "band", "origin": shown(origin), "minutes": minutes, "above": minutes - 5}
    return _feature({"type": "MultiLineString", "coordinates": [_degrees(chain) for chain in chains]}, properties)


def _degrees(chain: Chain) -> list[list[float]]:
    """The points of a chain, longitude first."""
    lat, lon, points = 0, 0, []
    for north, east in zip(chain[::2], chain[1::2]):
        lat, lon = lat + north, lon + east
        points.append([lon / 1e7, lat / 1e7])
    return points


def _destination(origin: str, destination: Destination) -> dict:
    lat, lon = destination.place
    minutes = None if destination.ms is None else round(destination.ms / 60_000, 3)
    properties = {"kind": "destination", "origin": shown(origin), "minutes": minutes}
    return _feature({"type": "Point", "coordinates": [lon / 1e7, lat / 1e7]}, properties)


def _feature(geometry: dict, properties: dict) -> dict:
    return {"type": "Feature", "geometry": geometry, "properties": properties}
