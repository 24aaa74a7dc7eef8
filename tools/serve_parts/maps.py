"""The region as the page draws it."""

import gzip
import json

from .atlas import Atlas
from .places import Places
from .streets import CELL

MOST_STOPS = 20_000  # that the map has


def packed_map(told: dict, atlas: Atlas, places: Places) -> bytes:
    """What is told of a region, with its days, its streets thinned to what a map shows, and its stops: as JSON, compressed."""
    streets = atlas.streets
    stops = [places.stop(number) for number in range(min(len(places), MOST_STOPS))]
    whole = {**told, "first": f"{atlas.first:%Y%m%d}", "days": atlas.count, "zone": atlas.rule, "box": atlas.box(),
             "cell": None if streets.is_whole else CELL, "streets": streets.overview, "stops": stops}
    return gzip.compress(json.dumps(whole).encode())
