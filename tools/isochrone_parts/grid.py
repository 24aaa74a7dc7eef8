"""Places on a grid, beside streets."""

import math
from collections.abc import Sequence

METRE = 1 / 0.011132  # 10^-7 degree of latitude

Place = tuple[int, int]


def grid(lats: Sequence[int], lons: Sequence[int], metres: float) -> list[Place]:
    """The middle of each square of this width in which a node lies, in rows from south to north; in 10^-7 degree."""
    if not lats:
        return []
    south, west = min(lats), min(lons)
    high = metres * METRE
    wide = high / max(0.01, math.cos(math.radians((south + max(lats)) / 2e7)))
    squares = sorted({(int((lat - south) / high), int((lon - west) / wide)) for lat, lon in zip(lats, lons)})
    return [(min(round(south + (row + 0.5) * high), 900_000_000), min(round(west + (column + 0.5) * wide), 1_800_000_000))
            for row, column in squares]


def endpoint(place: Place) -> str:
    """The place as a query has it, as @48.0005,11.0210000."""
    return "@" + ",".join(f"{'-' if units < 0 else ''}{abs(units) // 10_000_000}.{abs(units) % 10_000_000:07}" for units in place)
