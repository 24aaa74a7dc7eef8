"""How far two places are apart: docs/MAKE_A_REGION.md, "Lengths and durations"."""

import functools
import math
import pathlib
import re

from certificate_parts.faults import Fault

WIDTHS = pathlib.Path(__file__).resolve().parents[2] / "crates/geo_length/specs/Widths.antt"
Place = tuple[int, int]  # latitude and longitude in 10^-7 degree


@functools.cache
def widths() -> list[int]:
    """How wide a degree of longitude is at each whole degree of latitude, in ten-thousandths of that at the equator."""
    try:
        table = re.search(r"(?s)\nwidths =(.*?)\[\]", WIDTHS.read_text(encoding="utf-8"))
    except OSError as error:
        raise Fault(str(WIDTHS), error.strerror or str(error)) from None
    numbers = [int(number) for number in re.findall("[0-9]{1,9}", table[1])] if table else []
    if len(numbers) != 91:
        raise Fault(str(WIDTHS), "the table of widths should have 91 numbers, one for each degree from 0 to 90")
    return numbers


def length(one: Place, other: Place) -> int:
    """In whole millimetres."""
    dlat, dlon = abs(one[0] - other[0]), abs(one[1] - other[1])
    dlon = min(dlon, 3_600_000_000 - dlon)
    northward = dlat * 11132 // 1000
    eastward = dlon * 11132 * widths()[min(90, abs(one[0] + other[0]) // 20_000_000)] // 10_000_000
    return math.isqrt(eastward * eastward + northward * northward)
