"""The extended route types of GTFS, and which basic one each of them is. docs/MAKE_A_REGION.md has the same table."""

OTHER = 1700  # a type that is none of the basic ones: its letter is `other`

# From the first type to the last one: the basic type of these. What lies between stays as it is.
EXTENDED: list[tuple[int, int, int]] = [
    (100, 199, 2),  # railways
    (200, 299, 3),  # coaches
    (300, 399, 2),  # suburban railways
    (400, 404, 1),  # urban railways
    (405, 405, 12),  # monorails
    (406, 499, 1),
    (500, 699, 1),  # metros and undergrounds
    (700, 799, 3),  # buses
    (800, 899, 11),  # trolleybuses
    (900, 906, 0),  # trams
    (907, 907, 5),  # cable trams
    (908, 999, 0),
    (1000, 1099, 4),  # ships
    (1200, 1299, 4),  # ferries
    (1300, 1399, 6),  # cable cars, gondolas and chair lifts
    (1400, 1499, 7),  # funiculars
    (1701, 1701, 5),  # cable cars on the street
]


def basic_type(number: int) -> int:
    """The basic type of a route type; one that has none stays as it is."""
    for first, last, basic in EXTENDED:
        if first <= number <= last:
            return basic
    return number
