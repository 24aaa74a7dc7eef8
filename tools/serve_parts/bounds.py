"""How large a search may be, as the planner is told it."""

from dataclasses import dataclass

MOST_LABELS = 10 ** 12
MOST_PLACES = 200


@dataclass(frozen=True)
class Bounds:
    """The most labels of a search and the most places of an expression, where the service sets a limit."""

    labels: int | None = None
    places: int | None = None

    @property
    def of_requests(self) -> list[str]:
        """The options of `modeplan requests`."""
        return [*_option("labels", self.labels), *_option("places", self.places)]

    @property
    def of_tables(self) -> list[str]:
        """The options of `modeplan matrix`, which has no limit on labels."""
        return _option("places", self.places)


def _option(name: str, most: int | None) -> list[str]:
    return [] if most is None else [f"--{name}", str(most)]
