"""What the service is told at its start."""

from dataclasses import dataclass

from .editions import Sources
from .pool import Limits


@dataclass(frozen=True)
class Wanted:
    """Its files and program, how many workers it has, where it listens, and its limits; `cells` is how many a table may have."""

    sources: Sources
    workers: int
    host: str
    port: int
    limits: Limits
    cells: int
