"""What was changed and what was dropped on the way to a region, by count and one by one."""

from collections.abc import Iterator
from dataclasses import dataclass, field

from .faults import shown

MOST_LISTED = 100_000  # of one kind; what is behind them is counted alone


@dataclass
class Entries:
    """What happened for one reason: how often, and where."""

    drops: bool
    count: int = 0
    listed: list[str] = field(default_factory=list)


class Report:
    """Takes down what happens to the data, in the order in which each reason came first."""

    def __init__(self) -> None:
        self._kinds: dict[str, Entries] = {}
        self._facts: list[str] = []

    def fact(self, line: str) -> None:
        """A line about the whole, such as the days of service."""
        self._facts.append(shown(line))

    def drop(self, kind: str, place: str) -> None:
        """Something is left out; `place` says which, by file and row or by its id."""
        self._take(kind, place, True)

    def change(self, kind: str, place: str) -> None:
        """Something is kept and changed."""
        self._take(kind, place, False)

    def _take(self, kind: str, place: str, drops: bool) -> None:
        entries = self._kinds.setdefault(kind, Entries(drops))
        entries.count += 1
        if len(entries.listed) < MOST_LISTED:
            entries.listed.append(shown(place))

    def count(self, kind: str) -> int:
        """How often that happened."""
        return self._kinds[kind].count if kind in self._kinds else 0

    def dropped(self) -> int:
        """How many things are left out."""
        return sum(entries.count for entries in self._kinds.values() if entries.drops)

    def first_dropped(self) -> str | None:
        """The first thing that is left out, as the list has it."""
        for kind, entries in self._kinds.items():
            if entries.drops:
                return f"{kind}: {entries.listed[0]}"
        return None

    def told(self) -> Iterator[str]:
        """The facts, and a line for each reason."""
        yield from self._facts
        for kind, entries in self._kinds.items():
            yield f"{'dropped' if entries.drops else 'changed'} {entries.count}: {kind}"

    def lines(self) -> Iterator[str]:
        """The whole report: the facts, the counts, and then each thing on a line of its own."""
        yield from self.told()
        for kind, entries in self._kinds.items():
            yield ""
            yield f"{kind}:"
            yield from (f"  {line}" for line in entries.listed)
            if entries.count > len(entries.listed):
                yield f"  and {entries.count - len(entries.listed)} more"
