"""The next runs at a stop: docs/SEARCH.md, "Patterns" and "Rides". Which run is next is looked up by halving, in tables made once."""

from bisect import bisect_left, bisect_right
from collections.abc import Generator, Iterable, Iterator, Set
from dataclasses import dataclass

from certificate_parts.network import ALIGHT, BOARD, Arrival, Network, Trip

TRIED = 16  # patterns that a trip is tried in


@dataclass(frozen=True)
class Pattern:
    """Trips that run on the same days and call at the same nodes, none of which overtakes another on a day. The later a trip stands,
    the later it is at every call, or as late."""

    letter: int
    bases: list[int]  # of their days, ascending
    nodes: list[int]  # call by call
    boards: list[int]  # the calls at which one may board
    alights: list[int]
    departures: list[list[int]]  # call by call, those of all trips
    arrivals: list[list[int]]

    def latest(self) -> int:
        """How long behind its base a run departs at most."""
        return self.departures[-1][-1]

    def spread(self) -> int:
        """On how much later a day all runs are behind all those of a day, at each call."""
        return max(times[-1] - times[0] for times in self.arrivals)

    def mirrored(self, deadline: int) -> "Pattern":
        """The same back in time: what arrives at t departs at the deadline less t."""
        def turned(times: list[list[int]]) -> list[list[int]]:
            return [[-time for time in reversed(row)] for row in reversed(times)]
        last = len(self.nodes) - 1
        return Pattern(self.letter, [deadline - base for base in reversed(self.bases)], self.nodes[::-1],
                       [last - call for call in reversed(self.alights)], [last - call for call in reversed(self.boards)],
                       turned(self.arrivals), turned(self.departures))


class Board:
    """A pattern at one of its stops: the calls there at which one may board."""

    def __init__(self, pattern: Pattern) -> None:
        self.pattern = pattern
        self.calls: list[int] = []
        self._latest, self._spread = pattern.latest(), pattern.spread()

    def rides(self, at: int, before: float) -> Iterator[Arrival]:
        """Rides to later calls that are there before a time, on runs that depart at `at` or later: those that are there first, and
        perhaps others."""
        bases, past = self.pattern.bases, None
        for place in range(bisect_left(bases, at - self._latest), len(bases)):
            base = bases[place]
            if past is not None and base - past >= self._spread:
                return
            first = yield from self._rides_on(base, at, before)
            past = base if first and past is None else past

    def _rides_on(self, base: int, at: int, before: float) -> Generator[Arrival, None, bool]:
        """Those on the day that begins at the base. Answers whether one may board at the first of the calls. A later call is
        of use only where one catches an earlier run there."""
        pattern, runs = self.pattern, len(self.pattern.departures[0])
        best = runs
        for call in self.calls:
            run = bisect_left(pattern.departures[call], at - base)
            if run >= best:
                continue
            best = run
            for later in pattern.alights[bisect_right(pattern.alights, call):]:
                arrives = base + pattern.arrivals[later][run]
                if arrives >= before:
                    break
                yield Arrival(pattern.nodes[later], arrives, pattern.letter)
        return bool(self.calls) and bisect_left(pattern.departures[self.calls[0]], at - base) < runs


class Timetable:
    """What departs at each stop."""

    def __init__(self, patterns: Iterable[Pattern]) -> None:
        self._boards: dict[int, list[Board]] = {}
        for pattern in patterns:
            here: dict[int, Board] = {}
            for call in pattern.boards:
                node = pattern.nodes[call]
                if node not in here:
                    here[node] = Board(pattern)
                    self._boards.setdefault(node, []).append(here[node])
                here[node].calls.append(call)

    def rides(self, node: int, at: int, before: float, letters: Set[int]) -> Iterator[Arrival]:
        """Rides from a node by one of the letters that are there before a time: those that are there first, and perhaps others."""
        for board in self._boards.get(node, ()):
            if board.pattern.letter in letters:
                yield from board.rides(at, before)


def patterns_of(network: Network) -> list[Pattern]:
    """The trips of a network, sorted into patterns."""
    alike: dict[tuple, list[Trip]] = {}
    for trip in network.trips:
        alike.setdefault((trip.letter, trip.days, tuple((call.node, call.flags) for call in trip.calls)), []).append(trip)
    return [_pattern_of(network, trips) for group in alike.values() for trips in _chains(group)]


def _chains(trips: list[Trip]) -> list[list[Trip]]:
    """Lists of trips, each of which is at no call before the one in front of it."""
    chains: list[list[Trip]] = []
    for trip in sorted(trips, key=lambda trip: [(call.depart, call.arrive) for call in trip.calls]):
        for chain in chains[:-TRIED - 1:-1]:
            if all(one.arrive <= other.arrive and one.depart <= other.depart for one, other in zip(chain[-1].calls, trip.calls)):
                chain.append(trip)
                break
        else:
            chains.append([trip])
    return chains


def _pattern_of(network: Network, trips: list[Trip]) -> Pattern:
    letter, days, calls = trips[0]
    return Pattern(letter, [base for day, base in enumerate(network.bases) if days >> day & 1], [call.node for call in calls],
                   [place for place, call in enumerate(calls) if call.flags & BOARD],
                   [place for place, call in enumerate(calls) if call.flags & ALIGHT],
                   [[trip.calls[place].depart for trip in trips] for place in range(len(calls))],
                   [[trip.calls[place].arrive for trip in trips] for place in range(len(calls))])
