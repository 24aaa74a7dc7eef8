"""What leads on from a node: docs/SEARCH.md, "The graph of a network", "The graph of a hierarchy" and "Back in time"."""

from collections.abc import Iterator, Set
from typing import Protocol

from certificate_parts.hierarchies import Hierarchy
from certificate_parts.network import Arrival, Network
from certificate_parts.timetable import Pattern, Timetable


class Graph(Protocol):
    """Nodes with numbers, and the arcs out of each."""

    nodes: int

    def ways(self, node: int, at: int, before: float, letters: Set[int]) -> Iterator[Arrival]:
        """What the arcs out of a node, taken at a time, lead to before another one: all but rides by other letters than these, and rides to
        where another one is as early by the same letter."""


class Plain:
    """The nodes of a network, with its road arcs, links, stays and rides."""

    def __init__(self, network: Network, patterns: list[Pattern]) -> None:
        self.nodes, self._network, self._timetable = network.nodes, network, Timetable(patterns)

    def ways(self, node: int, at: int, before: float, letters: Set[int]) -> Iterator[Arrival]:
        letter = self._network.mode(node)
        for to, takes in self._network.arcs.get(node, {}).items():
            if at + takes < before:
                yield Arrival(to, at + takes, letter)
        yield from self.others(node, at, before, letters)

    def others(self, node: int, at: int, before: float, letters: Set[int]) -> Iterator[Arrival]:
        """All ways but those over road arcs."""
        for to, takes in self._network.links.get(node, {}).items():
            if at + takes < before:
                yield Arrival(to, at + takes, None)
        letter = self._network.mode(node)
        if letter is not None:
            yield Arrival(node, at, letter)
        yield from self._timetable.rides(node, at, before, letters)


class Phases:
    """The phases of a hierarchy: node v on the way up and along the core is 2v, and on the way down to a target 2v + 1."""

    def __init__(self, network: Network, patterns: list[Pattern], hierarchy: Hierarchy, targets: list[int]) -> None:
        self.nodes, self._network, self._plain = 2 * network.nodes, network, Plain(network, patterns)
        self._up: dict[int, list[tuple[int, int]]] = {}
        self._down: dict[int, list[tuple[int, int]]] = {}
        marked = _marked(hierarchy, targets)
        for start, to, weight in hierarchy.entries:
            if hierarchy.is_above(start, to):
                if to in marked:
                    self._down.setdefault(start, []).append((2 * to + 1, weight))
            elif hierarchy.is_above(to, start) or not hierarchy.is_contracted(start):
                self._up.setdefault(start, []).append((2 * to, weight))

    def ways(self, node: int, at: int, before: float, letters: Set[int]) -> Iterator[Arrival]:
        under, descends = divmod(node, 2)
        letter = self._network.mode(under)
        entries = self._down.get(under, []) if descends else self._up.get(under, []) + self._down.get(under, [])
        for to, weight in entries:
            if at + weight < before:
                yield Arrival(to, at + weight, letter)
        if not descends:
            for to, arrives, by in self._plain.others(under, at, before, letters):
                yield Arrival(2 * to, arrives, by)
        elif letter is not None:
            yield Arrival(node, at, letter)


def _marked(hierarchy: Hierarchy, targets: list[int]) -> set[int]:
    """The nodes from which a chain of entries, each of them down, leads to a target; the targets are among them."""
    into: dict[int, list[int]] = {}
    for start, to, _ in hierarchy.entries:
        if hierarchy.is_above(start, to):
            into.setdefault(to, []).append(start)
    marked, open_ends = set(targets), list(targets)
    while open_ends:
        for start in into.get(open_ends.pop(), []):
            if start not in marked:
                marked.add(start)
                open_ends.append(start)
    return marked


def ends_of(hierarchy: Hierarchy, targets: list[int]) -> set[int]:
    """The numbers of the targets among the phases: on the way up, and of contracted ones also on the way down."""
    return {2 * node for node in targets} | {2 * node + 1 for node in targets if hierarchy.is_contracted(node)}


def mirrored(network: Network, patterns: list[Pattern], deadline: int) -> Plain:
    """The network back in time, where the moment s stands for the deadline less s: out of each node what leads to it."""
    back = Network(network.first, network.bases, network.modes, network.ids, network.places, network.stops, network.nodes,
                   _turned(network.arcs), _turned(network.links))
    return Plain(back, [pattern.mirrored(deadline) for pattern in patterns])


def _turned(ways: dict[int, dict[int, int]]) -> dict[int, dict[int, int]]:
    turned: dict[int, dict[int, int]] = {}
    for start, ends in ways.items():
        for end, takes in ends.items():
            turned.setdefault(end, {})[start] = takes
    return turned
