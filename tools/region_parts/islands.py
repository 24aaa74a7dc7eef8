"""The parts of a layer that hang together."""

from collections.abc import Iterable

LEAST = 50  # nodes: a part that has fewer, and is not the largest of its layer, is an island


def islands(streets: Iterable[tuple[int, int]]) -> set[int]:
    """The nodes of the islands of a layer, whose streets join two nodes each."""
    above: dict[int, int] = {}

    def top(node: int) -> int:
        while (higher := above.setdefault(node, node)) != node:
            above[node] = node = above.setdefault(higher, higher)
        return node

    for a, b in streets:
        above[top(a)] = top(b)
    size: dict[int, int] = {}
    for node in above:
        size[top(node)] = size.get(top(node), 0) + 1
    most = max(size.values(), default=0)
    return {node for node in above if size[top(node)] < min(LEAST, most)}
