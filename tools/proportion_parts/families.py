"""Families of calls whose files grow: hostile ones, and others that people have."""

import dataclasses
import pathlib
from collections.abc import Callable

from . import texts
from .texts import both_ways, grid, hierarchy, opl, region

NOON = 43_200
FIRST = 28_802  # two seconds past eight
UNREACHED = "n1 ss0000001 20240701 08:00:00 foot"  # a query whose stop has no link
INTO_ONE = "n1 ss0000000 20240701 23:00:00 transit+"  # a query by any line into the first stop
LINE = "n1 n{last} 20240701 08:00:00 {expr}"


@dataclasses.dataclass(frozen=True)
class Family:
    """Calls of one kind. `make` writes the files of size n to a folder, and gives the words of the call; `first` is the
    least n; what the call `before` writes is the file `certificate`; `reason` says why the call may grow faster than its
    files, where it may."""

    name: str
    first: int
    make: Callable[[pathlib.Path, int], list[str]]
    reason: str = ""
    before: tuple[str, ...] = ()


def write(folder: pathlib.Path, **files: str | bytes) -> None:
    for name, text in files.items():
        (folder / name).write_bytes(text.encode() if isinstance(text, str) else text)


def over_region(command: str, *words: str, **more: Callable[[int], str | bytes]) -> Callable:
    """The maker of a call over a region, with other files of that size beside it."""
    def make(folder: pathlib.Path, n: int) -> list[str]:
        write(folder, **{name: file(n) for name, file in more.items()})
        return [command, "region", *words]
    return make


def standing(expr: str) -> Callable[[int], str]:
    """A certificate of a long way to stand still: n steps of an expression's word, and no labels."""
    steps = "stand\n"
    head = f"modeplan certificate 1\nquery {LINE.format(last=1, expr=expr)}\ngraph plain\n"
    return lambda n: f"{head}arrive 633600000\nstart 0 633600000\n{steps * n}labels 0\nend\n"


def in_turn(n: int) -> str:
    """A bus and a tram in turn between two stops, n in all, each of which leaves when the one before arrives."""
    trips = [(("bus", "tram")[k % 2], [(k % 2, FIRST + k), ((k + 1) % 2, FIRST + k + 1)]) for k in range(n)]
    return region(1, [], 2, [(0, 1, 1000)], trips)


def riding_in_turn(expr: str) -> Callable[[int], str]:
    """A certificate of a ride on each of them, and no labels."""
    query = "query n1 ss{last:07} 20240701 08:00:00 " + expr
    head = f"modeplan certificate 1\n{query}\ngraph plain\narrive {{at}}\nstart 0 633600000\nlink 1\n"
    return lambda n: head.format(last=n % 2, at=604_800_000 + 1000 * (FIRST + n)) + "".join(
        f"ride {k} 7 0 1\n" for k in range(n)) + "labels 0\nend\n"


def calls_at_one_stop(n: int) -> str:
    """A trip with n calls at a stop beside the first node, and another stop where nothing leads."""
    return region(1, [], 2, [(0, 1, 1000), (1, 0, 1000)], [("bus", [(0, NOON + call) for call in range(n)])])


def calls_of_one_trip(n: int) -> str:
    return region(1, [], n, [(0, 1, 1000)], [("bus", [(call, NOON + call) for call in range(n)])])


def lines_into_one_stop(n: int) -> str:
    """n lines into the first stop, each from a stop of its own; a link leads to the first of those."""
    return region(1, [], n + 1, [(0, 2, 1000)], [("bus", [(stop, NOON), (0, NOON + 60)]) for stop in range(1, n + 1)])


def overtaking(n: int) -> str:
    """Trips of which each later one overtakes all before it, so that no two share a pattern, over sixty days."""
    return region(1, [], 2, [(0, 1, 1000)], [("bus", [(0, NOON + trip), (1, NOON + 4 * n - trip)]) for trip in range(n)], 60)


def hub(n: int) -> list[tuple[int, int, int]]:
    """n streets into node 0 and n out of it."""
    return [(node, 0, 1000) for node in range(1, n + 1)] + [(0, node, 1000) for node in range(n + 1, 2 * n + 1)]


def complete(n: int) -> list[tuple[int, int, int]]:
    return [(start, end, 1000) for start in range(n) for end in range(n) if start != end]


def star(n: int) -> list[tuple[int, int, int]]:
    return both_ways((0, node) for node in range(1, n + 1))


def waves(n: int) -> list[tuple[int, int, int]]:
    """A street of 2n nodes, from each second of which a way leads to the first of n others, each sooner than the one before."""
    arcs = [(k, k + 1, 1) for k in range(3 * n - 1) if k != 2 * n - 1]
    return sorted(arcs + [(2 * k, 2 * n, 3 * (n + 1) - 3 * k) for k in range(n)])


def path(n: int) -> list[tuple[int, int, int]]:
    return both_ways((node, node + 1) for node in range(n - 1))


def compiled(map_text: Callable[[int], str], tables: Callable[[int], dict[str, str]]) -> Callable:
    """The maker of a region of a map and a feed."""
    def make(folder: pathlib.Path, n: int) -> list[str]:
        write(folder, map=map_text(n))
        (folder / "feed").mkdir(exist_ok=True)
        write(folder / "feed", **tables(n))
        return ["compile", "map", "feed", "20240701", "1"]
    return make


def short_ways(n: int, apart: int = 10) -> str:
    return opl(n, ([node, node + 1] for node in range(n - 1)), apart)


def small_feed(n: int) -> dict[str, str]:
    return texts.feed(2, [(0, NOON, 0), (1, NOON + 60, 1)])


def any_times(n: int) -> str:
    """A query with the expression any{n}."""
    return LINE.format(last=400, expr=f"any{{{n}}}") + "\n"


def town(_: int) -> str:
    return region(400, both_ways(grid(20)))


CUTTING = "each arm that is contracted is left out of the row of the hub, which is as long as the arms that are left"
CONTRACTING = "what is left grows dense, and searches there make each key anew; keep some nodes (docs/MANY_QUERIES.md)"
BY_PLACES = "the product has a state for each place of the expression at each node"

FAMILIES = [
    Family("hierarchy with large numbers", 1_000, over_region(
        "check", "hierarchy", region=lambda n: region(2, [(0, 1, 1000)]),
        hierarchy=lambda n: hierarchy([2**24 - 1 - node for node in range(n)], []))),
    Family("hierarchy with a dense core", 40, over_region(
        "check", "hierarchy", region=lambda n: region(n, complete(n)), hierarchy=lambda n: hierarchy([], complete(n)))),
    Family("hierarchy of a hub, its sinks first", 1_000, over_region(
        "check", "hierarchy", region=lambda n: region(2 * n + 1, hub(n)),
        hierarchy=lambda n: hierarchy([*range(n + 1, 2 * n + 1), 0], hub(n)))),
    Family("certificate with many steps", 4_000, over_region(
        "verify", "certificate", region=lambda n: region(2, [(0, 1, 1000)]), certificate=standing("any? " * 199 + "any?"))),
    Family("certificate of rides by letters in turn", 1_000, over_region(
        "verify", "certificate", region=in_turn, certificate=riding_in_turn("(" + "any? " * 199 + "any?)*"))),
    Family("certify over calls at one stop", 1_000, over_region("certify", UNREACHED, region=calls_at_one_stop)),
    Family("verify over calls at one stop", 1_000, over_region("verify", "certificate", region=calls_at_one_stop),
           before=("certify", "region", UNREACHED)),
    Family("verify-latest over calls at one stop", 1_000, over_region(
        "verify-latest", "certificate", region=calls_at_one_stop), before=("certify-latest", "region", UNREACHED)),
    Family("certify-latest over many lines into one stop", 1_000, over_region(
        "certify-latest", INTO_ONE, region=lines_into_one_stop)),
    Family("verify-latest over many lines into one stop", 1_000, over_region(
        "verify-latest", "certificate", region=lines_into_one_stop), before=("certify-latest", "region", INTO_ONE)),
    Family("answer over calls of one trip", 1_000, over_region(
        "answer", "queries", region=calls_of_one_trip,
        queries=lambda n: f"n1 ss{n - 1:07} 20240701 08:00:00 transit+\n" * 10)),
    Family("trips that overtake on 60 days", 100, over_region(
        "answer", "queries", region=overtaking, queries=lambda n: "n1 ss0000001 20240701 08:00:00 transit+\n")),
    Family("query lines that are long", 20_000, over_region(
        "answer", "queries", region=lambda n: region(2, [(0, 1, 1000)]),
        queries=lambda n: "n1 n2 20240701 08:00:00 " + "foot " * n + "\n")),
    Family("answer over streets of a millisecond", 2_000, over_region(
        "answer", "queries", region=lambda n: region(3 * n, waves(n)),
        queries=lambda n: f"n1 n{3 * n} 20240701 08:00:00 foot\n")),
    Family("answer any{n}", 6, over_region("answer", "queries", region=town, queries=any_times), BY_PLACES),
    Family("few any{n}", 6, over_region("few", "queries", region=town, queries=any_times), BY_PLACES),
    Family("contract a star", 500, over_region("contract", region=lambda n: region(n + 1, star(n))), CUTTING),
    Family("contract a path", 2_000, over_region("contract", region=lambda n: region(n, path(n)))),
    Family("contract a clique", 10, over_region("contract", region=lambda n: region(n, complete(n))), CONTRACTING),
    Family("contract a grid of equal weights", 10, over_region(
        "contract", region=lambda n: region(n * n, both_ways(grid(n)))), CONTRACTING),
    Family("contract a city with a link at every node", 20, over_region(
        "contract", region=lambda n: region(n * n, both_ways(grid(n)), 1, [(node, n * n, 1000) for node in range(n * n)]))),
    Family("a way of many nodes", 2_000, compiled(lambda n: opl(n, [list(range(n))]), small_feed)),
    Family("many ways of two nodes", 2_000, compiled(short_ways, small_feed)),
    Family("a headway of one second", 60, compiled(lambda n: opl(2, [[0, 1]]), lambda n: texts.feed(
        2, [(0, 0, 0), (1, 60, 1)], headway=max(1, 86_400 // n))), "each run of the frequency is a trip of the region"),
    Family("many nodes at one place, and many stops", 500, compiled(
        lambda n: short_ways(n, 0),
        lambda n: texts.feed(n, [(stop, NOON + stop, stop) for stop in range(n)], apart=0))),
    Family("a long tag", 100_000, compiled(lambda n: opl(2, [[0, 1]]) + f"w9 Tname={'x' * n} Nn1,n2\n", small_feed)),
    Family("a long field of a feed", 100_000, compiled(
        lambda n: opl(2, [[0, 1]]), lambda n: {**small_feed(n), "routes.txt": "route_id,route_short_name,route_type\n"
                                                                              f"r,{'x' * n},3\n"})),
]
