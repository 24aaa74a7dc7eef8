"""Makes maps ready: the newest version of each street and switch, areas as nodes, no islands."""

import os
import pathlib
from array import array
from collections.abc import Iterable
from dataclasses import dataclass, field

from .faults import Stop, shown
from .islands import islands
from .names import Names
from .report import Report
from .ways import MODES, OWN_TAG, PROFILE_TAGS, modes_of

try:
    import osmium
except ImportError:
    raise Stop("python3-pyosmium is not installed; on Debian: apt-get install python3-pyosmium") from None

SWITCHES = {"parking", "bicycle_parking", "bicycle_rental"}
RELATION_IDS = 10 ** 15  # the node of a way's area is minus its id, and that of a relation's is below minus this


@dataclass
class Entry:
    """The newest version of a node, way or relation that was read: what of it counts."""

    version: int
    deleted: bool
    tags: dict[str, str]
    members: array = field(default_factory=lambda: array("q"))  # the nodes of a way, the outer ways of a relation
    place: tuple[int, int] | None = None  # of a node: longitude and latitude in 10^-7 degree

    @property
    def amenity(self) -> str | None:
        amenity = self.tags.get("amenity")
        return amenity if amenity in SWITCHES else None


class Objects:
    """Objects of one kind by id, each in its newest version."""

    def __init__(self, kind: str, report: Report) -> None:
        self.kind, self.kept = kind, {}  # type: str, dict[int, Entry]
        self._report = report

    def add(self, ident: int, entry: Entry) -> None:
        """Takes a version; the highest one stays, and of equal ones the first. The same one in another map is no other."""
        before = self.kept.get(ident)
        if before is not None and before != entry:
            self._report.drop("versions of objects that are not the newest", f"{self.kind} {ident}, version "
                              f"{min(before.version, entry.version)}")
        if before is None or entry.version > before.version:
            self.kept[ident] = entry

    def drop_deleted(self) -> None:
        """Drops the objects whose newest version is deleted."""
        for ident in [ident for ident, entry in self.kept.items() if entry.deleted]:
            del self.kept[ident]
            self._report.drop("objects that are deleted", f"{self.kind} {ident}")


class Candidates(osmium.SimpleHandler):
    """The first reading: which objects have some version that may count."""

    def __init__(self) -> None:
        super().__init__()
        self.nodes: set[int] = set()
        self.ways: set[int] = set()
        self.relations: set[int] = set()

    def node(self, node) -> None:
        if len(node.tags) and node.tags.get("amenity") in SWITCHES:
            self.nodes.add(node.id)

    def way(self, way) -> None:
        if "highway" in way.tags or way.tags.get("amenity") in SWITCHES:
            self.ways.add(way.id)

    def relation(self, relation) -> None:
        if relation.tags.get("amenity") in SWITCHES:
            self.relations.add(relation.id)
            self.ways.update(_outer(relation))


def _outer(relation) -> Iterable[int]:
    return [member.ref for member in relation.members if member.type == "w" and member.role in ("outer", "")]


class Shapes(osmium.SimpleHandler):
    """The second reading: ways and relations."""

    def __init__(self, wanted: Candidates, report: Report) -> None:
        super().__init__()
        self._wanted = wanted
        self.ways, self.relations = Objects("way", report), Objects("relation", report)

    def way(self, way) -> None:
        if way.id in self._wanted.ways:
            tags = {tag: way.tags[tag] for tag in (*PROFILE_TAGS, "amenity", "name") if tag in way.tags}
            self.ways.add(way.id, Entry(way.version, way.deleted, tags, array("q", [node.ref for node in way.nodes])))

    def relation(self, relation) -> None:
        if relation.id in self._wanted.relations:
            tags = {"amenity": relation.tags["amenity"]} if "amenity" in relation.tags else {}
            self.relations.add(relation.id, Entry(relation.version, relation.deleted, tags, array("q", _outer(relation))))


class Places(osmium.SimpleHandler):
    """The third reading: nodes."""

    def __init__(self, wanted: set[int], report: Report) -> None:
        super().__init__()
        self._wanted = wanted
        self.nodes = Objects("node", report)

    def node(self, node) -> None:
        if node.id in self._wanted:
            tags = {"amenity": node.tags["amenity"]} if "amenity" in node.tags else {}
            place = (node.location.x, node.location.y) if node.location.valid() else None
            self.nodes.add(node.id, Entry(node.version, node.deleted, tags, place=place))


class Map:
    """The streets and switches of maps, in their newest versions."""

    def __init__(self, paths: list[str], report: Report) -> None:
        self._report = report
        candidates = Candidates()
        read(paths, candidates)
        shapes = Shapes(candidates, report)
        read(paths, shapes)
        shapes.ways.drop_deleted()
        shapes.relations.drop_deleted()
        self.ways, self._relations = shapes.ways.kept, shapes.relations.kept
        places = Places({node for way in self.ways.values() for node in way.members} | candidates.nodes, report)
        read(paths, places)
        places.nodes.drop_deleted()
        self.nodes = places.nodes.kept

    def areas_to_nodes(self) -> None:
        """Makes a node of each parking and rental that is drawn as an area, in its middle."""
        for ident, way in self.ways.items():
            if way.amenity is not None:
                self._make_node(f"way {ident}", -ident, way.amenity, way.members)
        for ident, relation in self._relations.items():
            if relation.amenity is not None:
                ways = [self.ways[way] for way in relation.members if way in self.ways]
                self._make_node(f"relation {ident}", -RELATION_IDS - ident, relation.amenity,
                                array("q", [node for way in ways for node in way.members]))

    def _make_node(self, what: str, ident: int, amenity: str, corners: array) -> None:
        places = [self.nodes[node].place for node in dict.fromkeys(corners) if node in self.nodes]
        found = [place for place in places if place is not None]
        if not found:
            self._report.drop("areas of which no corner has a place", f"{what}, {amenity}")
            return
        while ident in self.nodes:
            ident -= 1
        lons, lats = zip(*found)
        self.nodes[ident] = Entry(0, False, {"amenity": amenity}, place=(sum(lons) // len(lons), sum(lats) // len(lats)))
        self._report.change("parkings and rentals drawn as areas, taken as nodes", f"{what}, {amenity}: node {ident}")

    def streets(self, way: Entry) -> Iterable[tuple[int, int]]:
        """The pairs of neighbours on a way that both have a place."""
        for a, b in zip(way.members, way.members[1:]):
            if a != b and self._has_place(a) and self._has_place(b):
                yield a, b

    def _has_place(self, node: int) -> bool:
        return node in self.nodes and self.nodes[node].place is not None

    def drop_islands(self) -> None:
        """Closes ways to the modes in whose layers they lie on an island, and drops those that are closed to all."""
        modes = {ident: modes_of(way.tags) for ident, way in self.ways.items()}
        for mode in MODES:
            lost = islands(pair for ident, way in self.ways.items() if mode in modes[ident] for pair in self.streets(way))
            for ident, way in self.ways.items():
                corners = [corner for corner, _ in self.streets(way)] if mode in modes[ident] else []
                if corners and all(corner in lost for corner in corners):
                    modes[ident].discard(mode)
                    way.tags[OWN_TAG[mode]] = "no"
                    self._report.drop(f"ways on an island of the {mode} layer, of fewer than 50 nodes", f"way {ident}")
        for ident in [ident for ident, left in modes.items() if not left and self.ways[ident].amenity is None]:
            del self.ways[ident]

    def write(self, path: pathlib.Path, names: Names) -> None:
        """Writes the switches, the streets and their nodes as OPL, and takes the names of the streets down."""
        path.unlink(missing_ok=True)
        streets = {ident: way for ident, way in self.ways.items() if "highway" in way.tags}
        used = {node for way in streets.values() for node in way.members}
        writer = osmium.SimpleWriter(os.path.abspath(path))
        try:
            for ident, node in sorted(self.nodes.items()):
                if node.place is not None and (ident in used or node.amenity is not None):
                    lon, lat = node.place
                    tags = {"amenity": node.amenity} if node.amenity is not None else {}
                    writer.add_node(osmium.osm.mutable.Node(id=ident, location=(lon / 1e7, lat / 1e7), tags=tags))
            for ident, way in sorted(streets.items()):
                tags = {key: value for key, value in way.tags.items() if key in PROFILE_TAGS}
                writer.add_way(osmium.osm.mutable.Way(id=ident, nodes=list(way.members), tags=tags))
                for corner in way.members if "name" in way.tags and modes_of(way.tags) else ():
                    names.add_street(corner, way.tags["name"])
        finally:
            writer.close()


class Copies(osmium.SimpleHandler):
    """Writes each version of what may count as it stands."""

    def __init__(self, wanted: Candidates, nodes: set[int], writer: "osmium.SimpleWriter", names: Names) -> None:
        super().__init__()
        self._ways, self._nodes, self._writer, self._names = wanted.ways, nodes, writer, names

    def node(self, node) -> None:
        if node.id in self._nodes:
            self._writer.add_node(node)

    def way(self, way) -> None:
        if way.id in self._ways:
            self._writer.add_way(way)
            for node in way.nodes if "name" in way.tags else ():
                self._names.add_street(node.ref, way.tags["name"])


def copy_as_it_is(paths: list[str], path: pathlib.Path, names: Names) -> None:
    """Writes the streets and switches of the maps, in all their versions, as OPL."""
    path.unlink(missing_ok=True)
    candidates = Candidates()
    read(paths, candidates)
    shapes = Shapes(candidates, Report())
    read(paths, shapes)
    nodes = candidates.nodes | {node for way in shapes.ways.kept.values() for node in way.members}
    writer = osmium.SimpleWriter(os.path.abspath(path))
    try:
        read(paths, Copies(candidates, nodes, writer, names))
    finally:
        writer.close()


def read(paths: list[str], handler: "osmium.SimpleHandler") -> None:
    """Hands all objects of the maps to the handler."""
    for path in paths:
        if not os.path.isfile(path):
            raise Stop(f"{shown(path)}: there is no such map file")
        try:
            handler.apply_file(os.path.abspath(path))
        except (RuntimeError, ValueError, osmium.InvalidLocationError) as error:
            raise Stop(f"{shown(path)} is no map that osmium reads: {shown(str(error)).strip()}; a map is named as city.osm.pbf, "
                       "city.osm, city.osm.bz2 or city.opl") from error
