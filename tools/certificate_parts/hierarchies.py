"""The file of a hierarchy: docs/FORMATS.md, "Hierarchy files". That it is sound is for `modeplan check` to say."""

import struct
from dataclasses import dataclass

from certificate_parts.faults import Fault
from certificate_parts.files import read_file

HEAD, NODE, ENTRY, WITNESS = struct.Struct(">8s3Q"), struct.Struct(">I"), struct.Struct(">IIQI"), struct.Struct(">IQ")


@dataclass(frozen=True)
class Hierarchy:
    """The contracted nodes, lowest first, with their heights, and the entries: start, end and weight in milliseconds."""

    heights: dict[int, int]
    entries: list[tuple[int, int, int]]

    def is_contracted(self, node: int) -> bool:
        """Whether it stands in the order; the others are core."""
        return node in self.heights

    def is_above(self, node: int, other: int) -> bool:
        """Whether it was contracted later, or is core and the other is not. Two core nodes are not above each other."""
        core = len(self.heights)
        return self.heights.get(node, core) > self.heights.get(other, core)


def read_hierarchy(path: str) -> Hierarchy:
    """The order and the entries of a file. Witnesses are for whoever looks whether it is sound."""
    content = read_file(path)
    if len(content) < HEAD.size or content[:8] != b"MPHIER01":
        raise Fault(path, "byte 0: this is no hierarchy, which begins with MPHIER01 and three counts; `modeplan contract` writes one")
    _, nodes, entries, witnesses = HEAD.unpack_from(content)
    first = HEAD.size + nodes * NODE.size
    end = first + entries * ENTRY.size
    if end > len(content):
        raise Fault(path, f"byte {len(content)}: the order and the entries are cut short")
    end = _behind_witnesses(path, content, end, witnesses)
    if end != len(content):
        raise Fault(path, f"byte {end}: nothing may follow the last witness")
    heights: dict[int, int] = {}
    for place, (node,) in enumerate(NODE.iter_unpack(content[HEAD.size:first])):
        heights.setdefault(node, place)
    listed = ENTRY.iter_unpack(content[first:first + entries * ENTRY.size])
    return Hierarchy(heights, [(start, to, weight) for start, to, weight, _ in listed])


def _behind_witnesses(path: str, content: bytes, at: int, count: int) -> int:
    """Where so many witnesses end that begin at a byte."""
    for _ in range(count):
        long = WITNESS.unpack_from(content, at)[1] if at + WITNESS.size <= len(content) else len(content)
        behind = at + WITNESS.size + NODE.size * long
        if behind > len(content):
            raise Fault(path, f"byte {at}: the witness is cut short")
        at = behind
    return at
