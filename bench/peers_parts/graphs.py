"""Regions as graphs that any library of shortest paths takes."""
import dataclasses
import random
import struct


@dataclasses.dataclass
class Graph:
    """A graph by numbers. `named` has the node of OpenStreetMap for each number at which a pair may begin, and `ends` the number at which a
    pair that asks for it ends."""

    nodes: int
    arcs: list[tuple[int, int, int]]  # from, to, milliseconds; by rising `from`
    named: list[int]
    ends: list[int]

    def write(self, path, pairs):
        """Writes numbers of 32 bits: nodes, arcs, pairs; each arc; each pair."""
        with open(path, "wb") as file:
            file.write(struct.pack("<3I", self.nodes, len(self.arcs), len(pairs)))
            file.writelines(struct.pack("<3I", *arc) for arc in self.arcs)
            file.writelines(struct.pack("<2I", a, self.ends[b]) for a, b in pairs)


def pairs_of(graph, count):
    """Pairs of places in `named`, drawn alike in each run."""
    rng = random.Random(1)
    return [(rng.randrange(len(graph.named)), rng.randrange(len(graph.named))) for _ in range(count)]


def _read(path):
    """The modes of the nodes (None for stops and switches), their ids, the arcs and the links."""
    modes, ids, arcs, links = [], [], [], []
    with open(path, encoding="ascii") as file:
        for line in file:
            match line.split():
                case ["node", mode, number, *_]:
                    modes.append(mode)
                    ids.append(int(number))
                case ["stop" | "switch", *_]:
                    modes.append(None)
                    ids.append(None)
                case ["arc" | "link" as kind, tail, head, ms]:
                    (arcs if kind == "arc" else links).append((int(tail), int(head), int(ms)))
    return modes, ids, arcs, links


def foot_layer(path):
    """A region of foot nodes alone."""
    modes, ids, arcs, _ = _read(path)
    return Graph(len(modes), sorted(arcs), ids, list(range(len(ids))))


# How the word read so far grows by a letter; state 0 has read nothing, and state 3 `foot bike foot`, in which a journey ends.
MOVES = {"foot": {0: 1, 1: 1, 2: 3, 3: 3}, "bike": {1: 2, 2: 2}, "car": {}}
STATES = 4


def product(path):
    """The network times the word that was read: an arc reads the letter of its mode, to stand at a node reads that of the node, a link none.
    The last nodes gather the copies of each end."""
    modes, ids, arcs, links = _read(path)
    count = len(modes)
    feet = [node for node, mode in enumerate(modes) if mode == "foot"]
    place = {ids[node]: k for k, node in enumerate(feet)}
    found = [(STATES * tail + q, STATES * head + to, ms) for tail, head, ms in arcs for q, to in MOVES[modes[tail]].items()]
    found += [(STATES * node + q, STATES * node + to, 0) for node, mode in enumerate(modes) if mode for q, to in MOVES[mode].items() if to != q]
    found += [(STATES * tail + q, STATES * head + q, ms) for tail, head, ms in links for q in range(STATES)]
    begin, end = STATES * count, STATES * count + len(feet)
    for node, number in enumerate(ids):
        if number in place:
            found += [(begin + place[number], STATES * node, 0), (STATES * node + 3, end + place[number], 0)]
    names = [ids[node] for node in feet]
    shifted = _begin_first(found, begin, len(feet))
    return Graph(end + len(feet), shifted, names, list(range(end, end + len(feet))))


def _begin_first(arcs, begin, count):
    """The arcs with the numbers from `begin` on, so many, put before all others, so that places in `named` are numbers of nodes."""
    def number(node):
        return node - begin if begin <= node < begin + count else node + count if node < begin else node
    return sorted((number(a), number(b), ms) for a, b, ms in arcs)
