"""in_python.py scipy|igraph FILE: asks a library for Python the pairs of a graph file; see others.py for what is printed."""
import sys
import time

import numpy


def by_scipy(nodes, arcs):
    """SciPy's Dijkstra, which has no early end."""
    from scipy.sparse import csr_matrix
    from scipy.sparse.csgraph import dijkstra
    # (of equal ends the shortest, since SciPy would add them)
    arcs = arcs[numpy.lexsort((arcs[:, 2], arcs[:, 1], arcs[:, 0]))]
    first = numpy.ones(len(arcs), bool)
    first[1:] = (arcs[1:, :2] != arcs[:-1, :2]).any(axis=1)
    arcs = arcs[first]
    matrix = csr_matrix((arcs[:, 2].astype(float), (arcs[:, 0], arcs[:, 1])), shape=(nodes, nodes))
    return lambda start: dijkstra(matrix, indices=start)


def by_igraph(nodes, arcs):
    """igraph's distances, which end at the target where there is one."""
    import igraph
    graph = igraph.Graph(nodes, arcs[:, :2].tolist(), directed=True)
    lengths = arcs[:, 2].tolist()
    return lambda start, to=None: graph.distances(start, to, weights=lengths)[0]


def main():
    kind, path = sys.argv[1:]
    whole = numpy.fromfile(path, "<u4")
    nodes, count, pairs = map(int, whole[:3])
    arcs = whole[3 : 3 + 3 * count].reshape(-1, 3).astype(int)
    asked = whole[3 + 3 * count :].reshape(pairs, 2).astype(int).tolist()
    laps = [time.process_time()]
    search = {"scipy": by_scipy, "igraph": by_igraph}[kind](nodes, arcs)
    laps.append(time.process_time())
    took = [search(a)[b] if kind == "scipy" else search(a, b)[0] for a, b in asked]
    laps.append(time.process_time())
    search(asked[0][0])
    laps.append(time.process_time())
    ready, pair, every = (b - a for a, b in zip(laps, laps[1:]))
    print(ready, pair / pairs, every)
    print("\n".join("-1" if ms == float("inf") else str(int(ms)) for ms in took))


if __name__ == "__main__":
    main()
